// What is wanted where in a document, as docs/FORMAT.md has it: the program decides by its own rules, and sentences about faults look
// here for the members of an object and for what a value should have been. package/trading_networks/faults.py has the same tables.
import {hasUnits} from "./limits.js";

/** Shapes by their names. An object has members that it needs and may have, each with its shape; a list has the shape of each item, or one for each place. */
export const SHAPES = {
    document: {needs: {version: "version", firms: "firms", trades: "trades"},
        may: {arrangement: "arrangement", outcome: "outcome", claim: "claim", edits: "edits", note: "note"}},
    firms: {each: "firm"}, firm: {needs: {name: "name", kind: "kind"}},
    table: {needs: {name: "name", kind: "kind", rows: "rows"}, may: {note: "note"}},
    laminar: {needs: {name: "name", kind: "kind"}, may: {amounts: "entries", sets: "sets", note: "note"}},
    middleman: {needs: {name: "name", kind: "kind"}, may: {costs: "entries", gains: "entries", keep: "number_or_null", note: "note"}},
    dealer: {needs: {name: "name", kind: "kind"}, may: {pairs: "pairs", note: "note"}},
    trades: {each: "trade"}, trade: {needs: {name: "name", seller: "firm_name", buyer: "firm_name"}, may: {note: "note"}},
    rows: {each: "row"}, row: {items: ["bundle", "number"]}, bundle: {each: "trade_name"},
    entries: {each: "entry"}, entry: {items: ["trade_name", "number"]},
    sets: {each: "set"}, set: {needs: {trades: "bundle", from: "number", values: "numbers"}}, numbers: {each: "number"},
    pairs: {each: "pair"}, pair: {items: ["trade_name", "trade_name", "number"]},
    arrangement: {needs: {on: "bundle", prices: "entries"}}, outcome: {needs: {over: "number", contracts: "entries"}},
    edits: {each: "edit"}, edit: {items: ["deed", "name"]},
    claim: {needs: {answer: "answer"}}, nodes: {each: "node"}, plan: {each: "part"}, part: {items: ["firm_name", "bundle", "number"]},
};

/** The shapes that are others where trades have units, and those that are there alone. */
export const UNIT_SHAPES = {
    firm: {needs: {name: "name", kind: "unit_kind"}},
    trade: {needs: {name: "name", seller: "firm_name", buyer: "firm_name"}, may: {units: "number", note: "note"}},
    set: {needs: {trades: "bundle"}, may: {bought: "steps", sold: "steps", from: "number", values: "numbers"}},
    steps: {each: "step"}, step: {items: ["number", "number"]},
    edits: {each: "unit_edit"}, unit_edit: {items: ["deed", "name", "number"]},
    arrangement: {needs: {on: "counts", prices: "entries"}}, counts: {each: "count"}, count: {items: ["trade_name", "number"]},
};

/** The further members of a claim, all of which it needs, by its answer. */
export const CLAIMED = {
    equilibrium: {surplus: "number"}, better: {firm: "firm_name", bundle: "bundle", gain: "number"}, impossible: {firm: "firm_name"},
    prices: {prices: "entries"}, cycle: {nodes: "nodes", cost: "number"}, solved: {on: "bundle", prices: "entries", surplus: "number"},
    drops: {firm: "firm_name", keeps: "bundle", gain: "number_or_null", over: "number"}, completes: {prices: "entries", over: "number"},
    blocks: {contracts: "entries", over: "number"}, accepted: {},
    exchange_fails: {firm: "firm_name", x: "bundle", y: "bundle", at: "node"}, none: {plan: "plan", over: "number"},
};

/** The words of which one is wanted, by the shape. */
export const WORDS = {version: ["1", "2", "3", "4"], kind: ["table", "laminar", "middleman", "dealer"], unit_kind: ["laminar"], deed: ["admit", "bar", "leave", "join"],
    answer: Object.keys(CLAIMED)};

/** The shape that is wanted at a place of plain data, as `{name, claimed, needs, may, each, items}`; null where no value is wanted. */
export function shapeAt(data, place) {
    const shapes = hasUnits(data) ? {...SHAPES, ...UNIT_SHAPES} : SHAPES;
    let shape = shapeOf(shapes, "document", data), value = data;
    for (const step of place) {
        const name = typeof step === "bigint" ? shape.each ?? shape.items?.[Number(step)] : shape.needs?.[step] ?? shape.may?.[step];
        if (name === undefined) return null;
        value = value?.[step];
        shape = shapeOf(shapes, name, value);
    }
    return shape;
}

/** A shape by its name; of firms and claims it is that of their kind, where they have one. */
function shapeOf(shapes, name, value) {
    if (name === "firm" && WORDS[shapes.firm.needs.kind].includes(value?.kind)) return {name: value.kind, ...shapes[value.kind]};
    if (name !== "claim" || !WORDS.answer.includes(value?.answer)) return {name, ...shapes[name]};
    return {name, claimed: value.answer, needs: {...SHAPES.claim.needs, ...CLAIMED[value.answer]}};
}
