"""The tables of what is said of faults: the shapes, the limits and the texts of page/read/shapes.js and limits.js and of
page/words/en.js, as tools/words_test holds them to each other."""
from __future__ import annotations

from typing import Any, Union

SHAPES: dict[str, dict[str, Any]] = {
    "document": {"needs": {"version": "version", "firms": "firms", "trades": "trades"},
                 "may": {"arrangement": "arrangement", "outcome": "outcome", "claim": "claim", "edits": "edits",
                         "note": "note"}},
    "firms": {"each": "firm"}, "firm": {"needs": {"name": "name", "kind": "kind"}},
    "table": {"needs": {"name": "name", "kind": "kind", "rows": "rows"}, "may": {"note": "note"}},
    "laminar": {"needs": {"name": "name", "kind": "kind"},
                "may": {"amounts": "entries", "sets": "sets", "note": "note"}},
    "middleman": {"needs": {"name": "name", "kind": "kind"},
                  "may": {"costs": "entries", "gains": "entries", "keep": "number_or_null", "note": "note"}},
    "dealer": {"needs": {"name": "name", "kind": "kind"}, "may": {"pairs": "pairs", "note": "note"}},
    "trades": {"each": "trade"},
    "trade": {"needs": {"name": "name", "seller": "firm_name", "buyer": "firm_name"}, "may": {"note": "note"}},
    "rows": {"each": "row"}, "row": {"items": ["bundle", "number"]}, "bundle": {"each": "trade_name"},
    "entries": {"each": "entry"}, "entry": {"items": ["trade_name", "number"]},
    "sets": {"each": "set"}, "set": {"needs": {"trades": "bundle", "from": "number", "values": "numbers"}},
    "numbers": {"each": "number"},
    "pairs": {"each": "pair"}, "pair": {"items": ["trade_name", "trade_name", "number"]},
    "arrangement": {"needs": {"on": "bundle", "prices": "entries"}},
    "outcome": {"needs": {"over": "number", "contracts": "entries"}},
    "edits": {"each": "edit"}, "edit": {"items": ["deed", "name"]},
    "claim": {"needs": {"answer": "answer"}}, "nodes": {"each": "node"}, "plan": {"each": "part"},
    "part": {"items": ["firm_name", "bundle", "number"]},
}

# The shapes that are others where trades have units, and those that are there alone.
UNIT_SHAPES: dict[str, dict[str, Any]] = {
    "firm": {"needs": {"name": "name", "kind": "unit_kind"}},
    "trade": {"needs": {"name": "name", "seller": "firm_name", "buyer": "firm_name"},
              "may": {"units": "number", "note": "note"}},
    "set": {"needs": {"trades": "bundle"},
            "may": {"bought": "steps", "sold": "steps", "from": "number", "values": "numbers"}},
    "steps": {"each": "step"}, "step": {"items": ["number", "number"]},
    "edits": {"each": "unit_edit"}, "unit_edit": {"items": ["deed", "name", "number"]},
    "arrangement": {"needs": {"on": "counts", "prices": "entries"}},
    "counts": {"each": "count"}, "count": {"items": ["trade_name", "number"]},
}

CLAIMED: dict[str, dict[str, str]] = {
    "equilibrium": {"surplus": "number"}, "better": {"firm": "firm_name", "bundle": "bundle", "gain": "number"},
    "impossible": {"firm": "firm_name"}, "prices": {"prices": "entries"}, "cycle": {"nodes": "nodes", "cost": "number"},
    "solved": {"on": "bundle", "prices": "entries", "surplus": "number"},
    "drops": {"firm": "firm_name", "keeps": "bundle", "gain": "number_or_null", "over": "number"},
    "completes": {"prices": "entries", "over": "number"}, "blocks": {"contracts": "entries", "over": "number"},
    "accepted": {}, "exchange_fails": {"firm": "firm_name", "x": "bundle", "y": "bundle", "at": "node"},
    "none": {"plan": "plan", "over": "number"},
}

WORDS: dict[str, list[str]] = {"version": ["1", "2", "3", "4"], "kind": ["table", "laminar", "middleman", "dealer"],
         "unit_kind": ["laminar"], "deed": ["admit", "bar", "leave", "join"], "answer": list(CLAIMED)}

_FEW: dict[str, int] = {"own": 32, "farthest": 32, "values": 65, "edits": 256, "amount": 10 ** 9, "price": 10 ** 14,
                        "over": 10 ** 5}

LIMITS: dict[str, dict[str, int]] = {"1": {"most": 64, **_FEW}, "2": {"most": 128, **_FEW},
          "3": {"most": 1024, "own": 60, "farthest": 60, "values": 121, "edits": 2048, "amount": 10 ** 7,
                "price": 10 ** 14, "over": 10 ** 6}}

UNIT_VERSION = "4"
UNIT_LIMITS: dict[str, int] = {"most": 1024, "trades": 4096, "sets": 4096, "units": 1048576, "holding": 16, "steps": 256,
                               "farthest": 256, "values": 513, "amount": 10 ** 7, "price": 2 * 10 ** 11, "edits": 2048,
                               "edited": 2097152}

# The limits by the member, or the kind of firm, that has them: a part of LIMITS and how much more, or one for all versions.
Bound = Union[int, tuple[str, int]]
OF_MEMBERS: dict[str, Bound] = {
    "firms": ("most", 0), "trades": ("most", 0), "edits": ("edits", 0), "nodes": ("most", 1), "sets": 64,
    "values": ("values", 0), "from": ("farthest", 0), "plan": 1024}
OF_UNITS: dict[str, Bound] = {**OF_MEMBERS, "trades": ("trades", 0), "bought": ("steps", 0), "sold": ("steps", 0)}
OF_KINDS: dict[str, Bound] = {"table": 14, "laminar": ("own", 0), "middleman": ("own", 0), "dealer": ("own", 0)}

TEXTS: dict[str, Any] = {
    "fault.problem": "Line {line}, column {column}: {problem}.",
    "fault.problem_at": "Line {line}, column {column}: {problem}; here stands {found}.",
    "fault.problem_end": "Line {line}, column {column}: {problem}; here the text ends.",
    "fault.length": "{length} bytes; a document has at most 4,194,304.",
    "fault.too_long": "A document has at most 4,194,304 bytes.",
    "shape.member_near": "{member} is no member of {thing}; did you mean {near}?",
    "shape.member": "{member} is no member of {thing}; the members are {needs}.",
    "shape.member_may": "{member} is no member of {thing}; the members are {needs}, and there may be {may}.",
    "shape.missing": "The member {member} is missing here; {thing} has one.",
    "shape.missing_near": "The member {member} is missing here, and {thing} has one; is it what {near} should be?",
    "shape.part": "There is no {member} in the document, and the command needs one.",
    "shape.wrong": "Here {wanted} is wanted, not {found}.",
    "shape.wrong_near": "Here {wanted} is wanted, not {found}; did you mean {near}?",
    "shape.minus_zero": "Here a whole number is wanted, and `-0` is none; write `0`.",
    "shape.too_large": "Here a whole number is wanted that fits 64 bits with a sign, not {number}.",
    "shape.no_units": "In version 4 trades have units, and `judge` and `replay` don't answer such a document.",
    "shape.form": "A set has `bought` and `sold`, or `from` with `values`; this one has {members}.",
    "thing.document": "a document", "thing.firm": "a firm", "thing.table": "a table", "thing.laminar": "a laminar firm",
    "thing.middleman": "a middleman", "thing.dealer": "a dealer", "thing.trade": "a trade", "thing.set": "a set",
    "thing.arrangement": "an arrangement", "thing.outcome": "an outcome", "thing.claim": "a claim",
    "thing.claimed": "a claim {answer}",
    "wanted.object": "an object", "wanted.version": "one of the versions {words}",
    "wanted.kind": "one of the kinds {words}", "wanted.unit_kind": "the kind {words}",
    "wanted.steps": "a list of steps", "wanted.step": "a list of two, how many units and what each adds",
    "wanted.counts": "a list of trades with their units",
    "wanted.count": "a list of two, the name of a trade and how many units go",
    "wanted.deed": "one of the edits {words}",
    "wanted.answer": "one of the answers {words}", "wanted.firms": "a list of firms",
    "wanted.trades": "a list of trades", "wanted.rows": "a list of rows",
    "wanted.row": "a list of two, a bundle and a number", "wanted.bundle": "a list of names of trades",
    "wanted.entries": "a list of entries", "wanted.entry": "a list of two, the name of a trade and a number",
    "wanted.sets": "a list of sets", "wanted.number": "a whole number", "wanted.numbers": "a list of whole numbers",
    "wanted.number_or_null": "a whole number or `null`", "wanted.pairs": "a list of pairs",
    "wanted.pair": "a list of three, a purchase, a sale and a number", "wanted.edits": "a list of edits",
    "wanted.edit": "a list of two, what is done and a name",
    "wanted.unit_edit": "a list of two, what is done and a name, or of three, `admit`, a trade and how many units,",
    "wanted.nodes": "a list of names of trades and `null`",
    "wanted.node": "the name of a trade or `null`", "wanted.plan": "a list of parts",
    "wanted.part": "a list of three, the name of a firm, a bundle and a number", "wanted.name": "a name in quotes",
    "wanted.firm_name": "the name of a firm in quotes", "wanted.trade_name": "the name of a trade in quotes",
    "shown.object": "an object", "shown.list": "a list of {length}", "shown.text": "the text {text}",
    "name.rule": "{name} is no name; a name has 1 to 32 characters, each an ASCII letter, an ASCII digit, _, - or a "
        "point.",
    "name.taken_firm": "{name} is the name of firm {first} already (counted from 0); firm {index} needs another one.",
    "name.taken_trade": "{name} is the name of trade {first} already (counted from 0); trade {index} needs another "
        "one.",
    "name.trade_not_firm": "{name} is a trade, and here a firm is wanted.",
    "name.no_firm_near": "{name} is no firm; did you mean {near}?",
    "name.no_firm": "{name} is no firm; the firms are {names}.",
    "name.no_firms": "{name} is no firm; the document has none.",
    "name.firm_not_trade": "{name} is a firm, and here a trade is wanted.",
    "name.no_trade_near": "{name} is no trade; did you mean {near}?",
    "name.no_trade": "{name} is no trade; the trades are {names}.",
    "name.no_trades": "{name} is no trade; the document has none.",
    "name.no_purchase": "{trade} is a sale of {firm}, and here a purchase is wanted.",
    "name.no_sale": "{trade} is a purchase of {firm}, and here a sale is wanted.",
    "name.not_own": "{trade} is sold by {seller} to {buyer}, and is no trade of {firm}, whose trades are {names}.",
    "name.none_own": "{trade} is sold by {seller} to {buyer}, and is no trade of {firm}, which has none.",
    "name.twice": "{trade} is named in item {first} of this list already (counted from 0); a trade stands in it once.",
    "name.no_price": "{trade} has no price; `prices` has an entry for each trade, also for one that isn't on.",
    "part.itself": "{firm} would sell {trade} to itself; seller and buyer are two different firms.",
    "part.bundle": "Row {first} has the bundle {bundle} already (counted from 0); each bundle has one row.",
    "part.no_values": "There are no values, and one for the net count 0 is wanted.",
    "part.no_zero": "The values are those of the net counts {from} to {last}, and one for 0 is wanted.",
    "part.crosses": "It has {common} in common with set {first} (counted from 0), and neither contains the other; "
        "sets are apart, or one within the other.",
    "part.bent": "{value} is below the middle of its neighbours {before} and {after}; each step adds at most what "
        "the step before it added.",
    "part.rising": "{value} is more than {before}, which each unit of the step before adds; what units add never "
        "rises.",
    "part.rising_at_none": "The first unit bought adds {bought} and the first one sold {value}, which is more than 0 "
        "together; what units add never rises.",
    "part.fails": "A bundle without a row is impossible: look first whether {x}, {y} and those between them all have "
        "their rows.",
    "part.pair": "Pair {first} has {purchase} and {sale} already (counted from 0); the two are a pair once.",
    "limit.firms": {
        "one": "{count} firm; a document of version {version} has at most {most}.",
        "other": "{count} firms; a document of version {version} has at most {most}.",
    },
    "limit.trades": {
        "one": "{count} trade; a document of version {version} has at most {most}.",
        "other": "{count} trades; a document of version {version} has at most {most}.",
    },
    "limit.edits": {
        "one": "{count} edit; a document of version {version} has at most {most}.",
        "other": "{count} edits; a document of version {version} has at most {most}.",
    },
    "limit.edited": "{count} edits and {trades} trades; in a document of version {version} edits times trades are at most {most}.",
    "limit.nodes": {
        "one": "{count} node; a cycle of a document of version {version} has 2 to {most}.",
        "other": "{count} nodes; a cycle of a document of version {version} has 2 to {most}.",
    },
    "limit.sets": {
        "one": "{count} set; a laminar firm has at most {most}.",
        "other": "{count} sets; a laminar firm has at most {most}.",
    },
    "limit.values": {
        "one": "{count} value; a set in a document of version {version} has at most {most}.",
        "other": "{count} values; a set in a document of version {version} has at most {most}.",
    },
    "limit.all_sets": {
        "one": "{count} set of this and the earlier firms; all firms of a document of version {version} have at most "
            "{most}.",
        "other": "{count} sets of this and the earlier firms; all firms of a document of version {version} have at "
            "most {most}.",
    },
    "limit.all_units": "{count} units; all trades of a document of version {version} have at most {most} together.",
    "limit.holding": "{trade} is in {most} earlier sets already, and a trade of a document of version {version} is in "
        "no more.",
    "limit.steps": {
        "one": "{count} step; a list in a document of version {version} has at most {most}.",
        "other": "{count} steps; a list in a document of version {version} has at most {most}.",
    },
    "limit.plan": {
        "one": "{count} part; a plan has at most {most}.",
        "other": "{count} parts; a plan has at most {most}.",
    },
    "limit.plan_trades": {
        "one": "{count} trade; a document whose claim is a plan has at most 20.",
        "other": "{count} trades; a document whose claim is a plan has at most 20.",
    },
    "limit.from": "{count}; a set in a document of version {version} begins from -{most} to {most}.",
    "limit.rows": {
        "one": "{count} row; a table of {own} trades has a row for each of the {bundles} bundles that aren't empty.",
        "other": "{count} rows; a table of {own} trades has a row for each of the {bundles} bundles that aren't empty.",
    },
    "limit.table": "{count} trades; a table has at most {most}.",
    "limit.laminar": "{count} trades; a laminar firm in a document of version {version} has at most {most}.",
    "limit.middleman": "{count} trades; a middleman in a document of version {version} has at most {most}.",
    "limit.dealer": "{count} trades; a dealer in a document of version {version} has at most {most}.",
    "limit.wider": "{told} Version {version} has room for {most}.",
    "beyond.amount": "{value} is out of range; a number of a firm in a document of version {version} is at most "
        "{most} in size.",
    "beyond.units": "{value} is out of range; a trade has 1 to {most} units.",
    "beyond.step_units": "{value} is out of range; a step has 1 to {most} units.",
    "beyond.count": "{value} is out of range; of {trade} from 0 to {most} units go.",
    "beyond.price": "{value} is out of range; a price is at most {most} in size.",
    "beyond.numerator": "{value} is out of range; the numerator of a price is at most 100,000,000,000 in size.",
    "beyond.claim": "{value} is out of range; a number of a claim is at most 1,000,000,000,000,000,000 in size.",
    "beyond.weight": "{value} is out of range; the weight of a part is from 1 to {most}.",
    "beyond.claim_over": "{value} is out of range; the denominator of a claim is from 1 to {most}.",
    "beyond.outcome_over": "{value} is out of range; the denominator of an outcome is from 1 to 100.",
    "json.mark": "a byte order mark (U+FEFF) stands before the text, which JSON hasn't: save it as UTF-8 without one",
    "json.utf16": "the bytes begin with the byte order mark of UTF-16: save the text as UTF-8",
    "json.no_utf8": "the byte 0x{byte} is no UTF-8 here: save the text as UTF-8",
    "json.more": "there is more after the value", "json.ends": "a value is wanted",
    "json.deep": "values nest more than {most} deep", "json.no_value": "no value begins like this",
    "json.list": "a list goes on by , or ends by ]", "json.member": "a member begins with its name in double quotes",
    "json.colon": "a : is wanted after the name of a member", "json.object": "an object goes on by , or ends by }",
    "json.digits": "a number has digits", "json.number": "a number doesn't go on like this",
    "json.too_large": "the number is too large for a float", "json.open": "a text isn't closed",
    "json.control": "a text has a control character", "json.escape": "no escape is written like this",
    "json.half": "half a character", "json.four_digits": "an escape has four digits",
    "list.some": "{most} and {last}", "list.more": "{names} and {rest} more",
}
