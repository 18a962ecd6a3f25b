// The document that firms and lanes make: every quantity in lots, every amount in whole units of money, a trade for each lot that may
// go by a lane. `package/trading_networks/lanes.py` makes the same, byte by byte, and says why it is made so.
import {digits, each, faultAt, throwAll} from "./cells.js";
import {common, Fraction, ONE} from "./fractions.js";
import {BUYS, SELLS, saysLane} from "./lanes.js";
import {VERSIONS} from "./limits.js";
import {gcd} from "./network.js";

const LONGEST_NAME = 32;

/** Letters that have no accent to take away. */
const PLAIN_LETTERS = {
    ł: "l", Ł: "L", ø: "o", Ø: "O", đ: "d", Đ: "D", ß: "ss", æ: "ae", Æ: "AE", œ: "oe", Œ: "OE", þ: "th", Þ: "Th", ð: "d", Ð: "D", ı: "i"};

/** The limits by the version, the last of which has room for most. */
const ALL = [...VERSIONS].map(([number, {most, own, amount}]) => ({number, most, own, largest: amount})), LARGE = ALL.at(-1);

/**
 * The document of a network, with the sizes that were taken: `{document, lot, unit}`, where the document is its text. A lot or a unit that
 * is null is found: the largest of which all quantities are whole numbers, and the largest of 1, 0.1, 0.01 and so on.
 * Where `isRounded`, what a lot costs is rounded to whole units. Throws Faults.
 */
export function documentOf(network, {lot = null, unit = null, isRounded = false} = {}) {
    const sizes = sizesOf(network, lot, unit, isRounded);
    return {document: `${spaced(built(network, sizes))}\n`, lot: sizes.lot, unit: sizes.unit};
}

function sizesOf({firms, lanes}, lot, unit, isRounded) {
    const schedules = [...firms, ...lanes].map(({schedule}) => schedule);
    const measures = schedules.flatMap(({capacity, steps}) => [capacity, ...steps.map(({quantity}) => quantity)]);
    const quantities = measures.filter((measure) => measure !== null && !measure.value.isZero()).map(({value}) => value);
    const size = lot ?? (quantities.length === 0 ? ONE : commonPart(quantities));
    return {lot: size, unit: unit ?? unitFor(schedules.flatMap(({steps}) => steps.map(({rate}) => rate.value.times(size)))), isRounded};
}

/** The largest of 1, 0.1, 0.01 and so on of which amounts are whole numbers. */
export function unitFor(amounts) {
    const isWhole = (places) => amounts.every((amount) => amount.times(new Fraction(10n ** BigInt(places))).denominator === 1n);
    const places = [0, 1, 2, 3, 4, 5, 6, 7, 8, 9].find(isWhole) ?? 2;
    return new Fraction(1n, 10n ** BigInt(places));
}

/** The first version with room for so many firms, or trades, and so many trades of a firm; null where none has. */
export function versionFor(count, own) {
    return ALL.find((version) => count <= version.most && own <= version.own) ?? null;
}

/** A number in units, as a version has room for it; what is wrong with it goes to some faults. */
export function amountIn(version, unit, measure, faults) {
    const [amount] = each([measure], ({value, place}) => small(version, amountOf({lot: ONE, unit, isRounded: false}, {value, place}), place), faults);
    return amount ?? 0n;
}

/** The greatest number of which all these are whole multiples. */
function commonPart(values) {
    const scale = common(values), whole = values.map(({numerator, denominator}) => numerator * (scale / denominator));
    return new Fraction(whole.reduce((one, other) => gcd(one, other)), scale);
}

function lotsOf(sizes, {value, place}) {
    const lots = value.over(sizes.lot);
    if (lots.denominator !== 1n) throw faultAt(place, "sheet.no_lots", {quantity: digits(value), lot: digits(sizes.lot)});
    return Number(lots.numerator);
}

/** What a lot costs, or is worth, in units. */
function amountOf({lot, unit, isRounded}, {value, place}) {
    const amount = value.times(lot).over(unit);
    // (a greater amount is never rounded to a lesser one)
    if (isRounded) return floor(amount.plus(new Fraction(1n, 2n)));
    if (amount.denominator === 1n) return amount.numerator;
    throw faultAt(place, "sheet.no_units", {rate: digits(value), lot: digits(lot), amount: digits(amount.times(unit)), unit: digits(unit)});
}

function floor({numerator, denominator}) {
    const down = numerator / denominator;
    return numerator < 0n && down * denominator !== numerator ? down - 1n : down;
}

/** A schedule in lots and units; a cost that falls from step to step, and a value that rises, can't be said. */
function inLots({capacity, steps}, sizes, isValue) {
    const made = steps.map(({quantity, rate}) => ({lots: quantity === null ? null : lotsOf(sizes, quantity), amount: amountOf(sizes, rate)}));
    const isWrong = (k) => (isValue ? made[k].amount > made[k - 1].amount : made[k].amount < made[k - 1].amount);
    const wrong = made.findIndex((_, k) => k > 0 && isWrong(k));
    if (wrong > 0) throw faultAt(steps[wrong].rate.place, isValue ? "sheet.value_rises" : "sheet.cost_falls");
    return {capacity: capacity === null ? null : lotsOf(sizes, capacity), steps: made};
}

/** What each of the first lots costs. */
function amountsOf({steps}, count) {
    const listed = [];
    for (const {lots, amount} of steps) {
        const left = count - listed.length;
        listed.push(...Array(Math.max(0, lots === null ? left : Math.min(lots, left))).fill(amount));
    }
    return listed;
}

/** The document of a network as plain data, within the limits of documents. */
function built({firms, lanes}, sizes) {
    if (firms.length > LARGE.most) throw faultAt(firms[LARGE.most].place, "sheet.many_firms", {most: LARGE.most});
    const faults = [], firmSchedules = each(firms, ({schedule, role}) => inLots(schedule, sizes, role === BUYS), faults);
    const laneSchedules = each(lanes, ({schedule}) => inLots(schedule, sizes, false), faults);
    throwAll(faults);
    const schedules = new Map(firms.map(({name}, k) => [name, firmSchedules[k]])), codes = codesOf(firms);
    const lots = lanes.flatMap((lane, k) => lotsBy(lane, laneSchedules[k], schedules)), own = mostOwn(lots);
    const version = versionFor(Math.max(firms.length, lots.length), own);
    for (const {cost, lane} of lots) small(version, cost, lane.place);
    const note = {lot: digits(sizes.lot, 12), unit: digits(sizes.unit, 12), rounded: sizes.isRounded};
    return {version: version.number, note, firms: firms.map((firm) => laminar(firm, codes.get(firm.name), schedules.get(firm.name), lots, version)),
        trades: lots.map(({code, lane}) => ({name: code, seller: codes.get(lane.source), buyer: codes.get(lane.target), note: saysLane(lane)}))};
}

/** An amount that a version has room for. */
function small({largest, number}, amount, place) {
    if ((amount < 0n ? -amount : amount) <= largest) return amount;
    const few = ALL.at(-2), values = {amount: String(amount), largest: String(largest), few: few.most, own: few.own};
    throw faultAt(place, number === LARGE.number ? "sheet.large_amount_of_many" : "sheet.large_amount", values);
}

/** As many lots as may go by the lane, but no more than one above what either of its firms could send or take. */
function lotsBy(lane, schedule, schedules) {
    const ends = [lane.source, lane.target].map((name) => schedules.get(name).capacity);
    const bounds = [schedule.capacity, ...ends.map((capacity) => (capacity === null ? null : capacity + 1))].filter((bound) => bound !== null);
    if (bounds.length === 0) throw faultAt(lane.place, "sheet.no_capacity");
    const count = Math.min(...bounds);
    if (count > LARGE.own) throw faultAt(lane.place, "sheet.many_by_lane", {count, most: LARGE.own});
    return amountsOf(schedule, count).map((cost, k) => ({code: `L${lane.row}.${k + 1}`, lane, cost}));
}

/** The most lots of a firm; throws the lane by which there are too many, of a firm or of all. */
function mostOwn(lots) {
    const own = new Map();
    lots.forEach(({lane}, k) => {
        if (k >= LARGE.most) throw faultAt(lane.place, "sheet.many_lots", {most: LARGE.most});
        for (const firm of [lane.source, lane.target]) {
            own.set(firm, (own.get(firm) ?? 0) + 1);
            if (own.get(firm) > LARGE.own) throw faultAt(lane.place, "sheet.many_of_firm", {end: firm, most: LARGE.own});
        }
    });
    return Math.max(0, ...own.values());
}

function laminar(firm, code, schedule, lots, version) {
    const sales = lots.filter(({lane}) => lane.source === firm.name), purchases = lots.filter(({lane}) => lane.target === firm.name).map((lot) => lot.code);
    const sold = sales.map((lot) => lot.code), counted = firm.role === SELLS ? sold : purchases;
    const most = schedule.capacity === null ? counted.length : Math.min(schedule.capacity, counted.length), sign = firm.role === BUYS ? 1n : -1n;
    let sum = 0n;
    const values = [0n, ...amountsOf(schedule, most).map((amount) => small(version, sum += sign * amount, firm.place))];
    const sets = {sells: [{trades: sold, from: -most, values: [...values].reverse()}], buys: [{trades: purchases, from: 0, values}]}[firm.role]
        ?? [{trades: [...purchases, ...sold], from: 0, values: [0n]}, {trades: purchases, from: 0, values}];
    const amounts = sales.filter(({cost}) => cost !== 0n).map((lot) => [lot.code, -lot.cost]);
    return {name: code, kind: "laminar", note: firm.name, amounts, sets: sets.filter(({trades}) => trades.length > 0)};
}

/** A name of the document for each firm: its own without accents, where that leaves something. */
export function codesOf(firms) {
    const codes = new Map(), taken = new Set();
    for (const {name, row} of firms) {
        const letters = [...name].map((letter) => PLAIN_LETTERS[letter] ?? letter).join("").normalize("NFKD").replace(/[^\0-\x7f]/g, "");
        let code = letters.replace(/[^A-Za-z0-9_.]+/g, "-").replace(/^-+|-+$/g, "").slice(0, LONGEST_NAME) || `firm${row}`;
        const begin = code.slice(0, LONGEST_NAME - 9);
        for (let more = row; taken.has(code); more += 1) code = `${begin}.${more}`;
        codes.set(name, code);
        taken.add(code);
    }
    return codes;
}

/** Plain data as text, with a blank behind each comma and each colon. */
function spaced(value) {
    if (Array.isArray(value)) return `[${value.map(spaced).join(", ")}]`;
    if (typeof value === "object") return `{${Object.entries(value).map(([name, member]) => `${JSON.stringify(name)}: ${spaced(member)}`).join(", ")}}`;
    return typeof value === "bigint" ? String(value) : JSON.stringify(value);
}
