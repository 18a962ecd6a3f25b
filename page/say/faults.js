// Faults in words: what is wrong, where it stands, and what stands there beside what is wanted. The number, the name and the place are
// the program's; the last sentence is also what package/trading_networks/faults.py says.
import {find, lineAndColumn, plain} from "../read/json.js";
import {say} from "../words/say.js";
import {isOfStep, limitLine, overLine, rangeLine} from "./bounds.js";
import {bentLine, crossingLine, failsLine, noZeroLine, sameBundleLine, samePairLine, selfTradeLine} from "./parts.js";
import {nameLine, noFirmLine, noPriceLine, notOwnLine, noTradeLine, sameTradeLine, takenLine} from "./references.js";
import {shapeLine} from "./shape.js";
import {large, quoted} from "./words.js";

const CAUSES = ["cause.unknown", "cause.no_json", "cause.too_long", "cause.shape", "cause.name", "cause.taken",
    "cause.no_firm", "cause.itself", "cause.no_trade", "cause.too_many", "cause.number", "cause.not_its",
    "cause.same_bundle", "cause.at_zero", "cause.crosses", "cause.concave", "cause.exchange", "cause.twice",
    "cause.no_price", "cause.denominator", "cause.same_pair"];

/** The sentence about the value at the place of a fault, by the fault's number. */
const LINES = {4: nameLine, 5: takenLine, 6: noFirmLine, 7: selfTradeLine, 8: noTradeLine, 9: limitLine, 10: rangeLine, 11: notOwnLine,
    12: sameBundleLine, 13: noZeroLine, 14: crossingLine, 15: bentLine, 16: failsLine, 17: sameTradeLine, 19: overLine, 20: samePairLine};

const MOST_BYTES = 4194304;

/** What a fault says, by its number, and by its place where it is one of steps. */
export function cause(fault, place) {
    return say(Number(fault) === 15 && isOfStep(place) ? "cause.rises" : CAUSES[Number(fault)] ?? "cause.unknown");
}

/** A fault in sentences. */
export function faultLines(network, said) {
    const {fault, name, place} = said, found = network.problem ? null : find(network.root, place);
    return [say("fault.head", {cause: cause(fault, place), fault, name}), whereIs(network, fault, place, found),
        foundLine(network, said, found)].filter(Boolean);
}

/** A place in words. A text behind `prices` is a trade, and any other text a member. */
export function wayTo(place) {
    return place.map((step, k) => typeof step === "bigint" ? say("fault.item", {step})
        : place[k - 1] === "prices" ? say("fault.trade", {trade: step}) : step).join(say("fault.then"));
}

function whereIs(network, fault, place, found) {
    if (fault === 1n || fault === 2n) return null;
    if (place.length === 0) return say("fault.at_whole");
    if (network.problem) return say("fault.at", {way: wayTo(place)});
    return say(found.whole ? "fault.at_line" : "fault.lacking", {...lineAndColumn(network.text, found.node.start), way: wayTo(place)});
}

/** What stands at the place, and what is wanted there. */
function foundLine(network, said, found) {
    const fault = Number(said.fault);
    if (fault === 1) return network.problem && problemLine(network);
    if (fault === 2) return lengthLine(network);
    if (found === null) return null;
    if (fault === 3) return shapeLine(network, said.place, found);
    if (fault === 18) return noPriceLine(network, said.place);
    return found.whole && Object.hasOwn(LINES, fault) ? LINES[fault](network, said.place, plain(found.node), said) : null;
}

/** Where the text ends being JSON, and what stands there. */
function problemLine({text, problem}) {
    const values = {...lineAndColumn(text, problem.offset), problem: problem.message}, [sign] = text.slice(problem.offset).match(/^([\w.+-]{1,20}|.)/su) ?? [];
    if (problem.isWhole) return say("fault.problem", values);
    return sign === undefined ? say("fault.problem_end", values) : say("fault.problem_at", {...values, found: sign < " " ? quoted(sign) : `\`${sign}\``});
}

/** How long the document is; of one that is no UTF-8 only its beginning is kept, and its length isn't known. */
function lengthLine({text}) {
    const length = new TextEncoder().encode(text).length;
    return length > MOST_BYTES ? say("fault.length", {length: large(length)}) : say("fault.too_long");
}
