// What is said above the network, and drawn in it, of the market before and after a change.
import {lanesOf} from "../../draw/lanes.js";
import {COME, GONE, INK} from "../../draw/svg.js";
import {hasUnits} from "../../read/limits.js";
import {namesOn, unitsOf} from "../../read/standing.js";
import {admittedIn} from "../../read/states.js";
import {changeLine, countsOf, firmSays, firmStates, isGone, partOf, tradesLine, unitsIn} from "../../say/whatif.js";
import {say} from "../../words/say.js";
import {networkOf} from "../document/state.js";

/** The two sentences above the network, as `{mood, says, told}`. */
export function supposedVerdict({document, compared: said}) {
    const lacking = (mood, says) => ({mood, says, told: ""});
    if (!document.isWhole) return lacking("unknown", say("verdict.too_long"));
    if (said === null) return lacking("unknown", say("verdict.asked"));
    if (said.trouble) return lacking("fault", said.trouble);
    if (said.states === null) return lacking("fault", said.sentences.join(" "));
    return {mood: "unknown", says: changeLine(said), told: tradesLine(said, networkOf(said.document))};
}

const DIM = "#64748b";

/** How the trades are drawn, by the parts that they play. */
const ROLES = {
    stays: {ink: INK, says: "role.stays", width: 4},
    comes: {ink: COME, says: "role.comes", width: 6, sign: "+"},
    goes: {ink: GONE, says: "role.goes", width: 3, sign: "\u2212"},
    gone: {ink: GONE, says: "role.gone", width: 3, sign: "\u2212", dashes: "2 5"},
    out: {ink: DIM, says: "role.out", width: 1.5, dashes: "2 5"},
};

/** The parts of trades that take place before or after. */
const TAKING = ["stays", "comes", "goes", "gone", "more", "fewer"];

/** What is said of arrows of trades with units, by their parts: how many were on before, too. */
const WERE = {stays: "role.as_before", comes: "role.more", goes: "role.fewer", gone: "role.gone_units"};

const NOWHERE = {on: [], prices: new Map()};

/** What the network shows: the market after the change, with what comes and goes. */
export function supposedScene({document, compared: said}) {
    const network = networkOf(document), signs = say("legend.supposed", {signs: say(hasUnits(network.data) ? "legend.whatif_units" : "legend.whatif")});
    const scene = {lines: new Map(), marks: new Map(), focus: new Set(), signs, isOver: false, key: ["whatif"]};
    if (!said?.states || said.document.text !== document.text) return {...scene, stands: NOWHERE};
    const {trades, firms} = network, parts = new Map(trades.map(({name}) => [name, partOf(said, name)]));
    const lines = new Map(firms.map(({name}) => [name, boxOf(said, name)]));
    const {on} = said.states[1], admitted = new Map(trades.map(({name}) => [name, admittedIn(network, said.after, name)]));
    const stands = {on: namesOn(on), units: unitsOf(on), prices: pricesOf(said, parts), admitted};
    return {...scene, stands, marks: marksOf(said, network, parts), lines};
}

/** How each trade is drawn; where those from one firm to another play several parts, they are drawn as one. */
function marksOf(said, {trades, data}, parts) {
    const markIn = hasUnits(data) ? unitsMark : markOf;
    const lanes = lanesOf(trades, {on: null, prices: new Map()}, new Map(), false).map((lane) => lane.trades);
    const marks = lanes.map((names) => [names, markIn(said, names, new Set(names.map((name) => parts.get(name))))]);
    return new Map(marks.filter(([, mark]) => mark).flatMap(([names, mark]) => names.map((name) => [name, mark])));
}

/** How the trades of an arrow are drawn, by the parts that they play; null where there is nothing to be told. */
function markOf(said, names, played) {
    const taking = TAKING.filter((each) => played.has(each));
    if (taking.length > 1) return mixed(countsOf(said, names));
    const role = ROLES[taking[0] ?? (played.has("out") ? "out" : "off")];
    return role ? {...role, says: say(role.says)} : null;
}

/** The same where trades have units, by how many of all of them are on. */
function unitsMark(said, names, played) {
    const taking = TAKING.filter((each) => played.has(each)), [was, is] = unitsIn(said, names);
    if (taking.length === 0) return markOf(said, names, played);
    const part = is > was ? "comes" : is === was ? "stays" : taking.every((each) => each === "gone") ? "gone" : "goes";
    return {...ROLES[part], says: say(WERE[part], {was})};
}

/** How trades are drawn of which some stay or come, and others go. */
function mixed({before, after, says}) {
    const [ink, sign] = after > before ? [COME, "+"] : after < before ? [GONE, "\u2212"] : [INK, "\u00b1"];
    return {ink, says, width: after > before ? 6 : 4, sign};
}

/** The prices after the change, and those before it of the trades that can't be used any longer and took place. */
function pricesOf({states: [then, now]}, parts) {
    const shown = [...then.prices, ...now.prices].filter(([name]) => parts.get(name) !== "out");
    return new Map(shown.map(([name, price]) => [name, String(price)]));
}

/** What stands below a firm's name. */
function boxOf(said, firm) {
    const [then, now] = firmStates(said, firm), isAway = isGone(said, firm);
    const same = isAway ? [now] : [say("word.has", {number: now})];
    const below = then === now ? same : [say("word.was", {state: then}), say("word.now", {state: now})];
    return {firm, mood: isAway ? "away" : "unknown", below, says: firmSays(said, firm)};
}
