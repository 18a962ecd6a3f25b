// The network in the page: what it shows of the value, and its window, which is moved and made smaller.
import {BOTH, COME, FIRST, GONE, SECOND} from "../../draw/svg.js";
import {hasUnits} from "../../read/limits.js";
import {fraction} from "../../read/network.js";
import {nameOn, standing, unitsOf} from "../../read/standing.js";
import {say} from "../../words/say.js";
import {isOld, networkOf} from "../document/state.js";
import {drawing, keepingFocus, part, write} from "../shell/page.js";
import {stepOf} from "../told/story.js";
import {supposedScene} from "../whatif/difference.js";
import {isOther} from "../whatif/suppose.js";
import {leaveOut} from "./hint.js";
import {isTable} from "./plan.js";
import {moodOf, stageOf} from "./stage.js";

/** By how many pixels an arrow key moves the picture, and how much a step zooms. */
const STEP = 60, ZOOM = 1.25, MOST_ZOOM = 12;

let size = {width: 100, height: 100}, drawnOf = null;

/** In steps of how many pixels the room of the picture is told, and how much is kept of a page for what stands around a wide picture. */
const GRID = 8, AROUND = 230, LEAST = 420;

/** The room that the picture has in the page, in pixels; below a wide one, or on a small screen, there may be more. */
function roomNow() {
    const {clientWidth: width, clientHeight} = part("stage"), isWide = document.documentElement.dataset.wide === "true";
    const isTall = isWide || innerWidth <= 900, onSmall = isTall ? Math.max(0.52 * innerHeight, 300) : clientHeight;
    const height = isWide ? Math.max(innerHeight - AROUND, LEAST) : onSmall;
    const [across, down] = [width, height].map((each) => Math.max(160, Math.floor(each / GRID) * GRID));
    return {width: across, height: down, isTall};
}

/** What else of a value the picture is made of. */
const SHOWN = ["document", "guess", "judged", "reason", "compared"];

/** Draws what a value has to show. */
export function showScene(value) {
    const scene = sceneOf(value), key = JSON.stringify([scene.key, roomNow(), value.view.hasOwn, value.view.firm, value.selection, [...scene.marks]]);
    const isNew = drawnOf === null || drawnOf.key !== key || SHOWN.some((name) => drawnOf[name] !== value[name]);
    if (isNew) draw(scene, value);
    drawnOf = {key, ...Object.fromEntries(SHOWN.map((name) => [name, value[name]]))};
    part("stage").classList.toggle("old", isBehind(value) && !scene.isOver);
    look(value.view.window);
}

/** Whether what is drawn was said of something else than the present. */
function isBehind(value) {
    if (value.view.mode === "whatif") return value.compared !== null && isOther(value);
    return isOld(value, value.view.mode === "sign" ? value.judged : value.guess);
}

function draw(scene, value) {
    const network = networkOf(value.document), stage = part("stage"), firm = neighbourhood(value);
    const room = roomNow(), drawn = stageOf({...scene, network, firm, hasOwn: value.view.hasOwn, room, selection: scene.signs ? null : value.selection});
    size = drawn;
    stage.style.setProperty("--tall", room.isTall && drawn.plan.zoom === 1 ? `${Math.ceil(drawn.height) + 2}px` : "0px");
    keepingFocus(stage, () => stage.replaceChildren(drawing(drawn.svg)));
    write("legend", legendOf(network, firm, scene));
}

/** The one firm whose neighbourhood is drawn; null where the whole network is. */
export function neighbourhood({document, view, selection}) {
    const network = networkOf(document);
    if (view.firm !== null || !isTable(network)) return view.firm;
    if (selection?.kind === "firm") return selection.name;
    const isIts = ({name}) => selection?.kind === "lane" && selection.key.startsWith(`lane:${name} `);
    return (network.firms.find(isIts) ?? network.firms[0])?.name ?? null;
}

function legendOf(network, firm, {marks, stands, signs: own}) {
    const said = [...new Set([...marks.values()].map(({says}) => says))], guess = hasUnits(network.data) ? "legend.units" : "legend.guess",
        signs = own ?? say(stands.isSigned ? "legend.signed" : guess);
    const coloured = own || said.length === 0 ? signs : say("legend.coloured", {signs, marks: said.join("; ")});
    return firm === null ? coloured : say("legend.one_firm", {firm, legend: coloured});
}

/** What is drawn: what would be after a change, or the guess with what `firms` says of it, what is signed, or an answer with trades and prices; and a step of a story. */
function sceneOf(value) {
    if (value.view.mode === "whatif") return supposedScene(value);
    const {document, guess, answer, view} = value, network = networkOf(document), shown = stepOf(value);
    const isOver = view.isOver && answer?.said?.answer === "solved" && !isOld(value, answer);
    const told = !isOver && guess?.said?.answer === "firms" ? guess.said.firms : [];
    const lines = view.mode === "sign" ? signedLines(value) : new Map(told.map((line) => [line.firm, line]));
    const isStory = shown !== null && (view.mode === "sign" || !["firm", "bound"].includes(value.selection?.kind));
    const marks = isStory ? rolesOf(shown.step) : marksOf(value, lines);
    for (const [firm, below] of shown?.step.below ?? []) {
        lines.set(firm, {firm, below, mood: moodNow(view, lines.get(firm)), says: below.join(", ")});
    }
    const stands = view.mode === "sign" ? signedStands(value, shown) : standing(network, isOver ? answer.said : {});
    const focus = new Set(shown?.step.firms ?? []);
    return {stands, lines, marks, focus, isOver, key: [view.mode, shown?.place, isOver, isOver ? answer.text : null]};
}

/** Who is told to have something better objects to what is signed; in a guess the prices say who objects. */
function moodNow({mode}, line) {
    return mode === "sign" ? "objects" : line ? moodOf(line) : "unknown";
}

/** What is signed at which prices, with those that complete it, or those of the contracts of a chain that are told so far. */
function signedStands({document, judged}, shown) {
    const network = networkOf(document), said = judged?.document === document && judged.said !== null ? judged.said : {};
    const stands = standing(network, ["completes", "blocks"].includes(said.answer) ? said : {answer: "drops"});
    if (said.answer !== "blocks") return stands;
    const told = new Map([...stands.prices].filter(([name]) => stands.on.includes(name) || shown?.step.trades.has(name)));
    return {...stands, prices: told};
}

/** What each firm has by what is signed. */
function signedLines({judged}) {
    const isLasting = judged?.said?.answer === "completes";
    if (!judged?.has) return new Map();
    const {over} = networkOf(judged.document).outcome;
    return new Map([...judged.has].map(([firm, has]) => {
        const number = has === null ? say("word.impossible") : fraction(has, over);
        const drop = judged.drops.get(firm)?.said;
        if (drop && has !== null && drop.gain !== null) return [firm, droppedLine(firm, has, over, drop)];
        return [firm, {firm, mood: drop ? "objects" : isLasting ? "content" : "unknown",
            below: [isLasting ? `\u2713 ${number}` : say("word.has", {number})],
            says: has === null ? say("stage.signed_impossible") : say("stage.by_signed", {number})}];
    }));
}

/** What a firm has, and could have by what it keeps alone. */
function droppedLine(firm, has, over, {gain, over: other}) {
    const below = [say("word.has", {number: fraction(has, over)}), say("word.then", {number: fraction(has * other + gain * over, over * other)})];
    return {firm, mood: "objects", below, says: below.join(", ")};
}

/** How the trades of a step are drawn, by the part that they play in it. */
const ROLES = {
    change: {ink: FIRST, says: "role.change", width: 5}, changed: {ink: BOTH, says: "role.changed"},
    round: {ink: FIRST, says: "role.round"},
    impossible: {ink: GONE, says: "role.has"}, x: {ink: FIRST, says: "role.x", width: 4},
        y: {ink: SECOND, says: "role.y", width: 4},
    "x and y": {ink: BOTH, says: "role.both", width: 4}, moved: {ink: GONE, says: "role.moved", width: 4},
    keeps: {ink: COME, says: "role.keeps"}, drops: {ink: GONE, says: "role.drops"},
    contract: {ink: FIRST, says: "role.contract", width: 5},
    "signed before": {ink: BOTH, says: "role.before", width: 3},
    chain: {ink: FIRST, says: "role.chain", width: 3}, left: {ink: GONE, says: "role.left"},
};

/** The marks of trades that play parts in a step; of those that change by a unit with what comes or goes. */
function rolesOf({trades, units = new Map()}) {
    const signOf = (name) => units.has(name) ? {sign: units.get(name) > 0n ? "+1" : "\u22121"} : {};
    return new Map([...trades].map(([name, role]) => [name, {...ROLES[role], ...signOf(name), says: say(ROLES[role].says)}]));
}

/** The trades in colour: those that a chosen firm would rather have, or those of the path that holds a chosen bound. */
function marksOf({selection, ranges}, lines) {
    const line = selection?.kind === "firm" ? lines.get(selection.name) : null;
    const rather = {ink: FIRST, says: say("mark.rather", {firm: line?.firm ?? ""})};
    if (line?.best && line.gain !== 0n) return new Map(ratherOf(line).map(([name, counts]) => [name, {...rather, counts}]));
    const range = selection?.kind === "bound" && ranges?.said?.ranges?.find(({trade}) => trade === selection.trade);
    return range ? marksOfPath(range, selection.side === "high") : new Map();
}

/** The trades that a firm would rather have; where they have units those of which it would have other counts, with these. */
function ratherOf({has, best}) {
    if (![...has, ...best].some(Array.isArray)) return best.map((name) => [name]);
    const [now, then] = [has, best].map(unitsOf), names = [...new Set([...now.keys(), ...then.keys()])].filter((name) => now.get(name) !== then.get(name));
    const counts = new Map(names.map((name) => [name, then.get(name) ?? 0n]));
    return names.map((name) => [name, counts]);
}

function marksOfPath({trade, high_path: above, low_path: below}, isHigh) {
    const own = {ink: BOTH, says: say("mark.price", {trade})};
    const other = isHigh ? {ink: FIRST, says: say("mark.holds_above", {trade})}
        : {ink: SECOND, says: say("mark.holds_below", {trade})};
    const nodes = (isHigh ? above : below).filter((node) => node !== null).map(nameOn);
    return new Map(nodes.map((node) => [node, node === trade ? own : other]));
}

/** Shows a window of the picture, or all of it. */
function look(window) {
    const {x, y, width, height} = window ?? {x: 0, y: 0, ...size};
    part("stage").firstElementChild?.setAttribute("viewBox", `${x} ${y} ${width} ${height}`);
    leaveOut(Math.min(part("stage").clientWidth / width, part("stage").clientHeight / height));
}

/** The window, larger or smaller by a factor around a point of the screen, or around its middle. */
function zoomed(view, factor, at = null) {
    const now = view.window ?? {x: 0, y: 0, width: size.width, height: size.height};
    const width = Math.min(size.width * 1.5, Math.max(size.width / MOST_ZOOM, now.width * factor)), scale = width / now.width;
    const center = at === null ? {x: now.x + now.width / 2, y: now.y + now.height / 2} : inPicture(at);
    const from = (middle, edge) => middle - (middle - edge) * scale;
    return {window: {x: from(center.x, now.x), y: from(center.y, now.y), width, height: now.height * scale}};
}

export const zoomIn = (view, at) => zoomed(view, 1 / ZOOM, at), zoomOut = (view, at) => zoomed(view, ZOOM, at);

/** The window, moved by some pixels of the screen. */
export function panned(view, dx, dy) {
    const now = view.window ?? {x: 0, y: 0, width: size.width, height: size.height}, scale = perPixel();
    return {window: {...now, x: now.x - dx * scale, y: now.y - dy * scale}};
}

const ARROWS = {ArrowLeft: [STEP, 0], ArrowRight: [-STEP, 0], ArrowUp: [0, STEP], ArrowDown: [0, -STEP]};

/** What a key on the picture does to its window, or null. */
export function lookedBy(view, key) {
    if (ARROWS[key]) return panned(view, ...ARROWS[key]);
    if (key === "+" || key === "=") return zoomIn(view);
    return key === "-" ? zoomOut(view) : key === "0" ? {window: null} : null;
}

function perPixel() {
    const matrix = part("stage").firstElementChild.getScreenCTM();
    return matrix === null ? 1 : 1 / matrix.a;
}

function inPicture({x, y}) {
    const matrix = part("stage").firstElementChild.getScreenCTM().inverse();
    return {x: matrix.a * x + matrix.e, y: matrix.d * y + matrix.f};
}
