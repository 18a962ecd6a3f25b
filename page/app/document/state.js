// All that the page shows, as one value that named actions change.
import {NotJson, readable, textOf, written} from "../../read/json.js";
import {hasUnits} from "../../read/limits.js";
import {Network} from "../../read/network.js";
import {exerciseIn, GOALS, isAsGiven} from "../exercise/exercise.js";
import {applied} from "./edits.js";
import {raised} from "./versions.js";

/** Up to how many bytes a document is shown as a text that can be changed. */
const MOST_SHOWN = 1 << 18;

const BEGINNING = 2000;

/** How many changes of the document can be taken back. */
const MOST_UNDONE = 400;

/** How a document is looked at that was just opened. */
const AT_FIRST = {isOver: false, hasRanges: false, hasReason: false, window: null, isWide: null, filter: "", firm: null,
    sort: {by: null, isDown: false}, built: 0, ends: {}, asked: null, isFree: false, sheet: null};

/**
 * The value. `document` is what is looked at, with the `exercise` as which it was opened and how often it was changed since, its `tries`;
 * `past` and `future` are of it, and `mark`, which says what made the last change: changes
 * with one mark are taken back together; `risen` is the version that the last change gave the document, if it gave it one. An exercise has a past and a future of its own, and `outside` is what was looked at before it. `results` are those that a teacher opened. `selection` is null or `{kind, ..}`: lane, firm or bound. `guess`, `ranges`, `judged` and
 * `decided` are what `firms`, `range`, `judge` and `replay` answered, `reason` what `support` or `test` did, and `answer` is that of the
 * command in `words`, each with the `document` that it was asked of; where that isn't the present one it is old. `run` is how far the
 * command is, `view` how all this is looked at: `mode` is "guess", "sign" or "whatif", which was come to `from`
 * one of the others, `isEasy` leaves out the views for those who know the format, `people` says whether firms are called people, null where
 * the document's note does, `step` is the place in a story that is told, and `built` that of the firm in the form, beside which a `sheet` of tables may be open. `supposed` is who is away and what is barred before and after a change, as edits; `compared` and `contributed` are
 * what was said of it. `auction` is null, or an auction of the market as far as it went.
 */
const START = {
    document: {name: "", bytes: new Uint8Array(0), text: "", isWhole: true, exercise: null, tries: 0}, past: [], future: [], outside: null,
    mark: null, risen: null, selection: null,
    guess: null, ranges: null, path: null, judged: null, decided: null, reason: null, results: [], words: ["solve"], run: {state: "none"}, answer: null,
    supposed: {before: [], after: []}, compared: null, contributed: null, auction: null,
    view: {panel: "guess", mode: "guess", from: "guess", step: 0, hasOwn: true, hasAll: false, isEasy: false, people: null, ...AT_FIRST},
};

/** The value, looked at in another way. */
function looked(value, view) {
    return {...value, view: {...value.view, ...view}};
}

/** A story that is told again goes on at its step; another one begins, and not with a firm that was chosen in the one before it. */
function told(value, before, now) {
    if (isSame(before, now)) return value;
    const isBegun = Boolean(before?.said && now.story), selection = isBegun && value.selection?.kind === "firm" ? null : value.selection;
    return looked({...value, selection}, {step: 0});
}

/** The place of a firm among the firms of the document. */
function placeOf({document}, {name}) {
    return Math.max(0, networkOf(document).firms.findIndex((firm) => firm.name === name));
}

/** What may happen. Each takes a value, and answers the next one. */
const ACTIONS = {
    /** A document was opened: it is asked about as the bytes of its file, until it is edited. */
    opened: (value, name, bytes) => {
        const document = documentOf(name, bytes), isApart = (document.exercise ?? value.document.exercise) !== null;
        const next = {...changed(value, document, null), outside: outsideOf(value, document)};
        return atFirst(isApart ? {...next, past: []} : next);
    },
    /** An exercise was left, for the document before it; where there was none, for another one. */
    left: (value, name, bytes) => {
        const next = changed(value, value.outside ?? documentOf(name, bytes), null);
        return atFirst({...next, past: [], outside: null});
    },
    /** What was begun of an exercise is taken up; it was tried so often before. */
    resumed: (value, text, tries) => changed(value, {...withText(value.document, text, true), tries}, null),
    tried: (value, tries) => ({...value, document: {...value.document, tries}}),
    /** The text of the document was edited. */
    typed: (value, text, mark = null) => text === value.document.text ? value : changed(value, withText(value.document, text, isMerged(value, mark)), mark),
    /** Some places of the text were changed, by the picture or a form. */
    edited: (value, edits, mark = null) => withRoom(value, ACTIONS.typed(value, applied(value.document.text, edits), mark)),
    undone: (value) => value.past.length === 0 ? value : moved(value, value.past, value.future, (past, future) => ({past, future})),
    redone: (value) => value.future.length === 0 ? value : moved(value, value.future, value.past, (future, past) => ({past, future})),
    /** A lane, a firm or a bound was chosen, or nothing. */
    selected: (value, selection) => looked({...value, selection, mark: null}, selection?.kind === "firm" ? {built: placeOf(value, selection), isFree: false} : {}),
    /** It is looked at in another way; a reason or an answer that comes over the network begins with nothing chosen. */
    looked: (value, view) => {
        const {selection} = value, isAnew = view.hasReason || view.isOver;
        return looked({...value, selection: isAnew ? null : view.hasRanges === false ? unbound(selection) : selection}, view);
    },
    /** A view of the panel was chosen; three of them say what the network shows. */
    went: (value, panel) => {
        const {mode, isOver, from} = value.view, next = MODES.includes(panel) ? panel : mode;
        const view = {panel, mode: next, isOver: isOver && next === "guess", from: next === "whatif" && mode !== next ? mode : from};
        return next === mode ? looked(value, view) : looked({...value, selection: null}, {...view, step: 0});
    },
    guessed: (value, guess) => ({...value, guess}),
    ranged: (value, ranges) => ({...value, ranges}),
    traced: (value, path) => ({...value, path}),
    /** What is signed was judged, or a reason was found. */
    judged: (value, judged) => told({...value, judged}, value.judged, judged),
    reasoned: (value, reason) => told({...value, reason}, value.reason, reason),
    decided: (value, decided) => ({...value, decided}),
    /** It is supposed that some are away and barred before, and others after; what is answered of that comes later. */
    supposed: (value, before, after) => ({...value, supposed: {before, after}}),
    compared: (value, compared) => ({...value, compared}),
    contributed: (value, contributed) => ({...value, contributed}),
    /** An auction began, took a step or was closed. */
    auctioned: (value, auction) => ({...value, auction}),
    /** Another command was chosen. */
    chosen: (value, words) => ({...value, words, run: {state: "none"}}),
    asked: (value) => ({...value, run: {state: "asking"}}),
    answered: (value, answer) => ({...value, run: {state: "answered"}, answer}),
    broke: (value, message) => ({...value, run: {state: "trouble", message}, answer: null}),
    ended: (value) => ({...value, run: {state: "ended"}}),
    /** Another language is spoken: sentences are asked for again, and the answer to the command is told again. */
    spoken: (value) => {
        const {document, answer, supposed, auction, view} = value,
            results = value.results.map((each) => ({...each, verdict: null}));
        return {...value, ...NOTHING_SAID, answer, supposed, auction, document: {...document}, view: {...view}, results};
    },
    retold: (value, answer) => ({...value, answer}),
    /** Results were opened; each is compared with the exercise that the document is, if it is one. */
    resulted: (value, results) => {
        const added = results.map((result) => resultWith(result, networkOf(value.document)));
        return looked({...value, results: [...value.results, ...added]}, {panel: "results"});
    },
    marked: (value, result, verdict) => ({...value, results: value.results.map((each) => each === result ? {...each, verdict} : each)}),
    forgot: (value) => ({...ACTIONS.went(value, value.view.mode), results: []}),
};

/** A change of some places, with a later version of the format where it needs one: `risen` is that version then. */
function withRoom(before, value) {
    const {document} = value, edits = document === before.document || networkOf(document).root.kind !== "object" ? [] : raised(networkOf(document));
    if (edits.length === 0) return {...value, risen: null};
    return {...value, document: withText(document, applied(document.text, edits), true), risen: edits[0].text};
}

/** A value with its document as if that was never looked at before. */
function atFirst(value) {
    return looked({...value, ...NOTHING_SAID, selection: null}, {...panelFor(value.document, value.view), ...AT_FIRST});
}

/** The document that is gone back to from an exercise; null where there is none. */
function outsideOf({document: before, outside}, {exercise}) {
    if (exercise === null || before.name + before.text === "") return null;
    return before.exercise === null ? before : outside;
}

const NOTHING_SAID = {guess: null, ranges: null, path: null, judged: null, decided: null, reason: null, answer: null,
    supposed: START.supposed, compared: null, contributed: null, auction: null};

/** The views of the panel that say what the network shows. */
const MODES = ["guess", "sign", "whatif"];

/**
 * The view with which a document is opened: of its claim, of what is signed where there is no guess or that was looked at, or of the
 * guess.
 */
function panelFor(document, {panel, mode: before}) {
    if (!document.isWhole) return {};
    const {data} = networkOf(document), isPlain = !hasUnits(data), isSigned = isPlain && data.outcome !== undefined && (data.arrangement === undefined || before === "sign");
    const mode = isSigned ? "sign" : "guess";
    return {mode, panel: ["build", "document", "answer"].includes(panel) ? panel : isPlain && data.claim !== undefined ? "claim" : mode};
}

/**
 * What was shown for a text goes with it: of another text no command has been asked, no answer lies over its network, and no bound
 * of a price is chosen.
 */
const LAID_DOWN = ({view}, selection) => ({run: {state: "none"}, view: {...view, isOver: false}, selection: unbound(selection)});

function unbound(selection) {
    return selection?.kind === "bound" ? null : selection;
}

function changed(value, document, mark) {
    const {document: before, selection} = value, isKept = !isMerged(value, mark) && before.name + before.text !== "";
    const past = isKept ? [...value.past.slice(1 - MOST_UNDONE), {document: before, selection}] : value.past;
    return {...value, document, past, future: [], mark, risen: null, ...LAID_DOWN(value, selection)};
}

/** Goes to the last of some earlier or later documents, and keeps the present one among the others. */
function moved(value, from, to, named) {
    const {document, selection} = from[from.length - 1];
    const here = {document: value.document, selection: value.selection};
    return {...value, document: triedAs(document, value.document), mark: null, risen: null, ...LAID_DOWN(value, selection), ...named(from.slice(0, -1), [...to, here])};
}

function documentOf(name, bytes) {
    const isWhole = bytes.length <= MOST_SHOWN, shown = isWhole ? bytes : bytes.subarray(0, BEGINNING);
    const text = new TextDecoder("utf-8", {ignoreBOM: true}).decode(shown), document = {name, bytes, text, isWhole, exercise: null, tries: 0};
    document.exercise = isWhole ? exerciseIn(networkOf(document)) : null;
    return document;
}

function withText(document, text, goesOn) {
    return {...document, text, bytes: new TextEncoder().encode(text), isWhole: true, tries: document.tries + (goesOn ? 0 : 1)};
}

/** Whether a change belongs to the one before it. */
function isMerged(value, mark) {
    return mark !== null && mark === value.mark;
}

/** An earlier or later document with the tries of now, where both are of the same opening of an exercise. */
function triedAs(document, {exercise, tries}) {
    return exercise !== null && document.exercise === exercise ? {...document, tries} : document;
}

/** A result with its document, and whether its network is the given one. */
function resultWith({text, ...result}, given) {
    const document = documentOf(result.file, new TextEncoder().encode(text));
    return {...result, document, isGiven: isAsGiven(networkOf(document), given), verdict: null};
}

/** Whether trades have units. */
export function isCounted({document}) {
    return document.isWhole && hasUnits(networkOf(document).data);
}

/** The views that ask commands which don't answer documents whose trades have units, each with the key of what is said there instead. */
const SHUT = {sign: "counted.sign", claim: "counted.claim"};

/** The key of what is said in the place of the view, where it can't be of such a document; or null. */
export function shutBy(value) {
    return isCounted(value) ? SHUT[value.view.panel] ?? null : null;
}

/** Beside a view that is shut the network shows the guess, with which a what-if begins then, too. */
function withUnits(value) {
    const {mode, from} = value.view, open = (name) => (name in SHUT ? "guess" : name);
    return open(mode) === mode && open(from) === from ? value : looked(value, {mode: open(mode), from: open(from)});
}

/** The views that an easy page hasn't. */
const HARD = ["claim", "document", "answer"];

/** What there is of an easy page; and what a pupil sees of an exercise: the view in which its goal is looked for, and nothing that would solve it. */
function within(value) {
    const known = isCounted(value) ? withUnits(value) : value, {document: {exercise}, view} = known;
    if (exercise === null) return view.isEasy && HARD.includes(view.panel) ? looked(known, {panel: view.mode}) : known;
    const {panel} = GOALS[exercise.goal], wanted = {panel: view.panel === "results" ? "results" : panel, mode: panel, hasRanges: false, hasReason: false, isOver: false};
    return Object.entries(wanted).every(([name, each]) => view[name] === each) ? known : looked(known, wanted);
}

/** Whether two answers say the same. */
function isSame(before, now) {
    return Boolean(before?.said && now.said) && written(before.said) === written(now.said);
}

/** Whether what was asked of a document isn't so of the present one any more. */
export function isOld(value, said) {
    if (said === null || said.document === value.document) return false;
    const [one, other] = [said.document, value.document];
    return !one.isWhole || !other.isWhole || one.text !== other.text || one.bytes.length !== other.bytes.length;
}

/** The answer that tells a fault of the present text, or null; a part that isn't there is no fault of it. */
export function faulty(value) {
    const {guess, judged, decided, document} = value, isIts = (said) => said !== null && said.document.text === document.text;
    return [guess, judged, decided].find((said) => isIts(said) && said.said?.answer === "fault" && !said.isNone) ?? null;
}

/** The one value of the page. Whoever watches is told of each new one, after all of it is there. */
export class Store {
    constructor() {
        this.value = START;
        this.watchers = [];
    }

    act(name, ...details) {
        this.value = within(ACTIONS[name](this.value, ...details));
        for (const watch of this.watchers) watch(this.value, name);
    }

    watch(watcher) {
        this.watchers.push(watcher);
    }
}

const networks = new WeakMap();

/** A document as pictures and sentences see it. */
export function networkOf(document) {
    if (!networks.has(document)) networks.set(document, readNetwork(document));
    return networks.get(document);
}

function readNetwork({bytes}) {
    try {
        return new Network(textOf(bytes));
    } catch (error) {
        if (!(error instanceof NotJson)) throw error;
        return new Network(readable(bytes), error);
    }
}
