// What is shown of an answer: its sentences, its pictures, and where in the document a fault stands.
import {barsPicture} from "../../draw/bars.js";
import {networkPicture} from "../../draw/network.js";
import {whyPicture} from "../../draw/why.js";
import {NoAnswer, readAnswer} from "../../read/answer.js";
import {find} from "../../read/json.js";
import {explain} from "../../say/explain.js";
import {networkOf} from "../document/state.js";

/** How many characters of an answer are shown as they are. */
const MOST_LETTERS = 200000;

/**
 * What is shown of `{status, bytes, ms}`, which was answered to words and a document: these with `said`, the answer as plain data or
 * null, its `text`, `sentences` and `pictures`, and the `mark` of a fault.
 * `ask` is for what sentences and pictures want to know beside, in texts.
 */
export async function shownOf(document, words, {status, bytes, ms}, ask) {
    const whole = new TextDecoder().decode(bytes), text = whole.slice(0, MOST_LETTERS), said = answerIn(whole);
    const shown = {document, words, said, status, ms, bytes, text, sentences: [], mark: null, pictures: []};
    if (said === null) return shown;
    const network = networkOf(document);
    return {...shown, sentences: await explain(network, said, ask), mark: said.answer === "fault" ? markOf(network, said) : null,
        pictures: await picturesOf(network, said, ask)};
}

/** The answer that a text is, or null: rows and pages are none. */
function answerIn(text) {
    try {
        return readAnswer(text);
    } catch (error) {
        if (!(error instanceof NoAnswer)) throw error;
        return null;
    }
}

/** Where a fault stands in the text of the document, as `{text, start, end}`; null where it is of the document as a whole. */
export function markOf(network, {place}) {
    const {text, problem} = network;
    if (problem) return {text, start: problem.offset, end: problem.offset + 1};
    if (place.length === 0) return null;
    const {start, end} = find(network.root, place).node;
    return {text, start, end};
}

const WITHOUT_NETWORK = ["usage", "read_fault", "no_memory", "cases", "drill"];

async function picturesOf(network, said, ask) {
    if (network.problem || network.firms.length === 0 || WITHOUT_NETWORK.includes(said.answer)) return [];
    if (said.answer === "fault") return [await whyPicture(network, said, ask)].filter((picture) => picture !== null);
    const bars = said.answer === "ranges" && said.ranges.length > 0 ? [barsPicture(network, said)] : [];
    const why = said.answer === "ranges" && said.ranges.length > 4 ? null : await whyPicture(network, said, ask);
    return [networkPicture(network, said), ...bars, why].filter((picture) => picture !== null);
}
