// Exercises and their results. A document is an exercise where its note says so; a result is a small file with the document
// as a pupil leaves it.
import {NotJson, parse, plain, written} from "../../read/json.js";
import {hasUnits} from "../../read/limits.js";
import {objectOf} from "../../read/network.js";
import {memberOf, put} from "../document/edits.js";

/**
 * What may have to be reached: the command that decides it with status 0, the view in which it is looked for, and
 * the key of what a pupil is told.
 */
export const GOALS = {
    equilibrium: {command: "firms", panel: "guess", says: "exercise.equilibrium"},
    lasts: {command: "judge", panel: "sign", says: "exercise.lasts"},
};

/** Whether a document may have a goal: where trades have units nothing is signed. */
export function mayBe(network, goal) {
    return Object.hasOwn(GOALS, goal) && !(goal === "lasts" && hasUnits(network.data));
}

/** The exercise that a document is, as `{title, goal}`, or null: these stand in its note as `exercise` and `goal`. */
export function exerciseIn(network) {
    const {exercise, goal} = objectOf(network.data.note);
    return typeof exercise === "string" && mayBe(network, goal) ? {title: exercise, goal} : null;
}

/** The edits that make a document an exercise; a note that it has stays within the new one. */
export function exerciseMade(network, title, goal) {
    if (network.root.kind !== "object") return [];
    const before = network.root.value.get("note");
    const old = exerciseIn(network) === null ? before : before.value.get("note");
    const kept = old ? `,"note":${network.text.slice(old.start, old.end)}` : "";
    return put(network.root, "note", `{"exercise":${JSON.stringify(title)},"goal":"${goal}"${kept}}`);
}

/** The text of a result. */
export function resultText({text, tries}, name) {
    return `{"result":1,"name":${JSON.stringify(name)},"tries":${tries},\n"document":${text.trim()}}\n`;
}

/** The result in a text, as `{name, tries, text}`, where `text` is that of its document; null where it is none. */
export function resultIn(text) {
    const root = parsed(text);
    const document = root?.kind === "object" && root.value.has("result") ? memberOf(root, "document", "object") : null;
    if (document === null) return null;
    const {name, tries} = plain(root), isNumber = typeof tries === "bigint";
    const whole = text.slice(document.start, document.end);
    return {name: typeof name === "string" ? name : "", tries: isNumber ? tries : null, text: whole};
}

function parsed(text) {
    try {
        return parse(text);
    } catch (error) {
        if (!(error instanceof NotJson)) throw error;
        return null;
    }
}

/** What an exercise gives, and a result has to have as it was. */
const GIVEN = ["version", "firms", "trades", "note"];

/** Whether a result's network is that of an exercise; null where the exercise is another one, or none. */
export function isAsGiven(result, given) {
    const [ours, theirs] = [result, given].map(exerciseIn);
    if (ours === null || theirs === null || ours.title !== theirs.title) return null;
    return GIVEN.every((name) => written(result.data[name]) === written(given.data[name]));
}
