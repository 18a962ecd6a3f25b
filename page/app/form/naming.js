// What is typed as a name, in any language: the format's own name is made of it, plain, and it is kept as the note, by which the firm
// or trade is called.
import {noteOf} from "../../words/labels.js";
import {language, say} from "../../words/say.js";
import {freeName, NAME, renamed, textAt} from "../document/building.js";
import {memberOf, put, replaced} from "../document/edits.js";

/** The most signs of what is typed. */
const MOST = 80;

const WRITTEN_OUT = {ä: "ae", ö: "oe", ü: "ue", Ä: "Ae", Ö: "Oe", Ü: "Ue", ß: "ss", æ: "ae", Æ: "Ae", œ: "oe", Œ: "Oe", ø: "o", Ø: "O", ł: "l", Ł: "L"};

/** A text in the letters that a name may have; nothing where none of its signs is one. */
function plainOf(text) {
    const written = [...text.normalize("NFC")].map((sign) => WRITTEN_OUT[sign] ?? sign).join("").normalize("NFKD").replace(/\p{M}/gu, "");
    return written.replace(/[^A-Za-z0-9_.]+/g, "-").replace(/^-+|-+$/g, "").slice(0, 32);
}

/** What stands in the field of a name: the label, or the name where it has none. */
export function shownName(node) {
    const note = node.value.get("note");
    return noteOf(note?.kind === "object" ? Object.fromEntries([...note.value].map(([key, {value}]) => [key, value])) : note?.value) ?? textAt(node, "name");
}

/** Why a text can't be what something is called, or null; `others` are the names of the others. */
export function whyNoName(text, others) {
    if (text === "") return say("naming.wanted");
    if ([...text].length > MOST) return say("naming.too_long", {most: MOST});
    return NAME.test(text) && others.includes(text) ? say("naming.taken", {name: text}) : null;
}

/** The edits by which a firm or trade is called by a text. */
export function calledBy(network, list, node, text, others) {
    const isPlain = NAME.test(text), first = isPlain ? text : plainOf(text) || list[0];
    const name = isPlain ? text : freeName(others, first, (k) => (k === 1 ? "" : `-${k}`));
    return [...renamed(network, list, node, name), ...noted(node, text, isPlain)];
}

/** The edits that keep a text as the note: in the language that is spoken, where the note has one for each. */
function noted(node, text, isPlain) {
    const note = node.value.get("note"), written = JSON.stringify(text);
    if (note?.kind === "text") return replaced(note, written);
    if (note?.kind === "object") return put(memberOf(node, "note", "object"), language(), written);
    return isPlain ? [] : put(node, "note", written);
}
