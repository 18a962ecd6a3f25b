// The document's text in CodeMirror. Its history is the page's own; changes from elsewhere are put in at their offsets.
import "../../vendor/codemirror-5.65.0/codemirror.min.js";
import {say} from "../../words/say.js";
import {made, part} from "../shell/page.js";
import {faulty} from "./state.js";

const {CodeMirror} = globalThis;

CodeMirror.defineMode("document", () => ({
    token(stream) {
        if (stream.match(/^"(?:[^"\\]|\\.)*"(?=\s*:)/)) return "property";
        if (stream.match(/^"(?:[^"\\]|\\.)*"?/)) return "string";
        if (stream.match(/^-?\d[\d.eE+-]*/)) return "number";
        if (stream.match(/^(?:true|false|null)\b/)) return "atom";
        stream.next();
        return null;
    },
}));

const SETTINGS = {
    mode: "document", inputStyle: "contenteditable", lineNumbers: true, lineSeparator: "\n", undoDepth: 0, tabSize: 2, indentUnit: 1,
    lineWrapping: false, spellcheck: false, autocorrect: false, autocapitalize: false,
};

/** The mark that the changes come from the page, and not from somebody who types. */
const OWN = "page";

let editor = null, isSetting = false, marked = null, shown = "", letters = {run: 0, line: 0, ch: 0};

/** Makes the editor ready for a store. */
export function readyEditor(store) {
    const undo = () => store.act("undone"), redo = () => store.act("redone");
    const keys = {"Ctrl-Z": undo, "Cmd-Z": undo, "Ctrl-Y": redo, "Shift-Ctrl-Z": redo, "Shift-Cmd-Z": redo, Tab: false, "Shift-Tab": false};
    editor = CodeMirror(part("editor"), {...SETTINGS, specialCharPlaceholder: placeholder, extraKeys: keys});
    editor.on("changes", (_, changes) => {
        if (isSetting) return;
        shown = editor.getValue();
        store.act("typed", shown, markFor(store.value.mark, changes));
    });
}

/** What stands for a sign that can't be seen; nothing does for the first half of an end of line of Windows, which stays in the text. */
function placeholder(sign) {
    const number = sign.codePointAt(0).toString(16).padStart(4, "0");
    return made("span", sign === "\r" ? "" : "\u2022", {class: "unseen-sign", title: `U+${number}`});
}

/** Letters that are typed one behind the other, without a blank, have one mark, and are taken back together. */
function markFor(last, changes) {
    const [{origin, text, from}] = changes;
    if (changes.length !== 1 || origin !== "+input" || text.length !== 1 || !/^\S$/.test(text[0])) return null;
    const goesOn = last === `letters ${letters.run}` && from.line === letters.line && from.ch === letters.ch;
    letters = {run: letters.run + (goesOn ? 0 : 1), line: from.line, ch: from.ch + 1};
    return `letters ${letters.run}`;
}

/** Shows the text of a document, and a place in it as a fault, or none. */
export function showEditor(value) {
    const {document} = value, text = document.isWhole ? document.text : "";
    part("editor").hidden = !document.isWhole;
    if (shown !== text) set(text);
    shown = text;
    const mark = faulty(value)?.mark ?? null;
    if (mark === marked?.of) return;
    marked?.range.clear();
    marked = mark === null ? null : {of: mark, range: marking(mark)};
}

function marking(mark) {
    const [from, to] = [mark.start, endOf(mark)].map((offset) => editor.posFromIndex(offset));
    return editor.markText(from, to, {className: "faulty", title: say("page.fault_here")});
}

/** Where a mark ends; a long one is marked at its beginning alone. */
function endOf({text, start, end}) {
    const line = text.indexOf("\n", start);
    return Math.max(start + 1, line < 0 ? end : Math.min(end, line));
}

/** Changes the text where it differs, so that the rest of the editor stays as it is. */
function set(text) {
    const now = editor.getValue();
    let start = 0, end = 0;
    const most = Math.min(now.length, text.length);
    while (start < most && now[start] === text[start]) start += 1;
    while (end < most - start && now[now.length - 1 - end] === text[text.length - 1 - end]) end += 1;
    isSetting = true;
    editor.replaceRange(text.slice(start, text.length - end), editor.posFromIndex(start), editor.posFromIndex(now.length - end), OWN);
    isSetting = false;
}

/** Goes to a place of the text. */
export function goTo({start, end}) {
    editor.focus();
    editor.setSelection(editor.posFromIndex(start), editor.posFromIndex(end), {scroll: true});
}

/** To be called when the editor has come into sight. */
export function refreshEditor() {
    editor.refresh();
}

/** Says what the editor is in the language that is spoken. */
export function sayEditor() {
    editor.setOption("screenReaderLabel", say("page.text"));
}
