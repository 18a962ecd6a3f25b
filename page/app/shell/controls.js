// What a user does with buttons, fields, keys and files, as actions.
import {isWorkbook, sheetsIn} from "../../read/workbook.js";
import {say} from "../../words/say.js";
import {EMPTY} from "../document/building.js";
import {goTo, refreshEditor} from "../document/editor.js";
import {laidOut} from "../document/lines.js";
import {openedAs} from "../document/opening.js";
import {faulty, isOld} from "../document/state.js";
import {arrange} from "../document/terms.js";
import {bindBegun, sayBegun} from "../exercise/begun.js";
import {bindLesson} from "../exercise/lesson.js";
import {sortedOut} from "../exercise/results.js";
import {takeTables, takeTexts} from "../form/sheet.js";
import {chosenOf} from "../form/sheets.js";
import {objectors} from "../network/firms.js";
import {zoomIn, zoomOut} from "../network/scene.js";
import {COMMANDS} from "../program/commands.js";
import {bindCards} from "../sharing/cards.js";
import {countsTable, firmsTable, rangesTable, saveAnswer, saveDocument, savePicture, savePixels, stem} from "../sharing/exports.js";
import {bindLinks} from "../sharing/links.js";
import {copyTable, saveTable} from "../sharing/tables.js";
import {bindReasons, claim} from "../told/reasons.js";
import {forget, forgetAll, keep, kept} from "./keep.js";
import {made, on, part} from "./page.js";

/** The documents of last time. */
let last = [];

/** The actions that change the document. */
const CHANGES = ["opened", "typed", "edited", "undone", "redone", "resumed", "left"];

/** Binds everything. `documents` are the examples in groups; `run` asks and ends the command, and answers another one beside it. */
export function bind(store, documents, run) {
    bindDocument(store, documents);
    bindMenu();
    bindHistory(store);
    bindNotices(store);
    bindScene(store);
    bindGuess(store, run);
    bindReasons(store, run);
    bindTabs(store);
    bindCommand(store, run);
    bindLinks(store);
    bindCards(store);
    bindLesson(store, documents[0][1][0], run);
    bindBegun(store, CHANGES);
    bindKept(store);
}

/** Opens files: of documents the last one, all results, and tables and workbooks as the market that they make. */
async function open(store, list) {
    const {results, files} = await sortedOut(list), isOwn = (file) => store.value.document.exercise !== null || !isOfCells(file);
    const documents = files.filter(isOwn), tables = files.filter((file) => !isOwn(file)), workbooks = tables.filter(({bytes}) => isWorkbook(bytes));
    if (documents.length > 0) openFile(store, documents[documents.length - 1]);
    if (workbooks.length < tables.length) openTables(tables.filter((file) => !workbooks.includes(file)));
    for (const {name, bytes} of workbooks) await openWorkbook(name, bytes);
    if (results.length > 0) store.act("resulted", results);
}

/** Whether a file is a workbook or a table, by what stands in it or by its name. */
function isOfCells({name, bytes}) {
    return isWorkbook(bytes) || openedAs(bytes).says === "file.table" || /\.(csv|tsv)$/i.test(name);
}

/** Takes tables that are files; one that isn't UTF-8 is told. */
function openTables(files) {
    const texts = files.map(({name, bytes}) => [name, textIn(openedAs(bytes).bytes)]), unread = texts.find(([, text]) => text === null);
    if (unread === undefined) return takeTexts(texts);
    part("notice").hidden = false;
    part("notice").textContent = say("sheet.no_utf8", {name: unread[0]});
    return undefined;
}

/** Takes the sheets of a workbook; where there are none as they are wanted, that is told. */
async function openWorkbook(name, bytes) {
    const sheets = await sheetsIn(bytes).catch(() => []);
    part("notice").hidden = sheets.length > 0;
    if (sheets.length > 0) takeTables(chosenOf(sheets));
    else part("notice").textContent = say("sheet.no_workbook", {name});
}

function textIn(bytes) {
    try {
        return new TextDecoder("utf-8", {fatal: true}).decode(bytes);
    } catch {
        return null;
    }
}

/** Opens a file, and says what it is where it isn't a document as it stands. */
function openFile(store, {name, bytes}) {
    const opened = openedAs(bytes);
    store.act("opened", name, opened.bytes);
    part("notice").hidden = opened.says === null;
    part("notice").textContent = opened.says === null ? "" : say(opened.says, {name});
}

function bindDocument(store, documents) {
    const texts = new Map();
    for (const [group, members] of documents) {
        const options = document.createElement("optgroup");
        options.dataset.group = group;
        for (const [name, text] of members) {
            texts.set(name, text);
            options.append(new Option(name.replace(/\.json$/, ""), name));
        }
        part("examples").append(options);
    }
    part("examples").addEventListener("change", () => {
        const name = part("examples").value;
        if (name !== "" && store.value.document.exercise === null) store.act("opened", name, new TextEncoder().encode(texts.get(name)));
        part("examples").value = "";
    });
    part("file").addEventListener("change", () => open(store, [...part("file").files]).finally(() => (part("file").value = "")));
    part("text").addEventListener("input", () => store.act("typed", part("text").value));
    part("drop").addEventListener("dragover", (event) => event.preventDefault());
    part("drop").addEventListener("drop", (event) => {
        event.preventDefault();
        open(store, [...event.dataTransfer.files]);
    });
    on("new", () => {
        store.act("opened", "new.json", new TextEncoder().encode(EMPTY));
        store.act("went", "build");
    });
    on("save", () => saveDocument(store.value));
    on("lay-out", () => store.act("typed", laidOut(store.value.document.text)));
    on("fault-go", () => goTo(faulty(store.value).mark));
}

/** On a small screen some of the buttons are behind one. */
function bindMenu() {
    const page = document.documentElement, set = (isOpen) => {
        page.dataset.menu = isOpen ? "open" : "closed";
        part("menu").setAttribute("aria-expanded", `${isOpen}`);
    };
    on("menu", () => set(page.dataset.menu === "closed"));
    set(false);
}

/** One history, also while somebody types in a field of a price. */
function bindHistory(store) {
    on("undo", () => store.act("undone"));
    on("redo", () => store.act("redone"));
    document.addEventListener("keydown", (event) => {
        if (!(event.ctrlKey || event.metaKey) || event.altKey || event.defaultPrevented) return;
        const key = event.key.toLowerCase(), isOwn = event.target.closest?.("#filter, #words, #fragment, #address, #pupil, #maker-title, #text, #sheet input, .CodeMirror");
        if (isOwn || !["z", "y"].includes(key)) return;
        event.preventDefault();
        store.act(key === "y" || event.shiftKey ? "redone" : "undone");
    });
}

/** What was said of a text, or made of it, goes with the text. */
function bindNotices(store) {
    store.watch(({risen}, name) => {
        if (!CHANGES.includes(name)) return;
        if (risen !== null) [part("notice").hidden, part("notice").textContent] = [false, say("page.risen", {version: risen})];
        part("linked").hidden = true;
        for (const id of ["maker-says", "denominator-says"]) part(id).textContent = "";
        part("denominator").setAttribute("aria-invalid", "false");
        if (["opened", "left"].includes(name)) for (const id of ["maker", "notice"]) part(id).hidden = true;
    });
}

function bindScene(store) {
    on("zoom-in", () => store.act("looked", zoomIn(store.value.view)));
    on("zoom-out", () => store.act("looked", zoomOut(store.value.view)));
    on("zoom-fit", () => store.act("looked", {window: null}));
    on("own", () => store.act("looked", {hasOwn: !store.value.view.hasOwn}));
    on("wide", () => store.act("looked", {isWide: part("wide").getAttribute("aria-pressed") !== "true"}));
    for (const [id, save] of [["picture-save", savePicture], ["picture-pixels", savePixels]]) on(id, () => save(store.value, part("verdict").textContent));
    on("objects", () => stepObjectors(store));
    on("all-objects", () => store.act("looked", {hasAll: !store.value.view.hasAll}));
    for (const id of ["firms", "objectors"]) part(id).addEventListener("click", ({target}) => {
        const name = target.closest("[data-firm]")?.dataset.firm;
        if (name !== undefined) store.act("selected", {kind: "firm", name});
    });
}

/** Goes to the next of the firms that aren't content. */
function stepObjectors(store) {
    const list = objectors(store.value), {selection} = store.value;
    if (list.length === 0) return;
    const now = selection?.kind === "firm" ? list.indexOf(selection.name) : -1;
    store.act("selected", {kind: "firm", name: list[(now + 1) % list.length]});
}

function bindGuess(store, {ask}) {
    on("solve", async () => {
        store.act("chosen", ["solve"]);
        part("command").value = "solve";
        part("words").hidden = true;
        await ask();
        const {answer} = store.value;
        if (answer?.said?.fault === 16n && !isOld(store.value, answer)) store.act("looked", {hasReason: true, step: 0});
    });
    on("ranges", () => store.act("looked", {hasRanges: !store.value.view.hasRanges}));
    on("buyers-best", () => take(store, "low"));
    on("sellers-best", () => take(store, "high"));
    on("over-take", () => {
        const {on: names, prices} = store.value.answer.said;
        arrange(store, names, prices);
    });
    on("over-claim", () => claim(store, store.value.answer));
    on("over-leave", () => store.act("looked", {isOver: false}));
    for (const [id, tableOf] of [["firms", firmsTable], ["ranges", rangesTable]]) bindTable(id, () => tableOf(store.value), () => store.value.document.name);
}

/** The buttons that save a table and put it on the clipboard. */
function bindTable(id, tableOf, nameOf) {
    on(`${id}-csv`, () => saveTable(`${stem(nameOf())}-${id}`, tableOf()));
    on(`${id}-copy`, () => copyTable(tableOf()));
}

/** Takes all lowest or all highest prices as the guess. */
function take(store, side) {
    const {ranges} = store.value;
    if (!isOld(store.value, ranges)) arrange(store, ranges.said.on, ranges.said.ranges.map((range) => [range.trade, range[side]]));
}

function bindTabs(store) {
    const all = [...part("tabs").children], nameOf = (tab) => tab.id.slice("tab-".length);
    const go = (tab) => {
        store.act("went", nameOf(tab));
        if (nameOf(tab) === "document") refreshEditor();
    };
    for (const tab of all) tab.addEventListener("click", () => go(tab));
    part("tabs").addEventListener("keydown", (event) => {
        const step = {ArrowRight: 1, ArrowLeft: -1}[event.key], tabs = all.filter((tab) => tab.offsetParent !== null);
        if (step === undefined) return;
        const next = tabs[(tabs.indexOf(event.target) + step + tabs.length) % tabs.length];
        go(next);
        next.focus();
    });
}

function bindCommand(store, {ask, end}) {
    const options = [...COMMANDS, ["", "command.other"]].map(([words]) => new Option(words, words));
    part("command").append(...options);
    part("sources").textContent = document.documentElement.dataset.sources;
    const choose = () => {
        const chosen = part("command").value, isOther = chosen === "";
        part("words").hidden = !isOther;
        store.act("chosen", (isOther ? part("words").value : chosen).split(/\s+/).filter(Boolean));
    };
    for (const id of ["command", "words"]) part(id).addEventListener("input", () => {
        end();
        choose();
    });
    part("form").addEventListener("submit", (event) => {
        event.preventDefault();
        store.act("went", "answer");
        ask();
    });
    part("end").addEventListener("click", () => {
        end();
        store.act("ended");
    });
    store.watch(({run}, name) => run.state === "none" && CHANGES.includes(name) && end());
    on("answer-save", () => saveAnswer(store.value));
    bindTable("counts", () => countsTable(store.value.answer.document, store.value.answer.said), () => store.value.answer.document.name);
    on("answer-claim", () => claim(store, store.value.answer));
}

/** Offers the documents of last time, and keeps the present one from its first change on. */
function bindKept(store) {
    last = kept();
    part("kept").hidden = last.length === 0;
    part("kept-list").addEventListener("click", ({target}) => {
        const found = last[target.dataset.kept];
        if (found === undefined) return;
        part("kept").hidden = true;
        store.act("opened", found.name, new TextEncoder().encode(found.text));
    });
    for (const [id, act] of [["kept-forget", forget], ["forget", forgetAll]]) on(id, () => {
        part("kept").hidden = true;
        act();
    });
    store.watch(({document: now}, name) => CHANGES.includes(name) && !["opened", "left"].includes(name) && now.exercise === null && keep(now));
}

function keptButton({name}, k) {
    return made("button", name, {type: "button", id: k === 0 ? "kept-open" : null, "data-kept": k, "aria-label": say("page.kept_open", {name})});
}

/** Says what is chosen from, and what was kept, in the language that is spoken. */
export function sayControls() {
    [...COMMANDS, ["", "command.other"]].forEach(([words, key], k) => {
        part("command").options[k].textContent = words === "" ? say(key) : `${words}: ${say(key)}`;
    });
    for (const group of part("examples").querySelectorAll("optgroup")) group.label = say(group.dataset.group);
    sayBegun();
    part("kept-list").replaceChildren(...last.map(keptButton));
}
