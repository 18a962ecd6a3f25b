// Whether an exercise is the same document to the program, keeps to objections in the page, and comes back as a result.
import assert from "node:assert/strict";
import {test} from "node:test";
import {applied} from "../../../page/app/document/edits.js";
import {Store} from "../../../page/app/document/state.js";
import {exerciseIn, exerciseMade, isAsGiven, resultIn, resultText} from "../../../page/app/exercise/exercise.js";
import {Network} from "../../../page/read/network.js";
import {answersOf} from "../ask.mjs";
import {examples} from "./support.mjs";

const TITLE = 'Who "gets" it?';

/** The examples that may be exercises, as they are and as these. */
function pairs() {
    const texts = examples().map(({bytes}) => bytes.toString()).filter((text) => new Network(text).trades.length > 0);
    return texts.map((text) => [text, applied(text, exerciseMade(new Network(text), TITLE, "equilibrium"))]);
}

const market = answersOf(), firms = (text) => market(["firms"], text);

test("an exercise is answered as its document, and keeps the note that was there", () => {
    for (const [text, made] of pairs()) {
        assert.deepEqual(exerciseIn(new Network(made)), {title: TITLE, goal: "equilibrium"});
        assert.equal(firms(made), firms(text));
        const {note} = JSON.parse(text), again = applied(made, exerciseMade(new Network(made), "Another", "lasts"));
        assert.deepEqual(JSON.parse(made).note, {exercise: TITLE, goal: "equilibrium", ...(note === undefined ? {} : {note})});
        assert.deepEqual(JSON.parse(again).note, {exercise: "Another", goal: "lasts", ...(note === undefined ? {} : {note})});
    }
});

test("a result has the document as it was left, and says whether its network is the given one", () => {
    for (const [text, made] of pairs()) {
        const result = resultIn(resultText({text: made, tries: 7}, "Zo\u00eb \"Z\""));
        assert.deepEqual({...result, text: null}, {name: "Zo\u00eb \"Z\"", tries: 7n, text: null});
        assert.equal(result.text, made.trim());
        assert.equal(resultIn(made), null);
        assert.equal(isAsGiven(new Network(result.text), new Network(made)), true);
        assert.equal(isAsGiven(new Network(result.text), new Network(text)), null);
        assert.equal(isAsGiven(new Network(result.text.replace('"kind"', '"note":0,"kind"')), new Network(made)), false);
    }
    for (const odd of ["", "[]", "{}", '{"result":1}', '{"result":1,"document":[]}', "{"]) assert.equal(resultIn(odd), null);
});

test("an exercise that was opened is looked at in one view, and its tries are counted", () => {
    const [, made] = pairs()[0], store = new Store(), open = (text) => store.act("opened", "e.json", new TextEncoder().encode(text));
    store.act("looked", {hasRanges: true, hasReason: true, panel: "document"});
    open(made);
    for (const panel of ["document", "answer", "claim", "build", "sign"]) {
        store.act("went", panel);
        store.act("looked", {panel, hasRanges: true, hasReason: true, isOver: true});
        const {view} = store.value;
        assert.deepEqual([view.panel, view.mode, view.hasRanges, view.hasReason, view.isOver], ["guess", "guess", false, false, false]);
    }
    for (const [blanks, mark] of [[1, null], [2, "drag"], [3, "drag"], [4, null]]) store.act("typed", made + " ".repeat(blanks), mark);
    assert.equal(store.value.document.tries, 3);
    store.act("undone");
    store.act("undone");
    assert.equal(store.value.document.tries, 3);
    store.act("typed", `${made}\n`);
    assert.equal(store.value.document.tries, 4);
    open(made.replace('"goal"', '"aim"'));
    assert.equal(store.value.document.exercise, null);
    store.act("went", "document");
    assert.equal(store.value.view.panel, "document");
});

test("an exercise has a history of its own, and is left for what was before it", () => {
    const [, made] = pairs()[0], store = new Store(), bytesOf = (text) => new TextEncoder().encode(text);
    store.act("opened", "before.json", bytesOf("{}"));
    store.act("typed", "{ }");
    store.act("opened", "e.json", bytesOf(made));
    const {document: given} = store.value;
    for (const name of ["undone", "redone"]) {
        store.act(name);
        assert.equal(store.value.document, given);
    }
    store.act("typed", `${made} `);
    store.act("undone");
    store.act("undone");
    assert.deepEqual([store.value.document.text, store.value.document.tries], [made, 1]);
    store.act("left", "other.json", bytesOf("[]"));
    assert.deepEqual([store.value.document.text, store.value.past, store.value.future], ["{ }", [], []]);
    const alone = new Store();
    alone.act("opened", "e.json", bytesOf(made));
    alone.act("left", "other.json", bytesOf("[]"));
    assert.deepEqual([alone.value.document.name, alone.value.document.exercise], ["other.json", null]);
});

test("what was begun of an exercise goes on with its tries", () => {
    const [, made] = pairs()[0], store = new Store();
    store.act("opened", "e.json", new TextEncoder().encode(made));
    store.act("tried", 5);
    store.act("typed", `${made} `);
    assert.equal(store.value.document.tries, 6);
    store.act("resumed", `${made}\n`, 7);
    assert.deepEqual([store.value.document.text, store.value.document.tries, store.value.document.exercise.title], [`${made}\n`, 7, TITLE]);
    store.act("typed", made);
    assert.match(resultText(store.value.document, "Zoe"), /"tries":8,/);
});
