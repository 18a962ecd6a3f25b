// What a class does with exercises: a teacher makes one, a pupil tries and saves the result, and a teacher opens many of
// these.
import {say} from "../../words/say.js";
import {networkOf} from "../document/state.js";
import {offer, on, part, write} from "../shell/page.js";
import {forgetDone} from "./begun.js";
import {exerciseIn, exerciseMade, GOALS, mayBe, resultText} from "./exercise.js";
import {resultFragment, resultsIn} from "../sharing/link.js";
import {showLink} from "../sharing/links.js";
import {copyTable, saveTable} from "../sharing/tables.js";
import {drawGuesses, resultsTable} from "./results.js";

/**
 * Binds all that. `other` is the name and the text of what is looked at when an exercise is left, and nothing was before it; `run` answers
 * a command for a document.
 */
export function bindLesson(store, [other, text], run) {
    bindMaker(store);
    bindResultLinks(store);
    on("results-draw", () => drawGuesses(store.value, run.said));
    store.watch((_, name) => ["opened", "left"].includes(name) && (part("pupil").value = ""));
    on("exercise-leave", () => store.act("left", other, new TextEncoder().encode(text)));
    on("result-save", () => {
        const name = part("pupil").value.trim(), {document} = store.value;
        const file = `${stemOf(name)}-${stemOf(document.exercise.title)}.json`;
        offer(file, resultText(document, name), "application/json");
        forgetDone(document);
    });
    on("results-csv", () => saveTable("results", resultsTable(store.value)));
    on("results-copy", () => copyTable(resultsTable(store.value)));
    on("results-forget", () => store.act("forgot"));
    part("results").addEventListener("click", ({target}) => {
        const result = store.value.results[target.closest("[data-result]")?.dataset.result];
        if (!result) return;
        store.act("opened", result.file, result.document.bytes);
        if (result.tries !== null) store.act("tried", Number(result.tries));
    });
}

/** A result as a link, which has the pupil's name only where that is chosen; and links of results that are put in. */
function bindResultLinks(store) {
    on("result-link", () => {
        const {document} = store.value, name = part("result-named").checked ? part("pupil").value.trim() : "";
        showLink(document.exercise.title, resultFragment(resultText(document, name)));
        forgetDone(document);
    });
    part("result-links").addEventListener("change", async () => {
        const results = await resultsIn(part("result-links").value);
        part("result-links-says").textContent = results.length === 0 ? say("results.no_link") : say("results.links", {count: results.length});
        if (results.length > 0) [part("result-links").value] = [""];
        if (results.length > 0) store.act("resulted", results);
    });
}

/** A name as a part of that of a file. */
function stemOf(name) {
    return name.replace(/[^\p{L}\p{N}]+/gu, "-").slice(0, 60) || "result";
}

function bindMaker(store) {
    on("make", () => {
        const network = networkOf(store.value.document), {title, goal} = exerciseIn(network) ?? {title: "", goal: "equilibrium"};
        for (const option of part("maker-goal").options) option.disabled = !mayBe(network, option.value);
        part("maker").hidden = false;
        part("maker-title").value = title;
        part("maker-goal").value = goal;
        part("maker-says").textContent = "";
        part("maker-title").focus();
    });
    on("maker-put", () => {
        const title = part("maker-title").value.trim(), network = networkOf(store.value.document);
        const isObject = network.root.kind === "object";
        const key = title === "" ? "maker.no_title" : isObject ? "maker.is_made" : "maker.no_object";
        if (title !== "") store.act("edited", exerciseMade(network, title, part("maker-goal").value));
        part("maker-says").textContent = say(key);
    });
    on("maker-try", () => {
        const {name, bytes} = store.value.document;
        store.act("opened", name, bytes);
    });
    on("maker-close", () => (part("maker").hidden = true));
}

/** Shows the exercise that the document was opened as, and what there is of results. */
export function showLesson(value) {
    const {results} = value, {exercise, tries} = value.document, page = document.documentElement;
    page.dataset.exercise = exercise?.goal ?? "none";
    const isAsking = results.some(({verdict}) => verdict === null);
    page.dataset.results = results.length === 0 ? "none" : isAsking ? "asking" : "answered";
    part("exercise").hidden = exercise === null;
    part("tab-results").hidden = results.length === 0;
    if (exercise === null) return;
    write("exercise-title", exercise.title);
    write("exercise-says", say(GOALS[exercise.goal].says));
    write("tries", say("exercise.tries", {count: tries}));
}
