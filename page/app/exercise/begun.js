// What was begun of an exercise: kept from its first change on, offered where the same exercise is opened again, and forgotten
// when its result is saved. The count of tries goes on from there, whether or not it is taken up.
import {Network} from "../../read/network.js";
import {say} from "../../words/say.js";
import {networkOf} from "../document/state.js";
import {begun, forgetBegun, keepBegun} from "../shell/keep.js";
import {on, part} from "../shell/page.js";
import {isAsGiven} from "./exercise.js";

/** What is offered to be taken up, or null. */
let offered = null;

/** Whether something kept is of the exercise that a document is. */
function isOf(document) {
    return ({text}) => isAsGiven(new Network(text), networkOf(document)) === true;
}

/** Binds all that; `changes` are the actions that change a document. */
export function bindBegun(store, changes) {
    store.watch(({document}, name) => {
        if (name === "opened") offer(store);
        else if (document.exercise !== null && changes.includes(name)) {
            show(null);
            keepBegun(document, isOf(document));
        }
    });
    on("begun-open", () => {
        const {text, tries} = offered;
        store.act("resumed", text, tries);
        show(null);
    });
    on("forget", () => show(null));
    on("begun-forget", () => {
        forgetBegun(isOf(store.value.document));
        store.act("tried", 0);
        show(null);
    });
}

/** Offers what was begun of the exercise that was opened, if anything was, and counts on. */
function offer(store) {
    const {document} = store.value, found = document.exercise === null ? null : begun().find(isOf(document)) ?? null;
    const isOther = found !== null && found.text !== document.text;
    if (found !== null) store.act("tried", found.tries);
    show(isOther ? found : null);
}

function show(found) {
    offered = found;
    part("begun").hidden = found === null;
    sayBegun();
}

/** Says it, in the language that is spoken. */
export function sayBegun() {
    part("begun-says").textContent = offered === null ? "" : say("exercise.begun", {count: offered.tries});
}

/** Forgets what is kept of the exercise of a document, once its result is saved. */
export function forgetDone(document) {
    forgetBegun(isOf(document));
    show(null);
}
