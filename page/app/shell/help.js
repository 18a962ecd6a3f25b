// What explains the page: a short text for each control, all of them together behind "?", and three steps for the first time.
import {say} from "../../words/say.js";
import {areStepsDone, keepSteps} from "./keep.js";
import {TERMS} from "./meanings.js";
import {made, on, part} from "./page.js";

/** Binds the panel and the steps. */
export function bindHelp(store) {
    const show = (isShown) => {
        if (isShown) fill();
        part("help-panel").hidden = !isShown;
        part("help").setAttribute("aria-expanded", `${isShown}`);
        part(isShown ? "help-close" : "help").focus();
    };
    on("help", () => show(part("help-panel").hidden));
    on("help-close", () => show(false));
    part("help-panel").addEventListener("keydown", ({key}) => key === "Escape" && show(false));
    on("steps-done", () => {
        keepSteps();
        showSteps(store.value);
        part("stage").focus();
    });
    store.watch((value, name) => name === "spoken" && !part("help-panel").hidden && fill());
}

/** Shows the first steps until they are dismissed; an exercise has its own task. */
export function showSteps({document: {exercise, isWhole}, view}) {
    part("steps").hidden = exercise !== null || !isWhole || view.mode !== "guess" || areStepsDone();
}

/** Each control that can be seen, with what it does, and each word with what it means. */
function fill() {
    const controls = [...document.querySelectorAll("[data-tip]")].filter((element) => element.getClientRects().length > 0);
    part("help-controls").replaceChildren(...controls.flatMap((element) => [made("dt", nameOf(element)), made("dd", say(element.dataset.tip))]));
    part("help-words").replaceChildren(...TERMS.map(([, meaning]) => made("li", say(meaning))));
}

function nameOf(element) {
    const label = document.querySelector(`label[for="${element.id}"]`);
    return element.getAttribute("aria-label") ?? label?.textContent ?? element.textContent;
}
