// Why an answer is so, in the page: step by step above the network, and as a list with its picture beside it.
import {say} from "../../words/say.js";
import {canBeClaimed} from "../document/claims.js";
import {isCounted, isOld} from "../document/state.js";
import {drawing, keepingFocus, made, part, write} from "../shell/page.js";

/** What is told: the answer of `judge` to what is signed, or where it is looked at why a guess has no prices; null where there is none. */
export function reasonOf({view, judged, reason}) {
    if (view.mode === "sign") return judged;
    return view.mode === "guess" && view.hasReason ? reason : null;
}

/** The step of a story that is shown, as `{step, place, count}`, or null. It stays until the program has answered to a change. */
export function stepOf(value) {
    const told = reasonOf(value);
    if (!told?.story || value.view.isOver) return null;
    const {steps} = told.story, place = Math.min(value.view.step, steps.length - 1);
    return {step: steps[place], place, count: steps.length};
}

let shown = null;

/** Shows all that of a value. */
export function showStory(value) {
    showStep(value);
    const told = reasonOf(value), isThere = told !== null && told.sentences?.length > 0 && !told.isNone && isTold(value, told);
    part("reason").hidden = !isThere || value.view.isOver;
    if (isThere) showButtons(value, told);
    const now = isThere ? {told, step: stepOf(value)?.place ?? null} : null;
    if (now === null || (shown?.told === told && shown.step === now.step)) return;
    if (shown?.told !== told) fill(told);
    [...part("reason-lines").querySelectorAll("button")].forEach((button, k) => button.setAttribute("aria-pressed", `${k === now.step}`));
    shown = now;
}

function showButtons(value, told) {
    const old = isOld(value, told);
    part("reason").classList.toggle("old", old);
    part("reason-close").hidden = value.view.mode === "sign";
    part("reason-take").hidden = !canBeTaken(told.said) && !told.none?.arrangement;
    part("none-claim").hidden = !told.none?.claim;
    part("reason-claim").hidden = isCounted(value) || !canBeClaimed(told.said);
    for (const id of ["reason-take", "reason-claim", "none-claim"]) part(id).setAttribute("aria-disabled", `${old}`);
}

/** Whether an answer has whole prices for all trades, which a guess can have. */
function canBeTaken(said) {
    return said?.answer === "prices" || (said?.answer === "completes" && said.over === 1n);
}

/** Whether an answer is told beside the network; a fault of what is signed without a story stands above it already. */
function isTold({view}, {said, story}) {
    return view.mode === "guess" || (said !== null && (said.answer !== "fault" || story !== null));
}

function showStep(value) {
    const shownStep = stepOf(value);
    part("story").hidden = shownStep === null || shownStep.count === 1;
    if (shownStep === null) return;
    const {place, count} = shownStep;
    write("story-place", say("story.step", {place: place + 1, all: count}));
    part("story-back").setAttribute("aria-disabled", `${place === 0}`);
    part("story-next").setAttribute("aria-disabled", `${place === count - 1}`);
}

/**
 * The list of the steps, each a button that goes to it, and the picture; of an answer without a story its sentences. Behind them stands
 * what shows whether there are prices, where that was looked for.
 */
function fill({story, sentences, svg, none}) {
    const own = story === null ? sentences.map((line) => made("p", line)) : [made("p", story.head), listOf(story.steps)];
    const lines = [...own, ...(none?.lines ?? []).map((line) => made("p", line))];
    keepingFocus(part("reason-lines"), () => part("reason-lines").replaceChildren(...lines));
    part("reason-picture").replaceChildren(...[svg, none?.svg].filter(Boolean).map((picture) => {
        const figure = made("figure");
        figure.append(drawing(picture));
        return figure;
    }));
}

function listOf(steps) {
    const list = made("ol");
    list.append(...steps.map(({says}, k) => {
        const item = made("li");
        item.append(made("button", says, {type: "button", class: "step", "data-step": k, "data-key": `step:${k}`}));
        return item;
    }));
    return list;
}
