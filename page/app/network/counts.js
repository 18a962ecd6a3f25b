// Fields of how many units of a trade there are: none to all that it has.
import {say} from "../../words/say.js";
import {made} from "../shell/page.js";
import {leaving, refuse, showWhole, typedIn, wholeIn, whyNotWhole} from "../shell/whole.js";

/**
 * A field of a key, and what it is of behind it. `most` and `now` answer how many units there may be and are; `put` is given others, with
 * whether they are typed.
 */
export function countField(key, {most, now, put}) {
    const field = made("input", "", {type: "text", size: 6, autocomplete: "off", "data-key": key});
    const isWithin = (whole) => whole !== null && BigInt(whole) >= 0n && BigInt(whole) <= most(), within = (count) => (count < 0n ? 0n : count > most() ? most() : count);
    const reading = {
        read: (text) => (isWithin(wholeIn(text)) ? wholeIn(text) : null), shown: () => field.dataset.shown ?? "",
        why: (text) => (wholeIn(text) === null ? whyNotWhole(text) : say("number.between", {least: 0, most: most()})),
    };
    field.addEventListener("input", () => typedIn(field, {...reading, take: (whole) => put(BigInt(whole), true)}));
    leaving(field, reading);
    field.addEventListener("keydown", (event) => {
        const step = {ArrowUp: 1n, ArrowDown: -1n}[event.key];
        if (step === undefined || wholeIn(field.value) === null) return;
        event.preventDefault();
        put(within(now() + step), false);
        field.value = String(now());
        refuse(field, null);
    });
    return [field, made("span", "", {class: "quiet"})];
}

/** Shows how many units there are in such a field, of how many, and what it is called. */
export function showCount([field, of], count, most, says) {
    field.setAttribute("aria-label", says);
    showWhole(field, String(count));
    of.textContent = say("stage.of", {most});
}
