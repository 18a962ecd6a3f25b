// Whole numbers as they are typed, and what is refused in a field: the reason stands beside it, and what was typed stays.
import {say} from "../../words/say.js";
import {made} from "./page.js";

/** The most digits of a number of a document. */
const MOST = 18;

/**
 * The whole number that a text is, in digits, with a minus where it is below 0; null where it is none, or has more digits. It may
 * have a plus, zeros ahead, and a minus as typesetters write it.
 */
export function wholeIn(text, most = MOST) {
    const typed = text.trim().replace(/^[\u2212\u2013]/, "-");
    if (!/^[+-]?\d+$/.test(typed)) return null;
    const whole = String(BigInt(typed));
    return whole.replace("-", "").length <= most ? whole : null;
}

/** Why a text is no whole number. */
export function whyNotWhole(text, most = MOST) {
    const typed = text.trim();
    if (isBegun(typed)) return say("number.wanted");
    if (/^[+\-\u2212\u2013]?\d+$/.test(typed)) return say("number.too_long", {text: typed, most});
    if (/^[+\-\u2212\u2013]?[\d.,'\u202f ]*\d[.,]?$/.test(typed)) return say("number.not_whole", {text: typed});
    return say(/^[+\-\u2212\u2013]?\d+ *\/ *\d+$/.test(typed) ? "number.fraction" : "number.none", {text: typed});
}

/** Whether a text may become a number: nothing, or a sign. */
function isBegun(text) {
    return /^[+\-\u2212\u2013]?$/.test(text);
}

let refusals = 0;

/** Refuses what stands in a field for a reason, or takes it, where the reason is null. */
export function refuse(field, reason) {
    const said = refusalOf(field);
    field.setAttribute("aria-invalid", `${reason !== null}`);
    if (reason === null) {
        field.removeAttribute("aria-describedby");
        said?.remove();
    } else if (said) said.textContent = reason;
    else {
        const id = `refusal-${refusals += 1}`;
        field.after(made("span", reason, {id, class: "refusal", role: "status"}));
        field.setAttribute("aria-describedby", id);
    }
}

function refusalOf(field) {
    return field.nextElementSibling?.classList.contains("refusal") ? field.nextElementSibling : null;
}

/** Whether what stands in a field was refused. */
export function isRefused(field) {
    return field.getAttribute("aria-invalid") === "true";
}

/** Shows a number in its field, but not in the place of what says the same, or was refused and nothing changed since. */
export function showWhole(field, shown) {
    const isChanged = field.dataset.shown !== shown;
    field.dataset.shown = shown;
    if (isRefused(field) ? !isChanged : field === document.activeElement && wholeIn(field.value) === shown) return;
    refuse(field, null);
    field.value = shown;
}

/** Takes what is typed in a field where it is right; `read` answers it, or null, `why` the reason, and `shown` what stands in the document. What is only begun isn't refused yet. */
export function typedIn(field, {read, why, shown, take}) {
    const content = read(field.value);
    if (content !== null) {
        refuse(field, null);
        take(content);
    } else if (isBegun(field.value.trim())) {
        refuse(field, null);
        field.setAttribute("aria-invalid", "true");
    } else refuse(field, reasonFor(field, why, shown));
}

/** Why what stands in a field isn't taken, and what stands in the document as long as it is there. */
function reasonFor(field, why, shown) {
    const now = shown(), says = why(field.value);
    return now === "" ? says : `${says} ${say("number.stays", {now})}`;
}

/** A field is left, or Escape is pressed in it: what was refused stays with its reason when it is left, and goes when Escape is pressed. */
export function leaving(field, {why, shown}) {
    field.addEventListener("blur", () => {
        if (isRefused(field)) refuse(field, reasonFor(field, why, shown));
        else field.value = shown();
    });
    field.addEventListener("keydown", (event) => {
        if (event.key !== "Escape" || !isRefused(field)) return;
        event.stopPropagation();
        field.value = shown();
        refuse(field, null);
    });
}
