// What a firm or a lane is, beside it, while a pointer rests on it or it has the focus, where its letters would be too small to be read.
import {part} from "../shell/page.js";

/** How many pixels of the screen letters have at least. */
const LEAST = 11.9;

/** Leaves out the letters that would be too small at a scale, in pixels of the screen for one of the picture. */
export function leaveOut(scale) {
    for (const letters of part("stage").querySelectorAll("text")) {
        letters.classList.toggle("fine", Number(letters.getAttribute("font-size")) * scale < LEAST);
    }
}

/** Listens to pointer and focus on the network. */
export function readyHints() {
    const stage = part("stage"), hint = part("hint");
    const show = ({target}) => {
        const drawn = target.closest?.(".lane, .firm, .lane-label"), says = drawn && isUnsaid(drawn) ? drawn.getAttribute("aria-label") : null;
        hint.hidden = says === null;
        if (says === null) return;
        const {left, top, width} = drawn.getBoundingClientRect();
        hint.textContent = says;
        hint.style.left = `${Math.max(8, Math.min(left + width / 2 - hint.offsetWidth / 2, innerWidth - hint.offsetWidth - 8))}px`;
        hint.style.top = `${Math.max(8, top - hint.offsetHeight - 6)}px`;
    };
    for (const name of ["pointerover", "focusin"]) stage.addEventListener(name, show);
    for (const name of ["pointerleave", "focusout"]) stage.addEventListener(name, () => (hint.hidden = true));
}

/** Whether a firm's letters are left out, or a lane has no label, or one that is. */
function isUnsaid(drawn) {
    if (drawn.classList.contains("firm")) return drawn.querySelector(".fine") !== null;
    const label = [...part("stage").querySelectorAll(".lane-label")].find((each) => each.dataset.of === drawn.dataset.key);
    return !label || label.querySelector(".fine") !== null;
}
