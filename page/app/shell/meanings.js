// Words that are explained where they stand: each says what it means when it is pressed, or has the focus.
import {language, say} from "../../words/say.js";
import {made, part} from "./page.js";

/** The words, each with the key of its forms and that of its meaning. */
export const TERMS = [["term.equilibrium", "meaning.equilibrium"], ["term.content", "meaning.content"], ["term.worth", "meaning.worth"],
    ["term.utility", "meaning.utility"], ["term.gain", "meaning.gain"], ["term.blocks", "meaning.blocks"], ["term.trade", "meaning.trade"]];

const patterns = new Map();

/** All words of the language that is spoken, each a group. */
function pattern() {
    const forms = TERMS.map(([term]) => `(${say(term)})`).join("|");
    if (!patterns.has(language())) patterns.set(language(), new RegExp(`(?<!\\p{L})(?:${forms})(?!\\p{L})`, "giu"));
    return patterns.get(language());
}

/** Writes a text where it isn't there already, with its words explained. */
export function writeMeant(element, text) {
    if (element.textContent === text && element.lang === language()) return;
    const pieces = [], seen = new Set();
    let from = 0;
    for (const {0: word, index, ...groups} of text.matchAll(pattern())) {
        const [, meaning] = TERMS[TERMS.findIndex((_, k) => groups[k + 1] !== undefined)];
        if (seen.has(meaning)) continue;
        seen.add(meaning);
        pieces.push(text.slice(from, index), made("dfn", word, {tabindex: 0, class: "term", title: say(meaning)}));
        from = index + word.length;
    }
    element.replaceChildren(...pieces, text.slice(from));
    element.lang = language();
}

/** A word says what it means, below it, until something else is pressed or has the focus. */
export function bindMeanings() {
    const says = part("meaning"), hide = () => (says.hidden = true);
    const show = ({target}) => {
        const term = target.closest?.(".term");
        if (!term) return hide();
        const {left, bottom} = term.getBoundingClientRect();
        says.hidden = false;
        says.textContent = term.title;
        says.style.left = `${Math.max(8, Math.min(left, innerWidth - says.offsetWidth - 8))}px`;
        says.style.top = `${bottom + 4}px`;
    };
    for (const name of ["click", "focusin"]) document.addEventListener(name, show);
    document.addEventListener("keydown", ({key}) => key === "Escape" && hide());
    addEventListener("scroll", hide, true);
}
