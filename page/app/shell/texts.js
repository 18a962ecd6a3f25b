// The texts that stand in the page whatever is looked at, and the choice of their language.
import {LANGUAGES, language, say} from "../../words/say.js";
import {sayEditor} from "../document/editor.js";
import {languageIn} from "../sharing/link.js";
import {sayControls} from "./controls.js";
import {keepLanguage} from "./keep.js";
import {choose, isKnown} from "./language.js";
import {made, part} from "./page.js";

/** Binds the choice of a language; `retell` says again what was answered to a command. */
export function bindLanguage(store, retell) {
    const select = part("language"), change = (name) => {
        const isOther = name !== language();
        choose(name);
        if (!isOther) return;
        sayAll();
        store.act("spoken");
        retell();
    };
    const options = Object.entries(LANGUAGES).map(([name, {name: own}]) => made("option", own,
        {value: name, lang: name}));
    select.append(...options);
    select.addEventListener("change", () => {
        keepLanguage(select.value);
        change(select.value);
    });
    addEventListener("hashchange", () => {
        const name = languageIn(location.hash);
        if (isKnown(name)) change(name);
    });
    sayAll();
}

/** Says all of it, and leaves out what was said of something that was done before. */
function sayAll() {
    part("language").value = language();
    tellPage();
    sayControls();
    sayEditor();
    for (const id of ["linked", "notice"]) part(id).hidden = true;
    for (const id of ["maker-says", "denominator-says"]) part(id).textContent = "";
}

/** Says again what stands in the page, where firms are called otherwise than before. */
export function sayAgain() {
    tellPage();
    sayControls();
}

/** Fills the elements that name their texts. */
export function tellPage() {
    document.documentElement.lang = language();
    document.title = say("page.title");
    const all = (attribute) => document.querySelectorAll(`[data-${attribute}]`);
    for (const element of all("say")) tell(element);
    for (const element of all("label")) element.setAttribute("aria-label", say(element.dataset.label));
    for (const element of all("tip")) element.title = say(element.dataset.tip);
    for (const element of all("placeholder")) element.placeholder = say(element.dataset.placeholder);
}

/** Puts a text into an element, around those elements in it that have a slot in the text. */
function tell(element) {
    const inside = [...element.querySelectorAll(":scope > [data-slot]")];
    const slots = new Map(inside.map((each) => [each.dataset.slot, each]));
    const places = Object.fromEntries([...slots.keys()].map((name) => [name, `{${name}}`]));
    const text = say(element.dataset.say, places);
    const parts = text.split(/\{(\w+)\}/);
    element.replaceChildren(...parts.map((each, k) => (k % 2 === 0 ? each : slots.get(each))));
}
