// Which language the page speaks: that of its link, or the one that was chosen before, or the first one of the browser
// that there is.
import {LANGUAGES, speak} from "../../words/say.js";
import {languageIn} from "../sharing/link.js";
import {keptLanguage} from "./keep.js";

/** The language that somebody chose, here or by a link, or null. Links hand it on. */
let chosen = null;

/** Whether there is a language of a name. */
export function isKnown(name) {
    return Object.hasOwn(LANGUAGES, name ?? "");
}

/** Speaks the language with which the page begins. */
export function speakFirst() {
    chosen = [languageIn(location.hash), keptLanguage()].find(isKnown) ?? null;
    const own = (navigator.languages ?? [navigator.language]).map((name) => name.slice(0, 2).toLowerCase());
    speak(chosen ?? own.find(isKnown) ?? "en");
}

/** Speaks a language that somebody chose. */
export function choose(name) {
    chosen = name;
    speak(name);
}

/** The end of a link that hands the language on, where one was chosen. */
export function linkEnd() {
    return chosen === null ? "" : `&lang=${chosen}`;
}
