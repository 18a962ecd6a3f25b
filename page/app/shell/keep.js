// The documents of last time, one for each tab, what was begun of exercises, the language that was chosen, whether the page is
// easy and its first steps are known, which the browser keeps where it lets pages do so. Nothing depends on them, and no name of a pupil is among them.

const KEY = "market: the document", EXERCISES = "market: the exercises", LANGUAGE = "market: the language", EASY = "market: easy", STEPS = "market: the steps",
    WAIT = 300;

/** Of how many exercises what was begun is kept, and of how many tabs the document. */
const MOST = 8, MOST_TABS = 3;

const TAB = "market: the tab";

const waiting = new Map();

/** Keeps the document of this tab a little later, so that a drag is kept once; those of other tabs stay. */
export function keep({name, text, isWhole}) {
    const others = () => kept().filter(({tab}) => tab !== tabNow());
    if (isWhole && text !== "") later(KEY, () => [{name, text, tab: tabNow()}, ...others()].slice(0, MOST_TABS));
}

/** The name of this tab, which it keeps when it is loaded again. */
function tabNow() {
    const known = tried(() => sessionStorage.getItem(TAB));
    if (known) return known;
    const fresh = Math.random().toString(36).slice(2);
    tried(() => sessionStorage.setItem(TAB, fresh));
    return tried(() => sessionStorage.getItem(TAB)) ?? "";
}

function later(key, content) {
    clearTimeout(waiting.get(key));
    waiting.set(key, setTimeout(() => put(key, content()), WAIT));
}

function put(key, content) {
    clearTimeout(waiting.get(key));
    tried(() => localStorage.setItem(key, JSON.stringify(content)));
}

function remove(key) {
    clearTimeout(waiting.get(key));
    tried(() => localStorage.removeItem(key));
}

function read(key) {
    return tried(() => JSON.parse(localStorage.getItem(key)));
}

/** The documents that are kept, as `{name, text, tab}`, that of this tab first. */
export function kept() {
    const all = [read(KEY)].flat().filter(isKept), isOwn = ({tab}) => tab === tabNow();
    return [...all.filter(isOwn), ...all.filter((each) => !isOwn(each))];
}

function isKept(found) {
    return typeof found?.text === "string" && typeof found.name === "string";
}

/** What was begun of exercises, the last one first, each as `{name, text, tries}`. */
export function begun() {
    const found = read(EXERCISES);
    return Array.isArray(found) ? found.filter((each) => isKept(each) && Number.isSafeInteger(each.tries)) : [];
}

/** Keeps what was done of an exercise in the place of what is kept of the same one. */
export function keepBegun({name, text, tries}, isSame) {
    later(EXERCISES, () => [{name, text, tries}, ...begun().filter((each) => !isSame(each))].slice(0, MOST));
}

/** Forgets what is kept of an exercise. */
export function forgetBegun(isSame) {
    put(EXERCISES, begun().filter((each) => !isSame(each)));
}

/** Forgets the documents. */
export function forget() {
    remove(KEY);
}

/** Keeps the name of a language. */
export function keepLanguage(name) {
    tried(() => localStorage.setItem(LANGUAGE, name));
}

/** The name of the language that is kept, or null. */
export function keptLanguage() {
    return tried(() => localStorage.getItem(LANGUAGE));
}

/** Keeps whether the page is easy. */
export function keepEasy(isEasy) {
    if (isEasy) put(EASY, true);
    else remove(EASY);
}

export function keptEasy() {
    return read(EASY) === true;
}

/** Keeps that the first steps were dismissed. */
export function keepSteps() {
    put(STEPS, true);
}

export function areStepsDone() {
    return read(STEPS) === true;
}

/** Forgets all that is kept. */
export function forgetAll() {
    for (const key of [KEY, EXERCISES, LANGUAGE, EASY, STEPS]) remove(key);
}

/** A browser may refuse, by a setting or from a disk. */
function tried(act) {
    try {
        return act();
    } catch {
        return null;
    }
}
