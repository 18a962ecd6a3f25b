// The texts of the page, each from the table of the language that is spoken. A text has a key, as "deal.none": its
// part of the table and its name there. It may have one form for each way in which the language counts; `count` says
// which it is.
import {DE} from "./de.js";
import {EN} from "./en.js";
import {FAULTS} from "./en/faults.js";
import {called, labelsIn, labelsOf, saysPeople} from "./labels.js";

/** The languages, each with its own name, its table, and what firms are called where they are people. */
export const LANGUAGES = {
    en: {name: "English", table: EN, people: {firm: "person", firms: "people", Firm: "Person", Firms: "People"}},
    de: {name: "Deutsch", table: DE, people: {Firma: "Person", Firmen: "Personen"}},
};

/** The parts of a table in which firms are the format's. */
const PLAIN = new Set([...Object.keys(FAULTS), "command"]);

let spoken = "en", forms = new Intl.PluralRules("en"), arePeople = false;

/** The language that is spoken. */
export function language() {
    return spoken;
}

/** Speaks another language from now on. */
export function speak(next) {
    spoken = next;
    labelsIn(next);
    forms = new Intl.PluralRules(next);
}

/**
 * Speaks of a network's firms and trades from now on, of the firms as people where that is told, or its note says so; answers whether
 * firms are called otherwise than before.
 */
export function speakOf(network, people = null) {
    const before = arePeople;
    labelsOf(network);
    arePeople = people ?? saysPeople(network.data.note);
    return arePeople !== before;
}

/** A text as it is said of firms or of people; where a pronoun differs both stand in brackets. */
function spokenOf(text, part) {
    const {people} = LANGUAGES[spoken], said = text.replace(/\[(\w+)\|(\w+)\]/g, arePeople ? "$2" : "$1");
    return arePeople && !PLAIN.has(part) ? said.replace(/(?<!\{)\b[Ff]irm\w*/g, (word) => people[word] ?? word) : said;
}

/** A text with its values put in by their names, firms and trades by their labels. One that isn't there, or lacks a value, is an error. */
export function say(key, values = {}) {
    const [part, name] = key.split("."), entry = LANGUAGES[spoken].table[part]?.[name];
    if (entry === undefined) throw new Error(`There is no text ${key} in ${spoken}.`);
    const text = typeof entry === "string" ? entry : entry[forms.select(Number(given(values, "count", key)))];
    return spokenOf(text, part).replace(/\{(\w+)\}/g, (_, each) => given(values, each, key));
}

function given(values, name, key) {
    if (values[name] === undefined) throw new Error(`The text ${key} wants ${name}.`);
    return called(name, values[name]);
}
