// What firms and trades are called where their notes say so. A note is a text, or one for each language; the format's names stay plain.
let spoken = "en", network = null, made = {language: "", firms: new Map(), trades: new Map()};

/** Labels are in another language from now on. */
export function labelsIn(language) {
    spoken = language;
}

/** A note in the language that is spoken, or in another one, or null. */
export function noteOf(note) {
    if (typeof note === "string") return note.trim() || null;
    if (typeof note !== "object" || note === null || Array.isArray(note)) return null;
    const texts = [note[spoken], note.en, note.de];
    return texts.find((text) => typeof text === "string" && text.trim() !== "")?.trim() ?? null;
}

/** From now on the firms and trades of a network are spoken of. */
export function labelsOf(next) {
    if (network !== next) made = {...made, language: ""};
    network = next;
}

/** Whether a document's note says that its firms are people. */
export function saysPeople(note) {
    return note?.people === true || note?.note?.people === true;
}

function labels() {
    if (made.language === spoken) return made;
    const mapOf = (list) => new Map(list.filter(({note}) => noteOf(note) !== null).map(({name, note}) => [name, noteOf(note)]));
    made = {language: spoken, firms: mapOf(network?.firms ?? []), trades: mapOf(network?.trades ?? [])};
    return made;
}

export function firmLabel(name) {
    return labels().firms.get(name) ?? name;
}

export function tradeLabel(name) {
    return labels().trades.get(name) ?? name;
}

/** The label of a name of either kind; what is none stays. */
export function labelOf(name) {
    const {firms, trades} = labels();
    return trades.get(name) ?? firms.get(name) ?? name;
}

/** By which keys the values of texts are names of firms, and by which they are those of either kind. */
const OF_FIRMS = ["firm", "seller", "buyer"], OF_EITHER = ["name", "trade", "from", "to", "purchase", "sale"];

/** A value of a text, as a label where it is a name. */
export function called(key, value) {
    if (typeof value !== "string") return value;
    return OF_FIRMS.includes(key) ? firmLabel(value) : OF_EITHER.includes(key) ? labelOf(value) : value;
}
