// All firms that would drop contracts: `judge` says the first one of the document, so it is asked again with those that are known at the end.
import {readAnswer} from "./answer.js";
import {withMember} from "./network.js";

/** How many are looked for. */
const MOST = 40;

/** What `judge` says of each firm that would drop contracts, beginning with a first one. */
export async function droppers(ask, network, first) {
    const found = new Map();
    let said = first;
    while (said.answer === "drops" && !found.has(said.firm) && found.size < MOST) {
        found.set(said.firm, said);
        said = readAnswer(await ask(["judge"], withLast(network, found)));
    }
    return [...found.values()];
}

/** The text of a document with some of its firms last. */
function withLast(network, names) {
    const places = network.root.value.get("firms").value, texts = places.map(({start, end}) => network.text.slice(start, end));
    const isLast = (_, k) => names.has(network.firms[k]?.name);
    return withMember(network, "firms", `[${[...texts.filter((text, k) => !isLast(text, k)), ...texts.filter(isLast)].join(",")}]`);
}
