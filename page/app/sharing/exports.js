// What goes out of the page as a file: the document, a picture, an answer, and tables.
import {hasUnits} from "../../read/limits.js";
import {entriesOf} from "../../read/network.js";
import {namesOn, unitsOf} from "../../read/standing.js";
import {firmLabel, tradeLabel} from "../../words/labels.js";
import {say} from "../../words/say.js";
import {networkOf} from "../document/state.js";
import {cellsOf, HEADS, linesOf} from "../network/firms.js";
import {offer, part} from "../shell/page.js";
import {inPixels, standing} from "./picture.js";

/** The name of a file without its ending. */
export function stem(name) {
    return name.replace(/\.\w+$/, "") || "document";
}

export function saveDocument({document: {name, bytes}}) {
    offer(`${stem(name)}.json`, bytes, "application/json");
}

/** The network as it is on the screen, by name and title, as SVG. */
export function savePicture({document}, title) {
    offer(`${stem(document.name)}.svg`, pictureNow(title).svg, "image/svg+xml");
}

/** The same as pixels. */
export async function savePixels({document}, title) {
    offer(`${stem(document.name)}.png`, await inPixels(pictureNow(title)), "image/png");
}

function pictureNow(title) {
    return standing(part("stage").firstElementChild, title);
}

/** The bytes that the program wrote. */
export function saveAnswer({answer}) {
    const [ending, type] = answer.words[1]?.startsWith("--csv") ? ["csv", "text/csv"] : ["json", "application/json"];
    offer(`${stem(answer.document.name)}-${answer.words[0] ?? "usage"}.${ending}`, answer.bytes, type);
}

/** How an answer is asked for in a terminal. */
export function lineOf({words, document}) {
    const isRead = !["drill", "cases", "help", "-h", "--help", "--version"].includes(words[0]);
    const quoted = (word) => (/^[\w.\-/]+$/.test(word) ? word : `'${word.replaceAll("'", "'\\''")}'`);
    return ["market", ...words.map(quoted), ...(isRead ? ["<", quoted(document.name || "document.json")] : [])].join(" ");
}

/** The table of firms, with its heads. */
export function firmsTable({guess}) {
    return [HEADS.map((head) => say(head)), ...[...linesOf(guess).values()].map((line) => [firmLabel(line.firm), ...cellsOf(line)])];
}

/** The ranges of prices; beside a trade that takes place stands 1, or how many units of it go. */
export function rangesTable({ranges: {said}}) {
    const taking = new Set(namesOn(said.on)), units = unitsOf(said.on), countOf = (trade) => units.get(trade) ?? (taking.has(trade) ? 1 : 0);
    const lines = said.ranges.map(({trade, low, high}) => [tradeLabel(trade), countOf(trade), low ?? "", high ?? ""]);
    return [["head.trade", units.size > 0 ? "head.units" : "head.on", "head.low", "head.high"].map((head) => say(head)), ...lines];
}

/** Whether an answer to a document whose trades have units has a table. */
export function isCountedAnswer(asked, said) {
    return ["solved", "prices", "ranges", "firms"].includes(said?.answer) && hasUnits(networkOf(asked).data);
}

/** How many units of each trade go, of how many, and at which price, or at least and at most at which; or what each firm has. */
export function countsTable(asked, said) {
    if (said.answer === "firms") return [HEADS.map((head) => say(head)), ...said.firms.map((line) => [firmLabel(line.firm), ...cellsOf(line)])];
    const network = networkOf(asked), counts = entriesOf(said.on ?? network.arrangement.on), ofPrice = pricesOf(said);
    const lines = network.trades.map(({name, seller, buyer}) => [tradeLabel(name), firmLabel(seller), firmLabel(buyer), counts.get(name) ?? 0n, network.capacity(name),
        ...ofPrice.get(name)]);
    const heads = said.answer === "ranges" ? ["head.low", "head.high"] : ["head.price"];
    return [["head.trade", "head.from", "head.to", "head.units", "head.all_units", ...heads].map((head) => say(head)), ...lines];
}

/** What a table has of the price of each trade: that, or the lowest and the highest one, nothing where there is no bound. */
function pricesOf({ranges, prices}) {
    return new Map(ranges ? ranges.map(({trade, low, high}) => [trade, [low ?? "", high ?? ""]]) : [...entriesOf(prices)].map(([name, price]) => [name, [price]]));
}
