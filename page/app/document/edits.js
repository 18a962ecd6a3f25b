// Changes of a document's text at its offsets: what takes place, and at which prices. All else of the text stays as it is.
import {plain, written} from "../../read/json.js";

/** A text with some edits `{start, end, text}`, which don't overlap. */
export function applied(text, edits) {
    let made = "", at = 0;
    for (const edit of inOrder(edits)) {
        made += text.slice(at, edit.start) + edit.text;
        at = edit.end;
    }
    return made + text.slice(at);
}

/** Edits in the order of the text; of those at one place the earlier first. */
function inOrder(edits) {
    return [...edits].sort((one, other) => one.start - other.start);
}

/** The edits that turn a trade on or off. */
export function turned(network, name, isOn) {
    const arrangement = arrangementOf(network);
    if (arrangement === null) return begun(network, isOn ? [name] : []);
    const list = memberOf(arrangement, "on", "list");
    if (list === null) return [withMember(arrangement, "on", JSON.stringify(isOn ? [name] : []))];
    const isIt = ({kind, value}) => kind === "text" && value === name;
    if (!isOn) return without(list, isIt);
    return list.value.some(isIt) ? [] : [added(list, JSON.stringify(name))];
}

/** The edits that let some units of a trade go, or none. */
export function sent(network, name, units) {
    const arrangement = arrangementOf(network), entry = [name, BigInt(units)], isNone = entry[1] === 0n;
    if (arrangement === null) return begun(network, isNone ? [] : [entry]);
    const list = memberOf(arrangement, "on", "list");
    if (list === null) return [withMember(arrangement, "on", written(isNone ? [] : [entry]))];
    const isIt = ({kind, value}) => value === name || (kind === "list" && value[0]?.value === name), found = list.value.find(isIt);
    if (isNone) return without(list, isIt);
    const number = found?.kind === "list" ? found.value[1] : undefined;
    if (number !== undefined) return replaced(number, String(units));
    return found ? replaced(found, written(entry)) : [added(list, written(entry))];
}

/** The edits that give trades prices, by a Map from names to whole numbers in letters. */
export function priced(network, prices) {
    const arrangement = arrangementOf(network);
    if (arrangement === null) return begun(network, [], prices);
    const list = memberOf(arrangement, "prices", "list");
    if (list === null) return [withMember(arrangement, "prices", entriesText(network, prices))];
    const entries = list.value.filter(({kind, value}) => kind === "list" && value[0]?.kind === "text");
    const places = new Map(entries.map(({value: [name, number]}) => [name.value, number]));
    const edits = [], missing = [];
    for (const [name, price] of prices) {
        const place = places.get(name);
        if (!place) missing.push(`[${JSON.stringify(name)},${price}]`);
        else if (network.text.slice(place.start, place.end) !== price) edits.push({start: place.start, end: place.end, text: price});
    }
    return missing.length === 0 ? edits : [...edits, added(list, missing.join(","))];
}

/** The edits that make an arrangement of some trades, or entries of trades and their units, and prices; what is so already isn't touched. */
export function arranged(network, on, prices) {
    const arrangement = arrangementOf(network);
    if (arrangement === null) return begun(network, on, prices);
    const list = memberOf(arrangement, "on", "list"), text = written(on), now = list === null ? null : list.value.map((item) => written(plain(item)));
    const isSame = now !== null && now.length === on.length && on.every((each) => now.includes(written(each)));
    const turning = isSame ? [] : [list === null ? withMember(arrangement, "on", text) : {start: list.start, end: list.end, text}];
    return [...turning, ...priced(network, prices)];
}

/** Whether a document has an arrangement that can be changed. */
export function hasArrangement(network) {
    return arrangementOf(network) !== null;
}

/** Whether a document can have one: it is an object. */
function mayHaveArrangement(network) {
    return network.root.kind === "object" && network.trades.length > 0;
}

function arrangementOf(network) {
    return network.root.kind === "object" ? memberOf(network.root, "arrangement", "object") : null;
}

/** A member of an object that is of a kind, or null. */
export function memberOf(object, name, kind) {
    const member = object.value.get(name);
    return member?.kind === kind ? member : null;
}

/** The edit that begins an arrangement at the end of a document; prices that aren't given are 0. */
function begun(network, on, prices = new Map()) {
    if (!mayHaveArrangement(network)) return [];
    return [withMember(network.root, "arrangement", `{"on":${written(on)},"prices":${entriesText(network, prices)}}`)];
}

function entriesText(network, prices) {
    return `[${network.trades.map(({name}) => `[${JSON.stringify(name)},${prices.get(name) ?? "0"}]`).join(",")}]`;
}

/** A member at the end of an object; of equal members the last one counts. */
export function withMember({value, end}, name, text) {
    return {start: end - 1, end: end - 1, text: `${value.size > 0 ? "," : ""}${JSON.stringify(name)}:${text}`};
}

/** The edits that write a value in the place of another. */
export function replaced({start, end}, text) {
    return [{start, end, text}];
}

/** The edits that give an object a member, in the place of the one that it has. */
export function put(object, name, text) {
    const before = object.value.get(name);
    return before ? replaced(before, text) : [withMember(object, name, text)];
}

/** The edits that make a text a member of a document, in place of any other of its name. */
export function memberAs({root}, name, text) {
    return root.kind === "object" ? put(root, name, text) : [];
}

/** Another item behind the last one of a list. */
export function added({value, end}, text) {
    if (value.length === 0) return {start: end - 1, end: end - 1, text};
    const last = value[value.length - 1].end;
    return {start: last, end: last, text: `,${text}`};
}

/** A list without some of its items, and without the commas that set them apart. */
export function without({value}, isGone) {
    const kept = value.filter((item) => !isGone(item));
    if (kept.length === value.length) return [];
    if (kept.length === 0) return [{start: value[0].start, end: value[value.length - 1].end, text: ""}];
    const edits = [];
    value.forEach((item, k) => {
        if (!isGone(item)) return;
        const isLast = value.slice(k).every(isGone);
        edits.push(isLast ? {start: value[k - 1].end, end: item.end, text: ""} : {start: item.start, end: value[k + 1].start, text: ""});
    });
    return edits;
}
