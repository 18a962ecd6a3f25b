// The sheets of a workbook (.xlsx) as rows of cells: a zip of parts in XML, of which texts, numbers and the values of formulas are taken.

/** How far a sheet is read. */
const MOST_ROWS = 5000, MOST_COLUMNS = 200;

const ENTRY = 0x02014b50, END = 0x06054b50, SIGNS = {lt: "<", gt: ">", amp: "&", quot: '"', apos: "'"};

/** Whether bytes are those of a zip, as a workbook is. */
export function isWorkbook(bytes) {
    return [0x50, 0x4b, 3, 4].every((byte, k) => bytes[k] === byte);
}

/** The sheets in which something stands, each as rows of texts; none where the bytes are no workbook. */
export async function sheetsIn(bytes) {
    const parts = partsIn(bytes), number = (name) => Number(/^xl\/worksheets\/sheet(\d+)\.xml$/.exec(name)?.[1] ?? 0);
    const names = [...parts.keys()].filter((name) => number(name) > 0).sort((one, other) => number(one) - number(other));
    const shared = parts.has("xl/sharedStrings.xml") ? textsIn(await unpacked(bytes, parts.get("xl/sharedStrings.xml"))) : [];
    const sheets = await Promise.all(names.map(async (name) => cellsIn(await unpacked(bytes, parts.get(name)), shared)));
    return sheets.filter((rows) => rows.length > 0);
}

/** Where the parts of a zip stand, by their names. */
function partsIn(bytes) {
    const view = new DataView(bytes.buffer, bytes.byteOffset, bytes.byteLength), found = new Map();
    let end = bytes.length - 22;
    while (end >= 0 && view.getUint32(end, true) !== END) end -= 1;
    let at = end < 0 ? bytes.length : view.getUint32(end + 16, true);
    while (at + 46 <= bytes.length && view.getUint32(at, true) === ENTRY) {
        const [name, extra, comment] = [28, 30, 32].map((offset) => view.getUint16(at + offset, true));
        const place = {method: view.getUint16(at + 10, true), size: view.getUint32(at + 20, true), start: view.getUint32(at + 42, true)};
        found.set(new TextDecoder().decode(bytes.subarray(at + 46, at + 46 + name)), place);
        at += 46 + name + extra + comment;
    }
    return found;
}

/** The text of a part, which is packed by deflate, or as it is. */
async function unpacked(bytes, {method, size, start}) {
    const view = new DataView(bytes.buffer, bytes.byteOffset + start, 30), from = start + 30 + view.getUint16(26, true) + view.getUint16(28, true);
    const packed = new Blob([bytes.subarray(from, from + size)]);
    return method === 0 ? packed.text() : new Response(packed.stream().pipeThrough(new DecompressionStream("deflate-raw"))).text();
}

/** The texts that cells share. */
function textsIn(xml) {
    return [...xml.matchAll(/<si>(.*?)<\/si>|<si\/>/gs)].map(([, content]) => textOf(content ?? ""));
}

/** The text in some XML, of all of its runs but those that say how it is spoken. */
function textOf(xml) {
    return [...xml.replace(/<rPh.*?<\/rPh>/gs, "").matchAll(/<t(?:\s[^>]*)?>(.*?)<\/t>/gs)].map(([, text]) => plainSigns(text)).join("");
}

function plainSigns(text) {
    return text.replace(/&(?:#(\d+)|#x([0-9a-fA-F]+)|(\w+));/g, (whole, ten, sixteen, name) => {
        if (name !== undefined) return SIGNS[name] ?? whole;
        return String.fromCodePoint(ten === undefined ? parseInt(sixteen, 16) : Number(ten));
    });
}

function cellsIn(xml, shared) {
    const rows = [];
    for (const [, attributes, content = ""] of xml.matchAll(/<c\b([^>]*?)(?:\/>|>(.*?)<\/c>)/gs)) {
        const [, letters, number] = /\br="([A-Z]+)(\d+)"/.exec(attributes) ?? [], row = Number(number) - 1, column = indexOf(letters ?? "");
        if (letters === undefined || row >= MOST_ROWS || column >= MOST_COLUMNS) continue;
        while (rows.length <= row) rows.push([]);
        while (rows[row].length < column) rows[row].push("");
        rows[row][column] = contentOf(/\bt="(\w+)"/.exec(attributes)?.[1] ?? "n", content, shared);
    }
    return rows;
}

/** The place of a column by its letters: 0 for A, 26 for AA. */
function indexOf(letters) {
    return [...letters].reduce((sum, letter) => sum * 26 + letter.charCodeAt(0) - 64, 0) - 1;
}

/** What stands in a cell; a number is written as short as it can be. */
function contentOf(type, xml, shared) {
    const value = plainSigns(/<v(?:\s[^>]*)?>(.*?)<\/v>/s.exec(xml)?.[1] ?? "");
    if (type === "inlineStr") return textOf(xml);
    if (type === "s") return shared[Number(value)] ?? "";
    return type === "n" && value !== "" ? String(Number(value)) : value;
}
