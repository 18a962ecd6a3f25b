// What a file is that is opened: a document as it stands, one whose bytes another program began with a mark, or none.

const decoded = (bytes, name) => new TextEncoder().encode(new TextDecoder(name).decode(bytes));

/** The marks with which programs begin a file, each with how its bytes are read, and the key of what is said. */
const MARKS = [
    {mark: [0xef, 0xbb, 0xbf], read: (bytes) => bytes.subarray(3), says: "file.mark"},
    {mark: [0xff, 0xfe], read: (bytes) => decoded(bytes, "utf-16le"), says: "file.utf16"},
    {mark: [0xfe, 0xff], read: (bytes) => decoded(bytes, "utf-16be"), says: "file.utf16"},
];

/** How much of a file is looked at, in bytes. */
const LOOKED_AT = 4096;

/** The bytes that are opened of a file, and the key of what is to be said of it, or null. */
export function openedAs(bytes) {
    const found = MARKS.find(({mark}) => mark.every((byte, k) => bytes[k] === byte)), read = found ? found.read(bytes) : bytes;
    return {bytes: read, says: isTable(read) ? "file.table" : found?.says ?? null};
}

/** Whether a file is a table rather than JSON: its first lines have as many cells as each other. */
function isTable(bytes) {
    const text = new TextDecoder().decode(bytes.subarray(0, LOOKED_AT)), lines = text.split(/\r?\n/).filter((line) => line.trim() !== "");
    if (lines.length < 2 || /^\s*["{[]?\s*[{[]/.test(text)) return false;
    return [";", "\t", ","].some((between) => {
        const [first, second] = lines.map((line) => line.split(between).length);
        return first > 1 && first === second;
    });
}
