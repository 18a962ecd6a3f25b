// Tables as spreadsheets write them: rows of cells, what parts these, and their numbers, each with its place.
// `package/trading_networks/tables.py` reads the same.
import {Fraction} from "./fractions.js";

const SEPARATORS = [",", ";", "\t"], MARK = "\ufeff";

/** What counts as blank in a cell. */
const BLANKS = /[\t-\r\x1c-\x20\x85\xa0\u1680\u2000-\u200a\u2028\u2029\u202f\u205f\u3000]+/gu;
const LINE_ENDS = /\r\n|[\n-\r\x1c-\x1e\x85\u2028\u2029]/u;
const NUMBER = /^[+-]?(\d+|\d{1,3}([ ']\d{3})+)([.,]\d+)?$/;

/** What is wrong in tables: a list of `{place, key, values}`. A place has `table`, and may have `row`, from 1 on, `column`, from 0 on, and its `name`. */
export class Faults extends Error {
    constructor(list) {
        super("these are no tables as they are wanted");
        this.list = list;
    }
}

/** A fault, to be thrown. */
export function faultAt(place, key, values = {}) {
    return new Faults([{place, key, values}]);
}

/** What is read of each part, where nothing is wrong with it; what is wrong goes to some faults. */
export function each(parts, read, faults) {
    return parts.flatMap((part) => {
        try {
            return [read(part)];
        } catch (error) {
            if (!(error instanceof Faults)) throw error;
            faults.push(...error.list);
            return [];
        }
    });
}

/** Throws faults, if there are any. */
export function throwAll(faults) {
    if (faults.length > 0) throw new Faults(faults);
}

/** The letters by which a spreadsheet names a column: A for 0, AA for 26. */
export function letterOf(index) {
    return (index >= 26 ? letterOf(Math.floor(index / 26) - 1) : "") + String.fromCharCode(65 + index % 26);
}

/** A text with single blanks and composed letters, so that one name is one text however it was typed. */
export function plainText(text) {
    return text.normalize("NFC").replace(BLANKS, " ").replace(/^ | $/g, "");
}

/** The one of the separators that the first row has most of, outside quotes. */
export function separatorOf(text) {
    const [first] = text.replace(/"[^"]*"/g, "").split(LINE_ENDS), count = (sign) => first.split(sign).length;
    return SEPARATORS.reduce((most, sign) => (count(sign) > count(most) ? sign : most));
}

/** The rows of a text, each as its cells; a cell in quotes may have separators and line ends. Throws Faults, of a table. */
export function rowsIn(text, table) {
    const between = separatorOf(text.replace(MARK, "")), reader = new CellReader(text.replace(MARK, ""), between);
    try {
        return reader.rows();
    } catch (error) {
        if (error !== NO_TABLE) throw error;
        throw faultAt({table}, "sheet.no_table", {sign: between === "\t" ? "\\t" : between});
    }
}

/** What is thrown where a quote isn't as it has to be. */
const NO_TABLE = new Error("no table");

class CellReader {
    constructor(text, between) {
        this.text = text;
        this.between = between;
        this.at = 0;
    }

    rows() {
        const rows = [];
        while (this.at < this.text.length) rows.push(this.row());
        return rows;
    }

    row() {
        if (this.takesEnd()) return [];
        const cells = [this.cell()];
        while (this.text[this.at] === this.between) {
            this.at += 1;
            cells.push(this.cell());
        }
        if (!this.takesEnd() && this.at < this.text.length) throw NO_TABLE;
        return cells;
    }

    /** Whether a line ends here, which is then passed. */
    takesEnd() {
        const end = this.text.startsWith("\r\n", this.at) ? 2 : "\r\n".includes(this.text[this.at] ?? " ") ? 1 : 0;
        this.at += end;
        return end > 0;
    }

    cell() {
        return this.text[this.at] === '"' ? this.quoted() : this.open();
    }

    open() {
        const start = this.at;
        while (this.at < this.text.length && !`${this.between}\r\n`.includes(this.text[this.at])) this.at += 1;
        return this.text.slice(start, this.at);
    }

    quoted() {
        let made = "";
        for (this.at += 1; ; this.at += 2) {
            const end = this.text.indexOf('"', this.at);
            if (end < 0) throw NO_TABLE;
            made += this.text.slice(this.at, end);
            this.at = end;
            if (this.text[end + 1] !== '"') break;
            made += '"';
        }
        this.at += 1;
        return made;
    }
}

/** A comma where commas don't part the cells and some number has one, or semicolons do and no number has a point; the numbers are some cells. */
export function decimalIn(numbers, between) {
    const isComma = numbers.some((cell) => cell.includes(",")) || (between === ";" && !numbers.some((cell) => cell.includes(".")));
    return between !== "," && isComma ? "," : ".";
}

/** The number that a text is, by a decimal sign, with its place. Throws Faults. */
export function measureOf(text, place, decimal) {
    if (!NUMBER.test(text)) throw faultAt(place, "sheet.no_number", {text});
    const other = decimal === "," ? "." : ",";
    if (text.includes(other)) throw faultAt(place, "sheet.other_sign", {text, other, sign: decimal});
    const [whole, part = ""] = text.replace(/[ ']/g, "").replace(",", ".").split(".");
    return {value: new Fraction(BigInt(`${whole.replace("+", "")}${part}`), 10n ** BigInt(part.length)), place};
}

/** A number in digits: exact where so many digits after the point are enough, and otherwise rounded to these, halves to the even one. */
export function digits({numerator, denominator}, most = 6) {
    const size = numerator < 0n ? -numerator : numerator, scale = 10n ** BigInt(most), over = size * scale, half = over % denominator * 2n;
    const down = over / denominator, scaled = half > denominator || (half === denominator && down % 2n === 1n) ? down + 1n : down;
    const part = String(scaled % scale).padStart(most, "0").replace(/0+$/, ""), text = `${scaled / scale}${part === "" ? "" : `.${part}`}`;
    return numerator < 0n && scaled > 0n ? `-${text}` : text;
}
