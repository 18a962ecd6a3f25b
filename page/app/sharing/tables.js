// Tables as spreadsheets take them: as files, and on the clipboard.
import {language} from "../../words/say.js";
import {offer} from "../shell/page.js";

/** What parts cells in a file: in German a comma parts the digits of a number, and a spreadsheet wants a semicolon. */
const BETWEEN = {en: ",", de: ";"};

/** By this sign, at the begin of a file, spreadsheets know that it is UTF-8. */
const MARK = "\ufeff";

/** A cell whose text begins no formula. */
function plain(cell) {
    const text = String(cell);
    return /^[=+\-@\t]/.test(text) && !/^-\d+$/.test(text) ? `'${text}` : text;
}

/** Lines of cells as a file. */
function fileOf(lines) {
    const between = BETWEEN[language()], quoted = (text) => (/[",;\n]/.test(text) ? `"${text.replaceAll('"', '""')}"` : text);
    return MARK + lines.map((line) => `${line.map((cell) => quoted(plain(cell))).join(between)}\n`).join("");
}

/** Offers a table as a file of a name. */
export function saveTable(name, lines) {
    offer(`${name}.csv`, fileOf(lines), "text/csv");
}

/** Puts a table on the clipboard, from which a spreadsheet takes its cells. */
export function copyTable(lines) {
    const text = lines.map((line) => line.map((cell) => plain(cell).replace(/[\t\n]/g, " ")).join("\t")).join("\n");
    return navigator.clipboard?.writeText(text).catch(() => copiedByHand(text));
}

/** Where a browser refuses its clipboard: the text is marked and copied as a user does it. */
function copiedByHand(text) {
    const field = document.createElement("textarea");
    field.value = text;
    document.body.append(field);
    field.select();
    document.execCommand("copy");
    field.remove();
}
