// What is wrong in tables, in sentences, each with its place.
import {letterOf} from "../read/cells.js";
import {say} from "../words/say.js";

/** A fault with its place; `called` says how a table is called. */
export function saysFault({place, key, values}, called) {
    return `${placeOf(place, called)}: ${say(key, values)}`;
}

/** Where something stands, as a spreadsheet counts rows and columns. */
function placeOf({table, row, column, name, isMissing}, called) {
    if (row === undefined) return called(table);
    const whole = say("sheet.row", {table: called(table), row}), named = name === undefined ? "" : ` (${name})`;
    if (column !== undefined) return say("sheet.column", {row: whole, column: letterOf(column)}) + named;
    return isMissing ? say("sheet.missing_column", {row: whole, column: name}) : whole + named;
}
