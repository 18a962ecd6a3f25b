// An address as a QR code.
import "../../vendor/qrcode-generator-1.4.4/qrcode.min.js";

const {qrcode} = globalThis;

/** How many letters a code holds at most: that of the greatest size, with the least correction of faults. */
export const MOST_IN_CODE = 2953;

/** The blank squares around a code. */
const BLANK = 4;

/**
 * The code of a text of at most that many ASCII letters, as `{count, svg}`: how many squares a side has, and the picture.
 */
export function codeOf(text) {
    const code = qrcode(0, "L");
    code.addData(text, "Byte");
    code.make();
    const count = code.getModuleCount(), whole = count + 2 * BLANK, rows = [...Array(count).keys()];
    const square = (row, column) => `M${column + BLANK} ${row + BLANK}h1v1h-1z`;
    const dark = rows.flatMap((row) => rows.filter((column) => code.isDark(row, column)).map((column) => square(row, column)));
    const sides = `viewBox="0 0 ${whole} ${whole}" width="${4 * whole}" height="${4 * whole}"`;
    const svg = `<svg xmlns="http://www.w3.org/2000/svg" ${sides} shape-rendering="crispEdges">`
        + `<rect width="${whole}" height="${whole}" fill="#ffffff"/><path d="${dark.join("")}" fill="#000000"/></svg>`;
    return {count, svg};
}
