// A document on one long line, laid out: only blanks and ends of lines come to it.

const DEEPEST = 2, STEP = "  ";

/** Whether a text is offered laid out. */
export function isOneLine(text) {
    return text.length > 200 && !text.trim().includes("\n");
}

/** The text with the members of its outer objects, and the items of its outer lists, each on a line of its own. */
export function laidOut(text) {
    let made = "", depth = 0;
    for (const [piece] of text.matchAll(/"(?:[^"\\]|\\.)*"?|[^"]/gs)) {
        if (piece === "}" || piece === "]") depth -= 1;
        else if (piece === "{" || piece === "[") depth += 1;
        made += piece;
        const isBreak = piece === "," ? depth <= DEEPEST : (piece === "{" || piece === "[") && depth <= DEEPEST;
        if (isBreak) made += `\n${STEP.repeat(depth)}`;
    }
    return `${made.trimEnd()}\n`;
}
