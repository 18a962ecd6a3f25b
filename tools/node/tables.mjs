// Makes documents of tables as the page does: on standard input a line of JSON for each, with the texts of both tables; on standard output
// the document of each, as a text in JSON, or null where there is none.
import {readFileSync} from "node:fs";
import {Faults, rowsIn} from "../../page/read/cells.js";
import {networkOf, tableOf} from "../../page/read/lanes.js";
import {documentOf} from "../../page/read/lots.js";

function madeOf(texts) {
    const [firms, lanes] = ["firms", "lanes"].map((name) => tableOf(texts[name], rowsIn(texts[name], name)));
    return documentOf(networkOf(firms, lanes)).document;
}

for (const line of readFileSync(0, "utf8").split("\n").filter(Boolean)) {
    let made = null;
    try {
        made = madeOf(JSON.parse(line));
    } catch (error) {
        if (!(error instanceof Faults)) throw error;
    }
    process.stdout.write(`${JSON.stringify(made)}\n`);
}
