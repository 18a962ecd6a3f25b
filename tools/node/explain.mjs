// tools/explain: see there.
import {NoAnswer, readAnswer} from "../../page/read/answer.js";
import {explain} from "../../page/say/explain.js";
import {answerTo, ask, documentAt, finish, optionsOf, standardInput} from "./words.mjs";

const USAGE = "tools/explain DOCUMENT < ANSWER, or tools/explain --lines [DOCUMENT] < ANSWERS";

async function sentences(network, said) {
    return (await explain(network, await answerTo(network, said), ask)).join("\n") + "\n";
}

/** The answer in each line, under the name of its document where the line has a member `file`, and an empty line after it. */
async function eachLine(text, file) {
    const networks = new Map(), told = [];
    const at = (name) => networks.get(name) ?? networks.set(name, documentAt(name)).get(name);
    for (const [k, line] of text.split("\n").entries()) {
        if (line.trim() === "") continue;
        try {
            const {file: own, status, ...answer} = readAnswer(line), named = own ?? file;
            if (named === undefined) throw new NoAnswer("Neither the line nor the command names a document.");
            told.push(`${own === undefined ? "" : `${own}:\n`}${await sentences(at(named), answer)}`);
        } catch (error) {
            if (!(error instanceof NoAnswer || error.syscall)) throw error;
            process.stderr.write(`line ${k + 1}: ${error.message}\n`);
            process.exitCode = 1;
        }
    }
    return told.join("\n");
}

finish(async () => {
    const {words: [file], lines} = optionsOf({lines: "boolean"}, USAGE, true);
    if (lines) return eachLine(await standardInput(), file);
    if (file === undefined) optionsOf({}, USAGE);
    return sentences(documentAt(file), readAnswer(await standardInput()));
});
