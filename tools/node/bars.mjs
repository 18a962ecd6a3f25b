// tools/bars: see there.
import {barsPicture} from "../../page/draw/bars.js";
import {NoAnswer, readAnswer} from "../../page/read/answer.js";
import {answerTo, documentAt, finish, optionsOf, standardInput} from "./words.mjs";

finish(async () => {
    const {words: [file]} = optionsOf({}, "tools/bars DOCUMENT < ANSWER > PICTURE");
    const network = documentAt(file), said = await answerTo(network, readAnswer(await standardInput()));
    if (said.answer !== "ranges") throw new NoAnswer(`An answer of range is wanted, and this is ${said.answer}.`);
    return barsPicture(network, said);
});
