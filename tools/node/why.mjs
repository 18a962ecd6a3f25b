// tools/why: see there.
import {whyPicture} from "../../page/draw/why.js";
import {NoAnswer, readAnswer} from "../../page/read/answer.js";
import {answerTo, ask, documentAt, finish, optionsOf, standardInput} from "./words.mjs";

finish(async () => {
    const {words: [file]} = optionsOf({}, "tools/why DOCUMENT < ANSWER > PICTURE");
    const network = documentAt(file);
    const said = await answerTo(network, readAnswer(await standardInput()));
    const drawn = await whyPicture(network, said, ask);
    if (drawn === null) throw new NoAnswer(`The answer ${said.answer} has no reason that is drawn.`);
    return drawn;
});
