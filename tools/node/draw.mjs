// tools/draw: see there.
import {networkPicture} from "../../page/draw/network.js";
import {readAnswer} from "../../page/read/answer.js";
import {answerTo, documentAt, earlierAt, finish, optionsOf, standardInput} from "./words.mjs";

const USAGE = "tools/draw [--before ANSWER] [--firm NAME] DOCUMENT < ANSWER > PICTURE";

finish(async () => {
    const {words: [file], before, firm} = optionsOf({before: "string", firm: "string"}, USAGE);
    const network = documentAt(file), given = await standardInput();
    const said = given.trim() === "" ? {} : await answerTo(network, readAnswer(given));
    return networkPicture(network, said, {before: before === undefined ? null : earlierAt(network, before), firm: firm ?? null});
});
