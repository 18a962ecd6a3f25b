// tools/none: see there.
import {bestPlan, decided, Unanswered} from "../../page/read/none.js";
import {NoAnswer} from "../../page/read/answer.js";
import {hasUnits} from "../../page/read/limits.js";
import {explain} from "../../page/say/explain.js";
import {ask, documentAt, finish, optionsOf} from "./words.mjs";

/** The status where there are prices, that of an answer that says no. */
const PRICED = 6;

finish(async () => {
    const {words: [file]} = optionsOf({}, "tools/none DOCUMENT > SHOWN"), network = documentAt(file);
    if (hasUnits(network.data)) throw new NoAnswer("In version 4 trades have units, and all firms are laminar: there are always prices, which solve says.");
    if (ask === null) throw new NoAnswer("There is no program to ask: ./market --build makes it.");
    try {
        const plan = await bestPlan(network, ask), {isNone, text} = await decided(network, plan, ask);
        process.stderr.write(`none: the best plan is worth ${plan.worth}: ${isNone ? "no prices, since no set of trades is worth as much" : "there are prices"}\n`);
        if (!isNone) process.exitCode = PRICED;
        return `${text}\n`;
    } catch (error) {
        if (!(error instanceof Unanswered)) throw error;
        throw new NoAnswer((await explain(network, error.said, ask)).join("\n"));
    }
});
