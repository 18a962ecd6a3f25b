// What is answered without being asked for: `firms` of the newest text, and where these are looked at `support`, `range`, `judge` and
// `replay`.
import {failingOf} from "../../draw/triple.js";
import {whyPicture} from "../../draw/why.js";
import {NoAnswer, readAnswer} from "../../read/answer.js";
import {droppers} from "../../read/dropping.js";
import {haves} from "../../read/firms.js";
import {simplest} from "../../read/simpler.js";
import {explain} from "../../say/explain.js";
import {shownNone} from "../../say/none.js";
import {storyOf} from "../../say/story.js";
import {say} from "../../words/say.js";
import {claimOf} from "../document/claims.js";
import {hasOutcome} from "../document/contracts.js";
import {hasArrangement} from "../document/edits.js";
import {isOld, networkOf, shutBy} from "../document/state.js";
import {markOf} from "../told/answer.js";
import {Ended, inText, NoAnswerCame} from "./ask.js";

/** How long a question may take before a newer one ends it, in milliseconds. */
const PATIENCE = 400;

export class Guesses {
    /** Watches a store, and asks a program that is asked nothing else. */
    constructor(store, program) {
        this.store = store;
        this.program = program;
        this.begun = null;
        store.watch(() => this.look());
    }

    /** What is to be asked next: words and how their answer is taken in; null where all is answered. */
    next() {
        const {value} = this.store, {view} = value, isWanted = (said) => said === null || isOld(value, said);
        if (!value.document.isWhole) return null;
        if (view.mode === "sign" && isWanted(value.judged)) return ["judge", "judged"];
        if (isWanted(value.guess)) return ["firms", "guessed"];
        if (view.panel === "claim" && shutBy(value) === null && isWanted(value.decided)) return ["replay", "decided"];
        if (view.hasReason && view.mode === "guess" && isWanted(value.reason)) return ["support", "reasoned"];
        return view.hasRanges && isWanted(value.ranges) ? ["range", "ranged"] : null;
    }

    look() {
        if (this.begun !== null) {
            const isStale = this.store.value.document !== this.begun.document;
            if (isStale && (this.begun.words === "range" || performance.now() - this.begun.at > PATIENCE)) this.program.end();
            return;
        }
        const next = this.next();
        if (next !== null) this.put(...next);
    }

    async put(words, action) {
        const {document} = this.store.value;
        this.begun = {document, words, at: performance.now()};
        let said = null;
        try {
            const ask = this.program.turn();
            said = await understood(document, words, await ask([words], document.bytes), inText(ask));
        } catch (error) {
            if (error instanceof NoAnswerCame) said = troubled(document, error.message);
            else if (!(error instanceof Ended)) throw error;
        } finally {
            this.begun = null;
        }
        if (said !== null && this.store.value.document === document) this.store.act(action, said);
        else this.look();
    }
}

/** What there is in the place of an answer that didn't come. */
function troubled(document, trouble) {
    return {document, said: null, trouble, sentences: [trouble], story: null, svg: null};
}

/**
 * An answer as plain data; where a table fails the exchange property, what `test` says of it comes in the place of `support`'s
 * fault, and contracts that block come at simpler prices.
 */
async function readHere(words, bytes, document, ask) {
    const said = readAnswer(new TextDecoder().decode(bytes)), isFailing = said.answer === "fault" && said.fault === 16n;
    if (said.answer === "blocks") return simplest(ask, networkOf(document), said);
    return words === "support" && isFailing ? readAnswer(await ask(["test"], document.text)) : said;
}

/**
 * An answer to a document, as `{document, said, sentences, mark, isNone, story, svg, has, drops, none}`. `isNone` says that the document
 * hasn't the part that is asked about; `story`, `svg`, `has` and `drops` are of an answer of `judge`, or `support`: why it is so, what each
 * firm has by contracts, and a Map from each firm that would drop some to what is said of that; `none` is what shows whether there are
 * prices, where a table fails the exchange property.
 */
async function understood(document, words, {bytes}, ask) {
    const network = networkOf(document);
    let said = null;
    try {
        said = await readHere(words, bytes, document, ask);
    } catch (error) {
        if (!(error instanceof NoAnswer)) throw error;
        return troubled(document, say("trouble.unread"));
    }
    const isFault = said.answer === "fault", isNone = isFault && !network.problem && lacks(network, words, said.place);
    const isAsking = ASKING.includes(words) && said.answer !== "blocks";
    const sentences = await explain(network, said, isAsking ? ask : null);
    const told = {document, said, isNone, sentences, mark: isFault && !isNone ? markOf(network, said) : null};
    if (!["judge", "support"].includes(words)) return told;
    const has = isFault || words === "support" ? new Map() : await haves(ask, network), drops = said.answer === "drops" ? await dropsOf(network, said, ask) : new Map();
    return {...told, ...await tellingOf(network, said, ask), has, drops, none: said.answer === "exchange_fails" ? await shownNone(network, ask) : null};
}

/** Each firm that would drop contracts, with the answer and a sentence of it. */
async function dropsOf(network, first, ask) {
    const all = await droppers(ask, network, first), lines = await Promise.all(all.map((said) => explain(network, said, null)));
    return new Map(all.map((said, k) => [said.firm, {said, says: lines[k][2]}]));
}

/** Whether a place is that of the part that a command asks about, or of the prices of a guess, and a document hasn't that. */
function lacks(network, words, [part, member, ...more]) {
    if (member === "prices" && more.length === 0) return words === "firms" && network.arrangement.prices === undefined;
    const [name, hasIt] = PARTS[words] ?? [];
    return part === name && member === undefined && !hasIt(network);
}

/** The part of a document that a command asks about, and whether a document has it. */
const PARTS = {
    firms: ["arrangement", hasArrangement], support: ["arrangement", hasArrangement], judge: ["outcome", hasOutcome],
    replay: ["claim", (network) => claimOf(network) !== null],
};

/** The commands whose sentences ask the program for more; contracts that block have simpler prices already. */
const ASKING = ["judge", "replay", "support"];

/** Why an answer is so, as `{story, svg}`, each null where there is none. Of a fault, which a table that fails may be, that is told. */
async function tellingOf(network, said, ask) {
    const failing = said.answer === "fault" ? failingOf(network, said) : null;
    const told = failing === null ? said : {answer: "exchange_fails", ...failing}, isDrawn = DRAWN.includes(told.answer);
    return {story: await storyOf(network, told, ask), svg: isDrawn ? await whyPicture(network, told, ask) : null};
}

const DRAWN = ["cycle", "blocks", "exchange_fails"];
