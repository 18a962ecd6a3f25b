// The results that a teacher has opened, as a table. Each is decided by the program, which is asked anew.
import {guessesPicture} from "../../draw/guesses.js";
import {NoAnswer, readAnswer} from "../../read/answer.js";
import {entriesOf} from "../../read/network.js";
import {say} from "../../words/say.js";
import {Ended, NoAnswerCame} from "../program/ask.js";
import {networkOf} from "../document/state.js";
import {drawing, made, part} from "../shell/page.js";
import {GOALS, resultIn} from "./exercise.js";

const HEADS = ["head.name", "head.exercise", "head.reached", "head.tries", "head.given"];

/** Up to how many bytes a file may be a result. */
const MOST_BYTES = 1 << 19;

/** The results among some files, and the others, as `{results, files}`. */
export async function sortedOut(files) {
    const found = {results: [], files: []};
    for (const file of files) {
        const bytes = new Uint8Array(await file.arrayBuffer());
        const result = bytes.length > MOST_BYTES ? null : resultIn(new TextDecoder().decode(bytes));
        if (result === null) found.files.push({name: file.name, bytes});
        else found.results.push({file: file.name, ...result});
    }
    return found;
}

export class Marking {
    /** Watches a store, and asks a program, which is asked nothing else, of one result after another. */
    constructor(store, program) {
        this.store = store;
        this.program = program;
        this.isBusy = false;
        store.watch(() => this.look());
    }

    async look() {
        const next = this.store.value.results.find(({verdict}) => verdict === null);
        if (this.isBusy || next === undefined) return;
        this.isBusy = true;
        const verdict = await this.decided(next.document);
        this.isBusy = false;
        this.store.act("marked", next, verdict);
    }

    /** Whether a document reaches its goal, as `{isReached, says}`. */
    async decided({exercise, bytes}) {
        if (exercise === null) return {isReached: false, says: say("result.no_exercise")};
        try {
            const {status, bytes: answer} = await this.program.turn()([GOALS[exercise.goal].command], bytes);
            if (status === 0) return {isReached: true, says: say("result.yes")};
            return {isReached: false, says: whyNot(new TextDecoder().decode(answer))};
        } catch (error) {
            if (!(error instanceof NoAnswerCame || error instanceof Ended || error instanceof NoAnswer)) throw error;
            return {isReached: false, says: say("result.no_answer")};
        }
    }
}

function whyNot(text) {
    const said = readAnswer(text);
    return WHY_NOT[said.answer]?.(said) ?? say("result.other", {answer: said.answer});
}

const WHY_NOT = {
    firms: ({content: count, firms}) => say("result.content", {count, all: firms.length}),
    drops: ({firm}) => say("result.drops", {firm}),
    blocks: () => say("result.blocks"),
    fault: ({fault, place}) => place.length === 1 ? say("result.lacks", {part: place[0]})
        : say("result.fault", {fault}),
};

let shown = null;

/** Shows the table. */
export function showResults({results}) {
    if (results === shown) return;
    shown = results;
    const table = part("results"), reached = results.filter((result) => outcomeOf(result)?.isReached).length;
    part("results-picture").replaceChildren();
    part("results-says").textContent = say("result.counted", {count: results.length, reached});
    table.tHead.replaceChildren(rowOf(HEADS.map((head) => made("th", say(head), {scope: "col"}))));
    table.tBodies[0].replaceChildren(...results.map((result, k) => resultRow(result, k)));
}

function rowOf(cells) {
    const row = made("tr");
    row.append(...cells);
    return row;
}

function resultRow(result, k) {
    const [name, ...cells] = cellsOf(result), outcome = outcomeOf(result), head = made("th", "", {scope: "row"});
    head.append(made("button", name, {type: "button", "data-result": k, title: say("result.show")}));
    const row = rowOf([head, ...cells.map((cell) => made("td", cell))]);
    if (outcome !== null) row.className = outcome.isReached ? "reached" : "missed";
    return row;
}

const SIGNS = {true: "\u2713 ", false: "\u2717 "},
    GIVEN = {true: "result.as_given", false: "result.changed", null: "result.not_compared"};

/** What counts of a result, as `{isReached, says}`, or null where it isn't decided yet: another market isn't the exercise. */
function outcomeOf({isGiven, verdict}) {
    return verdict?.isReached && isGiven === false ? {isReached: false, says: say("result.other_market")} : verdict;
}

function cellsOf(result) {
    const {file, name, tries, document, isGiven} = result, outcome = outcomeOf(result);
    const reached = outcome === null ? "" : `${SIGNS[outcome.isReached]}${outcome.says}`;
    return [name || file, document.exercise?.title ?? say("word.none"), reached, String(tries ?? "?"),
        say(GIVEN[isGiven])];
}

/**
 * Draws what all guessed at each price, beside the range of each in the market that was given: the present one, where results are of it,
 * and else that of the first result. `said` answers a command for a document.
 */
export async function drawGuesses({results, document}, said) {
    const given = results.some(({isGiven}) => isGiven) ? document : results[0]?.document;
    if (given === undefined) return;
    const network = networkOf(given), ranges = await said(["range"], given);
    const guesses = results.filter(({isGiven}) => isGiven !== false).map((result) => entriesOf(networkOf(result.document).arrangement.prices));
    const figure = made("figure"), drawn = drawing(guessesPicture(network, ranges?.answer === "ranges" ? ranges.ranges : [], guesses));
    drawn.setAttribute("role", "img");
    figure.append(drawn);
    part("results-picture").replaceChildren(figure);
}

/** The table, with its heads. */
export function resultsTable({results}) {
    return [HEADS.map((head) => say(head)), ...results.map(cellsOf)];
}
