// What is asked of the program where somebody wonders what if: the market before and after a change is compared first,
// and what each contributes is asked when that is there.
import {NoAnswer} from "../../read/answer.js";
import {admittedIn, admitting, alike, compared, contributions, editsOf, isIn, ownStart} from "../../read/states.js";
import {explain} from "../../say/explain.js";
import {isOld, networkOf} from "../document/state.js";
import {Ended, inText, NoAnswerCame} from "../program/ask.js";
import {failingLine, isFailing} from "../told/failing.js";

/** Whether there is no such view: in an exercise it would tell the solution. */
export function isHidden({document}) {
    return Boolean(document.exercise);
}

/** Whether the program is asked: where that is looked at, of a document that can be. */
export function isAsked(value) {
    return value.view.mode === "whatif" && value.document.isWhole && !isHidden(value);
}

/** Whether what was said of a change is of another one than the present, or of another text. */
export function isOther(value) {
    const {compared: said, view} = value;
    return said === null || isOld(value, said) || said.supposed !== value.supposed || said.from !== view.from;
}

/** The same of what was said of contributions, which are of the market before the change. */
export function areOthers(value) {
    const {contributed: said} = value;
    return said === null || isOld(value, said) || said.supposed.before !== value.supposed.before;
}

/** Takes some firms and trades away, or lets them be there again; where that isn't said, the other of what is so. */
export function suppose(store, edits, isAway = edits.some((edit) => !isIn(store.value.supposed.after, edit))) {
    const {before, after} = store.value.supposed, others = after.filter((edit) => !alike(edits, edit));
    store.act("supposed", before, isAway ? [...others, ...edits] : others);
}

/** Admits so many units of a trade. */
export function admit(store, name, units) {
    const network = networkOf(store.value.document), edits = admitting(network, name, units);
    if (units !== admittedIn(network, store.value.supposed.after, name)) suppose(store, edits.length > 0 ? edits : [["bar", name]], edits.length > 0);
}

export class Suppositions {
    /** Watches a store, and asks a program that is asked nothing else. */
    constructor(store, program) {
        this.store = store;
        this.program = program;
        this.begun = null;
        store.watch(() => this.look());
    }

    /** What is to be asked next: the action that takes it in, and the question; null where all is answered. */
    next() {
        const {value} = this.store;
        if (!isAsked(value)) return null;
        if (isOther(value)) return ["compared", comparison];
        return areOthers(value) ? ["contributed", contribution] : null;
    }

    /** Asks what is next, and ends what is asked of another text or change. */
    look() {
        const {document, supposed, view: {from}} = this.store.value, {begun} = this;
        if (begun !== null) {
            if (begun.document !== document || begun.supposed !== supposed || begun.from !== from) this.program.end();
            return;
        }
        const next = this.next();
        if (next !== null) this.put(...next);
    }

    async put(action, question) {
        const {document, supposed, view: {from}} = this.store.value;
        this.begun = {document, supposed, from};
        let said = null;
        try {
            said = await question(inText(this.program.turn()), networkOf(document), supposed, from);
        } catch (error) {
            if (error instanceof NoAnswerCame || error instanceof NoAnswer) said = {trouble: error.message, states: null};
            else if (!(error instanceof Ended)) throw error;
        } finally {
            this.begun = null;
        }
        const isWanted = said !== null && this.store.value.document === document;
        if (isWanted) this.store.act(action, {document, supposed, from, ...said});
        else this.look();
    }
}

/**
 * The market before and after, with the sentences of a fault where it has one; `isOwn` says whether it begins with what is on the
 * screen.
 */
async function comparison(ask, network, supposed, from) {
    const [before, after] = [supposed.before, supposed.after].map((edits) => editsOf(network, edits));
    const start = await ownStart(ask, network, from), {states, said} = await compared(ask, network, before, after, start);
    const sentences = states !== null ? [] : isFailing(said) ? [failingLine(network, said, null)] : await explain(network, said, ask);
    return {before, after, states, isOwn: start !== null, sentences};
}

async function contribution(ask, network, {before}) {
    return {found: await contributions(ask, network, editsOf(network, before))};
}
