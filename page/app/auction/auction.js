// An auction, step by step: buttons for a step, to play and to begin anew, the course of prices as a chart with its table, and what the
// program says at the end. Each step is the guess of the document.
import {coursePicture} from "../../draw/course.js";
import {auctionOf, endOf, guessOf, stepped} from "../../read/auction.js";
import {NoAnswer} from "../../read/answer.js";
import {endLine, stepLine} from "../../say/auction.js";
import {firmLabel} from "../../words/labels.js";
import {say} from "../../words/say.js";
import {networkOf} from "../document/state.js";
import {arrange} from "../document/terms.js";
import {Ended, inText, NoAnswerCame} from "../program/ask.js";
import {drawing, made, on, part, write} from "../shell/page.js";

/** How long a step is looked at while it plays, in milliseconds. */
const PAUSE = 700;

/** Of how many steps at the end the table has a line. */
const MOST_LINES = 200;

export class Auctions {
    /** Watches a store, and asks a program that is asked nothing else. */
    constructor(store, program) {
        this.store = store;
        this.program = program;
        this.isBusy = false;
        on("auction", () => (store.value.auction === null ? this.begin() : store.act("auctioned", null)));
        on("auction-step", () => this.step());
        on("auction-play", () => this.play());
        on("auction-again", () => this.begin());
        on("auction-close", () => store.act("auctioned", null));
        store.watch(({auction, document, view}) => {
            if (auction !== null && (view.mode !== "guess" || marketOf(document) !== auction.market)) store.act("auctioned", null);
        });
    }

    /** Answers what a question to the program comes to, or null where it ended or didn't come; while it is asked no other step begins. */
    async asked(question) {
        if (this.isBusy) return null;
        this.isBusy = true;
        try {
            return await question(inText(this.program.turn()));
        } catch (error) {
            if (error instanceof Ended || error instanceof NoAnswerCame || error instanceof NoAnswer) return null;
            throw error;
        } finally {
            this.isBusy = false;
        }
    }

    async begin() {
        const {document} = this.store.value, state = await this.asked((ask) => auctionOf(networkOf(document), ask));
        if (state === null || this.store.value.document !== document) return;
        const isThere = state.refused === undefined;
        this.store.act("auctioned", {market: marketOf(document), state, course: isThere ? [state.prices] : [], end: null, isPlaying: false});
        if (isThere) this.guess();
    }

    /** Makes the present step the guess of the document. */
    guess() {
        const {on: names, prices} = guessOf(this.store.value.auction.state);
        arrange(this.store, names, prices, "auction");
    }

    /** Takes one step, and answers whether there was one. */
    async step(isShown = true) {
        const {auction, document} = this.store.value;
        if (auction === null || auction.state.refused !== undefined || auction.end !== null) return false;
        const network = networkOf(document), found = await this.asked(async (ask) => {
            const state = await stepped(network, auction.state, ask);
            return {state, end: state === auction.state ? await endOf(network, state, ask) : null};
        });
        const now = this.store.value.auction;
        if (found === null || now === null || now.market !== auction.market || now.state !== auction.state) return false;
        const {state, end} = found, isLast = state === null || end !== null;
        const next = state === null ? {state: {refused: "auction.too_large"}} : {state, course: isLast ? now.course : [...now.course, state.prices]};
        this.store.act("auctioned", {...now, ...next, end, isPlaying: now.isPlaying && !isLast});
        if (state !== null && (isShown || isLast)) this.guess();
        return !isLast;
    }

    /** Goes on step by step until the end, or until it is pressed again; where motion is to be reduced, to the end at once. */
    async play() {
        const {auction} = this.store.value;
        if (auction === null || auction.state.refused !== undefined || auction.end !== null) return;
        this.store.act("auctioned", {...auction, isPlaying: !auction.isPlaying});
        const isCalm = matchMedia("(prefers-reduced-motion: reduce)").matches;
        while (this.store.value.auction?.isPlaying && await this.step(!isCalm)) if (!isCalm) await new Promise((done) => setTimeout(done, PAUSE));
    }
}

/** The firms and trades of a document as text: an auction is one of them. */
function marketOf(document) {
    const {root, text} = networkOf(document);
    const partAt = (name) => (root.kind === "object" && root.value.has(name) ? text.slice(root.value.get(name).start, root.value.get(name).end) : "");
    return `${partAt("firms")}\n${partAt("trades")}`;
}

let shown = null, spoken = null;

/** Shows the auction of a value. */
export function showAuction({auction, view, document: of}) {
    document.documentElement.dataset.auction = stateOf(auction);
    const isThere = auction !== null && view.mode === "guess";
    part("auction").setAttribute("aria-pressed", `${auction !== null}`);
    part("auction-part").hidden = !isThere;
    if (!isThere || (shown === auction && spoken === say("auction.rule_one"))) return;
    [shown, spoken] = [auction, say("auction.rule_one")];
    const {state, course, end, isPlaying} = auction, isRefused = state.refused !== undefined, isOver = isRefused || end !== null;
    for (const id of ["auction-step", "auction-play"]) part(id).setAttribute("aria-disabled", `${isOver}`);
    part("auction-play").textContent = say(isPlaying ? "page.auction_pause" : "page.auction_play");
    write("auction-rule", isRefused ? "" : say(state.isOfOne ? "auction.rule_one" : "auction.rule_several"));
    write("auction-says", isRefused ? say(state.refused) : state.steps.length > 0 ? stepLine(state, state.steps.at(-1)) : say("auction.begun"));
    write("auction-end", end === null ? "" : endLine(state, end));
    part("auction-course").replaceChildren(...(isRefused || course.length < 2 ? [] : [figure(coursePicture(networkOf(of), state.items, course))]));
    fill(state, course);
}

function stateOf(auction) {
    if (auction === null) return "none";
    return auction.state.refused !== undefined ? "refused" : auction.end !== null ? "ended" : auction.isPlaying ? "playing" : "there";
}

function figure(svg) {
    const held = made("figure"), drawn = drawing(svg);
    drawn.setAttribute("role", "img");
    held.append(drawn);
    return held;
}

/** The table of the steps, the last one first, with the price of each item after it. */
function fill({items = [], steps = []}, course) {
    const {tHead, tBodies: [body]} = part("auction-steps");
    tHead.replaceChildren(rowOf([say("head.step"), say("head.happens"), ...items.map(({seller}) => firmLabel(seller))].map((head) => made("th", head, {scope: "col"}))));
    const lines = steps.map((step, k) => rowOf([made("th", String(k + 1), {scope: "row"}), made("td", stepLine({items, prices: pricesAt(course, k)}, step)),
        ...pricesAt(course, k).map((price) => made("td", String(price), {class: "number"}))]));
    body.replaceChildren(...lines.reverse().slice(0, MOST_LINES));
    part("auction-table").hidden = steps.length === 0;
}

function pricesAt(course, k) {
    return course[Math.min(k + 1, course.length - 1)];
}

function rowOf(cells) {
    const row = made("tr");
    row.append(...cells);
    return row;
}
