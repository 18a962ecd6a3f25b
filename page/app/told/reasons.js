// What a user does with reasons, contracts and claims, as actions.
import {say} from "../../words/say.js";
import {claimedAs, claimOf} from "../document/claims.js";
import {goTo, refreshEditor} from "../document/editor.js";
import {isOld, networkOf} from "../document/state.js";
import {arrange, countOver, guessSigned, reprice, signAt, signGuess, termsOf} from "../document/terms.js";
import {on, part} from "../shell/page.js";
import {reasonOf, stepOf} from "./story.js";

/** Binds all that. `run` answers a command for the present document. */
export function bindReasons(store, run) {
    bindStory(store);
    bindSigning(store, run);
    bindClaims(store);
}

/** A reason is looked at or not, as ranges are; its story is stepped through above the network or gone to in its list. */
function bindStory(store) {
    const go = (step) => {
        if (store.value.selection !== null) store.act("selected", null);
        store.act("looked", {step});
    };
    on("wonder", () => store.act("looked", {hasReason: !store.value.view.hasReason, isOver: false, step: 0}));
    on("story-back", () => go(stepOf(store.value).place - 1));
    on("story-next", () => go(stepOf(store.value).place + 1));
    part("reason-lines").addEventListener("click", ({target}) => {
        const step = target.closest("[data-step]")?.dataset.step;
        if (step !== undefined) go(Number(step));
    });
    on("reason-close", () => store.act("looked", {hasReason: false}));
    on("reason-take", () => {
        const {said, none} = reasonOf(store.value), found = none?.arrangement;
        if (found) arrange(store, found.on, found.prices);
        else if (store.value.view.mode === "guess") reprice(store, said.prices);
        else arrange(store, [...termsOf(store.value).on], said.prices);
        store.act("went", "guess");
    });
}

function bindSigning(store, {said}) {
    on("sign-guess", () => signGuess(store));
    for (const [id, side] of [["sign-low", "low"], ["sign-high", "high"]]) on(id, () => signBest(store, side, said));
    on("sign-back", () => {
        const isTaken = guessSigned(store);
        if (isTaken) store.act("went", "guess");
        else part("denominator-says").textContent = say("sign.no_guess");
    });
    part("denominator").addEventListener("change", () => {
        const text = part("denominator").value.trim(), isOne = /^([1-9]\d?|100)$/.test(text);
        const isCounted = isOne && countOver(store, BigInt(text));
        part("denominator").setAttribute("aria-invalid", `${!isCounted}`);
        part("denominator-says").textContent = isCounted ? "" : say(isOne ? "sign.not_whole" : "sign.denominators");
    });
}

/** Puts an answer into the document as its claim, where it is one to the present document, and shows what is decided. */
export function claim(store, told) {
    if (!told?.said || isOld(store.value, told)) return;
    store.act("edited", claimedAs(networkOf(store.value.document), told.said));
    store.act("went", "claim");
}

/** Signs an efficient set of trades at all lowest or all highest prices, which the program answers. */
async function signBest(store, side, said) {
    const {document} = store.value, ranges = await said(["range"]);
    if (store.value.document !== document || ranges === null) return;
    part("denominator-says").textContent = signAt(store, ranges, side) ? "" : say("sign.no_bounds");
}

function bindClaims(store) {
    on("reason-claim", () => claim(store, reasonOf(store.value)));
    on("none-claim", () => claim(store, {...reasonOf(store.value), said: reasonOf(store.value).none.claim}));
    on("claim-go", () => {
        store.act("went", "document");
        refreshEditor();
        goTo(claimOf(networkOf(store.value.document)));
    });
}
