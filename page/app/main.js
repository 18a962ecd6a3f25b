// The page: a network to look at and guess with, its document, and what the program answers.
import {NoAnswer, readAnswer} from "../read/answer.js";
import {say, speakOf} from "../words/say.js";
import {readyEditor, showEditor} from "./document/editor.js";
import {networkOf, Store} from "./document/state.js";
import {showLesson} from "./exercise/lesson.js";
import {Marking, showResults} from "./exercise/results.js";
import {Auctions, showAuction} from "./auction/auction.js";
import {readyBuild, showBuild} from "./form/build.js";
import {readyClaim, showClaim} from "./form/claim.js";
import {readySheet, showSheet} from "./form/sheet.js";
import {showFirms} from "./network/firms.js";
import {handle} from "./network/hand.js";
import {readyHints} from "./network/hint.js";
import {readyNudge, showNudge} from "./network/nudge.js";
import {showPath, trace} from "./network/path.js";
import {showScene} from "./network/scene.js";
import {readyTogether, showTogether} from "./network/together.js";
import {readyTrades, showTrades, typePrice} from "./network/trades.js";
import {Ended, inText, NoAnswerCame, Program} from "./program/ask.js";
import {Guesses} from "./program/guess.js";
import {compiled, documentsIn, partOf} from "./program/parts.js";
import {bytesIn, isDocument, resultsIn} from "./sharing/link.js";
import {bind} from "./shell/controls.js";
import {bindHelp} from "./shell/help.js";
import {speakFirst} from "./shell/language.js";
import {bindMeanings} from "./shell/meanings.js";
import {part} from "./shell/page.js";
import {showShell} from "./shell/shell.js";
import {bindLanguage, sayAgain, tellPage} from "./shell/texts.js";
import {bindWays} from "./shell/ways.js";
import {shownOf} from "./told/answer.js";
import {showAnswers} from "./told/answers.js";
import {showStory} from "./told/story.js";
import {showVerdict} from "./told/verdict.js";
import {Suppositions} from "./whatif/suppose.js";
import {bindWhatIf, showWhatIf} from "./whatif/whatif.js";

const store = new Store();

/** Asks what is shown, and shows the answer; a newer question takes its place. */
async function askNow(program) {
    const {document, words} = store.value, ask = program.turn();
    if (document.exercise !== null) return;
    store.act("asked");
    const {run} = store.value;
    try {
        const shown = await shownOf(document, words, await ask(words, document.bytes), inText(ask));
        if (store.value.run !== run) return;
        store.act("answered", shown);
        if (shown.said?.answer === "solved") store.act("looked", {isOver: true});
    } catch (error) {
        if (error instanceof NoAnswerCame) store.act("broke", error.message);
        else if (!(error instanceof Ended)) throw error;
    }
}

/** What the program answers to words for a document, as plain data; null where there is a newer question, or none came. */
async function saidTo(program, words, {bytes: asked} = store.value.document) {
    try {
        const {bytes} = await program.turn()(words, asked);
        return readAnswer(new TextDecoder().decode(bytes));
    } catch (error) {
        if (error instanceof Ended || error instanceof NoAnswerCame || error instanceof NoAnswer) return null;
        throw error;
    }
}

/** Says again what was answered to the command, in the language that is spoken. */
async function tellAgain(program) {
    const {answer, run} = store.value;
    if (answer === null || run.state === "asking") return;
    try {
        const shown = await shownOf(answer.document, answer.words, answer, inText(program.turn()));
        if (store.value.answer === answer) store.act("retold", shown);
    } catch (error) {
        if (!(error instanceof Ended || error instanceof NoAnswerCame)) throw error;
    }
}

/** Opens the document in the address; where there is none that can be read another one, which may be null. A result is one more. */
async function openAddress(other) {
    const results = await resultsIn(location.hash);
    if (results.length > 0) {
        if (other !== null) store.act("opened", ...other);
        return store.act("resulted", results);
    }
    const isThere = isDocument(location.hash), bytes = isThere ? await bytesIn(location.hash).catch(() => null) : null;
    if (bytes !== null) store.act("opened", say("page.from_link"), bytes);
    else if (other !== null) store.act("opened", ...other);
    if (!isThere || bytes !== null) return undefined;
    part("notice").hidden = false;
    part("notice").textContent = say("link.broken");
    return undefined;
}

function show(value) {
    showLesson(value);
    showShell(value);
    showVerdict(value);
    showStory(value);
    showWhatIf(value);
    showAuction(value);
    showScene(value);
    showNudge(value);
    showFirms(value);
    showTrades(value);
    showTogether(value);
    showPath(value);
    showEditor(value);
    showAnswers(value);
    showClaim(value);
    showSheet(value);
    showBuild(value);
    showResults(value);
}

async function start() {
    speakFirst();
    tellPage();
    document.addEventListener("securitypolicyviolation", ({violatedDirective, blockedURI}) => {
        document.documentElement.dataset.violation = `${violatedDirective} ${blockedURI}`;
    });
    const module = await compiled(), [program, guesser, tracer, marker] = [1, 2, 3, 4].map(() => new Program(module, partOf("worker")));
    const documents = await documentsIn();
    readyEditor(store);
    readyTrades(store);
    readyTogether(store);
    readyNudge(store);
    readyClaim(store);
    readyBuild(store);
    readySheet(store);
    handle(store, typePrice);
    readyHints();
    bindMeanings();
    const asker = new Program(module, partOf("worker"));
    bind(store, documents, {ask: () => askNow(program), end: () => program.end(), said: (words, of) => saidTo(asker, words, of)});
    bindLanguage(store, () => tellAgain(program));
    part("version").textContent = await inText(program.turn())(["--version"], "");
    globalThis.market = Object.freeze({
        /** For the console, and for tests: `market.ask(["solve"], bytes)` is a promise of `{status, bytes, ms}`. */
        ask: (words, bytes) => program.turn()(words, bytes),
    });
    store.watch(({document, view}) => speakOf(networkOf(document), view.people) && sayAgain());
    store.watch(show);
    new Guesses(store, guesser);
    new Marking(store, marker);
    new Auctions(store, new Program(module, partOf("worker")));
    store.watch(() => trace(store, tracer));
    bindWhatIf(store);
    bindHelp(store);
    bindWays(store);
    new Suppositions(store, new Program(module, partOf("worker")));
    addEventListener("hashchange", () => openAddress(null));
    new ResizeObserver(() => showScene(store.value)).observe(part("stage"));
    const [[, [[name, text]]]] = documents;
    await openAddress([name, new TextEncoder().encode(text)]);
    document.documentElement.dataset.loaded = Math.round(performance.now());
}

start().catch((error) => {
    document.documentElement.dataset.state = "failed";
    part("status").textContent = part("verdict").textContent = say("page.failed", {why: error.message});
});
