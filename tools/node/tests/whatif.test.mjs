// Whether what is said where firms leave and join, and trades come and go, is what the program answers, and is told so.
import assert from "node:assert/strict";
import {readFileSync} from "node:fs";
import {test} from "node:test";
import {applied, memberAs} from "../../../page/app/document/edits.js";
import {Store} from "../../../page/app/document/state.js";
import {stageOf} from "../../../page/app/network/stage.js";
import {supposedScene} from "../../../page/app/whatif/difference.js";
import {admit, isAsked, isHidden, suppose} from "../../../page/app/whatif/suppose.js";
import {readAnswer} from "../../../page/read/answer.js";
import {linesAt} from "../../../page/read/firms.js";
import {parse, plain, written} from "../../../page/read/json.js";
import {Network} from "../../../page/read/network.js";
import {admittedIn, compared, contributions, editsBetween, editsOf, editsTo, ownStart} from "../../../page/read/states.js";
import {beforeLine, changeLine, countsOf, firmStates, gainOf, paidOf, partOf, startLine, tradesLine, tradeStates} from "../../../page/say/whatif.js";
import {askOf} from "../ask.mjs";
import {examples} from "./support.mjs";

const ask = askOf(), skip = ask === null && "there is no program";

function networkOf(name) {
    return new Network(examples().find((each) => each.name === name).bytes.toString());
}

async function toldOf(network, before, after) {
    return {...await compared(ask, network, before, after), before, after};
}

test("the used cars when the dealer leaves, and when it joins again", {skip}, async () => {
    const network = networkOf("used-cars.json"), away = [["leave", "D"]], told = await toldOf(network, [], away);
    assert.equal(changeLine(told), "D leaves: the worths sum to 8 in place of 10, which is 2 less.");
    assert.equal(tradesLine(told, network), "o1d and db1 go; o1b1 comes; o2b2 stays.");
    assert.deepEqual(["o1d", "o2d", "o1b1", "o2b2", "o2b3"].map((name) => partOf(told, name)), ["gone", "out", "comes", "stays", "off"]);
    assert.deepEqual([firmStates(told, "D")[1], tradeStates(told, "db1")[1]], ["away", "away"]);
    const back = await toldOf(network, away, []);
    assert.equal(changeLine(back), "D joins: the worths sum to 10 in place of 8, which is 2 more.");
    assert.equal(beforeLine(back), "Before that D is away.");
    assert.equal(changeLine(await toldOf(network, away, away)), "While D is away the worths sum to 8.");
});

/** The utilities of exercise 7, as its solution has them: with prices of 7, 8, 10 and 10 for the dealer's trades. */
const WITH_DEALER = {Pam: "3", Quin: "2", Dee: "3", Xaver: "2", Yara: "1"};

test("a what-if begins with the guess, where that is an equilibrium", {skip}, async () => {
    const text = readFileSync(new URL("../../../examples/lesson/7-dealer.json", import.meta.url), "utf8"), network = new Network(text);
    const start = await ownStart(ask, network, "guess"), after = [["leave", "Dee"]], told = {...await compared(ask, network, [], after, start), before: [], after};
    assert.deepEqual(Object.fromEntries(network.firms.map(({name}) => [name, firmStates(told, name)[0]])), WITH_DEALER);
    assert.equal(changeLine(told), "Dee leaves: the worths sum to 6 in place of 11, which is 5 less.");
    assert.equal(tradeStates(told, "dee-xaver")[0], "on at 10");
    assert.equal(startLine({before: [], from: "guess", isOwn: true}), "Before is the guess, which is an equilibrium.");
    const back = await compared(ask, network, after, [], start), own = await compared(ask, network, after, []);
    assert.deepEqual(back.states[0], own.states[0]);
    assert.equal(await ownStart(ask, networkOf("used-cars-dear-car.json"), "guess"), null);
});

test("a what-if begins with what is signed, where that lasts at whole prices", {skip}, async () => {
    const {on, prices} = await ownStart(ask, networkOf("used-cars-signed.json"), "sign"), of = new Map(prices);
    assert.deepEqual(on, ["o1d", "db1", "o2b2"]);
    assert.deepEqual(on.map((name) => of.get(name)), [8n, 11n, 8n]);
    for (const name of ["one-trade-signed.json", "used-cars-bypassed.json", "used-cars.json"]) assert.equal(await ownStart(ask, networkOf(name), "sign"), null);
    const store = new Store();
    store.act("opened", "used-cars.json", examples().find(({name}) => name === "used-cars.json").bytes);
    for (const panel of ["sign", "whatif", "claim", "whatif"]) store.act("went", panel);
    assert.equal(store.value.view.from, "sign");
});

test("parallel trades are told by their numbers where they are many, and drawn as one where some go and some stay", {skip}, async () => {
    const network = networkOf("cannery.json"), told = await toldOf(network, [], [["leave", "Seattle"]]);
    const counts = tradesLine(told, network).match(/\d+/g).map(Number), {on} = told.states[1];
    assert.match(tradesLine(told, network), /^\d+ from Seattle to .* go; \d+ from San-Diego to .* come; .* stay\.$/);
    const {before, after} = countsOf(told, network.trades.map(({name}) => name));
    assert.deepEqual([before, after], [told.states[0].on.length, on.length]);
    assert.equal(counts.reduce((sum, count) => sum + count, 0), new Set([...told.states[0].on, ...on]).size);
    const document = {text: network.text, bytes: new TextEncoder().encode(network.text)};
    const {marks} = supposedScene({document, compared: {...told, document}}), lane = network.trades.filter(({seller}) => seller === "San-Diego");
    for (const {name} of lane.filter(({name: each}) => on.includes(each))) assert.match(marks.get(name).says, /stay|come/);
});

test("what firms have in a state sums to its surplus, also where trades are barred and firms away", {skip}, async () => {
    for (const [name, after] of [["used-cars.json", [["leave", "D"], ["bar", "o2b2"]]], ["houses.json", [["bar", "h1b2"]]], ["keeps-a-car.json", []]]) {
        const network = networkOf(name), told = await toldOf(network, [], after);
        for (const {lines, surplus} of told.states) assert.equal([...lines.values()].reduce((sum, {utility}) => sum + utility, 0n), surplus);
        const [then, now] = told.states, gains = network.firms.map((firm) => gainOf(told, firm.name));
        assert.equal(gains.reduce((sum, gain) => sum + gain, 0n), now.surplus - then.surplus);
    }
});

test("contributions of the used cars, and of the houses, whose prices reach them", {skip}, async () => {
    const cars = await contributions(ask, networkOf("used-cars.json"), []);
    assert.deepEqual([...cars.firms], [["O1", 6n], ["O2", 3n], ["D", 2n], ["B1", 1n], ["B2", 1n], ["B3", 0n]]);
    assert.deepEqual([cars.trades.get("o1d"), cars.trades.get("o2d"), cars.trades.get("db1")], [2n, 0n, 1n]);
    const houses = await contributions(ask, networkOf("houses.json"), []);
    assert.deepEqual([...houses.firms], [["H1", 5n], ["H2", 6n], ["H3", 1n], ["B1", 2n], ["B2", 5n], ["B3", 1n]]);
    const without = await contributions(ask, networkOf("used-cars.json"), [["leave", "D"], ["bar", "o1b1"]]);
    assert.deepEqual([without.firms.has("D"), without.trades.has("o1d"), without.trades.has("o1b1")], [false, false, false]);
});

test("a market that session refuses has what it says in place of states", {skip}, async () => {
    const network = networkOf("complements.json"), {states, said} = await compared(ask, network, [], []);
    assert.deepEqual([states, said.fault], [null, 16n]);
    assert.equal(await contributions(ask, network, []), null);
});

/** A program whose surplus is the number of the trades that are admitted, for edits of trades and of firms without any. */
function counting(asked) {
    return async (words, document) => {
        if (words[0] === "firms") return JSON.stringify({answer: "firms", firms: []});
        const {trades, edits} = JSON.parse(document), admitted = new Set();
        asked.push(edits.length);
        const states = edits.map(([does, name]) => {
            for (const trade of name === "*" ? trades.map((each) => each.name) : [name]) {
                if (does === "admit") admitted.add(trade);
                if (does === "bar") admitted.delete(trade);
            }
            return {on: [], prices: [], surplus: admitted.size};
        });
        return JSON.stringify({answer: "session", edits: states});
    };
}

test("contributions of many are asked in several sessions, none with more edits than a document may have", async () => {
    const trades = Array.from({length: 128}, (_, k) => ({name: `t${k}`, seller: "S", buyer: "B"})), asked = [];
    const network = new Network(JSON.stringify({version: 2, firms: [{name: "S"}, {name: "B"}], trades}));
    const found = await contributions(counting(asked), network, [["bar", "t0"]]);
    assert.equal(asked.length, 2);
    assert.ok(asked.every((count) => count <= 256));
    assert.deepEqual([[...found.firms.values()], found.trades.size, new Set(found.trades.values())], [[0n, 0n], 127, new Set([1n])]);
});

test("what is supposed leaves the text and its history as they are, and goes into the text as edits", () => {
    const store = new Store(), {bytes} = examples().find(({name}) => name === "used-cars-edits.json");
    store.act("opened", "used-cars-edits.json", bytes);
    const {document} = store.value;
    suppose(store, [["leave", "D"]]);
    suppose(store, [["bar", "o1b1"], ["bar", "o1b2"]]);
    suppose(store, [["leave", "D"]]);
    assert.deepEqual(store.value.supposed, {before: [], after: [["bar", "o1b1"], ["bar", "o1b2"]]});
    assert.deepEqual([store.value.document, store.value.past], [document, []]);
    const network = new Network(document.text), edits = editsTo([["leave", "D"]], [["bar", "o1b1"]]);
    const text = applied(document.text, memberAs(network, "edits", JSON.stringify(edits)));
    assert.deepEqual(plain(parse(text)).edits, [["admit", "*"], ["leave", "D"], ["join", "D"], ["bar", "o1b1"]]);
    assert.deepEqual(editsOf(network, [["leave", "D"], ["leave", "nobody"], ["bar", "D"]]), [["leave", "D"]]);
    store.act("opened", "used-cars.json", examples().find(({name}) => name === "used-cars.json").bytes);
    assert.deepEqual(store.value.supposed, {before: [], after: []});
});

test("in an exercise nothing is told of what would be", () => {
    const of = (document) => ({document, view: {mode: "whatif"}}), exercise = of({isWhole: true, exercise: {title: "A", goal: "equilibrium"}});
    assert.deepEqual([isHidden(exercise), isAsked(exercise)], [true, false]);
    assert.deepEqual([of({isWhole: true, exercise: null}), of({isWhole: false})].map(isAsked), [true, false]);
});

/** The program's states of the lane of 200 units, by how many can be used, and the utilities and worths of its firms that `firms` says in each. */
const LANE = new Map([
    [200, ['{"on":[["lane",120]],"prices":[["lane",4]],"surplus":620}', [120, -360], [500, 980]]],
    [110, ['{"on":[["lane",110]],"prices":[["lane",3]],"surplus":610}', [0, -330], [610, 940]]],
    [50, ['{"on":[["lane",50]],"prices":[["lane",3]],"surplus":300}', [0, -150], [300, 450]]],
    [0, ['{"on":[],"prices":[],"surplus":0}', [0, 0], [0, 0]]]]);

/** The program as far as it is asked of the lane, by these answers; `asked` gets the edits of each session. */
function laneProgram(asked = []) {
    return async ([word], document) => {
        const {edits, arrangement} = JSON.parse(document);
        if (word === "check") return '{"answer":"better"}';
        if (word === "firms") {
            const [, [, seller, buyer]] = [...LANE].find(([, [state]]) => JSON.stringify(JSON.parse(state).on) === JSON.stringify(arrangement.on));
            return JSON.stringify({answer: "firms", firms: [["S", seller], ["B", buyer]].map(([firm, [utility, worth]]) => ({firm, utility, worth}))});
        }
        const away = new Set();
        let admitted = 0;
        asked.push(edits);
        const states = edits.map(([does, name, units]) => {
            if (does === "leave") away.add(name);
            if (does === "join") away.delete(name);
            if (does === "bar") admitted = 0;
            if (does === "admit") admitted = units ?? 200;
            return LANE.get(away.size > 0 ? 0 : admitted)[0];
        });
        return `{"answer":"session","edits":[${states.join(",")}]}`;
    };
}

async function ofLane(before, after) {
    const network = networkOf("one-lane-edits.json"), told = {...await compared(laneProgram(), network, before, after), before, after};
    return {network, told};
}

const some = (units) => [["admit", "lane", units]];

test("the states of the lane that these tests have are the program's", {skip}, async (context) => {
    const network = networkOf("one-lane-edits.json"), said = readAnswer(await ask(["session"], network.text));
    if (said.answer === "fault") return context.skip("the program doesn't answer session where trades have units");
    assert.deepEqual(said, readAnswer(await laneProgram()(["session"], network.text)));
    for (const {on, prices} of said.edits) {
        const [own, stored] = await Promise.all([ask, laneProgram()].map((each) => linesAt(each, network, on, new Map(prices))));
        for (const [firm, {utility, worth}] of stored) assert.deepEqual([own.get(firm).utility, own.get(firm).worth], [utility, worth], written(on));
    }
    return undefined;
});

test("what comes of fewer and of more units is told by units, prices, firms and the sum", async () => {
    const lines = async (before, after) => {
        const {network, told} = await ofLane(before, after);
        return [changeLine(told), tradesLine(told, network), beforeLine(told), partOf(told, "lane")];
    };
    assert.deepEqual(await lines([], []), ["With everybody there the worths sum to 620.", "Traded: lane (120 at 4).", "", "stays"]);
    assert.deepEqual(await lines([], some(50n)), ["50 units of lane are admitted: the worths sum to 300 in place of 620, which is 320 less.",
        "Traded: fewer units of lane (120 \u2192 50 at 4 \u2192 3).", "", "fewer"]);
    assert.deepEqual(await lines(some(50n), some(110n)), ["110 units of lane are admitted: the worths sum to 610 in place of 300, which is 310 more.",
        "Traded: more units of lane (50 \u2192 110 at 3).", "Before that lane has only 50 admitted units.", "more"]);
    assert.equal((await lines(some(50n), []))[0], "lane is admitted with all units: the worths sum to 620 in place of 300, which is 320 more.");
    assert.deepEqual(await lines(some(50n), [...some(50n), ["leave", "S"]]), ["S leaves: the worths sum to 0 in place of 300, which is 300 less.",
        "Traded: fewer units of lane (50 \u2192 0 at 3).", "Before that lane has only 50 admitted units.", "gone"]);
    assert.equal((await lines(some(50n), some(50n)))[0], "While lane has only 50 admitted units the worths sum to 300.");
    const {told} = await ofLane([], [["bar", "lane"]]);
    assert.deepEqual([tradeStates(told, "lane", true), firmStates(told, "S")], [["120 at 4", "barred"], ["120", "0"]]);
    assert.deepEqual(["S", "B"].map((name) => gainOf(told, name)), [-120n, -500n]);
});

test("contributions where fewer units are admitted are asked with these, and make VCG payments", async () => {
    const asked = [], {network, told} = await ofLane(some(50n), some(50n)), found = await contributions(laneProgram(asked), network, some(50n));
    const firms = [["leave", "S"], ["join", "S"], ["leave", "B"], ["join", "B"]];
    assert.deepEqual(asked, [[["admit", "*"], ["admit", "lane", 50], ...firms, ["bar", "lane"], ["admit", "lane", 50]]]);
    assert.deepEqual([[...found.firms], [...found.trades]], [[["S", 300n], ["B", 300n]], [["lane", 300n]]]);
    assert.deepEqual([paidOf(told, "S", found), paidOf(told, "B", found)], [-450n, 150n]);
    const many = {...JSON.parse(network.text), trades: Array.from({length: 1025}, (_, k) => ({name: `t${k}`, seller: "S", buyer: "B"}))};
    assert.equal(await contributions(() => assert.fail("of so many it isn't asked"), new Network(JSON.stringify(many)), []), null);
});

test("so many units are admitted, of none to all, and go into the text as edits", () => {
    const store = new Store(), {bytes} = examples().find(({name}) => name === "one-lane-edits.json"), network = networkOf("one-lane-edits.json");
    store.act("opened", "one-lane-edits.json", bytes);
    const after = () => store.value.supposed.after, steps = [() => admit(store, "lane", 50n), () => admit(store, "lane", 0n), () => admit(store, "lane", 110n),
        () => suppose(store, [["leave", "lane"]]), () => suppose(store, [["bar", "lane"]]), () => suppose(store, [["bar", "lane"]])];
    assert.deepEqual(steps.map((act) => (act(), after())), [some(50n), [["bar", "lane"]], some(110n), [...some(110n), ["leave", "lane"]],
        [["leave", "lane"], ["bar", "lane"]], [["leave", "lane"]]], "a firm of the same name is another one, and a click goes to none and to all");
    const {supposed} = store.value;
    admit(store, "lane", 200n);
    assert.equal(store.value.supposed, supposed, "where they are all there already nothing is asked anew");
    assert.deepEqual([0n, 50n, 200n].map((units) => (admit(store, "lane", units), admittedIn(network, after(), "lane"))), [0n, 50n, 200n]);
    assert.equal(written(editsTo(some(50n), [["leave", "S"]])), '[["admit","*"],["admit","lane",50],["admit","lane"],["leave","S"]]');
    const barred = [["bar", "lane"]], changes = [[some(50n), some(60n)], [some(50n), barred], [barred, some(50n)]];
    for (const [one, other] of changes) assert.deepEqual(editsBetween(one, other), other, "a number takes the place of another one");
    assert.deepEqual(editsOf(network, [...some(200n), ["leave", "S"], ["admit", "other", 5n]]), [["leave", "S"]], "what a changed document hasn't is left out");
    assert.deepEqual(editsOf(new Network(network.text.replace('"version":4', '"version":3')), some(50n)), []);
});

test("the network has how many units go of those that are admitted, and how many did before", async () => {
    const sceneOf = async (before, after) => {
        const {network, told} = await ofLane(before, after), document = {text: network.text, bytes: new TextEncoder().encode(network.text)};
        const scene = supposedScene({document, compared: {...told, document}}), room = {width: 1000, height: 600, isTall: false};
        return stageOf({...scene, network, firm: null, room, selection: null, hasOwn: false}).svg;
    };
    const shows = (svg, ...all) => all.forEach((says) => assert.ok(svg.includes(says), `${says} is in ${svg}`));
    shows(await sceneOf([], some(50n)), ">\u2212 lane<", ">50/50 at 3<", "at 3: 50 of 50 units, fewer than 120 before", ">was 120<", ">now 0<");
    shows(await sceneOf(some(50n), some(110n)), ">+ lane<", ">110/110 at 3<", "110 of 110 units, more than 50 before");
    shows(await sceneOf([], []), ">120/200 at 4<", "120 of 200 units, as before");
    shows(await sceneOf([], [["leave", "S"]]), ">0/200 at 4<", "0 of 200 units, can't be used, 120 before");
    shows(await sceneOf([["leave", "S"]], [["leave", "S"], ["bar", "lane"]]), ">0/0<", "without a price: 0 of 0 units, can't be used");
});
