// What is said of firms in plain words and of people, and all who would drop contracts.
import assert from "node:assert/strict";
import {test} from "node:test";
import {readAnswer} from "../../../page/read/answer.js";
import {droppers} from "../../../page/read/dropping.js";
import {linesAt} from "../../../page/read/firms.js";
import {Network} from "../../../page/read/network.js";
import {eachOf} from "../../../page/say/own.js";
import {plainLine} from "../../../page/say/plain.js";
import {say, speakOf} from "../../../page/words/say.js";
import {askOf} from "../ask.mjs";
import {draws, examples} from "./support.mjs";

const ask = askOf(), skip = ask === null && "there is no program";

const exampleOf = (name) => examples().find((each) => each.name === name).bytes.toString();

/** A document with another part, and its firms in another order. */
const withPart = (text, part, order = (firms) => firms) => {
    const whole = JSON.parse(text);
    return JSON.stringify({...whole, firms: order(whole.firms), ...part});
};

test("in plain words a firm gives up, pays and gets what its worth and its utility are made of", {skip}, async () => {
    const network = new Network(exampleOf("used-cars.json")), {on, prices} = network.arrangement;
    const lines = await linesAt(ask, network, on, new Map(prices));
    const said = [...lines.values()].map((line) => plainLine(line, network));
    assert.deepEqual(said, ["O1 gives up 4, gets 8 and gains 4.", "O2 gives up 6, gets 8 and gains 2.", "D has costs of 1, gets 3 and gains 2.",
        "B1 has what is worth 12 to it, pays 11 and gains 1.", "B2 has what is worth 9 to it, pays 8 and gains 1.", "B3 gains nothing."]);
});

test("firms are called people where a note says so, and words of the format stay", () => {
    const network = {data: {note: {people: true}}, firms: [], trades: []};
    assert.equal(speakOf(network), true);
    assert.equal(say("verdict.no_equilibrium", {count: 2, all: 3}), "No equilibrium: 2 of 3 people are content.");
    assert.equal(say("verdict.signed_utility", {firm: "A", does: "trades nothing", utility: 0}), "A trades nothing: their utility is 0.");
    assert.equal(speakOf(network, false), true);
    assert.equal(say("verdict.no_equilibrium", {count: 2, all: 3}), "No equilibrium: 2 of 3 firms are content.");
    assert.equal(speakOf({...network, data: {}}), false);
});

test("what is said of a trade alone is what the program says it is worth", {skip}, async () => {
    for (const name of ["used-cars.json", "horses.json", "houses.json", "capacity.json", "one-trade.json", "complements.json"]) {
        const network = new Network(exampleOf(name));
        for (const {name: firm} of network.firms) for (const [trade, says] of eachOf(network, firm)) {
            const {worth} = (await linesAt(ask, network, [trade])).get(firm), isSale = network.trade(trade).seller === firm;
            assert.equal(says, isSale ? say("own.sells", {price: -worth}) : say("own.pays", {price: worth}), `${name}, ${firm}, ${trade}`);
        }
    }
});

test("all who would drop contracts are found: each whom judge says first where it stands first", {skip}, async () => {
    const text = exampleOf("used-cars.json"), names = JSON.parse(text).firms.map(({name}) => name), draw = draws(7);
    let most = 0;
    for (let k = 0; k < 30; k += 1) {
        const contracts = JSON.parse(text).trades.filter(() => draw(3) === 0).map(({name}) => [name, draw(16)]), outcome = {over: 1, contracts};
        const asIs = withPart(text, {outcome}), first = readAnswer(await ask(["judge"], asIs)), wanted = [];
        for (const name of names) {
            const said = readAnswer(await ask(["judge"], withPart(text, {outcome}, (firms) => [firms.find((firm) => firm.name === name), ...firms.filter((firm) => firm.name !== name)])));
            if (said.answer === "drops" && said.firm === name) wanted.push(name);
        }
        const found = (await droppers(ask, new Network(asIs), first)).map(({firm}) => firm);
        assert.deepEqual([...found].sort(), wanted.sort());
        most = Math.max(most, found.length);
    }
    assert.ok(most > 2);
});
