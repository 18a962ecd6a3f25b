// Whether pictures have all that they are of, once, and can be read: at 1600 by 1000 no label lies on another or on a box, and none
// is lower than 11 pixels.
import assert from "node:assert/strict";
import {test} from "node:test";
import {barsPicture} from "../../../page/draw/bars.js";
import {compact, filled} from "../../../page/draw/layout.js";
import {networkPicture} from "../../../page/draw/network.js";
import {whyPicture} from "../../../page/draw/why.js";
import {readAnswer} from "../../../page/read/answer.js";
import {Network} from "../../../page/read/network.js";
import {askOf} from "../ask.mjs";
import {examples, has, lanesOf} from "./support.mjs";

const ask = askOf(), skip = ask === null && "there is no program";
const COMMANDS = ["check", "test", "support", "solve", "range", "session", "judge", "replay"];

function attribute(element, name) {
    return Number(new RegExp(` ${name}="([^"]*)"`).exec(element)[1]);
}

/** The boxes, as `{x, y, width, height}` of their left top corners, of the groups of a class. */
function boxesOf(svg, name) {
    return [...svg.matchAll(new RegExp(`<g class="${name}"[^>]*>\\s*<rect[^>]*>`, "g"))]
        .map(([element]) => Object.fromEntries(["x", "y", "width", "height"].map((key) => [key, attribute(element, key)])));
}

function meet(one, other) {
    return one.x < other.x + other.width && other.x < one.x + one.width && one.y < other.y + other.height && other.y < one.y + one.height;
}

function isLegible(svg, name) {
    const [, width, height] = /viewBox="0 0 (\d+) (\d+)"/.exec(svg).map(Number);
    const scale = Math.min(1600 / width, 1000 / height, 1);
    for (const [, size] of svg.matchAll(/font-size="([\d.]+)"/g)) assert.ok(size * scale >= 10.9, `${name}: letters of ${size * scale}`);
    const labels = boxesOf(svg, "label"), boxes = [...boxesOf(svg, "firm"), ...boxesOf(svg, "node")];
    labels.forEach((one, k) => {
        assert.ok(one.x >= 0 && one.y >= 0 && one.x + one.width <= width && one.y + one.height <= height, `${name}: a label beyond the edge`);
        for (const other of [...labels.slice(k + 1), ...boxes]) assert.ok(!meet(one, other), `${name}: a label lies on something`);
    });
    assert.doesNotMatch(svg, /undefined|NaN|\[object/, name);
}

function hasOnce(svg, network, name) {
    const firms = [...svg.matchAll(/data-firm="([^"]*)"/g)].map(([, firm]) => firm).sort();
    assert.deepEqual(firms, network.firms.map((firm) => firm.name).sort(), `${name}: firms`);
    const trades = [...svg.matchAll(/data-trades="([^"]*)"/g)].flatMap(([, names]) => names.split(" ")).sort();
    const drawn = network.trades.filter(({seller, buyer}) => firms.includes(seller) && firms.includes(buyer)).map((trade) => trade.name).sort();
    assert.deepEqual(trades, drawn, `${name}: trades`);
}

/** Every answer to an example, and to a larger network, as `{name, network, said}`. */
async function everyAnswer() {
    const texts = [...examples().map(({name, bytes}) => [name, bytes.toString()]), ["63 lanes", lanesOf(63, 123)]];
    const all = [], commands = await has(ask, "firms") ? [...COMMANDS, "firms"] : COMMANDS;
    for (const [name, text] of texts) {
        for (const command of commands) all.push({name: `${name} ${command}`, network: new Network(text), said: readAnswer(await ask([command], text))});
    }
    return all;
}

test("networks are drawn whole and legibly", {skip}, async () => {
    for (const {name, network, said} of await everyAnswer()) {
        const svg = networkPicture(network, said);
        hasOnce(svg, network, name);
        isLegible(svg, name);
    }
});

test("a lane that takes place has its label in a large network", {skip}, async () => {
    const text = lanesOf(63, 123), network = new Network(text);
    const said = readAnswer(await ask(["solve"], text));
    const lanes = new Set(said.on.map((name) => JSON.stringify([network.trade(name).seller, network.trade(name).buyer])));
    assert.equal(boxesOf(networkPicture(network, said), "label").length, lanes.size);
});

test("ranges are drawn whole", {skip}, async () => {
    for (const {name, network, said} of (await everyAnswer()).filter((each) => each.said.answer === "ranges")) {
        const svg = barsPicture(network, said);
        const trades = [...svg.matchAll(/data-trades="([^"]*)"/g)].flatMap(([, names]) => names.split(" ")).sort();
        assert.deepEqual(trades, said.ranges.map((range) => range.trade).sort(), name);
        isLegible(svg, name);
    }
});

test("reasons are drawn whole and legibly", {skip}, async () => {
    const asked = await has(ask, "firms") ? ask : null;
    for (const {name, network, said} of await everyAnswer()) {
        if (said.answer === "ranges" && said.ranges.length > 1) said.ranges = said.ranges.slice(0, 2);
        const svg = await whyPicture(network, said, asked);
        if (said.answer === "cycle") assert.equal([...svg.matchAll(/data-node=/g)].length, said.nodes.length, name);
        if (said.answer === "blocks") for (const [trade] of said.contracts) assert.match(svg, new RegExp(`data-trades="${trade}"`));
        if (svg !== null) isLegible(svg, name);
    }
});

test("a plan in parts is drawn with all its firms, and each trade of which something is sold", {skip}, async () => {
    for (const name of ["no-prices.json", "three-pairs.json"]) {
        const {bytes} = examples().find((each) => each.name === name), network = new Network(bytes.toString());
        const svg = await whyPicture(network, readAnswer(await ask(["replay"], bytes)), ask);
        hasOnce(svg, network, name);
        isLegible(svg, name);
        assert.match(svg, /would need (11 to be at most 10|6 to be at most 4)\./);
    }
});

test("one firm, and what changed, are drawn alone", {skip}, async () => {
    const {bytes} = examples().find(({name}) => name === "used-cars.json"), network = new Network(bytes.toString());
    const said = readAnswer(await ask(["solve"], bytes));
    const near = networkPicture(network, said, {firm: "B3"});
    assert.deepEqual([...near.matchAll(/data-firm="([^"]*)"/g)].map(([, firm]) => firm), ["O2", "D", "B3"]);
    const before = {...said, on: said.on.filter((name) => name !== "db1").concat("db3"), prices: said.prices.map(([name, price]) => [name, price - 1n])};
    const changed = networkPicture(network, said, {before});
    assert.match(changed, /takes place now, and didn't before/);
    assert.match(changed, /took place before, and doesn't now/);
    isLegible(changed, "changed");
});

test("cycles of any length up to 40 are drawn legibly", async () => {
    const network = new Network(lanesOf(63, 123));
    for (const length of [2, 3, 4, 5, 12, 13, 27, 40]) {
        const nodes = [null, ...network.trades.slice(0, length - 1).map(({name}) => name)];
        const svg = await whyPicture(network, {answer: "cycle", nodes, cost: -3n}, null);
        assert.equal([...svg.matchAll(/data-node=/g)].length, length);
        isLegible(svg, `a cycle of ${length}`);
    }
});

test("boxes of a picture that goes down stay in their layers where it is made higher", () => {
    const boxes = ["A", "B", "C", "D", "E", "F"].map((id) => ({id, width: 80, height: 40}));
    const arrows = [["A", "D"], ["B", "D"], ["C", "E"], ["D", "F"], ["E", "F"]].map(([from, to]) => ({from, to, size: null}));
    const {centers} = filled(compact(boxes, arrows, false, "TB"), boxes, arrows, {width: 400, height: 500});
    const at = boxes.map(({id, ...size}) => ({...centers.get(id), ...size}));
    at.forEach((box, k) => at.slice(k + 1).forEach((other) => assert.ok(!meet(box, other), `${boxes[k].id} lies on another box`)));
    for (const {from, to} of arrows) assert.ok(centers.get(from).y < centers.get(to).y, `${from} is above ${to}`);
});
