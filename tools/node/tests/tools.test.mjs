// What the tools of the shell end with, and what they take.
import assert from "node:assert/strict";
import {spawnSync} from "node:child_process";
import {createHash} from "node:crypto";
import {mkdtempSync, readdirSync, readFileSync, symlinkSync, writeFileSync} from "node:fs";
import {tmpdir} from "node:os";
import {join} from "node:path";
import {test} from "node:test";
import {fileURLToPath} from "node:url";
import {networkPicture} from "../../../page/draw/network.js";
import {isSo, NoAnswer, readAnswer} from "../../../page/read/answer.js";
import {Network} from "../../../page/read/network.js";
import {explain} from "../../../page/say/explain.js";
import {askOf} from "../ask.mjs";
import {examples, largeExample} from "./support.mjs";

const HOME = fileURLToPath(new URL("../../../", import.meta.url));
const ask = askOf(), skip = ask === null && "there is no program";

function run(tool, words, input, path = process.env.PATH) {
    const {status, stdout, stderr} = spawnSync(join(HOME, "tools", tool), words, {cwd: HOME, input, encoding: "utf8", env: {...process.env, PATH: path}});
    return {status, stdout, stderr};
}

test("without node the tools say what they need", () => {
    const folder = mkdtempSync(join(tmpdir(), "tools-"));
    for (const name of ["bash", "dirname", "readlink"]) symlinkSync(spawnSync("which", [name], {encoding: "utf8"}).stdout.trim(), join(folder, name));
    for (const tool of ["explain", "draw", "why", "bars"]) {
        const {status, stderr} = run(tool, ["examples/one-trade.json"], "", folder);
        assert.equal(status, 69);
        assert.match(stderr, /needs node 18 or later/);
    }
});

test("words, files and answers that aren't what is wanted have a status", () => {
    const solved = '{"answer":"solved","on":["a"],"prices":[["a",3]],"surplus":2}';
    assert.equal(run("explain", ["examples/one-trade.json"], solved).status, 0);
    assert.equal(run("explain", [], solved).status, 2);
    assert.equal(run("draw", ["--wide", "examples/one-trade.json"], solved).status, 2);
    assert.equal(run("draw", ["examples/no-such.json"], solved).status, 1);
    assert.equal(run("bars", ["examples/one-trade.json"], solved).status, 1);
    assert.equal(run("why", ["examples/one-trade.json"], solved).status, 1);
    for (const tool of ["explain", "draw", "why", "bars"]) assert.equal(run(tool, ["examples/ring.json"], solved).status, 1);
});

test("many answers are told in one run", () => {
    const lines = ['{"file":"examples/one-trade.json","status":0,"answer":"accepted"}', '{"file":"examples/one-trade.json","answer":"impossible","firm":"Q"}', '{"answer":"accepted"}'];
    const {status, stdout, stderr} = run("explain", ["--lines", "examples/ring-on.json"], lines.join("\n"));
    assert.equal(status, 1);
    assert.match(stdout, /^examples\/one-trade.json:\nEach firm meets .*\n\nEach firm meets .*\n$/);
    assert.match(stderr, /^line 2: .*no firm Q/);
});

test("an answer with the same names to another document is told", {skip}, async () => {
    const bytesOf = (wanted) => examples().find(({name}) => name === wanted).bytes;
    const said = readAnswer(await ask(["check"], bytesOf("used-cars-dear-car.json")));
    await isSo(new Network(bytesOf("used-cars-dear-car.json").toString()), said, ask);
    await assert.rejects(isSo(new Network(bytesOf("used-cars.json").toString()), said, ask), NoAnswer);
});

test("a network of very many arrows is a table, and one of its firms a picture", () => {
    const trades = Array.from({length: 128}, (_, k) => ({name: `t${k}`, seller: `S${k % 8}`, buyer: `B${k >> 3}`}));
    const firms = [...new Set(trades.flatMap(({seller, buyer}) => [seller, buyer]))].map((name) => ({name, kind: "laminar"}));
    const network = new Network(JSON.stringify({version: 2, firms, trades}));
    const table = networkPicture(network, {});
    assert.equal([...table.matchAll(/data-trades=/g)].length, 128);
    assert.doesNotMatch(table, /data-firm/);
    assert.equal([...networkPicture(network, {}, {firm: "S1"}).matchAll(/data-firm=/g)].length, 17);
});

test("so is the large example, and its answers are drawn and told", {skip}, async () => {
    const bytes = largeExample(), network = new Network(bytes.toString());
    assert.equal(network.trades.length, 797);
    for (const command of ["solve", "range", "check"]) {
        const said = readAnswer(await ask([command], bytes));
        assert.equal([...networkPicture(network, said).matchAll(/data-trades=/g)].length, 200);
        assert.ok((await explain(network, said, null)).length > 0);
    }
    assert.equal([...networkPicture(network, {}, {firm: "Packing-Lyon"}).matchAll(/data-firm=/g)].length, 15);
});

test("a firm may have any name that the rule allows, also one that objects have already", () => {
    const text = readFileSync(new URL("../../../examples/used-cars.json", import.meta.url), "utf8").replaceAll('"O1"', '"__proto__"').replaceAll('"D"', '"constructor"');
    assert.match(networkPicture(new Network(text), {}), /data-firm="__proto__"/);
});

test("what is kept of others is what its licence file says", () => {
    for (const [folder, names] of [["dagre-0.8.5", ["dagre.min.js"]], ["codemirror-5.65.0", ["codemirror.min.js", "codemirror.css"]]]) {
        const place = new URL(`../../../page/vendor/${folder}/`, import.meta.url), licence = readFileSync(new URL("LICENCE.txt", place), "utf8");
        for (const name of names) assert.ok(licence.includes(createHash("sha256").update(readFileSync(new URL(name, place))).digest("hex")), name);
    }
});

test("the modules of page/ take nothing that node alone has", () => {
    const folder = new URL("../../../page/", import.meta.url);
    for (const part of ["read", "draw", "say"]) {
        for (const name of readdirSync(new URL(part, folder))) {
            const text = readFileSync(new URL(`${part}/${name}`, folder), "utf8");
            for (const [, path] of text.matchAll(/(?:from|import) "([^"]*)"/g)) assert.match(path, /^\.\.?\//, name);
            assert.doesNotMatch(text, /\b(process|Buffer|require)\b/, name);
        }
    }
});

test("without the module the page has at most 950,000 bytes", () => {
    const page = readFileSync(join(HOME, "page/market.html"), "utf8"), [, module] = page.match(/<script type="text\/plain" id="program">([^<]*)</);
    assert.ok(Buffer.byteLength(page) - module.length <= 950000);
    assert.ok(module.length > 100000);
});

test("the tools call firms and trades as their notes say", {skip}, async () => {
    const note = {en: "the bicycle", de: "das Fahrrad"}, firms = [{name: "S", kind: "table", rows: [[["a"], -5]], note: "Frau M\u00fcller"}, {name: "B", kind: "table", rows: [[["a"], 9]]}];
    const folder = mkdtempSync(join(tmpdir(), "tools-")), file = join(folder, "labelled.json");
    writeFileSync(file, JSON.stringify({version: 1, firms, trades: [{name: "a", seller: "S", buyer: "B", note}]}));
    const answer = await ask(["solve"], readFileSync(file, "utf8"));
    for (const tool of ["explain", "draw"]) {
        const {status, stdout} = run(tool, [file], answer);
        assert.equal(status, 0);
        assert.match(stdout, /Frau M\u00fcller/);
        assert.match(stdout, /the bicycle/);
    }
});
