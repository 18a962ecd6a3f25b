// Whether the workbench changes of a text what it says and nothing else, its guess, contracts and claim, takes changes back, and brings
// documents back from links.
import assert from "node:assert/strict";
import {deflateRawSync} from "node:zlib";
import {test} from "node:test";
import {claimedAs, fieldsOf, leftOut, spoilt, toggledIn} from "../../../page/app/document/claims.js";
import {countedOver, outcomeOf, signed, signedAs, unsigned} from "../../../page/app/document/contracts.js";
import {applied, arranged, priced, turned} from "../../../page/app/document/edits.js";
import {isOneLine, laidOut} from "../../../page/app/document/lines.js";
import {isOld, networkOf, Store} from "../../../page/app/document/state.js";
import {bytesIn, fragmentOf} from "../../../page/app/sharing/link.js";
import {parse, plain, written} from "../../../page/read/json.js";
import {Network} from "../../../page/read/network.js";
import {draws, examples} from "./support.mjs";

const bytesOf = (text) => new TextEncoder().encode(text);

/** The examples with trades, as they are, on one line, and spread over many. */
function texts() {
    const own = examples().map(({bytes}) => bytes.toString()).filter((text) => new Network(text).trades.length > 0);
    return own.flatMap((text) => [text, JSON.stringify(JSON.parse(text)), JSON.stringify(JSON.parse(text), null, "\t")]);
}

/** What stands before and behind the arrangement of a text. */
function around(text) {
    const {start, end} = parse(text).value.get("arrangement");
    return [text.slice(0, start), text.slice(end)];
}

/** Whether an edited text has an arrangement, and all else as it was. */
function holds(before, after, network, wanted) {
    const {on, prices} = plain(parse(after)).arrangement;
    assert.deepEqual([...on].sort(), [...wanted.on].sort());
    assert.deepEqual(new Map(prices), wanted.prices);
    if (plain(parse(before)).arrangement === undefined) assert.ok(after.startsWith(before.slice(0, network.root.end - 1)));
    else assert.deepEqual(around(after), around(before));
}

test("a trade is turned, and a price given, by a change of the text that leaves all else", () => {
    const draw = draws(44);
    for (const text of texts()) {
        const network = new Network(text), {on = [], prices = []} = plain(network.root).arrangement ?? {};
        const {name} = network.trades[draw(network.trades.length)], isOn = draw(2) === 0, price = String(draw(2000) - 1000);
        const zeros = prices.length > 0 ? new Map(prices) : new Map(network.trades.map((trade) => [trade.name, 0n]));
        const edited = applied(text, turned(network, name, isOn));
        const others = on.filter((other) => other !== name), dearer = applied(text, priced(network, new Map([[name, price]])));
        if (network.arrangement.on) holds(text, edited, network, {on: isOn ? [...others, name] : others, prices: new Map(prices)});
        holds(text, dearer, network, {on, prices: new Map(zeros).set(name, BigInt(price))});
    }
});

test("a whole arrangement is taken, and what is so already isn't touched", () => {
    for (const text of texts()) {
        const network = new Network(text), names = network.trades.map(({name}) => name);
        const prices = new Map(names.map((name, k) => [name, String(k * 7 - 3)]));
        const edited = applied(text, arranged(network, names, prices));
        const {on, prices: made} = plain(parse(edited)).arrangement;
        assert.deepEqual([...on].sort(), [...names].sort());
        for (const [name, price] of prices) assert.equal(new Map(made).get(name), BigInt(price));
        assert.deepEqual(arranged(new Network(edited), names, prices), []);
    }
});

test("odd texts keep what is odd", () => {
    const text = '{ "arrangement" : {"on":["x"]}, "arrangement" : {"prices" : [ ["a" , 9999999999999999999999 ],["b",1e3] ] , '
        + '"on" : [ "a" , "b", "a" ] } ,"trades":[{"name":"a"},{"name":"b"}],"n":1.50}\r\n';
    const network = new Network(text);
    assert.equal(applied(text, turned(network, "a", false)), text.replace('[ "a" , "b", "a" ]', '[ "b" ]'));
    assert.equal(applied(text, turned(network, "b", false)), text.replace('"a" , "b", "a"', '"a" , "a"'));
    const both = priced(network, new Map([["b", "7"], ["a", "-1"]]));
    assert.equal(applied(text, both), text.replace("9999999999999999999999", "-1").replace("1e3", "7"));
    assert.deepEqual(turned(network, "a", true), []);
    assert.deepEqual(turned(new Network("[1]"), "a", true), []);
});

test("a document on one line is laid out by ends of lines and blanks alone", () => {
    for (const text of texts()) {
        const line = JSON.stringify(JSON.parse(text)), laid = laidOut(line);
        assert.equal(written(plain(parse(laid))), written(plain(parse(line))));
        assert.equal(laid.replace(/\n */g, ""), line);
        assert.equal(isOneLine(laid), false);
    }
    assert.equal(laidOut('{"a":"[,{\\",","b":[1,2]}'), '{\n  "a":"[,{\\",",\n  "b":[\n    1,\n    2]}\n');
});

test("a link brings a document back, stops at 4 MiB and a byte, and is refused where it is broken", async () => {
    for (const {bytes} of examples()) assert.deepEqual(Buffer.from(await bytesIn(await fragmentOf(bytes))), bytes);
    const bomb = `#1.${deflateRawSync(Buffer.alloc(1 << 26)).toString("base64url")}`;
    assert.equal((await bytesIn(bomb)).length, (1 << 22) + 1);
    for (const fragment of ["#1.", "#1.!", "#1.AAAA"]) await assert.rejects(bytesIn(fragment));
});

test("at least 200 changes are taken back and done again, those with one mark together", () => {
    const store = new Store(), seen = [];
    store.act("opened", "a.json", bytesOf("0"));
    for (let k = 1; k <= 300; k += 1) {
        seen.push(store.value.document.text);
        store.act("typed", `${k}`);
    }
    for (let k = 0; k < 5; k += 1) store.act("typed", `letters ${k}`, "letters");
    store.act("undone");
    for (const text of seen.reverse()) {
        store.act("undone");
        assert.equal(store.value.document.text, text);
    }
    for (let k = 1; k <= 301; k += 1) store.act("redone");
    assert.equal(store.value.document.text, "letters 4");
    assert.equal(store.value.future.length, 0);
});

test("an answer is old as soon as the text is another, and isn't any more when it is taken back", () => {
    const store = new Store();
    store.act("opened", "a.json", bytesOf("{}"));
    store.act("answered", {document: store.value.document});
    assert.equal(isOld(store.value, store.value.answer), false);
    store.act("typed", "{ }");
    assert.equal(isOld(store.value, store.value.answer), true);
    store.act("undone");
    assert.equal(isOld(store.value, store.value.answer), false);
    assert.equal(networkOf(store.value.document).trades.length, 0);
});

/** What stands around a member of a text, which is put at its end where there is none. */
function rest(text, name) {
    const node = parse(text).value.get(name);
    return node ? [text.slice(0, node.start), text.slice(node.end)] : [text.slice(0, text.lastIndexOf("}"))];
}

/** Whether all but one member of an edited text is as it was. */
function leaves(before, after, name) {
    const [head, tail] = rest(before, name);
    assert.ok(after.startsWith(head) && (tail === undefined || after.endsWith(tail)));
}

test("a trade is signed, and its contract taken away, by a change of the text that leaves all else", () => {
    const draw = draws(52);
    for (const text of texts()) {
        const network = new Network(text), {name} = network.trades[draw(network.trades.length)], price = String(draw(2000) - 1000);
        const made = applied(text, signed(network, new Map([[name, price]])));
        leaves(text, made, "outcome");
        assert.equal(new Map(plain(parse(made)).outcome.contracts).get(name), BigInt(price));
        const gone = applied(made, unsigned(new Network(made), name));
        leaves(made, gone, "outcome");
        const others = [...outcomeOf(network).contracts].filter(([other]) => other !== name);
        assert.deepEqual(plain(parse(gone)).outcome.contracts, others);
        assert.deepEqual(unsigned(new Network(gone), name), []);
    }
});

test("contracts are taken together, and counted over another denominator where they are whole then", () => {
    for (const text of texts()) {
        const network = new Network(text), names = network.trades.map(({name}) => name), prices = new Map(names.map((name, k) => [name, String(6 * k)]));
        const made = applied(text, signedAs(network, 6n, prices));
        leaves(text, made, "outcome");
        assert.deepEqual(outcomeOf(new Network(made)), {over: 6n, contracts: new Map(names.map((name, k) => [name, BigInt(6 * k)]))});
        assert.deepEqual(signedAs(new Network(made), 6n, prices), []);
        const whole = applied(made, countedOver(new Network(made), 1n));
        leaves(made, whole, "outcome");
        assert.deepEqual(outcomeOf(new Network(whole)), {over: 1n, contracts: new Map(names.map((name, k) => [name, BigInt(k)]))});
        const half = applied(made, signed(new Network(made), new Map([[names[0], "3"]])));
        assert.equal(countedOver(new Network(half), 1n), null);
        assert.equal(outcomeOf(new Network(applied(half, countedOver(new Network(half), 12n)))).contracts.get(names[0]), 6n);
    }
    assert.deepEqual(signed(new Network("[1]"), new Map([["a", "1"]])), []);
});

test("an answer is put in as the claim, and each name and number of it changed at its place", () => {
    const said = {answer: "blocks", contracts: [["a", 9n], ["b", 8n]], over: 3n};
    for (const text of texts()) {
        const network = new Network(text), made = applied(text, claimedAs(network, said));
        leaves(text, made, "claim");
        assert.equal(written(plain(parse(made)).claim), written(said));
        const first = applied(made, spoilt(fieldsOf(new Network(made))[0], "7"));
        assert.equal(written(plain(parse(first)).claim), written({...said, contracts: [["a", 7n], ["b", 8n]]}));
        const out = applied(made, leftOut(fieldsOf(new Network(made))[0]));
        assert.equal(written(plain(parse(out)).claim), written({...said, contracts: [["b", 8n]]}));
        leaves(made, out, "claim");
    }
});

test("of every claim of the examples each field stands at its place, and a trade goes into a set and out of it", () => {
    for (const text of texts()) {
        const network = new Network(text);
        for (const field of fieldsOf(network)) {
            if (field.kind !== "set") {
                assert.equal(applied(text, spoilt(field, text.slice(field.node.start, field.node.end))), text);
                continue;
            }
            for (const {name, isIn} of field.trades) {
                const turned = applied(text, toggledIn(field, name, !isIn)), again = fieldsOf(new Network(turned)).find(({key}) => key === field.key);
                assert.equal(again.trades.find((trade) => trade.name === name)?.isIn ?? false, !isIn);
                leaves(text, turned, "claim");
            }
        }
    }
});

test("a document is opened to sign where it has contracts and no guess, and at its claim where it has one", () => {
    const store = new Store(), open = (name) => store.act("opened", name, examples().find((each) => each.name === name).bytes);
    for (const [name, panel, mode] of [["used-cars.json", "guess", "guess"], ["used-cars-bypassed.json", "sign", "sign"], ["claim-choice.json", "claim", "sign"],
        ["claim-gain.json", "claim", "guess"], ["used-cars.json", "guess", "guess"]]) {
        open(name);
        assert.deepEqual([store.value.view.panel, store.value.view.mode], [panel, mode]);
    }
    store.act("went", "document");
    open("used-cars-bypassed.json");
    assert.deepEqual([store.value.view.panel, store.value.view.mode], ["document", "sign"]);
});

/** A store with an example that was opened. */
function opened(name) {
    const store = new Store();
    store.act("opened", name, examples().find((each) => each.name === name).bytes);
    return store;
}

test("a reason, and what is signed, begin with their first step in the place of a firm that was chosen", () => {
    const store = opened("used-cars-outbid.json"), firm = {kind: "firm", name: "B1"};
    for (const [name, detail] of [["looked", {hasReason: true, step: 0}], ["looked", {isOver: true}], ["went", "sign"]]) {
        store.act("selected", firm);
        store.act(name, detail);
        assert.equal(store.value.selection, null, name);
    }
    store.act("reasoned", {said: {answer: "cycle", cost: -1n}, story: {}});
    store.act("selected", firm);
    for (const [said, story, wanted] of [[{answer: "cycle", cost: -1n}, {}, firm], [{answer: "prices"}, null, firm], [{answer: "cycle", cost: -2n}, {}, null]]) {
        store.act("reasoned", {said, story});
        assert.equal(store.value.selection, wanted);
    }
});

test("a bound that is chosen goes with its text, and ranges and the order of the table with their document", () => {
    const store = opened("houses.json"), {text} = store.value.document, bound = {kind: "bound", trade: "h1b1", side: "low"};
    const sort = {by: "price", isDown: true};
    for (const [name, ...details] of [["typed", `${text} `], ["undone"], ["redone"], ["looked", {isOver: true}], ["looked", {hasRanges: false}]]) {
        store.act("looked", {hasRanges: true, sort});
        store.act("selected", bound);
        store.act(name, ...details);
        assert.equal(store.value.selection, null, name);
    }
    store.act("looked", {hasRanges: true, sort});
    store.act("typed", `${text}  `);
    assert.deepEqual([store.value.view.hasRanges, store.value.view.sort], [true, sort]);
    store.act("opened", "houses.json", new TextEncoder().encode(text));
    assert.deepEqual([store.value.view.hasRanges, store.value.view.sort], [false, {by: null, isDown: false}]);
});
