// Whether the tables of the languages have the same texts, those that are asked for, with the same values, numbers and names.
import assert from "node:assert/strict";
import {readdirSync, readFileSync} from "node:fs";
import {test} from "node:test";
import {formOf} from "../../../page/app/form/fields.js";
import {languageIn} from "../../../page/app/sharing/link.js";
import {barsPicture} from "../../../page/draw/bars.js";
import {networkPicture} from "../../../page/draw/network.js";
import {whyPicture} from "../../../page/draw/why.js";
import {NoAnswer, readAnswer} from "../../../page/read/answer.js";
import {Network} from "../../../page/read/network.js";
import {compared} from "../../../page/read/states.js";
import {explain} from "../../../page/say/explain.js";
import {storyOf} from "../../../page/say/story.js";
import {changeLine, sharesLine, tradesLine} from "../../../page/say/whatif.js";
import {LANGUAGES, language, say, speak} from "../../../page/words/say.js";
import {askOf} from "../ask.mjs";
import {examples, has} from "./support.mjs";

const ask = askOf(), skip = ask === null && "there is no program", PAGE = new URL("../../../page/", import.meta.url);

/** The texts of a language by their keys, each as its forms. */
function textsOf(name) {
    const {table} = LANGUAGES[name];
    const forms = (entry) => typeof entry === "string" ? {"": entry} : entry;
    const entries = Object.entries(table).flatMap(([part, texts]) => Object.entries(texts).map(([key, entry]) => [`${part}.${key}`, forms(entry)]));
    return new Map(entries);
}

const valuesIn = (forms) => [...new Set(Object.values(forms).flatMap((text) => text.match(/\{\w+\}/g) ?? []))].sort();

/** Which numbers are in a text, without what sets their digits in threes. */
const numbersIn = (text) => [...new Set((text.match(/-?\d[\d.,/]*/g) ?? []).map((number) => number.replace(/[.,]/g, "")))].sort().join();

/** The files below a folder of page/. */
function filesBelow(folder) {
    return readdirSync(new URL(folder, PAGE), {withFileTypes: true}).flatMap((each) =>
        each.isDirectory() ? filesBelow(`${folder}/${each.name}`) : [`${folder}/${each.name}`]);
}

/** What a source asks for: texts in quotes that are keys, or would be. */
function askedFor(parts) {
    const files = ["app", "draw", "read", "say"].flatMap(filesBelow);
    const key = new RegExp(`"((?:${parts.join("|")})\\.\\w+)"`, "g");
    const sources = [...files, "index.html"].flatMap((file) => [...readFileSync(new URL(file, PAGE), "utf8").matchAll(key)].map(([, found]) => found));
    const groups = [...readFileSync(new URL("examples.txt", PAGE), "utf8").matchAll(/^[^:]+/gm)].map(([found]) => found);
    return new Set([...sources, ...groups]);
}

test("each language has the texts that the sources ask for, and no others", () => {
    for (const name of Object.keys(LANGUAGES)) {
        const texts = textsOf(name), asked = askedFor(Object.keys(LANGUAGES[name].table));
        assert.deepEqual([...asked].filter((key) => !texts.has(key)), [], `asked for, and not in ${name}`);
        assert.deepEqual([...texts.keys()].filter((key) => !asked.has(key)), [], `in ${name}, and not asked for`);
    }
});

test("all languages have the same texts, with the same values and numbers, in each form by which they count", () => {
    const english = textsOf("en");
    for (const name of Object.keys(LANGUAGES)) {
        const texts = textsOf(name), wanted = [...new Intl.PluralRules(name).resolvedOptions().pluralCategories].sort();
        assert.deepEqual([...texts.keys()].sort(), [...english.keys()].sort());
        for (const [key, forms] of texts) {
            assert.deepEqual(valuesIn(forms), valuesIn(english.get(key)), `the values of ${key} in ${name}`);
            assert.ok("" in forms || Object.keys(forms).sort().join() === wanted.join(), `the forms of ${key} in ${name}`);
            const others = Object.values(english.get(key)).map(numbersIn);
            for (const text of Object.values(forms)) {
                assert.ok(others.includes(numbersIn(text)), `the numbers of ${key} in ${name}`);
                assert.doesNotMatch(text, /undefined| {2}|"/, `${key} in ${name}`);
            }
        }
    }
});

test("German has its own words and quotation marks", () => {
    const english = textsOf("en"), alike = [];
    for (const [key, forms] of textsOf("de")) {
        const letters = JSON.stringify(forms).replace(/\{\w+\}/g, "").match(/\p{L}{2,}/gu) ?? [];
        if (letters.length > 1 && JSON.stringify(forms) === JSON.stringify(english.get(key))) alike.push(key);
        for (const text of Object.values(forms)) assert.equal(text.split("\u201e").length, text.split("\u201c").length, key);
    }
    assert.deepEqual(alike, []);
});

test("a text that isn't there, or lacks a value, is an error", () => {
    assert.throws(() => say("page.nothing"), /no text page.nothing in en/);
    assert.throws(() => say("deal.signed"), /wants contracts/);
    assert.throws(() => say("exercise.tries"), /wants count/);
    assert.equal(say("deal.signed", {contracts: "{trades}"}), "Signed: {trades}.");
    assert.deepEqual([0n, 1n, 2n].map((count) => say("exercise.tries", {count})), ["0 tries", "1 try", "2 tries"]);
});

test("a link's language is read beside its document", () => {
    assert.deepEqual(["#lang=de", "#1.AAAA&lang=de", "#lang=de&1.AAAA", "#1.AAAA", "", "#1.lang=de"].map(languageIn), ["de", "de", "de", null, null, null]);
});

/** What is said and drawn of an answer, in words alone: of pictures the words that stand in them. */
async function toldOf(network, said) {
    const story = await storyOf(network, said, ask), steps = (story?.steps ?? []).flatMap(({says, below}) => [says, ...[...below.values()].flat()]);
    const isDrawn = network.firms.length > 0 && !network.problem;
    const pictures = isDrawn ? [networkPicture(network, said), await whyPicture(network, said, ask), said.answer === "ranges" ? barsPicture(network, said) : null] : [];
    const drawn = pictures.filter(Boolean).flatMap((svg) => [...svg.matchAll(/>([^<>]+)</g)].map(([, word]) => word));
    return {lines: [...await explain(network, said, ask), ...(story === null ? [] : [story.head, ...steps])], drawn};
}

/** The same in each language. */
async function inEach(tell) {
    const told = {};
    for (const name of Object.keys(LANGUAGES)) {
        speak(name);
        told[name] = await tell();
    }
    speak("en");
    return told;
}

const ENGLISH = /\b(the|and|would|with|is|are|of|which|trade|sells|buys|from|by|its|takes place)\b/;

test("every answer to an example is told and drawn in each language, with the same numbers", {skip}, async (context) => {
    if (!await has(ask, "firms")) return context.skip("the program has no firms");
    for (const {name, bytes} of examples()) {
        const network = new Network(bytes.toString());
        for (const command of ["check", "test", "support", "solve", "range", "session", "judge", "replay", "firms"]) {
            const said = readAnswer(await ask([command], bytes)), {en, de} = await inEach(() => toldOf(network, said));
            assert.equal(de.lines.length, en.lines.length, `${name} ${command}`);
            const numbers = ({lines}) => lines.map(numbersIn);
            assert.deepEqual(numbers(de), numbers(en), `${name} ${command}`);
            assert.doesNotMatch([...de.lines, ...de.drawn].join("\n"), /undefined|\[object|NaN/, `${name} ${command}`);
            for (const line of de.lines) assert.doesNotMatch(line.replace(/`[^`]*`/g, ""), ENGLISH, `${name} ${command}`);
        }
    }
    return undefined;
});

test("the form and what-ifs are told in each language", {skip}, async (context) => {
    if (!await has(ask, "firms")) return context.skip("the program has no firms");
    for (const {bytes} of examples()) {
        const network = new Network(bytes.toString());
        const forms = await inEach(async () => network.firms.flatMap((_, built) => formOf(network, {built, ends: {}})));
        assert.equal(forms.de.length, forms.en.length);
        assert.doesNotMatch(forms.de.map(({title, hint}) => `${title} ${hint}`).join(" "), ENGLISH);
        const [firm] = network.firms, before = [], after = firm ? [["leave", firm.name]] : [];
        const told = await inEach(async () => {
            const {states} = await compared(ask, network, before, after).catch((error) => assert.ok(error instanceof NoAnswer) ?? {});
            const of = {states, before, after};
            return states ? [changeLine(of), tradesLine(of, network), sharesLine(of)] : [];
        });
        assert.equal(told.de.length, told.en.length);
        for (const line of told.de) assert.doesNotMatch(line, ENGLISH);
    }
    assert.equal(language(), "en");
    return undefined;
});
