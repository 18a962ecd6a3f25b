// Whether what page/lean.py leaves out of scripts changes nothing: texts, templates and patterns stay, and words stay apart.
import assert from "node:assert/strict";
import {spawnSync} from "node:child_process";
import {readdirSync, readFileSync} from "node:fs";
import {test} from "node:test";

const PAGE = new URL("../../../page/", import.meta.url).pathname;

/** What lean.py makes of some scripts. */
function lean(texts) {
    const program = "import json, sys; sys.dont_write_bytecode = True; sys.path.insert(0, sys.argv[1]); import lean; print(json.dumps([lean.script(text) for text in json.load(sys.stdin)]))";
    const {stdout, status, stderr} = spawnSync("python3", ["-c", program, PAGE], {input: JSON.stringify(texts), encoding: "utf8", maxBuffer: 1 << 26});
    assert.equal(status, 0, stderr);
    return JSON.parse(stdout);
}

const skip = spawnSync("python3", ["--version"]).status !== 0 && "there is no python3";

/** The texts of a script that has no patterns. */
const textsIn = (script) => script.match(/"(?:\\.|[^"\\\n])*"/g) ?? [];

test("what may not be changed stays", {skip}, () => {
    const pairs = [["const a = 1, b = a + 2;", "const a=1,b=a+2;"], ["return a in b ? - -a : +  +b;", "return a in b?- -a:+ +b;"],
        ['say("a  b", \'c , d\')', 'say("a  b",\'c , d\')'], ["`a  ${b ? `c  ${d + 1}` : \"} e\"} f`", "`a  ${b ? `c  ${d + 1}` : \"} e\"} f`"],
        ["a.replace(/ +[ /]/g, \" \")", "a.replace(/ +[ /]/g,\" \")"], ["(a + b) / c / d", "(a+b) / c / d"], ["// gone\n    x();\n", "x();"],
        ["async (value) => await value", "async(value)=>await value"], ["const {a, ...b} = c", "const{a,...b}=c"]];
    assert.deepEqual(lean(pairs.map(([text]) => text)), pairs.map(([, wanted]) => wanted));
});

test("of all modules of the page only blanks and comments are left out, and no text", {skip}, () => {
    const files = readdirSync(PAGE, {recursive: true}).filter((name) => /^(app|draw|read|say|words)\/.*\.js$/.test(name));
    const texts = files.map((name) => readFileSync(PAGE + name, "utf8")), made = lean(texts);
    const bare = (text) => text.replace(/^[ \t]*(?:\/\/.*|\/\*(?:[^*]|\*(?!\/))*\*\/[ \t]*)\n/gm, "");
    files.forEach((name, k) => {
        if (name.startsWith("words/")) assert.deepEqual(textsIn(made[k]), textsIn(bare(texts[k])), name);
        assert.equal(made[k].replace(/\s/g, ""), bare(texts[k]).replace(/\s/g, ""), name);
    });
    assert.ok(files.length > 100);
});
