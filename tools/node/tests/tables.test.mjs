// Whether the page makes of tables what tools/lanes makes of them, byte by byte, and says what is wrong where that does.
import assert from "node:assert/strict";
import {spawnSync} from "node:child_process";
import {readFileSync} from "node:fs";
import {test} from "node:test";
import {fileURLToPath} from "node:url";
import {Faults, measureOf, rowsIn, separatorOf} from "../../../page/read/cells.js";
import {gridIn, MARGINS, marketOf, wholeGrid} from "../../../page/read/grid.js";
import {networkOf, tableOf} from "../../../page/read/lanes.js";
import {documentOf} from "../../../page/read/lots.js";
import {Network} from "../../../page/read/network.js";
import {templateOf} from "../../../page/read/templates.js";
import {isWorkbook, sheetsIn} from "../../../page/read/workbook.js";
import {saysFault} from "../../../page/say/tables.js";
import {LANGUAGES} from "../../../page/words/say.js";
import {answersOf} from "../ask.mjs";

const HOME = new URL("../../../", import.meta.url), read = (path) => readFileSync(new URL(path, HOME), "utf8");
const {base, made, refused} = JSON.parse(read("tools/cases/tables.json"));

const market = answersOf(), skip = market === null && "there is no program";

/** The sizes that options of tools/lanes give. */
function sizesIn(options = []) {
    const after = (name) => options.includes(name) ? measureOf(options[options.indexOf(name) + 1], {}, ".").value : null;
    return {lot: after("--lot"), unit: after("--unit"), isRounded: options.includes("--round")};
}

/** The document of two tables. */
function madeOf({firms, lanes}, options) {
    const [one, other] = [["firms", firms], ["lanes", lanes]].map(([name, text]) => tableOf(text, rowsIn(text, name)));
    return documentOf(networkOf(one, other), sizesIn(options)).document;
}

test("documents are made of tables", () => {
    for (const {name, firms, lanes, options, document} of made) assert.equal(madeOf({firms, lanes}, options), document, name);
});

test("what is wrong in tables is told at its cell", () => {
    for (const {in: where, put: [old, put], said, options} of refused) {
        const tables = {...base, [where]: base[where].replace(old, () => put)}, sizes = ["--lot", "20", "--unit", "0.1", ...(options ?? [])].reverse();
        const last = (name) => sizes[sizes.indexOf(name) - 1];
        assert.throws(() => madeOf(tables, ["--lot", last("--lot"), "--unit", last("--unit")]), (error) => {
            assert.ok(error instanceof Faults, `${error.stack}`);
            const told = saysFault(error.list[0], (table) => `${table}.csv`);
            assert.ok(told.startsWith(said), `${told}\n${said}`);
            return true;
        });
    }
});

test("the examples of tables become what tools/lanes makes of them", () => {
    for (const [firms, lanes, ...options] of [["firms", "lanes", "--lot", "20", "--unit", "1"], ["firms", "lanes"], ["chain-firms", "chain-lanes", "--lot", "10"]]) {
        const paths = [firms, lanes].map((name) => `examples/lanes/${name}.csv`), [one, other] = paths.map(read);
        const {stdout} = spawnSync(fileURLToPath(new URL("tools/lanes", HOME)), ["document", ...paths, ...options, ...options.includes("--lot") ? [] : ["--lot"]], {cwd: fileURLToPath(HOME), encoding: "utf8"});
        assert.equal(madeOf({firms: one, lanes: other}, options), stdout, paths[0]);
    }
});

const grids = JSON.parse(read("tools/cases/grids.json")), LABELS = {cost: "cost", most: "at most"};
const gridMade = (text) => marketOf(wholeGrid(rowsIn(text, "grid")), separatorOf(text));

test("a grid becomes an assignment market, and is a grid again when that is opened", {skip}, () => {
    for (const {name, pasted, document, surplus} of grids.filter(({faults}) => !faults)) {
        const made = gridMade(pasted), again = gridIn(new Network(made.document), LABELS);
        if (document) assert.equal(made.document, document);
        assert.equal(JSON.parse(market(["solve"], made.document)).surplus, surplus, name);
        assert.equal(marketOf(again, "\t").document, made.document, name);
    }
});

test("what is wrong in a grid is told at its cells", () => {
    for (const {name, pasted, faults} of grids.filter((each) => each.faults)) {
        assert.throws(() => gridMade(pasted), (error) => {
            assert.ok(error instanceof Faults, error.stack);
            const told = error.list.map((fault) => saysFault(fault, (table) => table));
            assert.equal(told.length, faults.length, `${name}: ${told.join("; ")}`);
            faults.forEach((said, k) => assert.ok(told[k].startsWith(said), told[k]));
            return true;
        });
    }
});

test("what is no grid isn't one", () => {
    const isOne = (name) => gridIn(new Network(read(`examples/${name}.json`)), LABELS) !== null;
    assert.deepEqual(["houses", "lesson/2-assignment", "lesson/1-one-good"].map(isOne), [true, true, true]);
    assert.deepEqual(["used-cars", "lesson/3-middleman", "lesson/4-substitutes", "plant", "supply-chain"].map(isOne), [false, false, false, false, false]);
    assert.deepEqual(Object.keys(LANGUAGES).map((each) => [LANGUAGES[each].table.sheet.cost, LANGUAGES[each].table.sheet.at_most].every((word, k) => [MARGINS.cost, MARGINS.most][k].includes(word.toLowerCase()))), [true, true]);
});

test("what tools/lanes makes is known by its kinds", () => {
    const network = new Network(made[0].document);
    const kinds = network.data.firms.map((firm) => templateOf(firm, network.ownTrades(firm.name)).template);
    assert.deepEqual(kinds, ["seller-many", "seller-many", "maker", "buyer-many", "buyer-many"]);
});

/** The bytes of a workbook of parts, as Python packs them. */
function workbookOf(parts) {
    const made = "import io,json,sys,zipfile\nout=io.BytesIO()\nwith zipfile.ZipFile(out,'w',zipfile.ZIP_DEFLATED) as book:\n for name,text in json.load(sys.stdin).items(): book.writestr(name,text)\nsys.stdout.buffer.write(out.getvalue())";
    return new Uint8Array(spawnSync("python3", ["-c", made], {input: JSON.stringify(parts)}).stdout);
}

test("the sheets of a workbook are rows of cells", async () => {
    const sheet = '<worksheet><sheetData><row r="1"><c r="A1" t="s"><v>0</v></c><c r="C1" s="1"><v>3.1000000000000001</v></c></row>'
        + '<row r="3"><c r="B3" t="inlineStr"><is><t>Gda\u0144sk</t></is></c><c r="AA3" t="str"><f>A1</f><v>a &amp; b</v></c><c r="C3"/></row></sheetData></worksheet>';
    const bytes = workbookOf({"xl/worksheets/sheet2.xml": sheet, "xl/worksheets/sheet1.xml": "<worksheet><sheetData/></worksheet>",
        "xl/sharedStrings.xml": '<sst><si><r><t xml:space="preserve">two </t></r><r><t>runs</t></r><rPh><t>no</t></rPh></si></sst>'});
    assert.ok(isWorkbook(bytes));
    const [rows, ...others] = await sheetsIn(bytes);
    assert.deepEqual(others, []);
    assert.deepEqual(rows.map((row) => row.map((cell, k) => [k, cell]).filter(([, cell]) => cell !== "")), [[[0, "two runs"], [2, "3.1"]], [], [[1, "Gda\u0144sk"], [26, "a & b"]]]);
    assert.deepEqual(await sheetsIn(new Uint8Array([0x50, 0x4b, 3, 4, 0])), []);
});
