// Whether the page knows the firms that the builders of the package for Python make, by the same cases.
import assert from "node:assert/strict";
import {readFileSync} from "node:fs";
import {test} from "node:test";
import {parse, plain, written} from "../../../page/read/json.js";
import {Network} from "../../../page/read/network.js";
import {membersOf, templateOf} from "../../../page/read/templates.js";

const cases = plain(parse(readFileSync(new URL("../../../examples/templates/cases.json", import.meta.url), "utf8")));

/** The page's templates for what a builder makes. */
const KINDS = {seller: ["seller-one", "seller-many"], buyer: ["buyer-one", "buyer-many"], maker: ["maker"], middleman: ["middleman"], dealer: ["dealer"], table: ["table"]};

test("a firm of a builder is known by its kind, and made again as it was", () => {
    let known = 0;
    for (const {what, firms, document} of cases.filter((it) => it.firms && it.document.version < 4n)) {
        const network = new Network(written(document));
        for (const {name, note, ...members} of document.firms) {
            const own = network.ownTrades(name), {template, numbers} = templateOf(members, own), built = firms.find((it) => it.name === name);
            if (built && KINDS[built.kind]) assert.ok(KINDS[built.kind].includes(template), `${what}: ${name} is known as ${template}`);
            if (numbers) assert.equal(written(membersOf(template, numbers, own)), written(members), `${what}: ${name}`);
            known += numbers ? 1 : 0;
        }
    }
    assert.ok(known > 20, `${known} firms are known`);
});
