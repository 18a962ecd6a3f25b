"""What is tried of what-ifs, by pointer and keys: firms that leave and join, trades that are barred, and what each contributes."""
import json
import re

import bench
import look

# The rows of the two tables, each as its cells.
ROWS = """
return [...document.querySelectorAll("#whatif-firms tbody tr, #whatif-trades tbody tr")]
    .map((row) => [...row.cells].map(({textContent}) => textContent));"""


def supposed(page: bench.Bench) -> str:
    """Waits for the answer to what is supposed, and answers what is said of it."""
    page.wait_for("whatif", "answered", "fault", "trouble")
    return page.says("verdict")


def rows(page: bench.Bench) -> dict[str, list[str]]:
    return {name: cells for name, *cells in page.browser.run(ROWS)}


def sessions(page: bench.Bench, program: str | None, edits: list[list[str]]) -> list[dict]:
    """What `session` says of the document with these edits."""
    return bench.asked(page, program, ["session"], json.dumps({**json.loads(page.text()), "edits": edits}))["edits"]


def arranged_as(document: dict, state: dict) -> str:
    """A document with a state's trades and prices as its arrangement."""
    prices = dict(map(tuple, state["prices"]))
    entries = [[trade["name"], prices.get(trade["name"], 0)] for trade in document["trades"]]
    return json.dumps({**document, "arrangement": {"on": state["on"], "prices": entries}})


def standing(page: bench.Bench, program: str | None, state: dict) -> dict[str, str]:
    """Each firm's utility in a state, as `firms` says."""
    said = bench.asked(page, program, ["firms"], arranged_as(json.loads(page.text()), state))
    return {line["firm"]: str(line["utility"]) for line in said["firms"]}


def tries(page: bench.Bench, program: str | None):
    """Each as a name, and whether it is so."""
    for part in (tries_from_the_screen, tries_of_a_dealer, tries_to_go_on, tries_of_contributions, tries_of_faults):
        yield from part(page, program)


# What the solution of exercise 7 has of the market with the dealer.
WITH_DEALER = {"Pam": "3", "Quin": "2", "Dee": "3", "Xaver": "2", "Yara": "1"}


def tries_from_the_screen(page: bench.Bench, program: str | None):
    page.open("7-dealer.json", look.example("lesson/7-dealer.json"))
    page.click("#tab-guess")
    page.click("#tab-whatif")
    supposed(page)
    page.click('[data-firm="Dee"]')
    supposed(page)
    cells = rows(page)
    yield "before is the guess, with the numbers of the lesson", {name: cells[name][0] for name in WITH_DEALER} == WITH_DEALER and cells["dee-xaver"][0] == "on at 10"
    yield "which is said", page.says("whatif-lines").startswith("Before is the guess, which is an equilibrium.")
    page.click("#tab-guess")
    page.focus("price:dee-xaver")
    page.press("Control+a", "1", "3")
    is_none = page.guess().startswith("\u2717")
    page.click("#tab-whatif")
    supposed(page)
    yield "a guess that is no equilibrium isn't before", is_none and page.says("whatif-lines").startswith("Before is an equilibrium that the program found: the guess isn't one.")
    page.press("Control+z")
    page.click("#tab-sign")
    page.click("#sign-guess")
    bench.judged(page)
    page.click("#tab-whatif")
    supposed(page)
    cells = rows(page)
    yield "from contracts it is what is signed", page.says("whatif-lines").startswith("Before is what is signed") and {name: cells[name][0] for name in WITH_DEALER} == WITH_DEALER
    page.click("#whatif-all")


def tries_of_a_dealer(page: bench.Bench, program: str | None):
    page.open("used-cars.json", look.example("used-cars.json"))
    page.click("#tab-guess")
    page.click(bench.label("O1 B1"))
    yield "a guess isn't the market with everybody there", page.guess().endswith("4 of 6 people are content.")
    before = page.text()
    page.click("#tab-whatif")
    yield "which has an equilibrium", supposed(page) == "With everybody there the worths sum to 10."
    page.click('[data-firm="D"]')
    yield "the dealer leaves by a click", supposed(page) == "D leaves: the worths sum to 8 in place of 10, which is 2 less."
    then, now = sessions(page, program, [["admit", "*"], ["leave", "D"]])
    yield "as the program says", [then["surplus"], now["surplus"]] == [10, 8]
    yield "what goes, comes and stays is told", page.says("told") == "o1d and db1 go; o1b1 comes; o2b2 stays."
    lanes = page.drawn()["lanes"]
    marked = {name: lanes[name]["says"].split(": ")[1] for name in ("o1d", "o1b1", "o2b2", "db3")}
    yield "and marked in one picture", marked == {"o1d": "off, goes, since it can't be used", "o1b1": "on, comes", "o2b2": "on, stays", "db3": "off, can't be used"}
    labels = page.drawn()["labels"]
    yield "with a sign, and not by a colour alone", any(said.startswith("+ o1b1") for said in labels) and any(said.startswith("\u2212 o1d") for said in labels)
    utilities = [standing(page, program, state) for state in (then, now)]
    cells = rows(page)
    yield "each firm has its utility before and after beside it", all(cells[firm][:2] == [each[firm] for each in utilities] for firm in ("O1", "O2", "B1", "B2", "B3"))
    yield "the one that left is away", cells["D"][:2] == [utilities[0]["D"], "away"] and "now away" in page.drawn()["firms"]["D"]["shown"]
    yield "a trade is told before and after", cells["o1b1"][2] == "comes" and cells["o1b1"][1].startswith("on at ") and cells["db1"][1:3] == ["away", "goes"]
    page.click("#tab-sign")
    page.click("#tab-whatif")
    yield "it is still supposed after another view", supposed(page).startswith("D leaves")
    yield "and the text is as it was", page.text() == before


def tries_to_go_on(page: bench.Bench, program: str | None):
    page.click("#whatif-on")
    yield "one goes on from there", supposed(page) == "While D is away the worths sum to 8."
    page.focus("firm:D")
    page.press("Enter")
    yield "the dealer joins by a key", supposed(page) == "D joins: the worths sum to 10 in place of 8, which is 2 more." and page.focused() == "firm:D"
    page.click("#whatif-all")
    yield "all are there again", supposed(page) == "With everybody there the worths sum to 10."
    page.focus("bar:db1")
    page.press(" ")
    yield "a trade is barred in the table, by a key", supposed(page) == "db1 is barred: the worths sum to 9 in place of 10, which is 1 less." and page.focused() == "bar:db1"
    page.click(bench.label("D B1"))
    yield "and admitted by a click on it", supposed(page) == "With everybody there the worths sum to 10."
    page.drag(bench.label("D B1"), -32)
    before = page.text()
    yield "a drag changes no price", '["db1",11]' in before and supposed(page) == "With everybody there the worths sum to 10."
    page.click("#zoom-fit")
    page.click(bench.label("D B1"))
    supposed(page)
    page.click("#whatif-put")
    edits = [["admit", "*"], ["bar", "db1"]]
    yield "it goes into the document by a button", json.loads(page.text())["edits"] == edits
    yield "and is shown there", page.value("document.querySelector('.CodeMirror').CodeMirror.getSelection()") == json.dumps(edits, separators=(",", ":"))
    page.click("#undo")
    yield "which is taken back", page.text() == before
    page.click("#tab-guess")


def tries_of_contributions(page: bench.Bench, program: str | None):
    page.open("houses.json", look.example("houses.json"))
    page.click("#tab-whatif")
    yield "the houses", supposed(page) == "With everybody there the worths sum to 16."
    document, cells = json.loads(page.text()), rows(page)
    names = [firm["name"] for firm in document["firms"]] + [trade["name"] for trade in document["trades"]]
    yield "all stand in the order of the document", list(cells) == names
    wanted = {}
    for kind, away, back in (("firms", "leave", "join"), ("trades", "bar", "admit")):
        for each in document[kind]:
            whole, without = sessions(page, program, [["admit", "*"], [away, each["name"]], [back, each["name"]]])[:2]
            wanted[each["name"]] = str(whole["surplus"] - without["surplus"])
    yield "each has what it contributes, by the program's numbers", {name: cells[name][3] for name in names} == wanted
    ranges = bench.asked(page, program, ["range"], page.text())["ranges"]
    arranged = [standing(page, program, {"on": ["h1b2", "h2b3", "h3b1"], "prices": [[each["trade"], each[side]] for each in ranges]}) for side in ("low", "high")]
    reached = {**{name: arranged[0][name] for name in ("B1", "B2", "B3")}, **{name: arranged[1][name] for name in ("H1", "H2", "H3")}}
    yield "which the best prices of buyers and of sellers bring them", {name: cells[name][3] for name in reached} == reached
    state = sessions(page, program, [["admit", "*"]])[0]
    worths = {line["firm"]: line["worth"] for line in bench.asked(page, program, ["firms"], arranged_as(document, state))["firms"]}
    yield "and what it pays by the rule of Vickrey, Clarke and Groves", all(int(cells[name][4]) == worths[name] - int(cells[name][3]) for name in worths)
    page.click('[data-key="leave:H2"]')
    yield "a house is taken away in the table", supposed(page).startswith("H2 leaves: the worths sum to 10 in place of 16")
    yield "and the contributions stay those of the market before", {name: row[3] for name, row in rows(page).items()} == wanted
    page.browser.run(bench.KEEP)
    page.click("#picture-save")
    [[name, picture]] = page.browser.run(bench.OFFERED)
    yield "the picture is saved with what comes and goes", name == "houses.svg" and re.search(">[+\u2212] h", picture) is not None
    page.click("#tab-guess")


def tries_of_faults(page: bench.Bench, program: str | None):
    page.open("complements.json", look.example("complements.json"))
    page.click("#tab-whatif")
    yield "a market that session refuses has its reason told", supposed(page).startswith("These goods are complements for B") and page.value("document.getElementById('whatif-there').hidden")
    page.type('{"version":1,"firms":[],"trades":[]}')
    yield "a market without firms is one", supposed(page) == "With everybody there the worths sum to 0."
    page.type("[")
    yield "and a text that is no document has its fault told", "fault 1" in supposed(page)
    page.open("used-cars.json", look.example("used-cars.json"))
    page.click("#tab-guess")


def tries_of_access(page: bench.Bench):
    """Chromium's accessibility tree while the dealer is away."""
    page.open("used-cars.json", look.example("used-cars.json"))
    page.click("#tab-whatif")
    supposed(page)
    page.click('[data-firm="D"]')
    supposed(page)
    nodes = bench.tree_of(page)
    names = bench.names_in(nodes)
    yield f"all of a what-if has a name {bench.unnamed(nodes)}", bench.unnamed(nodes) == [] and {"D is there", "o1b1, from O1 to B1, is admitted"} <= set(names)
    yield "what a firm has before and after is told", any(name.startswith("Person D: a utility of ") and " before, away after" in name for name in names)
    yield "what comes of it is told", "worths" in names and any("sum to 8 in place of 10" in name for name in names)
    page.click("#tab-guess")
