"""What is tried of documents whose trades have units, by pointer and keys: quantities and prices that are guessed, who objects, so many
units that are admitted, the form, and the views that say that they aren't there yet."""
import json

import bench
import look
import whatif

# The texts of the cells of the table of units, row by row, and whether it is shown.
COUNTED = """
const rows = [...document.querySelectorAll("#counts tbody tr")].map((row) => [...row.children].map(({textContent}) => textContent));
return [rows, document.getElementById("counts-part").checkVisibility()];"""

# Chooses something of a list of the form.
CHOSEN = """
const [key, content] = arguments, element = [...document.querySelectorAll("[data-key]")].find((each) => each.dataset.key === key);
element.value = content;
element.dispatchEvent(new Event("change", {bubbles: true}));"""


def arrangement(page: bench.Bench) -> dict:
    """How many units of each trade go by the text."""
    return dict(map(tuple, json.loads(page.text())["arrangement"]["on"]))


def put(page: bench.Bench, key: str, number: str) -> None:
    """Types a number into a field."""
    page.focus(key)
    page.press("Control+a", *number)


def tries(page: bench.Bench, program: str | None):
    """Each as a name, and whether it is so."""
    for part in (tries_to_guess, tries_of_reasons, tries_of_what_ifs, tries_of_shut_views, tries_of_the_form, tries_of_answers):
        yield from part(page, program)


def tries_to_guess(page: bench.Bench, program: str | None):
    page.open("mills-low-price.json", look.example("mills-low-price.json"))
    page.click("#tab-guess")
    text = page.text()
    yield "a guess of quantities is judged", page.guess() == "\u2717 No equilibrium: 7 of 8 firms are content."
    page.click("#objects")
    said = bench.asked(page, program, ["check"], text)
    told = page.says("told")
    yield "who objects is told, with what it would rather have and gain", (said["firm"] == "North" and told.startswith("North buys 300 units of a-n")
                                                                             and "rather buy 350 units of a-n" in told and told.endswith(f"greater by {said['gain']}."))
    lanes = page.drawn()["lanes"]
    yield "and marked with its counts", "300 of 350 units, what North would rather have: 350" in lanes["a-n"]["says"]
    page.click('[data-key="units:a-n"]')
    put(page, "units:a-n", "350")
    page.guess()
    yield "a quantity is typed", arrangement(page)["a-n"] == 350 and "350 of 350 units" in page.drawn()["lanes"]["a-n"]["says"]
    put(page, "units:a-n", "351")
    yield "but none beyond the units of the trade", arrangement(page)["a-n"] == 35 and "from 0 to 350" in page.value("document.querySelector('#trades .refusal').textContent")
    page.press("Escape")
    page.press("ArrowUp")
    yield "a key makes it one more", arrangement(page)["a-n"] == 36
    page.focus("lane:Mill-A North")
    page.press("ArrowRight")
    yield "in the network, too", arrangement(page)["a-n"] == 37
    page.press("ArrowUp")
    yield "where others give the price", ["a-n", 56] in json.loads(page.text())["arrangement"]["prices"]
    page.press("Enter")
    yield "and Enter takes all of it back", "a-n" not in arrangement(page)
    page.click(bench.label("Mill-A North"))
    yield "a click lets all go", arrangement(page)["a-n"] == 350
    before = dict(json.loads(page.text())["arrangement"]["prices"])
    page.drag(bench.label("Mill-A North"), -16)
    yield "and a drag gives a price", dict(json.loads(page.text())["arrangement"]["prices"])["a-n"] == before["a-n"] + 2 and arrangement(page)["a-n"] == 350
    page.click("#units-less")
    page.click("#nudge-less")
    yield "by buttons, a step of each", arrangement(page)["a-n"] == 340 and dict(json.loads(page.text())["arrangement"]["prices"])["a-n"] == before["a-n"] + 1
    for _ in range(40):
        if page.text() == text:
            break
        page.press("Control+z")
    yield "all of it is taken back", page.text() == text


def tries_of_reasons(page: bench.Bench, program: str | None):
    page.click("#solve")
    page.wait("answered")
    yield "an equilibrium lies over the guess", "44300" in page.says("over-says") and "300 of 350 units" in page.drawn()["lanes"]["a-n"]["says"]
    page.click("#over-take")
    yield "and is one as the guess", page.guess() == "\u2713 An equilibrium: every firm is content, and the worths sum to 44300."
    page.click("#ranges")
    page.wait_for("ranges", "answered")
    ranges = {each["trade"]: each for each in bench.asked(page, program, ["range"], page.text())["ranges"]}
    page.click('#trades [data-key="high:s-y"]')
    page.wait_for("path", "answered")
    yield "a bound has its changes by a unit", ranges["s-y"]["high"] == 74 and "one unit fewer of s-z" in page.says("path")
    page.click("#ranges")
    put(page, "units:n-x", "300")
    put(page, "units:a-n", "250")
    page.guess()
    page.click("#wonder")
    page.wait_for("reason", "answered")
    cycle = bench.asked(page, program, ["support"], page.text())
    steps = page.value("[...document.querySelectorAll('#reason-lines li')].map(({textContent}) => textContent)")
    yield "no prices are a story of changes by a unit", cycle["answer"] == "cycle" and len(steps) == len(cycle["nodes"]) + 1 and any(" unit" in step for step in steps)
    signs = [label[:2] for label in page.drawn()["labels"] if label[0] in "+\u2212"]
    yield "marked in the network", signs != [] and set(signs) <= {"+1", "\u22121"}
    page.press("Control+z", "Control+z")
    put(page, "price:a-n", "1")
    page.guess()
    page.wait_for("reason", "answered")
    page.click("#reason-take")
    yield "prices that go with the quantities are taken", page.guess().startswith("\u2713")
    page.click("#wonder")
    link = page.link()
    text = page.text()
    page.open("one-trade.json", look.example("one-trade.json"))
    page.again(page.value("location.href.split('#')[0]") + link[link.index("#"):])
    yield "a link brings it back", page.text() == text and page.guess().startswith("\u2713")


def told_as(states: list[dict], trade: str) -> list[str]:
    """A trade before and after, as the table tells it: its units and their price, or that it can't be used."""
    told = [(dict(map(tuple, state["on"])).get(trade, 0), dict(map(tuple, state["prices"])).get(trade)) for state in states]
    return ["away" if price is None else f"{count} at {price}" for count, price in told]


def tries_of_what_ifs(page: bench.Bench, program: str | None):
    page.open("mills-low-price.json", look.example("mills-low-price.json"))
    page.click("#tab-whatif")
    yield "a market with units has what-ifs", whatif.supposed(page) == "With everybody there the worths sum to 44300."
    before, names = page.text(), [trade["name"] for trade in json.loads(page.text())["trades"]]
    page.focus("leave:Mill-B")
    page.press(" ")
    said = whatif.supposed(page)
    then, now = whatif.sessions(page, program, [["admit", "*"], ["leave", "Mill-B"]])
    sums = f"the worths sum to {now['surplus']} in place of {then['surplus']}, which is {then['surplus'] - now['surplus']} less."
    yield "a mill leaves", said == f"Mill-B leaves: {sums}"
    cells = whatif.rows(page)
    yield "each trade has its units and its price before and after", all(cells[name][1:3] == told_as([then, now], name) for name in names)
    utilities = [whatif.standing(page, program, state) for state in (then, now)]
    yield "and each firm its utilities", all(cells[name][:2] == [each[name] for each in utilities] for name in ("Mill-A", "North", "Z"))
    lanes = page.drawn()["lanes"]
    wanted = {"b-n": "0 of 300 units, can't be used, 200 before", "a-n": "350 of 350 units, more than 300 before"}
    yield "the network has them", all(says in lanes[name]["says"] for name, says in wanted.items())
    yield "with a sign, and not by a colour alone", any(label.startswith("+ a-n: 350/350") for label in page.drawn()["labels"])
    put(page, "admitted:a-n", "100")
    said = whatif.supposed(page)
    field = page.value("[document.activeElement.dataset.key, document.activeElement.value, document.activeElement.selectionStart]")
    yield "so many units are admitted as are typed", said.startswith("Mill-B leaves and 100 units of a-n are admitted:") and field == ["admitted:a-n", "100", 3]
    yield "which go of so many", "100 of 100 units, fewer than 300 before" in page.drawn()["lanes"]["a-n"]["says"]
    put(page, "admitted:a-n", "351")
    yield "but none beyond the units of the trade", "from 0 to 350" in page.value("document.querySelector('#whatif-trades .refusal').textContent")
    page.press("Escape")
    page.press("ArrowDown")
    yield "a key admits one fewer", "and 34 units of a-n are" in whatif.supposed(page)
    page.click(bench.label("Mill-A North"))
    yield "a click bars the trade", "and a-n is barred" in whatif.supposed(page)
    page.click(bench.label("Mill-A North"))
    yield "and another one admits all of it", whatif.supposed(page).startswith("Mill-B leaves: ")
    put(page, "admitted:c-s", "50")
    whatif.supposed(page)
    page.click("#whatif-on")
    yield "one goes on from there", whatif.supposed(page).startswith("While Mill-B is away and c-s has only 50 admitted units the worths sum to ")
    page.focus("leave:Mill-B")
    page.press(" ")
    whatif.supposed(page)
    yield "and the text is as it was", page.text() == before
    page.click("#whatif-put")
    edits = [["admit", "*"], ["leave", "Mill-B"], ["admit", "c-s", 50], ["join", "Mill-B"]]
    yield "it goes into the document by a button", json.loads(page.text())["edits"] == edits
    link, text = page.link(), page.text()
    page.again(page.value("location.href.split('#')[0]") + link[link.index("#"):])
    yield "which a link hands on", page.text() == text
    page.open("mills-low-price.json", before.encode())
    page.click("#tab-whatif")
    whatif.supposed(page)
    put(page, "admitted:a-n", "7")
    whatif.supposed(page)
    page.click("#whatif-all")
    said, field = whatif.supposed(page), page.value("document.querySelector('[data-key=\"admitted:a-n\"]').value")
    yield "all are admitted again", said == "With everybody there the worths sum to 44300." and field == "350"


def tries_of_shut_views(page: bench.Bench, program: str | None):
    page.open("mills-low-price.json", look.example("mills-low-price.json"))
    for name in ("sign", "claim"):
        page.click(f"#tab-{name}")
        shown = page.value("document.getElementById('shut-says').checkVisibility()")
        yield f"{name} says in a sentence that it isn't there yet", shown and page.says("shut-says").startswith("Trades have units here") and page.guess().startswith("\u2717")
    page.click("#tab-guess")
    yield "the guess is there again", page.value("document.getElementById('trades').checkVisibility()")
    page.open("used-cars.json", look.example("used-cars.json"))
    page.click("#tab-sign")
    yield "and another document can be signed", page.value("document.getElementById('sign-guess').checkVisibility()")
    page.click("#tab-guess")


def tries_of_the_form(page: bench.Bench, program: str | None):
    page.open("mills.json", look.example("mills.json"))
    page.click("#tab-build")
    yield "a firm by steps is known", page.value("[...document.querySelectorAll('[data-key]')].find(({dataset}) => dataset.key === 'firm kind').value") == "seller-many"
    put(page, "step 0 count", "310")
    put(page, "step 0 adds", "39")
    put(page, "trade 0 units", "355")
    document = json.loads(page.text())
    yield "its steps are changed, and a trade's units", (document["firms"][0]["sets"][0]["sold"] == [[310, -39], [200, -55]] and document["trades"][0]["units"] == 355)
    solved = bench.asked(page, program, ["solve"], page.text())
    yield "which the program answers", solved["answer"] == "solved" and solved["surplus"] > 44300
    page.browser.run(CHOSEN, "firm kind", "laminar")
    page.click('[data-key="set 0 sold add"]')
    put(page, "set 0 sold 2 adds", "-50")
    page.wait_for("guess", "fault")
    yield "a step that rises is a fault that is told", "fault 15" in page.guess() and "never rises" in page.guess()
    page.press("Control+z", "Control+z")
    page.click("#tab-guess")


def tries_of_answers(page: bench.Bench, program: str | None):
    """What the program answers to commands."""
    page.open("overtime.json", look.example("overtime.json"))
    solved = bench.asked(page, program, ["solve"], page.text())
    page.click("#tab-answer")
    told = page.ask("solve")
    yield "an answer tells units", told["sentences"][1] == "Plant sells 140 units of p-d to Depot at 32 each."
    wanted = [["p-d", "Plant", "Depot", "140", "150", "32"], ["d-a", "Depot", "A", "60", "100", "44"], ["d-b", "Depot", "B", "80", "100", "41"]]
    yield "and has a table of them", solved["surplus"] == 3180 and page.browser.run(COUNTED) == [wanted, True]
    yield "and none of them is a claim", not page.value("document.getElementById('answer-claim').checkVisibility()")
    told = page.ask("range")
    yield "a range is told by steps of one unit", any("one unit fewer of d-b" in sentence for sentence in told["sentences"])
    yield "and has a table", page.browser.run(COUNTED) == [[[*row[:5], row[5], row[5]] for row in wanted], True]
    told = page.ask("firms")
    yield "what firms have is told in units", told["sentences"][1].startswith("Plant sells 140 units of p-d to Depot at 32 each: worth -3480")
    yield "and has a table too", page.browser.run(COUNTED)[0][0] == ["Plant", "p-d: 140", "-3480", "1000", "", "0"]
    page.open("one-trade.json", look.example("one-trade.json"))
    page.click("#tab-guess")
