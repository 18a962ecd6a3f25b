"""What is tried of the workbench, by pointer and keys: guesses, who objects, ranges, reasons, contracts, claims, undo, links, and
documents that mean it ill."""
import json
import re
import zlib
from base64 import urlsafe_b64encode
from pathlib import Path
from statistics import median

import look
import runs

HERE = Path(__file__).resolve().parent

# Waits until the page names a state under some name.
WAIT_FOR = """
const [name, wanted] = arguments, page = document.documentElement;
return new Promise((done) => {
    const look = () => wanted.includes(page.dataset[name]) && done(page.dataset[name]);
    new MutationObserver(look).observe(page, {attributes: true});
    look();
});"""

# The middle of the first element of a selector, after it was brought into sight.
MIDDLE = """
const element = document.querySelector(arguments[0]);
element.scrollIntoView({block: "center"});
const {x, y, width, height} = element.getBoundingClientRect();
return [Math.round(x + width / 2), Math.round(y + height / 2)];"""

# What is drawn: each firm with its mood and where it stands, each lane with its words, and the labels.
DRAWN = """
const all = (selector) => [...document.querySelectorAll(`#stage ${selector}`)];
const mood = (element) => ["content", "objects", "impossible", "unknown"].find((name) => element.classList.contains(name));
return {
    firms: Object.fromEntries(all(".firm").map((firm) => [firm.dataset.firm,
        {mood: mood(firm), x: firm.getBoundingClientRect().x, says: firm.getAttribute("aria-label"), shown: firm.textContent}])),
    lanes: Object.fromEntries(all(".lane").map((lane) => [lane.dataset.trades,
        {isOn: lane.classList.contains("on"), says: lane.getAttribute("aria-label")}])),
    labels: all(".lane-label").map((label) => label.textContent)};"""

# The text in the editor.
EDITED = "document.querySelector('.CodeMirror').CodeMirror.getValue()"

KEYS = {"Control": "\ue009", "Shift": "\ue008", "ArrowUp": "\ue013", "ArrowDown": "\ue015", "ArrowRight": "\ue014", "Enter": "\ue007", "End": "\ue010",
        "Backspace": "\ue003", "Escape": "\ue00c", "Tab": "\ue004"}


class Bench(look.Page):
    """The page, used by pointer and keys, at the size of a projector."""

    def __init__(self, browser, path: Path) -> None:
        browser.size(1280, 800)
        super().__init__(browser, path)

    def wait_for(self, name: str, *states: str) -> str:
        return self.browser.run(WAIT_FOR, name, list(states))

    def open(self, name: str, data: bytes, is_dropped: bool = False) -> str:
        said = super().open(name, data, is_dropped)
        self.wait_for("guess", "answered", "fault", "none", "trouble")
        return said

    def again(self, address: str) -> None:
        """Opens the page at an address, as if it hadn't been open."""
        self.browser.open("about:blank")
        self.browser.open(address)
        if self.wait("ready", "failed") == "failed":
            raise RuntimeError(f"the page doesn't run at {address[:80]}: {self.says('status')}")

    def value(self, script: str, *words: object) -> object:
        return self.browser.run(f"return {script};", *words)

    def text(self) -> str:
        return self.value("document.getElementById('text').value")

    def says(self, element: str) -> str:
        return self.value("document.getElementById(arguments[0]).textContent", element)

    def drawn(self) -> dict:
        return self.browser.run(DRAWN)

    def drag(self, selector: str, dy: int) -> None:
        """Presses in the middle of an element, moves up or down by some pixels, and lets go."""
        x, y = self.browser.run(MIDDLE, selector)
        move = {"type": "pointerMove", "x": x, "origin": "viewport", "duration": 10}
        moves = [{**move, "y": y + dy * k // 4} for k in range(1, 5)] if dy else []
        steps = [{**move, "y": y}, {"type": "pointerDown", "button": 0}, *moves, {"type": "pointerUp", "button": 0}]
        self.browser.act([{"type": "pointer", "id": "mouse", "parameters": {"pointerType": "mouse"}, "actions": steps}])

    def click(self, selector: str) -> None:
        self.drag(selector, 0)

    def swipe(self, selector: str, dx: int, dy: int) -> None:
        """Puts a finger on the middle of an element, draws it over the screen by some pixels, and lifts it."""
        x, y = self.browser.run(MIDDLE, selector)
        move = {"type": "pointerMove", "origin": "viewport", "duration": 10}
        moves = [{**move, "x": x + dx * k // 4, "y": y + dy * k // 4} for k in range(1, 5)] if dx or dy else []
        steps = [{**move, "x": x, "y": y}, {"type": "pointerDown", "button": 0}, *moves, {"type": "pointerUp", "button": 0}]
        self.browser.act([{"type": "pointer", "id": "finger", "parameters": {"pointerType": "touch"}, "actions": steps}])

    def press(self, *keys: str) -> None:
        """Keys one after another; "Control+z" holds the first while it presses the second."""
        steps = []
        for key in keys:
            parts = [KEYS.get(part, part) for part in (key.split("+") if len(key) > 1 else [key])]
            steps += [{"type": "keyDown", "value": part} for part in parts] + [{"type": "keyUp", "value": part} for part in reversed(parts)]
        self.browser.act([{"type": "key", "id": "keys", "actions": steps}])

    def focus(self, key: str) -> None:
        self.browser.run("[...document.querySelectorAll('[data-key]')].find((element) => element.dataset.key === arguments[0]).focus()", key)

    def focus_on(self, element: str) -> None:
        self.browser.run("document.getElementById(arguments[0]).focus()", element)

    def focused(self) -> str:
        return self.value("document.activeElement.dataset.key ?? ''")

    def link(self) -> str:
        """Makes a link of the document, and answers it. An earlier one stands in the page until this one is made."""
        self.browser.run("document.documentElement.dataset.linked = 'false'")
        self.click("#link")
        self.wait_for("linked", "true")
        return self.value("document.getElementById('fragment').value")

    def guess(self) -> str:
        """Waits for the answer to the guess, and answers what is said of it."""
        self.wait_for("guess", "answered", "fault", "none", "trouble")
        return self.says("verdict")


ASK = """
const [words, text] = arguments;
return market.ask(words, new TextEncoder().encode(text)).then(({bytes}) => new TextDecoder().decode(bytes));"""


def asked(page: Bench, program: str | None, words: list[str], document: str) -> dict:
    """An answer of the program, or where there is none of the page."""
    if program is None:
        return json.loads(page.browser.run(ASK, words, document))
    return json.loads(runs.program_at(program).ask(words, document.encode())[1])


def example(name: str) -> str:
    return look.example(name).decode()


def label(trade_ends: str) -> str:
    return f'[data-of="lane:{trade_ends}"]'


def tries(page: Bench, program: str | None):
    """Each as a name, and whether it is so."""
    for part in (tries_to_guess, tries_by_finger, tries_of_refusals, tries_of_labels, tries_of_own_numbers, tries_of_ways, tries_of_undo, tries_to_solve, tries_of_ranges, tries_of_what_goes, tries_of_complements, tries_of_no_prices, tries_of_all_who_object, tries_of_reasons,
                 tries_of_first_steps, tries_to_sign, tries_of_all_who_drop, tries_of_claims, tries_of_the_text, tries_to_open, tries_of_versions, tries_to_print, tries_of_files, tries_of_size, tries_of_ill_will):
        yield from part(page, program)


def tries_to_guess(page: Bench, program: str | None):
    page.open("used-cars.json", look.example("used-cars.json"))
    first, drawn = page.text(), page.drawn()
    yield "the used cars are an equilibrium", page.guess().endswith("An equilibrium: every person is content, and the worths sum to 10.")
    yield "each firm and each trade is drawn", len(drawn["firms"]) == 6 and len(drawn["lanes"]) == 10 and len(drawn["labels"]) == 10
    yield "sellers stand on the left", all(drawn["firms"][left]["x"] < drawn["firms"][right]["x"] for left, right in [("O1", "D"), ("O2", "D"), ("D", "B1"), ("D", "B3")])
    yield "what is on is told", [name for name, lane in drawn["lanes"].items() if lane["isOn"]] == [name for name in drawn["lanes"] if name in ("o1d", "db1", "o2b2")]
    page.click(label("O1 B1"))
    yield "a click turns a trade on", page.guess().endswith("4 of 6 people are content.")
    yield "by a change of the text at one place", page.text() == first.replace('"on":["o1d","db1","o2b2"]', '"on":["o1d","db1","o2b2","o1b1"]')
    firms = page.drawn()["firms"]
    yield "who objects has a sign and a word", all("\u2717" in firms[name]["shown"] and "objects" in firms[name]["says"] for name in ("O1", "B1"))
    yield "and who is content too", all("\u2713" in firms[name]["shown"] and "content" in firms[name]["says"] for name in ("O2", "D", "B2", "B3"))
    told = []
    for _ in range(3):
        page.click("#objects")
        told.append(page.says("told").split(" ")[0])
    yield "who objects is stepped through", told == ["O1", "B1", "O1"]
    page.click(label("O1 B1"))
    yield "another click turns it off", page.guess().endswith("the worths sum to 10.") and page.text() == first
    page.focus("lane:O1 D")
    page.press("ArrowUp")
    yield "an arrow key makes a price greater", page.guess() != "" and '["o1d",9]' in page.text() and page.focused() == "lane:O1 D"
    page.press("1", "0")
    yield "a price is typed", page.guess().endswith("5 of 6 people are content.") and page.text() == first.replace('["o1d",8]', '["o1d",10]') and page.focused() == "price:o1d"
    line = asked(page, program, ["firms"], page.text())["firms"][2]
    cells = page.value("[...document.querySelectorAll('#firms tbody tr')[2].cells].slice(1).map(({textContent}) => textContent)")
    wanted = [", ".join(line["has"]), str(line["worth"]), str(line["utility"]), ", ".join(line["best"]), str(line["gain"])]
    yield "the table of firms has the program's numbers", cells == wanted
    page.drag(label("D B1"), -32)
    yield "a drag upwards makes a price greater", page.guess() != "" and '["db1",15]' in page.text()


# The least side of each button of the chosen trade, in pixels.
BUTTONS = """
return [...document.querySelectorAll("#nudge button")].map((button) => {
    const {width, height} = button.getBoundingClientRect();
    return Math.min(width, height);
});"""


def tries_by_finger(page: Bench, program: str | None):
    page.open("used-cars.json", look.example("used-cars.json"))
    first = page.text()
    for dx, dy in ((0, -60), (0, 60), (50, 0)):
        page.swipe(label("D B1"), dx, dy)
    yield "a finger that is drawn over a price changes none", page.text() == first
    page.swipe(label("O1 B1"), 0, 0)
    yield "and one that is put on it turns the trade on", "o1b1" in json.loads(page.text())["arrangement"]["on"] and page.guess() != ""
    yield "the chosen trade has buttons for a finger", page.says("nudge-says") == "o1b1 at 8" and min(page.browser.run(BUTTONS)) >= 44
    page.swipe("#nudge-more", 0, 0)
    page.swipe("#nudge-more", 0, 0)
    page.swipe("#nudge-less", 0, 0)
    yield "by which its price changes", page.says("nudge-says") == "o1b1 at 9" and ["o1b1", 9] in json.loads(page.text())["arrangement"]["prices"]
    page.press("Control+z")
    yield "which is taken back as one change", ["o1b1", 8] in json.loads(page.text())["arrangement"]["prices"]
    page.click("#tab-whatif")
    yield "in a what-if there are none", page.value("getComputedStyle(document.getElementById('nudge')).display") == "none"
    page.click("#tab-guess")
    small = page.value("[...document.querySelectorAll('input, select, textarea')].filter((each) => parseFloat(getComputedStyle(each).fontSize) < 16).map(({id}) => id)")
    yield f"no field's letters are so small that a telephone zooms {small}", small == []
    yield "and a price's keyboard has a minus", page.value("document.querySelector('[data-key=\"price:o1b1\"]').inputMode") in ("", "text")


# What is said beside the field of a key, and what stands in it.
REFUSED = """
const field = [...document.querySelectorAll("[data-key]")].find((element) => element.dataset.key === arguments[0]);
const said = field.getAttribute("aria-describedby");
return [field.value, field.getAttribute("aria-invalid"), said === null ? "" : document.getElementById(said).textContent];"""


def refused(page: Bench, key: str, typed: str) -> list:
    """What becomes of a text that is typed in a field, which is left then."""
    page.focus(key)
    page.press("Control+a", "Backspace", *typed, "Tab")
    return page.browser.run(REFUSED, key)


def tries_of_refusals(page: Bench, program: str | None):
    page.open("used-cars.json", look.example("used-cars.json"))
    first = page.text()
    for typed, now, why in (("5.5", 5, "isn't whole"), ("-30,5", -30, "isn't whole"), ("11/2", 11, "is a fraction"), ("abc", 11, "is no number"), ("-", 11, "is wanted"),
                            ("1234567890123456789", 123456789012345678, "is too long")):
        value, invalid, said = refused(page, "price:o1d", typed)
        yield f"{typed} as a price is refused, with why and what stands there", (value, invalid) == (typed, "true") and why in said and said.endswith(f"{now} stands there until then.")
        yield "and the text has that", page.text() == first.replace('["o1d",8]', f'["o1d",{now}]')
    page.focus("price:o1d")
    page.press("Escape")
    yield "Escape puts the price back", page.browser.run(REFUSED, "price:o1d") == ["123456789012345678", "false", ""]
    yield "a plus and zeros ahead are none of its business", refused(page, "price:o1d", "+012") == ["12", "false", ""] and '["o1d",12]' in page.text()
    refused(page, "price:o1d", "x")
    page.focus("lane:O1 D")
    page.press("ArrowUp")
    yield "what was refused goes when the price changes", page.browser.run(REFUSED, "price:o1d") == ["13", "false", ""]
    page.open("used-cars.json", look.example("used-cars.json"))
    page.click("#tab-build")
    for typed, why in (("D", "is there already"), ("", "A name is wanted"), ("x" * 81, "at most 80 signs")):
        value, invalid, said = refused(page, "firm name", typed)
        yield f"{typed or 'nothing'} as a name is refused with the reason", (value, invalid) == (typed, "true") and why in said and page.text() == first
    page.focus("firm name")
    page.press("Escape")
    yield "Escape puts the name back", page.browser.run(REFUSED, "firm name") == ["O1", "false", ""]
    for typed, name in (("Frau M\u00fcller", "Frau-Mueller"), ("\u00c5sa & \u0141ukasz", "Asa-Lukasz"), ("\u8d75", "f"), ("O1", "O1")):
        value, invalid, _ = refused(page, "firm name", typed)
        firm, trade = json.loads(page.text())["firms"][0], json.loads(page.text())["trades"][0]
        yield f"{typed} as a name is kept as the note of a plain one", (value, invalid, firm["name"], firm["note"], trade["seller"]) == (typed, "false", name, typed, name)
    page.guess()
    page.click("#tab-guess")


LABELLED = json.dumps({"version": 1, "note": {"en": "A bicycle\nWho gets it, and for how much?", "de": "Ein Fahrrad\nWer bekommt es, und f\u00fcr wie viel?"},
    "firms": [{"name": "S", "note": "Frau M\u00fcller", "kind": "table", "rows": [[["a"], -5]]}, {"name": "B", "note": {"en": "=Ben", "de": "Benno"}, "kind": "table", "rows": [[["a"], 9]]}],
    "trades": [{"name": "a", "note": {"en": "the bicycle", "de": "das Fahrrad"}, "seller": "S", "buyer": "B"}], "arrangement": {"on": ["a"], "prices": [["a", 4]]}}, ensure_ascii=False)


def tries_of_labels(page: Bench, program: str | None):
    page.open("labelled.json", LABELLED.encode())
    page.guess()
    yield "the note's first line is the title, and the rest the task", page.says("title") == "A bicycle" and page.says("task") == "Who gets it, and for how much?"
    drawn = page.drawn()
    yield "firms and trades are drawn by their labels", "Frau M\u00fcller" in drawn["firms"]["S"]["shown"] and "the bicycle" in drawn["labels"][0] and "=Ben" in drawn["firms"]["B"]["shown"]
    yield "and heard by them", drawn["firms"]["S"]["says"].startswith("Firm Frau M\u00fcller objects") and drawn["lanes"]["a"]["says"].startswith("Trade the bicycle, from Frau M\u00fcller to =Ben, at 4")
    cells = page.value("[...document.querySelector('#trades tbody tr').cells].slice(0, 3).map(({textContent, title}) => [textContent, title])")
    yield "tables have them, with the names beside", cells == [["the bicycle", "a"], ["Frau M\u00fcller", "S"], ["=Ben", "B"]]
    page.click("#objects")
    yield "and sentences do", page.says("told").startswith("Frau M\u00fcller sells the bicycle to =Ben at 4")
    page.browser.run(KEEP)
    page.click("#firms-csv")
    [[_, table]] = page.browser.run(OFFERED)
    yield "a label in a table begins no formula", "\n'=Ben,the bicycle,9,5,,0\n" in table
    page.browser.run("const select = document.getElementById('language'); select.value = 'de'; select.dispatchEvent(new Event('change'))")
    page.guess()
    drawn = page.drawn()
    yield "in another language they are others", page.says("title") == "Ein Fahrrad" and "Benno" in drawn["firms"]["B"]["shown"] and "das Fahrrad" in drawn["labels"][0]
    page.click("#firms-csv")
    [[_, table]] = page.browser.run(OFFERED)
    yield "and a table in German has semicolons", table.startswith("\ufeffFirma;Hat;") and "\nBenno;das Fahrrad;9;5;;0\n" in table
    page.browser.run("const select = document.getElementById('language'); select.value = 'en'; select.dispatchEvent(new Event('change'))")
    page.open("used-cars.json", look.example("used-cars.json"))


OWN = {"O1": "sells from 4", "D": "passes one on", "B1": "pays up to 9\u201312"}


def tries_of_own_numbers(page: Bench, program: str | None):
    """What the document says of firms stands in their boxes; for each firm whose trades have worths of their own these are the program's."""
    page.open("used-cars.json", look.example("used-cars.json"))
    page.guess()
    drawn = page.drawn()["firms"]
    yield "each firm's own numbers stand in its box", all(says in drawn[name]["shown"] for name, says in OWN.items())
    yield "and are heard", "pays up to 9\u201312" in drawn["B1"]["says"]
    whole = json.loads(page.text())
    trades = {firm: [trade["name"] for trade in whole["trades"] if firm in (trade["seller"], trade["buyer"])] for firm in ("O1", "B1", "B2")}
    for firm, names in trades.items():
        worths = sorted(abs(worth(page, program, page.text(), firm, [name])) for name in names)
        wanted = str(worths[0]) if worths[0] == worths[-1] else f"{worths[0]}\u2013{worths[-1]}"
        yield f"those of {firm} are what the program says of its trades alone", wanted in drawn[firm]["shown"]
    page.click("#own")
    drawn = page.drawn()["firms"]
    yield "a button hides them", not any("pays" in firm["shown"] + firm["says"] for firm in drawn.values())
    page.click("#own")
    yield "and shows them again", "sells from 4" in page.drawn()["firms"]["O1"]["shown"]
    page.focus("firm:B1")
    page.press("Enter")
    yield "a chosen firm says in plain words what it has, and all of its numbers", page.says("own-told") == "B1 has what is worth 12 to them, pays 11 and gains 1. Own numbers: pays up to 9\u201312, at most 1."


def tries_of_ways(page: Bench, program: str | None):
    """An easy page, people or firms, words that are explained, and what the buttons do."""
    seen = "document.getElementById(arguments[0]).getClientRects().length"
    page.click("#tab-document")
    page.click("#easy")
    yield "an easy page hasn't the views of the format", [page.value(seen, f"tab-{name}") for name in ("guess", "claim", "document", "answer")] == [1, 0, 0, 0]
    yield "and leaves one of them", page.value("document.getElementById('tab-guess').getAttribute('aria-selected')") == "true"
    yield "a link says so", page.link().endswith("&easy")
    page.click("#linked-close")
    page.click("#easy")
    yield "and it is as before", page.value(seen, "tab-claim") == 1
    page.click("#verdict .term")
    yield "a word says what it means", page.says("meaning").startswith("Equilibrium: ") and page.value(seen, "meaning") == 1
    page.press("Escape")
    page.click("#help")
    yield "each button is explained that is there", page.value("[...document.querySelectorAll('#help-controls dd')].length") >= 20 and "any prices for the trades" in page.says("help-controls")
    page.browser.run("const people = document.getElementById('people'); people.value = 'firms'; people.dispatchEvent(new Event('change'))")
    yield "people are called firms where somebody wants it", page.guess().endswith("every firm is content, and the worths sum to 10.") and page.value("document.querySelector('#firms th').textContent") == "Firm"
    page.browser.run("const people = document.getElementById('people'); people.value = ''; people.dispatchEvent(new Event('change'))")
    yield "and else as the document says", page.guess().endswith("every person is content, and the worths sum to 10.")
    page.press("Escape")
    yield "the help is closed by a key", page.value(seen, "help-panel") == 0


def tries_of_undo(page: Bench, program: str | None):
    page.open("used-cars.json", look.example("used-cars.json"))
    first = page.text()
    page.drag(label("D B1"), -32)
    page.click(label("O2 D"))
    page.focus("lane:O1 D")
    page.press("9", "9", "Tab")
    last = page.text()
    for _ in range(3):
        page.press("Control+z")
    yield "a drag, a click and letters are taken back as three", page.text() == first and page.guess().endswith("the worths sum to 10.")
    for _ in range(3):
        page.press("Control+Shift+Z")
    yield "and done again", page.text() == last
    for _ in range(3):
        page.press("Control+z")
    page.focus("lane:O1 D")
    page.press(*["ArrowUp"] * 210)
    yield "210 keys change a price 210 times", '["o1d",' in page.text() and page.text() != first
    page.press(*["Control+z"] * 210)
    yield "and 210 changes are taken back", page.text() == first and page.guess().endswith("the worths sum to 10.")


def tries_to_solve(page: Bench, program: str | None):
    page.open("used-cars-dear-car.json", look.example("used-cars-dear-car.json"))
    first = page.text()
    yield "the dear car has one that objects", page.guess().endswith("5 of 6 firms are content.")
    page.click("#solve")
    page.wait_for("state", "answered")
    solved = asked(page, program, ["solve"], first)
    drawn = {name: (lane["isOn"], f" at {price}:" in lane["says"]) for name, price in solved["prices"] for lane in [page.drawn()["lanes"][name]]}
    yield "solve's answer lies over the network", drawn == {name: (name in solved["on"], True) for name, _ in solved["prices"]}
    yield "and the text is as it was", page.text() == first
    page.click("#over-take")
    yield "it is taken as the guess", page.guess().endswith(f"the worths sum to {solved['surplus']}.")
    yield "and stands in the text", json.loads(page.text())["arrangement"] == {"on": solved["on"], "prices": solved["prices"]}
    before, after = first.split('"arrangement"')[0], page.text().split('"arrangement"')[0]
    yield "and the rest of the text is as it was", before == after
    yield "its answer is an old one then", page.browser.run(look.SHOWN)["isOld"]


# Each trade with the bounds beside it.
BOUNDS = """
return [...document.querySelectorAll("#trades tbody tr")]
    .map((row) => [row.dataset.trade, ...[...row.querySelectorAll(".bound")].map(({textContent}) => textContent)]);"""


def tries_of_ranges(page: Bench, program: str | None):
    page.open("houses.json", look.example("houses.json"))
    page.click("#ranges")
    page.wait_for("ranges", "answered")
    said = asked(page, program, ["range"], page.text())["ranges"]
    bounds = page.browser.run(BOUNDS)
    yield "bounds stand beside the prices", bounds == [[each["trade"], str(each["low"]), str(each["high"])] for each in said]
    for button, side in (("#buyers-best", "low"), ("#sellers-best", "high")):
        page.click(button)
        prices = json.loads(page.text())["arrangement"]["prices"]
        yield f"{button} takes the prices", dict(map(tuple, prices)) == {each["trade"]: each[side] for each in said} and page.guess().endswith("the worths sum to 16.")
        page.wait_for("ranges", "answered")
    page.click('[data-key="high:h1b1"]')
    page.wait_for("path", "answered")
    path = next(each["high_path"] for each in said if each["trade"] == "h1b1")
    yield "a click on a bound shows its path", page.value("document.querySelectorAll('#path p').length") == len(path)
    lanes = page.drawn()["lanes"]
    yield "and marks it in the network", all("holds h1b1 from above" in lanes[name]["says"] for name in path[1:-1])
    page.click("#ranges")


def marked(page: Bench) -> list[str]:
    """The trades that are said to hold a price."""
    return [name for name, lane in page.drawn()["lanes"].items() if " holds " in lane["says"] or "the price of" in lane["says"]]


def held(page: Bench) -> list[str]:
    """Shows what holds the price of h1b1 from above, and answers the trades that are marked."""
    page.click('[data-key="high:h1b1"]')
    page.wait_for("path", "answered")
    return marked(page)


def tries_of_what_goes(page: Bench, program: str | None):
    """What was shown for a text goes with it."""
    page.open("houses.json", look.example("houses.json"))
    page.click("#ranges")
    page.wait_for("ranges", "answered")
    is_held = held(page) != []
    page.click('#trades [data-key="on:h1b1"]')
    page.guess()
    yield "what holds a bound goes with the text", is_held and marked(page) == [] and page.value("document.getElementById('path').hidden")
    page.press("Control+z")
    page.wait_for("ranges", "answered")
    is_held = held(page) != []
    page.click("#solve")
    page.wait_for("state", "answered")
    yield "and isn't drawn over what solve found", is_held and marked(page) == [] and page.value("document.getElementById('path').hidden")
    page.click("#over-leave")
    page.link()
    page.browser.run("document.querySelectorAll('#trades th button')[4].click()")
    is_sorted = page.value("document.querySelectorAll('#trades th')[4].getAttribute('aria-sort')") == "ascending"
    page.open("8-ranges.json", look.example("lesson/8-ranges.json"))
    yield "ranges stay away from another document", page.value("document.documentElement.dataset.ranges") == "none" and all(len(row) == 1 for row in page.browser.run(BOUNDS))
    yield "and the order of the table does", is_sorted and page.value("document.querySelectorAll('#trades th[aria-sort=ascending]').length") == 0
    yield "and a link", page.value("document.getElementById('linked').hidden")


def tries_of_first_steps(page: Bench, program: str | None):
    """A story begins with its first step, also where a firm was chosen before, as the lesson has it in exercises 2 and 5."""
    for name, button in (("2-assignment", "#wonder"), ("5-complements", "#solve")):
        page.open(f"{name}.json", look.example(f"lesson/{name}.json"))
        page.guess()
        page.click("#objects")
        told = page.says("told")
        page.click(button)
        page.wait_for("reason", "answered")
        steps, says = page.browser.run(STEPS), [lane["says"] for lane in page.drawn()["lanes"].values()]
        yield f"{name}: the story is told in the place of who objects", told not in steps and page.says("told") == steps[0] and page.says("story-place").startswith("Step 1 of")
        yield f"{name}: in its own colours", not any("would rather have" in each for each in [*says, page.says("legend")])
        page.click("#reason-close")


def tries_of_complements(page: Bench, program: str | None):
    page.open("complements.json", look.example("complements.json"))
    yield "complements can be guessed at", page.guess().endswith("the worths sum to 8.")
    page.click('#trades [data-key="on:b"]')
    yield "and objected to", page.guess().endswith("0 of 2 firms are content.")
    page.press("Control+z")
    page.click("#solve")
    page.wait_for("state", "answered")
    yield "solve says of them what fails", "doesn't meet the exchange property" in page.says("sentences") or "exchange property" in page.says("sentences")


# The steps of a story as they are listed, and as they are stepped through above the network.
STEPS = "return [...document.querySelectorAll('#reason .step')].map(({textContent}) => textContent);"


def stepped(page: Bench) -> list[str]:
    """What is told, step by step, as somebody reads it who presses Next until there is no more."""
    told = [page.says("told")]
    while page.value("!document.getElementById('story').hidden && document.getElementById('story-next').getAttribute('aria-disabled') !== 'true'"):
        page.click("#story-next")
        told.append(page.says("told"))
    return told


def with_arrangement(text: str, on: list[str]) -> str:
    """A document with other trades on, at prices of 0."""
    whole = json.loads(text)
    return json.dumps({**whole, "arrangement": {"on": on, "prices": [[trade["name"], 0] for trade in whole["trades"]]}})


def worth(page: Bench, program: str | None, text: str, firm: str, on: list[str]) -> int:
    """What a bundle is worth to a firm, as the program says."""
    return next(line["worth"] for line in asked(page, program, ["firms"], with_arrangement(text, on))["firms"] if line["firm"] == firm)


def tries_of_reasons(page: Bench, program: str | None):
    page.open("used-cars-outbid.json", look.example("used-cars-outbid.json"))
    yield "a guess without prices is none yet", page.guess().startswith("The trades have no prices yet")
    page.click("#wonder")
    page.wait_for("reason", "answered")
    said, steps = asked(page, program, ["support"], page.text()), page.browser.run(STEPS)
    yield "a set without prices has a story of changes, one for each arrow of the cycle", len(steps) == len(said["nodes"]) + 1
    on = json.loads(page.text())["arrangement"]["on"]
    cost = worth(page, program, page.text(), "B3", ["db3"]) - worth(page, program, page.text(), "B3", [])
    yield "each with what it costs its firm, as the program says", steps[0] == f"B3 would give up db3 at a cost of {cost} in worth." and "db3" in on
    yield "and with their sum", f"sums to {said['cost']}," in steps[-1]
    yield "they are stepped through", stepped(page) == steps
    page.click('#reason [data-step="1"]')
    drawn = page.drawn()
    yield "a click in the list goes to a step", page.says("told") == steps[1] and page.says("story-place") == "Step 2 of 4"
    yield "its trades are marked in the network", [name for name, lane in drawn["lanes"].items() if "what this step changes" in lane["says"]] == ["db1", "db3"]
    yield "and its firms have what it costs them", "no cost" in drawn["firms"]["D"]["says"] and f"costs {cost}" in drawn["firms"]["B3"]["says"]
    page.browser.run("document.getElementById('story-next').focus()")
    page.press("Enter")
    yield "Enter on Next goes on", page.says("told") == steps[2]
    page.click(label("D B1"))
    page.wait_for("reason", "answered")
    yield "it is told anew of other trades", page.browser.run(STEPS) != steps
    page.press("Control+z")
    page.wait_for("reason", "answered")
    yield "and taken back as it was", page.browser.run(STEPS) == steps
    page.click("#reason-close")
    yield "it is closed", page.value("document.getElementById('reason').hidden && document.getElementById('story').hidden")
    page.type(with_arrangement(example("used-cars.json"), ["o1d", "db1", "o2b2"]))
    yield "prices of 0 keep nobody content", not page.guess().startswith("\u2713")
    page.click("#wonder")
    page.wait_for("reason", "answered")
    yield "a set with prices is told these", "There are prices for these trades" in page.says("reason-lines")
    page.click("#reason-take")
    yield "which are taken as the guess", page.guess().endswith("the worths sum to 10.")
    page.open("complements.json", look.example("complements.json"))
    page.click("#solve")
    page.wait_for("reason", "answered")
    both, none = (worth(page, program, page.text(), "B", bundle) for bundle in (["a", "b"], []))
    steps = stepped(page)
    yield "a table that fails shows its two bundles with their worths", f"x = {{a, b}}, worth {both} to B." in steps[0] and f"y = {{}}, worth {none}." in steps[1]
    yield "and what is left where a trade goes from one to the other", steps[2] == "To take a out of x and into y leaves {b}, worth 0, and {a}, worth 0."
    yield "and it is drawn", page.value("document.querySelectorAll('#reason-picture svg').length") == 1
    page.click("#reason-claim")
    page.wait_for("decided", "answered", "fault")
    yield "it is claimed by a click, and valid", page.says("decided").startswith("\u2713 The claim is valid.") and json.loads(page.text())["claim"]["firm"] == "B"
    page.click("#tab-guess")


def tries_of_no_prices(page: Bench, program: str | None):
    """Complements: what is said above the network, and the shares or the prices that show whether there are prices."""
    for name, is_none in (("no-clearing-prices.json", True), ("lesson/5-complements.json", True), ("complements.json", False)):
        document = json.loads(look.example(name))
        page.open(name, json.dumps({key: document[key] for key in ("version", "firms", "trades")}).encode())
        page.click("#tab-guess")
        page.click("#solve")
        page.wait_for("reason", "answered")
        said = page.says("verdict")
        yield f"{name}: goods are complements", said.startswith("These goods are complements for ") and ("no prices content all" in said) == is_none
        if is_none:
            yield f"{name}: bundles and shares are drawn", page.value("document.querySelectorAll('#reason-picture svg').length") == 2
            page.click("#none-claim")
            page.wait_for("decided", "answered", "fault")
            said = asked(page, program, ["replay"], page.text())
            yield f"{name}: the shares are claimed, and replay decides it", said == {"answer": "valid"} and json.loads(page.text())["claim"]["answer"] == "none"
            page.click("#tab-sign")
            yield f"{name}: nothing is signed", judged(page).startswith(("Nothing is signed", "These goods are complements"))
        else:
            page.click("#reason-take")
            yield f"{name}: prices are taken as the guess", page.guess().startswith("\u2713")
        page.click("#tab-guess")


# Waits until the document has these contracts.
SIGNED = """
const [wanted] = arguments, now = () => JSON.parse(document.getElementById("text").value).outcome?.contracts;
return new Promise((done) => {
    const look = () => (JSON.stringify(now()) === JSON.stringify(wanted) ? done() : setTimeout(look, 20));
    look();
});"""


def tries_of_all_who_object(page: Bench, program: str | None):
    page.open("houses.json", look.example("houses.json"))
    page.click("#tab-guess")
    page.guess()
    page.type(with_arrangement(page.text(), []))
    page.guess()
    count = len([line for line in asked(page, program, ["firms"], page.text())["firms"] if line["gain"] != 0])
    page.click("#all-objects")
    items = page.value("[...document.querySelectorAll('#objectors button')].map(({dataset}) => dataset.firm)")
    yield "all who object are listed at once", len(items) == count > 1
    page.click("#objectors button")
    yield "and each is gone to", page.value("document.querySelector('#firms .chosen [data-firm]').dataset.firm") == items[0]
    page.click("#all-objects")
    ranges = asked(page, program, ["range"], page.text())
    page.click("#tab-sign")
    for side, button in (("low", "#sign-low"), ("high", "#sign-high")):
        page.click(button)
        bounds = {each["trade"]: each[side] for each in ranges["ranges"]}
        page.browser.run(SIGNED, [[trade, bounds[trade]] for trade in ranges["on"]])
        yield f"signed at the {side}est prices it lasts", judged(page).startswith("\u2713")
    page.click("#sign-back")
    yield "and goes back to a guess", page.guess().startswith("\u2713")


def judged(page: Bench) -> str:
    """Waits for the answer to what is signed, and answers what is said of it."""
    page.wait_for("judged", "answered", "fault", "none", "trouble")
    return page.says("verdict")


def tries_to_sign(page: Bench, program: str | None):
    page.open("used-cars.json", look.example("used-cars.json"))
    page.click("#tab-sign")
    yield "nothing is signed at first", judged(page).startswith("Nothing is signed yet")
    page.click("#sign-guess")
    yield "the guess is signed by a click, and lasts", judged(page).startswith("\u2713 It lasts")
    outcome = json.loads(page.text())["outcome"]
    yield "its contracts stand in the text", outcome == {"over": 1, "contracts": [["o1d", 8], ["db1", 11], ["o2b2", 8]]}
    prices = asked(page, program, ["judge"], page.text())["prices"]
    lanes = page.drawn()["lanes"]
    yield "the prices that complete it are drawn", all(f" at {price}: " in lanes[name]["says"] for name, price in prices)
    page.click("#reason-take")
    yield "they are taken as the guess, which is an equilibrium", page.guess().endswith("the worths sum to 10.")
    yield "with these prices", json.loads(page.text())["arrangement"] == {"on": ["o1d", "db1", "o2b2"], "prices": prices}
    page.press("Control+z")
    page.click("#tab-sign")
    judged(page)
    page.focus("firm:B1")
    page.press("Enter")
    yield "a firm says what it has by what is signed", page.says("told") == "B1 buys db1 from D at 11: their utility is 1."
    page.focus("lane:D B1")
    page.press("ArrowUp", "ArrowUp")
    yield "the first firm that drops a contract is told", judged(page).endswith("It isn't kept: B1 would rather drop their contracts.")
    yield "with what it has and would have", "has -1, then 0" in page.drawn()["firms"]["B1"]["says"]
    page.press("1", "0")
    yield "a price is typed, and a chain blocks what is signed", judged(page).endswith("one other contract blocks it.") and page.focused() == "price:db1"
    yield "the firms of the chain have what they would have", all(says in page.drawn()["firms"][name]["says"] for name, says in (("D", "has 1, then 3/2"), ("B3", "has 0, then 1/2")))
    before = page.text()
    page.drag("#denominator", 0)
    page.press("Control+a", "2", "Tab")
    yield "prices are counted over another denominator", judged(page) != "" and json.loads(page.text())["outcome"] == {"over": 2, "contracts": [["o1d", 16], ["db1", 20], ["o2b2", 16]]}
    page.focus("lane:D B1")
    page.press("ArrowUp")
    page.drag("#denominator", 0)
    page.press("Control+a", "1", "Tab")
    yield "a denominator at which a price isn't whole is refused", "isn't whole" in page.says("denominator-says") and json.loads(page.text())["outcome"]["over"] == 2
    yield "and stays where it was typed", page.value("document.getElementById('denominator').value") == "1"
    page.click("#undo")
    page.click("#undo")
    yield "all that is taken back", page.text() == before and judged(page).endswith("one other contract blocks it.")
    page.open("used-cars-bypassed.json", look.example("used-cars-bypassed.json"))
    yield "a document with contracts alone is opened to sign", judged(page).endswith("a chain of 2 other contracts blocks it.")
    contracts = ["o1d to D at 8.", "db3 to B3 at 10."]
    marked = []
    for _ in range(2):
        marked.append({name: lane["says"] for name, lane in page.drawn()["lanes"].items() if " steps before it" in lane["says"] or " of this step" in lane["says"]})
        page.click("#story-next")
    yield "the chain is drawn one contract after another", set(marked[0]) == {"o1d"} and set(marked[1]) == {"o1d", "db3"} and "of this step" in marked[1]["db3"]
    steps = page.browser.run(STEPS)
    yield "and told so, at the simplest prices", all(contract in step for contract, step in zip(contracts, steps))
    yield "with what each has and would have", "O1 has a utility of 3; with its contracts of the chain it would have 4, and leave o1b1." in steps[0]
    yield "and who isn't asked", page.says("told").endswith("B1 loses o1b1, and isn't asked.")
    page.click(label("O1 B1"))
    yield "a click takes a contract away", judged(page) != "" and json.loads(page.text())["outcome"]["contracts"] == [["o2b2", 8]]
    page.press("Control+z")
    page.drag(label("O1 B1"), -16)
    yield "a drag gives it another price", judged(page) != "" and json.loads(page.text())["outcome"]["contracts"] == [["o1b1", 9], ["o2b2", 8]]
    page.press("Control+z")
    yield "the text is as it was", page.text() == example("used-cars-bypassed.json")


# Chooses of a list what has a value.
CHOSEN = """
const select = document.getElementById(arguments[0]) ?? document.querySelector(`[data-key="${arguments[0]}"]`);
select.value = arguments[1];
select.dispatchEvent(new Event("change", {bubbles: true}));"""


def decided(page: Bench) -> str:
    """Waits for the answer to the claim, and answers what is said of it."""
    page.wait_for("decided", "answered", "fault", "none", "trouble")
    return page.says("decided")


def tries_of_all_who_drop(page: Bench, program: str | None):
    """All who would drop something of what is signed are counted, marked and stepped through."""
    contracts = '"outcome":{"over":1,"contracts":[["o1d",3],["db1",13],["o2b2",9]]},"arrangement":'
    page.open("used-cars.json", example("used-cars.json").replace('"arrangement":', contracts, 1).encode())
    page.click("#tab-sign")
    yield "all who would drop something are counted", judged(page).endswith("2 people would rather drop contracts.")
    firms = page.drawn()["firms"]
    yield "and marked, with what they have and could have", [firms[name]["mood"] for name in ("O1", "O2", "B1")] == ["objects", "unknown", "objects"] and "has -1" in firms["O1"]["says"]
    page.click("#objects")
    first = page.says("told")
    page.click("#objects")
    yield "and stepped through", first.startswith("O1 sells") and page.says("told").startswith("B1 buys") and "would rather keep nothing" in page.says("told")
    page.click("#tab-guess")


def tries_of_claims(page: Bench, program: str | None):
    page.open("used-cars-bypassed.json", look.example("used-cars-bypassed.json"))
    judged(page)
    first = page.text()
    page.click("#reason-claim")
    yield "an answer goes into the document as its claim", decided(page).startswith("\u2713 The claim is valid.")
    yield "at the prices that are shown", json.loads(page.text())["claim"] == {"answer": "blocks", "contracts": [["o1d", 8], ["db3", 10]], "over": 1}
    yield "and all else is as it was", page.text().startswith(first[:first.rindex("}")])
    valid = page.text()
    page.focus("claim contracts o1d")
    page.press(*["ArrowDown"] * 2)
    yield "a number of it is spoilt by keys", '["o1d",6]' in page.text() and page.focused() == "claim contracts o1d"
    reason = asked(page, program, ["replay"], page.text())
    yield "and the reason is told", decided(page).startswith("\u2717 The claim isn't valid.") and decided(page).endswith(f"{reason['firm']} does as well as it can without {reason['trade']}.")
    page.press("Control+z", "Control+z")
    yield "taken back it is valid again", page.text() == valid and decided(page).startswith("\u2713")
    page.click('#claim-fields [aria-label="Leave the contract on db3 out of the claim"]')
    yield "a contract is left out", len(json.loads(page.text())["claim"]["contracts"]) == 1 and "does as well as it can without o1d" in decided(page)
    page.press("Control+z")
    page.focus("claim over")
    page.press("Control+a", "0")
    yield "a claim with a fault has it told", page.value("document.documentElement.dataset.decided") == "fault" or "fault 19" in decided(page)
    page.click("#claim-go")
    marked = page.value("[...document.querySelectorAll('.CodeMirror .faulty')].map(({textContent}) => textContent).join('')")
    yield "and marked in the text", marked == "0"
    page.open("6-signed-too-low.json", look.example("lesson/6-signed-too-low.json").replace(b'["sue-tom",2]', b'["sue-tom",4]'))
    page.click("#tab-sign")
    judged(page)
    page.click("#reason-claim")
    yield "the table of the lesson is claimed at 5", decided(page).startswith("\u2713") and json.loads(page.text())["claim"] == {"answer": "blocks", "contracts": [["sue-uma", 5]], "over": 1}
    page.open("used-cars-outbid.json", look.example("used-cars-outbid.json"))
    page.click("#tab-guess")
    page.click("#wonder")
    page.wait_for("reason", "answered")
    page.click("#reason-claim")
    yield "a cycle is claimed", decided(page).startswith("\u2713 The claim is valid. It says that null, db3 and db1 are a cycle of the cost -1")
    page.click("#tab-guess")
    page.wait_for("reason", "answered")
    yield "and its story is still told", len(page.browser.run(STEPS)) == 4 and page.says("told") == page.browser.run(STEPS)[0]
    page.click("#tab-claim")
    page.browser.run(CHOSEN, "claim nodes 1", '"db2"')
    yield "and where another trade stands in it, it has no arc", decided(page).endswith("There is no arc from null to db2.")
    page.open("used-cars.json", look.example("used-cars.json"))
    page.click("#tab-guess")
    page.click("#solve")
    page.wait_for("state", "answered")
    page.click("#over-claim")
    yield "what solve found is claimed", decided(page).startswith("\u2713 The claim is valid. It says that its trades and prices are an equilibrium of the surplus 10")
    page.click('#claim-fields [data-key="claim on o2b2"]')
    reason = asked(page, program, ["replay"], page.text())
    yield "a trade of it is taken out", "o2b2" not in json.loads(page.text())["claim"]["on"] and f"{reason['firm']} would rather" in decided(page)
    page.open("used-cars-dear-car.json", look.example("used-cars-dear-car.json"))
    page.ask("check")
    page.click("#answer-claim")
    yield "an answer to a command is claimed", decided(page).startswith("\u2713 The claim is valid. It says that D would gain 1 with {o2d, db1}")
    page.browser.run("const gain = document.getElementById('claim gain'); gain.focus(); gain.select()")
    page.press("2")
    yield "and spoilt", decided(page).endswith("It would gain 1.") and json.loads(page.text())["claim"]["gain"] == 2
    page.ask("firms")
    yield "an answer that is no claim has no button", page.value("document.getElementById('answer-claim').hidden")
    page.click("#tab-guess")


ONE_TRADE = ('{"version":1,"firms":[{"name":"S","kind":"table","rows":[[["a"],-1]]},{"name":"B","kind":"table","rows":[[["a"],4]]}],'
             '"trades":[{"name":"a","seller":"S","buyer":"B"}]}')


def tries_of_the_text(page: Bench, program: str | None):
    odd = ONE_TRADE.replace('"version":1', '"version":1,"note":"é \\u00e9, 1e3, and {\\"on\\":[]}"')
    odd = odd.replace('"trades":', '"arrangement":{"prices":[ ["a" , 99999999999999 ] ],"on":[ ]},"trades":')
    page.type(odd)
    page.guess()
    page.click("#tab-document")
    yield "one long line is offered laid out", page.value("!document.getElementById('one-line').hidden")
    page.click(label("S B"))
    page.guess()
    clicked = odd.replace('"on":[ ]', '"on":[ "a"]')
    yield "a click changes nothing else of an odd text", page.text() == clicked
    page.click("#lay-out")
    yield "laying it out adds ends of lines and blanks alone", page.text() != clicked and re.sub(r"\n *", "", page.text()) == clicked
    page.guess()
    page.open("one-trade.json", look.example("one-trade.json"))
    page.click(".CodeMirror-code")
    page.press("Control+End", "Backspace", "Backspace")
    wrong = page.guess()
    yield "a text that is typed wrong has a fault", page.value("document.documentElement.dataset.guess") == "fault" and "fault 1" in wrong
    yield "which is told beside it", "fault 1" in page.says("document-fault")
    page.press("Control+z", "Control+z")
    yield "letters are taken back in the same history", page.text() == example("one-trade.json") and page.guess().startswith("\u2713")
    page.press("Control+End", "a", "b", "c", " ", "d")
    yield "what is typed is the text", page.text() == example("one-trade.json") + "abc d"
    page.press(*["Control+z"] * 3)
    yield "and a word is taken back at once", page.text() == example("one-trade.json")
    page.open("used-cars-misspelt.json", look.example("used-cars-misspelt.json"))
    marked = page.value("[...document.querySelectorAll('.CodeMirror .faulty')].map(({textContent}) => textContent).join('')")
    yield "a fault is marked at its place in the text", marked != "" and marked in example("used-cars-misspelt.json")
    page.click("#fault-go")
    yield "and is gone to by a button", page.value("document.querySelector('.CodeMirror').CodeMirror.getSelection()") == marked
    page.open("windows.json", look.example("one-trade.json").replace(b"\n", b"\r\n"))
    page.click(".CodeMirror-code")
    page.press("Control+End", " ")
    page.guess()
    typed = page.value(EDITED)
    yield "what is typed leaves other ends of lines as they are", typed == example("one-trade.json").replace("\n", "\r\n") + " "
    page.open("trades.json", ONE_TRADE.encode())
    yield "without an arrangement there is no guess yet", page.guess().startswith("No guess yet")
    page.click("#tab-guess")
    page.click(label("S B"))
    yield "and a click begins one", page.guess() != "" and json.loads(page.text())["arrangement"] == {"on": ["a"], "prices": [["a", 0]]}


# Leaves a document as another tab does that was closed.
ELSEWHERE = """
const key = "market: the document", all = JSON.parse(localStorage.getItem(key)) ?? [];
localStorage.setItem(key, JSON.stringify([...all, {name: arguments[0], text: arguments[1], tab: "another"}]));"""


def tries_of_tabs(page: Bench, address: str):
    page.open("mine.json", look.example("used-cars.json"))
    page.click(label("O1 B1"))
    mine = page.text()
    page.browser.run("return new Promise((done) => setTimeout(done, 500))")
    page.browser.run(ELSEWHERE, "other.json", example("houses.json"))
    page.again(address)
    page.guess()
    yield "after a reload the work of this tab and of another one is offered", page.value("[...document.querySelectorAll('#kept-list button')].map(({textContent}) => textContent)") == ["mine.json", "other.json"]
    page.click("#kept-list button + button")
    yield "that of the other one is opened", page.guess() != "" and page.text() == example("houses.json")
    page.again(address)
    page.guess()
    page.click("#kept-open")
    yield "and that of this one", page.guess() != "" and page.text() == mine
    page.again(address)
    page.guess()
    page.click("#kept-forget")
    page.again(address)
    yield "and both are forgotten", page.value("document.getElementById('kept').hidden")


def tries_of_versions(page: Bench, program: str | None):
    """What the form does where a change wants more than it may do at once."""
    trades = [{"name": f"t{k}", "seller": f"S{k % 8}", "buyer": f"B{k // 8}"} for k in range(64)]
    firms = [{"name": f"{side}{k}", "kind": "laminar"} for side in "SB" for k in range(8)]
    page.open("full.json", json.dumps({"version": 1, "firms": firms, "trades": trades}).encode())
    page.click("#tab-build")
    before = page.text()
    page.click('[data-key="trade add"]')
    yield "a 65th trade makes a document one of version 2, which is said", json.loads(page.text())["version"] == 2 and "version 2 now" in page.says("notice") and "fault" not in page.ask("solve")["sentences"][0]
    page.press("Control+z")
    yield "and both are taken back as one", page.text() == before
    page.open("car-dealer.json", look.example("car-dealer.json"))
    page.click("#tab-build")
    before = page.text()
    kind = json.loads(before)["firms"][0]["kind"]
    page.browser.run(CHOSEN, "firm kind", "table" if kind != "table" else "laminar")
    yield "another kind asks before numbers go", page.text() == before and "doesn't keep all of its numbers" in page.says("build-fields")
    page.click('[data-key="kind keep"]')
    yield "they may stay", page.text() == before and "keep all" not in page.says("build-fields")
    page.browser.run(CHOSEN, "firm kind", "table" if kind != "table" else "laminar")
    page.click('[data-key="kind change"]')
    yield "or go", json.loads(page.text())["firms"][0]["kind"] != kind and "keep all" not in page.says("build-fields")
    page.click("#tab-guess")


def tries_to_open(page: Bench, program: str | None):
    data = look.example("used-cars.json")
    for name, given in (("a byte order mark", b"\xef\xbb\xbf" + data), ("UTF-16", data.decode().encode("utf-16"))):
        page.open("marked.json", given)
        yield f"a file with {name} is told as that, and opened", name in page.says("notice") and page.text() == data.decode() and page.guess().startswith("\u2713")
    page.open("plain.json", data)
    yield "and a document as nothing else", page.value("document.getElementById('notice').hidden")
    page.open("broken.json", data[:-20])
    yield "a broken one has its fault told", "fault 1" in page.guess() and page.value("document.getElementById('notice').hidden")


# Keeps what is offered to be saved, in place of saving it.
KEEP = """
window.offered = [];
const made = URL.createObjectURL.bind(URL);
let last = null;
URL.createObjectURL = (blob) => made(last = blob);
HTMLAnchorElement.prototype.click = function () {
    window.offered.push([this.download, last]);
};"""
OFFERED = """
return Promise.all(window.offered.splice(0).map(async ([name, blob]) =>
    [name, new TextDecoder("utf-8", {ignoreBOM: true}).decode(await blob.arrayBuffer())]));"""


# Takes the place of the clipboard, which a browser without a window may refuse.
CLIPBOARD = """
window.copied = [];
Object.defineProperty(navigator, "clipboard", {configurable: true, value: {writeText: (text) => Promise.resolve(window.copied.push(text))}});"""

# How a picture of pixels looks that is offered: its size, and how many of its points are neither white nor clear.
PIXELS = """
return new Promise((done) => {
    const look = async () => {
        if (window.offered.length === 0) return setTimeout(look, 50);
        const [name, blob] = window.offered.pop(), picture = await createImageBitmap(blob), canvas = document.createElement("canvas");
        [canvas.width, canvas.height] = [picture.width, picture.height];
        canvas.getContext("2d").drawImage(picture, 0, 0);
        const points = canvas.getContext("2d").getImageData(0, 0, picture.width, picture.height).data;
        let inked = 0;
        for (let k = 0; k < points.length; k += 4) inked += points[k] + points[k + 1] + points[k + 2] < 700;
        done([name, blob.type, picture.width, inked]);
    };
    look();
});"""


def tries_of_files(page: Bench, program: str | None):
    page.browser.run(KEEP)
    page.open("used-cars-dear-car.json", look.example("used-cars-dear-car.json"))
    page.click("#tab-guess")
    page.click("#ranges")
    page.wait_for("ranges", "answered")
    page.ask("solve --csv")
    line = page.says("line")
    page.click("#answer-save")
    page.click("#tab-guess")
    for button in ("#save", "#picture-save", "#firms-csv", "#ranges-csv"):
        page.click(button)
    offered = dict(page.browser.run(OFFERED))
    files = {name.removeprefix("used-cars-dear-car"): text for name, text in offered.items()}
    yield "each is offered as a file", list(files) == ["-solve.csv", ".json", ".svg", "-firms.csv", "-ranges.csv"]
    yield "rows as the program wrote them", files["-solve.csv"].startswith("trade,on,price\no1d,1,8\n")
    yield "the document as it is", files[".json"] == page.text()
    yield "the picture that is on the screen", files[".svg"].startswith("<svg") and "\u2717 0" in files[".svg"] and "best 1" in files[".svg"]
    yield "firms as a table with the heads that are shown", files["-firms.csv"].startswith("\ufeffFirm,Has,Worth,Utility,Would rather,Gain\n")
    yield "and with its cells", 'D,"o1d, db1",-1,0,"o2d, db1",1\n' in files["-firms.csv"]
    yield "ranges as a table", files["-ranges.csv"].startswith("\ufeffTrade,On,Lowest,Highest\n") and "\no1d,1,8,10\n" in files["-ranges.csv"]
    page.browser.run(CLIPBOARD)
    for button in ("#firms-copy", "#ranges-copy"):
        page.click(button)
    copied = page.value("window.copied")
    yield "tables are put on the clipboard", copied[0].startswith("Firm\tHas\t") and "\nD\to1d, db1\t-1\t0\to2d, db1\t1\n" in copied[0] and "\no1d\t1\t8\t10\n" in copied[1]
    page.click("#ranges")
    page.open("used-cars-bypassed.json", look.example("used-cars-bypassed.json"))
    judged(page)
    page.click("#story-next")
    page.click("#picture-save")
    [[_, drawn]] = page.browser.run(OFFERED)
    yield "a picture has what a step says in the boxes", "has 0" in drawn and "then 1" in drawn and "class=" not in drawn and 'fill="rgb(' in drawn
    page.click("#picture-pixels")
    name, kind, width, inked = page.browser.run(PIXELS)
    yield "and is saved as pixels too", (name, kind) == ("used-cars-bypassed.png", "image/png") and width > 600 and inked > 2000
    yield "the command for a terminal stands there", line == "market solve --csv < used-cars-dear-car.json"


# What of the page is there when it is printed: whatever has a text of its own, by the id of what it stands in.
PRINTED = """
const rules = [...document.styleSheets].flatMap((sheet) => [...sheet.cssRules]).filter(({conditionText}) => conditionText === "print");
const style = new CSSStyleSheet();
style.replaceSync(rules.flatMap(({cssRules}) => [...cssRules]).map(({cssText}) => cssText).join(" "));
document.adoptedStyleSheets = [style];
const texts = document.createTreeWalker(document.body, NodeFilter.SHOW_TEXT), seen = new Set();
while (texts.nextNode()) {
    const {parentElement: element, data} = texts.currentNode;
    if (data.trim() !== "" && !["SCRIPT", "NOSCRIPT"].includes(element.tagName) && element.getClientRects().length > 0 && !element.closest(".unseen")) seen.add(element.closest("[id]")?.id ?? element.tagName);
}
document.adoptedStyleSheets = [];
return [...seen];"""


def sheets_in(pdf: bytes) -> int:
    """How many pages a PDF has, some of whose objects may be packed."""
    packed = [zlib.decompressobj().decompress(pdf[at.end():]) for at in re.finditer(rb"/ObjStm.*?stream\r?\n", pdf, re.DOTALL)]
    return sum(len(re.findall(rb"/Type */Page\b", text)) for text in [pdf, *packed])


def tries_to_print(page: Bench, program: str | None):
    for name in ("used-cars", "houses", "lesson/6-signed-too-low"):
        page.open("printed.json", look.example(f"{name}.json"))
        page.browser.run("document.querySelector('#tab-guess').click()")
        page.guess()
        sheets = sheets_in(page.browser.printed())
        yield f"{name} is printed on a sheet or two ({sheets})", 1 <= sheets <= 2
    page.open("printed.json", look.example("used-cars-dear-car.json"))
    page.click(label("D B1"))
    page.guess()
    there = set(page.browser.run(PRINTED))
    yield f"with verdict, picture and tables, and nothing that is pressed {sorted(there)}", {"verdict", "stage", "trades", "firms"} <= there <= {"verdict", "told", "stage", "legend", "trades", "firms", "panel-guess", "firms-part", "title", "task"}


def many_trades() -> bytes:
    """1,024 trades, as many as a document may have."""
    ends = [(f"S{k // 32}", f"B{k % 32}") for k in range(1024)]
    firms = [{"name": f"{side}{k}", "kind": "laminar"} for side in "SB" for k in range(32)]
    trades = [{"name": f"t{k}", "seller": seller, "buyer": buyer} for k, (seller, buyer) in enumerate(ends)]
    return json.dumps({"version": 3, "firms": firms, "trades": trades, "arrangement": {"on": [], "prices": [[f"t{k}", k] for k in range(1024)]}}).encode()


# Scrolls the table to its end in 40 steps, and answers the longest time between two pictures, in milliseconds.
SCROLL = """
const scroll = document.getElementById("trades-scroll");
return new Promise((done) => {
    let last = performance.now(), longest = 0, k = 0;
    const step = (now) => {
        longest = Math.max(longest, now - last);
        last = now;
        scroll.scrollTop = scroll.scrollHeight * (k += 1) / 40;
        if (k <= 40) requestAnimationFrame(step);
        else setTimeout(() => done(longest), 50);
    };
    requestAnimationFrame(step);
});"""


def tries_of_size(page: Bench, program: str | None):
    page.open("many.json", many_trades())
    rows = page.value("document.querySelectorAll('#trades tbody tr').length")
    yield "the first one stands below the heads", page.value("document.querySelector('#trades tbody [data-trade]').offsetTop - document.querySelector('#trades thead').offsetHeight") < 3
    yield "of 1,024 trades the rows in sight are there", 10 < rows < 80 and page.value("document.getElementById('trades').getAttribute('aria-rowcount')") == "1025"
    longest = page.browser.run(SCROLL)
    print(f"{page.browser.name}: 1,024 trades scrolled, at most {longest:.0f} ms between two pictures")
    yield "the last one is there when it is scrolled to", page.value("document.querySelector('#trades tbody [data-trade=t1023]') !== null")
    yield "one firm's neighbourhood is drawn", len(page.drawn()["lanes"]) == 32
    yield "a document of 1,024 trades is answered", "fault" not in page.ask("check")["sentences"][0]
    page.browser.run("const filter = document.getElementById('filter'); filter.value = 't1000'; filter.dispatchEvent(new Event('input'))")
    yield "the table is filtered", page.value("document.querySelectorAll('#trades tbody tr[data-trade]').length") == 1
    page.browser.run("const filter = document.getElementById('filter'); filter.value = ''; filter.dispatchEvent(new Event('input'))")
    page.open("large.json", b'{"note":"' + b"x" * (1 << 18) + b'"}')
    yield "a large document isn't in the editor", page.value(EDITED) == "" and page.says("name").startswith("large.json, 262")
    yield "and is answered", "fault 3" in page.ask("solve")["sentences"][0]
    page.open("large.json", look.example("used-cars.json"))


def packed(data: bytes) -> str:
    maker = zlib.compressobj(9, zlib.DEFLATED, -15)
    return "#1." + urlsafe_b64encode(maker.compress(data) + maker.flush()).decode().rstrip("=")


def tries_of_links(page: Bench, address: str):
    page.open("houses.json", look.example("houses.json"))
    fragment = page.link()
    yield "from a disk the link is the fragment alone", fragment.startswith("#1.") and len(fragment) < 8000 and "behind any address" in page.says("linked-says")
    for name, there, wanted in (("a link brings the document back", fragment, example("houses.json")),
                                ("and so does one from elsewhere", packed(look.example("ring.json")), example("ring.json"))):
        page.again(address + there)
        page.guess()
        yield name, page.text() == wanted
    page.again(address + packed(b"[" * (1 << 24)))
    yield "what a link unpacks to stops at 4 MiB and one byte", page.says("name").startswith("from a link, 4194.3 KB")
    yield "and is a document like any other", page.ask("solve")["sentences"][0].startswith("The document has a fault")
    page.again(address + "#1.!!")
    yield "a broken link is told", "could not be read" in page.says("notice") and page.guess().startswith("\u2713")
    page.again(address)
    page.guess()
    yield "what was changed last is asked about", page.value("!document.getElementById('kept').hidden")
    page.click("#kept-forget")
    page.again(address)
    yield "and forgotten", page.value("document.getElementById('kept').hidden")


def contracts_of(name: str) -> bytes:
    """A document with one name for all, in what is signed and in a claim that has all that one may have, and more."""
    claim = {"answer": name, "contracts": [[name, 1], name, None], "over": name, "firm": name, "keeps": [name], "nodes": [name, None], "at": name, name: 1}
    return json.dumps({"version": 1, "firms": [{"name": name, "kind": "table", "rows": []}], "trades": [{"name": name, "seller": name, "buyer": name}],
                       "outcome": {"over": 1, "contracts": [[name, 1], [name]]}, "claim": claim}).encode()


def tries_of_ill_will(page: Bench, program: str | None):
    deep = b'{"version":1,"note":' + b"[" * 120 + b"]" * 120 + b',"firms":[],"trades":[]}'
    names = ["</script><script>document.title='bad'</script>", "<img src=x onerror=document.title='bad'>", "__proto__", "constructor", "a\u202eb", "\ud83d\ude97"]
    for data in (deep, b"[" * 4194304, b'{"version":1,"note":"' + b"a" * 4194304 + b'"}', b"\xff\xfe", b"",
                 *(json.dumps({"version": 1, "firms": [{"name": name, "kind": "table", "rows": []}, {"name": "B", "kind": "table", "rows": []}],
                               "trades": [{"name": name, "seller": name, "buyer": "B"}], "arrangement": {"on": [name], "prices": [[name, 1]]}}).encode() for name in names)):
        page.open("ill.json", data)
        page.ask("firms")
    for name in names:
        page.open("ill.json", contracts_of(name))
        for tab in ("#tab-sign", "#tab-claim", "#tab-build", "#tab-guess"):
            page.browser.run("document.querySelector(arguments[0]).click()", tab)
            page.wait_for("decided" if tab == "#tab-claim" else "judged", "answered", "fault", "none")
    yield "no document makes elements of the page", page.value("document.images.length + document.scripts.length") == 4 and page.value("document.title").startswith("market:")
    page.open("used-cars.json", look.example("used-cars.json"))
    yield "and after them the page answers", page.guess().endswith("the worths sum to 10.")


def tree_of(page: Bench) -> list[dict]:
    """Chromium's accessibility tree, without what nobody is told of."""
    nodes = page.browser.driver.execute_cdp_cmd("Accessibility.getFullAXTree", {})["nodes"]
    return [node for node in nodes if not node.get("ignored")]


def names_in(nodes: list[dict]) -> list[str]:
    return [node.get("name", {}).get("value", "") for node in nodes]


def unnamed(nodes: list[dict]) -> list[str]:
    """The roles of what is pressed or filled in, and has no name."""
    roles = ("button", "textbox", "combobox", "checkbox", "tab", "searchbox")
    return [node["role"]["value"] for node in nodes if node.get("role", {}).get("value") in roles and not node.get("name", {}).get("value")]


def tries_of_access(page: Bench):
    """Chromium's accessibility tree, and what the style table says of colours and motion."""
    page.open("used-cars-dear-car.json", look.example("used-cars-dear-car.json"))
    page.click("#tab-guess")
    nodes = tree_of(page)
    names = names_in(nodes)
    firms = {name.split(" ")[1].rstrip(",") for name in names if name.startswith("Firm ")}
    yield "firms are in the accessibility tree", firms >= {"O1", "O2", "D", "B1", "B2", "B3"}
    trades = {name.split(" ")[1].rstrip(",") for name in names if name.startswith("Trade ") and " at " in name}
    yield "trades with prices are", trades == {trade["name"] for trade in json.loads(page.text())["trades"]}
    yield "the verdict is", any(": 5 of 6 firms are" in name for name in names) and any("equilibrium" in name for name in names)
    yield f"all that is pressed or filled in has a name {unnamed(nodes)}", unnamed(nodes) == []
    page.open("used-cars-bypassed.json", look.example("used-cars-bypassed.json"))
    judged(page)
    nodes = tree_of(page)
    names = names_in(nodes)
    yield "and so has what is signed", unnamed(nodes) == [] and "o1b1 is signed" in names and "Trade o1b1, from O1 to B1, at 7: signed" in names
    yield "what a firm has and would have is told", any(name.startswith("Firm O1: has 3, then 4. Own numbers: sells from 4") for name in names)
    page.click("#reason-claim")
    decided(page)
    nodes = tree_of(page)
    yield "and all of a claim has a name", unnamed(nodes) == [] and {"price of o1d", "over"} <= set(names_in(nodes))
    page.click("#tab-build")
    nodes = tree_of(page)
    yield "and all of the form", unnamed(nodes) == [] and {"Cost of o1b1", "Trade o1b1 from", "Add a trade"} <= set(names_in(nodes))
    page.open("exercise.json", b'{"version":1,"firms":[],"trades":[],"note":{"exercise":"None","goal":"equilibrium"}}')
    nodes = tree_of(page)
    yield "and all of an exercise", unnamed(nodes) == [] and {"Your name, a nickname or a number", "Save the result"} <= set(names_in(nodes))
    page.open("used-cars.json", look.example("used-cars.json"))
    page.browser.forced_colours(True)
    ground = page.value("getComputedStyle(document.getElementById('stage')).backgroundColor")
    page.browser.forced_colours(False)
    yield f"in forced colours the picture keeps its light ground {ground}", ground == "rgb(255, 255, 255)"
    style = (HERE.parent / "style.css").read_text()
    colours = dict(re.findall(r"--([\w-]+): (#[0-9a-f]{6})", style))
    pairs = [(text, ground) for text in ("ink", "quiet", "good", "bad") for ground in ("paper", "ground")]
    pairs += [("good", "good-ground"), ("bad", "bad-ground"), ("paper", "main"), ("ink", "mark")]
    yield "letters stand out", all(contrast(colours[text], colours[ground]) >= 4.5 for text, ground in pairs)
    yield "edges and the focus do", all(contrast(colours[line], colours[ground]) >= 3 for line in ("edge", "main", "focus") for ground in ("paper", "ground"))
    still = re.sub(r"@media \(prefers-reduced-motion: no-preference\) \{[^}]*\{[^}]*\}\s*\}", "", style)
    yield "nothing moves for those who want no motion", not re.search(r"transition|animation|scroll-behavior", still)


# Clicks on a trade's box, and answers after how many milliseconds the answer stands in the next picture.
CLICK = """
const page = document.documentElement, box = document.querySelector("#trades [type=checkbox]"), begun = performance.now();
return new Promise((done) => {
    const shown = () => requestAnimationFrame(() => setTimeout(() => done(performance.now() - begun), 0));
    const look = () => page.dataset.guess === "answered" && ["none", "answered"].includes(page.dataset.ranges) && shown();
    box.click();
    new MutationObserver(look).observe(page, {attributes: true});
});"""


def speed(page: Bench, drawn: bytes) -> None:
    """How long it takes from a click to the answer that is shown, as a median of 20."""
    network = json.loads(drawn)
    guess = {"on": [], "prices": [[trade["name"], 0] for trade in network["trades"]]}
    for name, data in (("used cars", look.example("used-cars.json")), ("128 trades", json.dumps({**network, "arrangement": guess}).encode())):
        page.open("speed.json", data)
        spent = [page.browser.run(CLICK) for _ in range(20)]
        page.click("#ranges")
        page.wait_for("ranges", "answered", "fault")
        more = [page.browser.run(CLICK) for _ in range(20)]
        page.click("#ranges")
        print(f"    {name}: a click is answered after {median(spent):.0f} ms, and with ranges after {median(more):.0f} ms")


def contrast(one: str, other: str) -> float:
    """The contrast of two colours, as WCAG reckons it."""
    def light(colour: str) -> float:
        parts = [int(colour[k:k + 2], 16) / 255 for k in (1, 3, 5)]
        return sum(weight * (part / 12.92 if part <= 0.04045 else ((part + 0.055) / 1.055) ** 2.4) for weight, part in zip((0.2126, 0.7152, 0.0722), parts))
    lights = sorted((light(one), light(other)))
    return (lights[1] + 0.05) / (lights[0] + 0.05)
