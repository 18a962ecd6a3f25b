"""What is tried of what a class does with the page, by pointer and keys: a market that is made by the form, exercises and their results,
codes of links, and the hour of docs/LESSON.md."""
import hashlib
import json
import shutil
import subprocess
import tempfile
from base64 import b64encode
from pathlib import Path

import look
from bench import CHOSEN, KEEP, OFFERED, REFUSED, STEPS, Bench, asked, judged, label, sheets_in


def tries(page: Bench, program: str | None):
    """Each as a name, and whether it is so."""
    for part in (tries_to_build, tries_of_exercises, tries_of_result_links, tries_to_leave, tries_of_auctions, tries_of_the_hour):
        yield from part(page, program)


# Puts something in where the form has a key, as somebody does who chooses or types and leaves the field.
ENTERED = """
const [key, content] = arguments, element = [...document.querySelectorAll("#build-fields [data-key]")].find((each) => each.dataset.key === key);
element.value = content;
element.dispatchEvent(new Event("input", {bubbles: true}));
element.dispatchEvent(new Event("change", {bubbles: true}));"""


def entry(key: str) -> str:
    return f'#build-fields [data-key="{key}"]'


def tries_to_build(page: Bench, program: str | None):
    page.click("#new")
    yield "a new document has no firms, and a form", page.value("document.querySelectorAll('#build-fields button').length") == 4
    for name, kind in (("S", "seller-one"), ("B", "buyer-one")):
        page.click(entry(f"{kind} add"))
        page.drag(entry("firm name"), 0)
        page.press("Control+a", name, "Tab")
    yield "firms are added and named by keys", [firm["name"] for firm in json.loads(page.text())["firms"]] == ["S", "B"]
    yield "the next field has the focus then", page.focused() == "firm kind"
    page.browser.run(ENTERED, "new seller", "S")
    page.click(entry("trade add"))
    yield "a trade is added", json.loads(page.text())["trades"] == [{"name": "s-b", "seller": "S", "buyer": "B"}] and list(page.drawn()["lanes"]) == ["s-b"]
    page.drag(entry("each s-b"), 0)
    page.press("Control+a", "7")
    yield "a worth is typed", json.loads(page.text())["firms"][1]["amounts"] == [["s-b", 7]] and page.focused() == "each s-b"
    page.press("ArrowUp", "ArrowUp")
    yield "and made greater by keys", json.loads(page.text())["firms"][1]["amounts"] == [["s-b", 9]] and page.focused() == "each s-b"
    page.press("Control+z", "Control+z", "Control+z")
    yield "each entry is taken back by itself", json.loads(page.text())["firms"][1]["amounts"] == []
    page.press(*["Control+Shift+Z"] * 3)
    page.browser.run(ENTERED, "firm", "0")
    page.browser.run(ENTERED, "firm kind", "table")
    page.click(entry("row add"))
    page.drag(entry("row 0 worth"), 0)
    page.press("Control+a", "-", "4")
    yield "a row of a table is added, with its worth", json.loads(page.text())["firms"][0] == {"name": "S", "kind": "table", "rows": [[["s-b"], -4]]}
    page.click(label("S B"))
    page.drag(entry("trade 0 name"), 0)
    page.press("Control+a", "c", "a", "r", "Enter")
    whole = json.loads(page.text())
    yield "a trade has another name wherever it is named", whole["firms"][0]["rows"] == [[["car"], -4]] and whole["arrangement"] == {"on": ["car"], "prices": [["car", 0]]}
    page.drag(entry("firm name"), 0)
    page.press("Control+a", "B", "Tab")
    yield "a name that another has isn't taken", json.loads(page.text())["firms"][0]["name"] == "S" and page.browser.run(REFUSED, "firm name")[0] == "B"
    page.focus("firm name")
    page.press("Escape")
    page.focus("firm:B")
    page.press("Enter")
    yield "a firm that is chosen in the network is shown", page.value("document.querySelector(arguments[0]).value", entry("firm name")) == "B"
    page.browser.run(ENTERED, "firm kind", "laminar")
    page.drag(entry("set 0 greatest"), 0)
    page.press("Control+a", "2")
    page.drag(entry("set 0 number 2"), 0)
    page.press("Control+a", "-", "1")
    yield "a capacity with steps is made of it", json.loads(page.text())["firms"][1]["sets"] == [{"trades": ["car"], "from": 0, "values": [0, 0, -1]}]
    page.click("#tab-guess")
    page.click("#solve")
    page.wait_for("state", "answered")
    yield "the market that was made is solved", page.says("over-says").endswith("the worths sum to 5.")
    page.click("#tab-build")
    page.click(entry("firm out"))
    page.guess()
    whole = json.loads(page.text())
    yield "a firm is removed with its trades", (whole["firms"], whole["trades"], whole["arrangement"]) == ([{"name": "S", "kind": "table", "rows": []}], [], {"on": [], "prices": []})
    for name, parts in (("keeps-a-car.json", "costs owner-middleman"), ("car-dealer.json", "cost a as x")):
        page.open(name, look.example(name))
        kinds = {"keeps-a-car.json": "middleman", "car-dealer.json": "dealer"}
        page.browser.run(ENTERED, "firm", str([firm["kind"] for firm in json.loads(page.text())["firms"]].index(kinds[name])))
        before = page.text()
        page.focus(parts)
        page.press("ArrowUp")
        after = page.text()
        yield f"a {kinds[name]}'s number is changed at its place", len(after) == len(before) and sum(one != other for one, other in zip(before, after)) == 1
    page.click("#tab-guess")


# Opens several files at once.
OPEN_MANY = """
const moved = new DataTransfer(), input = document.getElementById("file");
for (const [name, text] of arguments[0]) moved.items.add(new File([text], name));
input.files = moved.files;
input.dispatchEvent(new Event("change", {bubbles: true}));"""

# What can be pressed or typed in now, by the ids.
THERE = "return [...document.querySelectorAll('button, select, input')].filter((each) => each.offsetParent !== null).map(({id}) => id);"

# The rows of the results.
ROWS = "return [...document.querySelectorAll('#results tbody tr')].map((row) => [...row.cells].map(({textContent}) => textContent));"

SOLVING = {"solve", "wonder", "ranges", "buyers-best", "sellers-best", "tab-whatif", "tab-claim", "tab-build", "tab-document", "tab-answer", "run", "reason-take", "reason-claim",
           "auction", "sign-low", "sign-high", "sign-back", "none-claim", "sign-guess", "examples", "new", "kept-open"}


def to_exercise(page: Bench, title: str, goal: str) -> str:
    """Makes the document an exercise by keys, and answers its text."""
    page.click("#make")
    page.press("Control+a", *title, "Tab")
    page.browser.run(CHOSEN, "maker-goal", goal)
    page.focus_on("maker-put")
    page.press("Enter")
    return page.text()


def saved_result(page: Bench, name: str) -> tuple[str, str]:
    """What a pupil of a name saves, as a file."""
    page.drag("#pupil", 0)
    page.press("Control+a", *name)
    page.click("#result-save")
    return tuple(page.browser.run(OFFERED)[0])


def tries_of_exercises(page: Bench, program: str | None):
    page.browser.run(KEEP)
    page.open("1-one-good.json", look.example("lesson/1-one-good.json"))
    before = page.text()
    given = to_exercise(page, "One good", "equilibrium")
    note = {"exercise": "One good", "goal": "equilibrium", "note": json.loads(before)["note"]}
    yield "a document is made an exercise by its note", json.loads(given) == {**json.loads(before), "note": note} and "says so now" in page.says("maker-says")
    page.click("#maker-try")
    page.guess()
    there = set(page.browser.run(THERE))
    yield "as a pupil sees it nothing solves it", page.says("exercise-title") == "One good" and not there & (SOLVING | {"make", "tab-sign"}) and "result-save" in there
    page.focus_on("tab-guess")
    page.press("ArrowRight")
    yield "nor by keys", page.value("document.activeElement.id") == "tab-guess" and not set(page.browser.run(THERE)) & SOLVING
    yield "the page says who can find the solution", "Who reads the file" in page.says("exercise")
    yield "objections are told", page.guess().endswith("people are content.") and page.value("!document.getElementById('objects').disabled")
    first = saved_result(page, "Lena")
    page.click(label("Ada Cleo"))
    page.drag(label("Ada Cleo"), -32)
    page.press("Control+z")
    page.press("Control+z")
    yield "changes are counted as tries, and taken back they stay", page.says("tries") == "2 tries" and page.text() == given
    for trade in ("Ada Cleo", "Ada Dan", "Ben Cleo", "Ben Dan"):
        page.focus(f"lane:{trade}")
        page.press("5", "5")
    yield "an equilibrium is announced", page.guess().startswith("\u2713 An equilibrium") and page.says("tries") == "6 tries"
    second = saved_result(page, "Max")
    yield "a result is a small file with the document", (second[0], json.loads(second[1])) == (
        "Max-One-good.json", {"result": 1, "name": "Max", "tries": 6, "document": json.loads(page.text())}) and len(second[1]) < 2000
    changed = second[1].replace('"Max"', '"=Mo"').replace("90", "190")
    signed = json.dumps({**json.loads(before), "note": {"exercise": "To last", "goal": "lasts"}, "outcome": {"over": 1, "contracts": [["ada-cleo", 55]]}})
    lasting = json.dumps({"result": 1, "name": "Ida", "tries": 3, "document": json.loads(signed)})
    none = json.dumps({"result": 1, "name": "Jon", "document": {}})
    ill = json.dumps({"result": 1, "name": "<img src=x onerror=document.title='bad'>", "tries": -1, "document": json.loads(given.replace("One good", "</script>"))})
    page.browser.run(OPEN_MANY, [["ill.json", ill]])
    page.wait_for("results", "answered")
    yield "a result that means it ill is a row of text", page.browser.run(ROWS)[0][:2] == ["<img src=x onerror=document.title='bad'>", "</script>"] and page.value("document.images.length") == 0
    page.click("#results-forget")
    page.browser.run(OPEN_MANY, [["given.json", given], list(first), list(second), ["mo.json", changed], ["ida.json", lasting], ["jon.json", none]])
    page.wait_for("results", "answered")
    rows, content = page.browser.run(ROWS), asked(page, program, ["firms"], given)["content"]
    yield "many results are told in a table, each as the program decides it", rows == [
        ["Lena", "One good", f"\u2717 no: {content} of 4 people are content", "0", "as given"], ["Max", "One good", "\u2713 yes", "6", "as given"],
        ["=Mo", "One good", "\u2717 no: people or trades were changed", "6", "changed"], ["Ida", "To last", "\u2713 yes", "3", "not compared"],
        ["Jon", "none", "\u2717 it isn't of an exercise", "?", "not compared"]]
    yield "and counted", page.says("results-says") == "5 results, 2 reached."
    page.click("#results-csv")
    table = page.browser.run(OFFERED)[0]
    yield "they are offered as rows, none of which begins a formula", table[0] == "results.csv" and "\n'=Mo,One good,\u2717 no: people or trades were changed,6,changed\n" in table[1]
    page.click('[data-result="0"]')
    yield "a click shows what a pupil saw", page.guess().endswith("people are content.") and page.text() == given.strip()
    page.click("#tab-results")
    page.click('[data-result="1"]')
    yield "with its tries", page.guess().startswith("\u2713") and page.says("tries") == "6 tries"
    page.click("#tab-results")
    page.click("#results-forget")
    yield "results are forgotten", page.value("document.getElementById('tab-results').offsetParent === null") and page.browser.run(ROWS) == []
    page.open("6-signed-too-low.json", look.example("lesson/6-signed-too-low.json"))
    to_exercise(page, "To last", "lasts")
    page.click("#maker-try")
    there = set(page.browser.run(THERE))
    yield "of contracts that are to last the objections are told too", "doesn't last" in judged(page) or "isn't kept" in judged(page)
    yield "and nothing else", not there & (SOLVING | {"make", "tab-guess"}) and "denominator" in there
    fragment = page.link()
    page.click("#linked-close")
    page.open("used-cars.json", look.example("used-cars.json"))
    yield "another document is none", page.value("document.documentElement.dataset.exercise") == "none" and "tab-document" in page.browser.run(THERE)
    page.browser.run("location.hash = arguments[0]", fragment)
    page.wait_for("exercise", "lasts")
    yield "a link brings the exercise", page.says("exercise-title") == "To last"
    page.browser.run("history.replaceState(null, '', location.pathname)")
    page.open("used-cars.json", look.example("used-cars.json"))
    page.click("#tab-guess")


def result_link(page: Bench, name: str, is_named: bool) -> str:
    """The link of what a pupil has."""
    page.drag("#pupil", 0)
    page.press("Control+a", *name)
    if page.value("document.getElementById('result-named').checked") != is_named:
        page.click("#result-named")
    page.browser.run("document.documentElement.dataset.linked = 'false'")
    page.click("#result-link")
    page.wait_for("linked", "true")
    return page.value("document.getElementById('fragment').value")


PUT_IN = """
const field = document.getElementById("result-links");
field.value = arguments[0];
field.dispatchEvent(new Event("change", {bubbles: true}));"""


def tries_of_result_links(page: Bench, program: str | None):
    """Results as links, which have a name only where that is chosen, and what a class guessed as a diagram."""
    page.open("1-one-good.json", look.example("lesson/1-one-good.json"))
    given = to_exercise(page, "One good", "equilibrium")
    page.click("#maker-try")
    page.guess()
    first = result_link(page, "Lena", False)
    page.focus("lane:Ada Cleo")
    page.press("6", "1")
    page.guess()
    second = result_link(page, "Max", True)
    page.click("#linked-close")
    page.click("#exercise-leave")
    page.guess()
    page.click("#make")
    page.browser.run(PUT_IN, f"{first}\n{second} nothing")
    page.wait_for("results", "answered")
    rows = page.browser.run(ROWS)
    yield "links of results are opened, with the name that was chosen to be there", [row[1] for row in rows] == ["One good", "One good"] and rows[1][0] == "Max" and "Lena" not in rows[0][0]
    yield "each decided by the program", rows[0][2].startswith("\u2717 no:") and "Lena" not in first
    page.click("#results-draw")
    page.browser.run("return new Promise((done) => { const look = () => document.querySelector('#results-picture svg') ? done() : setTimeout(look, 20); look(); });")
    drawn = page.value("[...document.querySelectorAll('#results-picture [data-trades]')].map((row) => [row.dataset.trades, row.querySelectorAll('circle').length])")
    yield "what was guessed is drawn for each trade", len(drawn) == len(json.loads(given)["trades"]) and dict(map(tuple, drawn))["ada-cleo"] == 2
    page.browser.run(PUT_IN, "https://example.org/#3.abc")
    yield "what is no such link is told", page.browser.run("return new Promise((done) => setTimeout(() => done(document.getElementById('result-links-says').textContent), 200));") == "This is no link of a result."
    page.click("#results-forget")
    page.browser.run("location.hash = arguments[0]", second[second.index("#"):])
    page.wait_for("results", "answered")
    yield "and one in the address is one more result", [row[0] for row in page.browser.run(ROWS)] == ["Max"]
    page.browser.run("history.replaceState(null, '', location.pathname)")
    page.click("#results-forget")
    page.click("#maker-close")
    page.open("used-cars.json", look.example("used-cars.json"))
    page.click("#tab-guess")


def auctioned(page: Bench) -> str:
    """Plays an auction to its end, and answers what is said there."""
    page.click("#auction")
    page.wait_for("auction", "there", "refused")
    page.click("#auction-play")
    page.wait_for("auction", "ended", "refused")
    return page.says("auction-end")


def tries_of_auctions(page: Bench, program: str | None):
    """Auctions by the button: of houses, of the helpers of exercise 4, and where there is none; and one price for several trades."""
    for name, prices in (("lesson/4-substitutes.json", {"ann": 3, "ben": 3, "cai": 2}), ("houses.json", None)):
        page.open(name, look.example(name))
        page.click("#tab-guess")
        said = auctioned(page)
        at = json.loads(page.text())["arrangement"]
        verdict = asked(page, program, ["firms"], page.text())
        yield f"{name}: the auction ends, and the program says at what", said != "" and max(line["gain"] for line in verdict["firms"]) <= 1
        yield f"{name}: its course is drawn, with its steps", page.value("document.querySelectorAll('#auction-course svg').length") == 1 and page.value("document.querySelectorAll('#auction-steps tbody tr').length") > 1
        if prices is not None:
            yield f"{name}: it ends at the lowest wages", all(price == prices[trade.split("-")[0]] for trade, price in at["prices"]) and page.guess().startswith("\u2713")
        page.press("Control+z")
        yield f"{name}: and is taken back as one change", json.loads(page.text()) == json.loads(look.example(name))
        page.browser.run("document.querySelector('#auction-part').hidden || document.getElementById('auction-close').click()")
    page.open("used-cars.json", look.example("used-cars.json"))
    page.click("#auction")
    page.wait_for("auction", "refused")
    yield "where a firm buys and sells there is none, and that is said", page.says("auction-says") != ""
    page.click("#auction-close")
    page.browser.run("const slider = document.getElementById('one-price'); slider.value = '7'; slider.dispatchEvent(new Event('input', {bubbles: true}));")
    yield "one price for all trades that are shown", {price for _, price in json.loads(page.text())["arrangement"]["prices"]} == {7}
    page.press("Control+z")


def is_shut(page: Bench, element: str) -> bool:
    return page.value("document.getElementById(arguments[0]).getAttribute('aria-disabled') === 'true'", element)


def tries_to_leave(page: Bench, program: str | None):
    """An exercise is left by its own button alone."""
    page.open("1-one-good.json", look.example("lesson/1-one-good.json"))
    given = to_exercise(page, "One good", "equilibrium")
    page.click("#maker-try")
    page.guess()
    page.press("Control+z")
    yield "undo ends where an exercise begins", page.text() == given and page.says("exercise-title") == "One good" and is_shut(page, "undo")
    page.browser.run(CHOSEN, "examples", "1-one-good.json")
    yield "and no example is opened in it", page.text() == given
    page.click(label("Ada Cleo"))
    page.guess()
    page.click("#exercise-leave")
    page.guess()
    yield "it is left for what was before it", page.value("document.documentElement.dataset.exercise") == "none" and page.text() == given and "solve" in page.browser.run(THERE)
    yield "from where nothing leads back into it", is_shut(page, "undo") and is_shut(page, "redo")
    page.click("#forget")


# Waits until what was changed is kept.
KEPT = "return new Promise((done) => setTimeout(() => done(JSON.stringify(localStorage)), 500));"


def begun(page: Bench, given: str) -> tuple[bool, str, str]:
    """Opens an exercise, and answers whether what was begun of it is offered, the tries, and the pupil's name."""
    page.open("given.json", given.encode())
    return page.value("!document.getElementById('begun').hidden"), page.says("tries"), page.value("document.getElementById('pupil').value")


def tries_of_reloads(page: Bench, address: str):
    """What was begun of an exercise is kept for this exercise alone, until its result is saved."""
    page.again(address)
    page.open("1-one-good.json", look.example("lesson/1-one-good.json"))
    given = to_exercise(page, "One good", "equilibrium")
    page.click("#forget")
    yield "of an exercise that nobody began nothing is offered", begun(page, given) == (False, "0 tries", "")
    page.drag("#pupil", 0)
    page.press(*"Lena")
    page.click(label("Ada Cleo"))
    page.click(label("Ada Dan"))
    left, stored = page.text(), page.browser.run(KEPT)
    yield "no name is kept", "Ada" in stored and "Lena" not in stored
    page.again(address)
    yield "what was begun isn't offered elsewhere", page.value("document.getElementById('kept').hidden && document.getElementById('begun').hidden")
    yield "but where the same exercise is opened", begun(page, given) == (True, "2 tries", "")
    page.click("#begun-open")
    yield "it is gone on with, and its tries", page.text() == left and page.says("tries") == "2 tries"
    page.click(label("Ben Cleo"))
    page.browser.run(KEPT)
    page.again(address)
    yield "the count goes on, also where what was begun isn't taken up", begun(page, given) == (True, "3 tries", "") and page.text() == given
    page.click(label("Ben Cleo"))
    page.browser.run(KEEP)
    result = saved_result(page, "Max")
    yield "and goes into the result", json.loads(result[1])["tries"] == 4
    yield "with which it is forgotten", "Ada" not in page.browser.run(KEPT) and begun(page, given) == (False, "0 tries", "")
    page.click(label("Ben Cleo"))
    page.browser.run(KEPT)
    is_offered = begun(page, given)[0]
    page.click("#begun-forget")
    yield "somebody else begins anew", is_offered and page.says("tries") == "0 tries" and begun(page, given) == (False, "0 tries", "")
    page.click(label("Ben Cleo"))
    page.browser.run(KEPT)
    yield "another exercise isn't offered it", begun(page, given.replace("One good", "Another")) == (False, "0 tries", "")
    page.click("#forget")


def priced(page: Bench, **prices: int) -> None:
    """Types prices into the table, by trades whose - is written as _."""
    for trade, price in prices.items():
        page.focus(f"price:{trade.replace('_', '-')}")
        page.press("Control+a", *str(price))


def turned(page: Bench, *trades: str) -> None:
    for trade in trades:
        page.click(f'#trades [data-key="on:{trade}"]')


def wondered(page: Bench) -> str:
    """What is said where somebody asks whether there are prices."""
    page.guess()
    page.click("#wonder")
    page.wait_for("reason", "answered")
    return " ".join(page.browser.run(STEPS)) or page.says("reason-lines")


def lesson(page: Bench, name: str) -> None:
    page.open(name, look.example(f"lesson/{name}.json"))


# What the page says in the hour, in each language: of firms that are content, of prices, and of what is signed.
SAID = {
    "en": {"content": "{0} of {1} firms are content.", "sum": "the worths sum to {0}.", "round": "sums to {0},", "prices": "There are prices",
           "objects": "objects", "lasts": ("Sue would rather drop", "one other contract blocks it", "It lasts", "Tom would rather drop"),
           "leaves": "Dee leaves: the worths sum to 6 in place of 11, which is 5 less.", "who": "the other one is y"},
    "de": {"content": "{0} von {1} Firmen {2} zufrieden.", "sum": "die Summe der Werte ist {0}.", "round": "ist zusammen {0}.",
           "prices": "gibt es Preise", "objects": "widerspricht",
           "lasts": ("Sue würde die eigenen Verträge lieber kündigen", "Ein anderer Vertrag blockiert es", "Es hält:", "Tom würde die eigenen Verträge lieber kündigen"),
           "leaves": "Dee geht: Die Summe der Werte ist 6 statt 11, um 5 kleiner.", "who": "das andere ist y"},
}


def tries_of_the_hour(page: Bench, program: str | None, language: str = "en"):
    said_as = SAID[language]

    def says(told: str, key: str, *values: object) -> bool:
        """Whether something ends as the page says it, whatever letter begins it."""
        words = said_as[key].format(*values)
        return told.lower().endswith(words.lower())

    def content(count: int, firms: int) -> bool:
        told = page.guess().replace("people", "firms").replace("Personen", "Firmen")
        return says(told, "content", count, firms, "ist" if count == 1 else "sind")

    page.open("used-cars.json", look.example("used-cars.json"))
    page.click("#tab-guess")
    page.focus("firm:D")
    page.press("Enter")
    yield "0 to 5: the middleman is told", page.guess() != "" and "o1d" in page.says("told") and page.drawn()["firms"]["D"]["shown"].endswith("\u2713 2")
    page.open("used-cars-dear-car.json", look.example("used-cars-dear-car.json"))
    page.guess()
    page.drag(label("O1 D"), 16)
    yield "5 to 10: the dear car is dragged down until all are content", page.guess().startswith("\u2713")
    lesson(page, "1-one-good")
    yield "10 to 18: one good, at 40", content(3, 4)
    answers = []
    for price in (50, 60, 61):
        priced(page, ada_cleo=price, ada_dan=price, ben_cleo=price, ben_dan=price)
        answers.append(page.guess()[0])
    yield "and at 50, 60 and 61", answers == ["\u2713", "\u2713", "\u2717"]
    page.click("#ranges")
    page.wait_for("ranges", "answered")
    told = []
    for side in ("low", "high"):
        page.click(f'[data-key="{side}:ada-cleo"]')
        page.wait_for("path", "answered")
        told.append(page.says("path"))
    yield "18 to 22: Dan and Ben hold the price", "Dan" in told[0] and "Ben" in told[1]
    page.click("#ranges")
    lesson(page, "2-assignment")
    yield "22 to 34: the houses have no prices at first", said_as["round"].format(-2) in wondered(page)
    page.click("#reason-close")
    turned(page, "h1b1", "h3b2", "h1b2", "h3b1")
    yield "the best way has some", said_as["prices"] in wondered(page)
    page.click("#reason-take")
    yield "which are taken", says(page.guess(), "sum", 16)
    page.click("#reason-close")
    lesson(page, "3-middleman")
    yield "the middleman's price has two that object", content(1, 3)
    priced(page, olga_mia=6, mia_bo=9, olga_bo=6)
    yield "and she can earn 2", page.guess().startswith("\u2713") and page.drawn()["firms"]["Mia"]["shown"].endswith("\u2713 2")
    lesson(page, "5-complements")
    yield "34 to 41: the fan objects", page.guess().startswith("\u2717") and said_as["objects"] in page.drawn()["firms"]["Fan"]["says"]
    page.click("#solve")
    page.wait_for("reason", "answered")
    yield "and solve says why there may be no prices", "Couple" in page.says("reason-lines") and said_as["who"] in page.says("reason-lines").lower()
    page.click("#reason-close")
    lesson(page, "6-signed-too-low")
    said = [judged(page)]
    for price in (4, 6, 11):
        priced(page, sue_tom=price)
        said.append(judged(page))
    yield "41 to 48: what is signed lasts at 6, not at 2, 4 and 11", all(word in each for word, each in zip(said_as["lasts"], said))
    lesson(page, "7-dealer")
    page.click("#tab-whatif")
    page.wait_for("whatif", "answered")
    page.click('[data-firm="Dee"]')
    page.wait_for("whatif", "answered")
    yield "48 to 56: the dealer leaves, and 5 are missing", page.says("verdict") == said_as["leaves"]
    page.click("#tab-guess")
    is_content = page.guess().startswith("\u2713")
    turned(page, "pam-dee", "quin-dee", "dee-xaver", "dee-yara", "pam-xaver", "quin-yara")
    yield "without the dealer's trades there are no prices", is_content and said_as["round"].format(-3) in wondered(page)
    page.click("#reason-close")
    lesson(page, "7-without-dealer")
    page.click("#solve")
    page.wait_for("state", "answered")
    yield "and the market without her has 6", says(page.says("over-says"), "sum", 6)


def read_code(page: Bench) -> str | None:
    """What a code in the page says, read by zbarimg from a picture of the page; None where there is no zbarimg."""
    if shutil.which("zbarimg") is None:
        return None
    with tempfile.TemporaryDirectory() as folder:
        picture = Path(folder, "page.png")
        page.browser.run("document.getElementById('linked').scrollIntoView()")
        page.browser.picture(str(picture), 1280, 1400)
        said = subprocess.run(["zbarimg", "--raw", "--quiet", picture], capture_output=True, text=True).stdout.strip()
    page.browser.size(1280, 800)
    return said


# The squares on each side of the code that is shown, without the blank ones around it.
SQUARES = "Number((document.querySelector('#code-picture svg')?.getAttribute('viewBox') ?? '0 0 8 8').split(' ')[2]) - 8"


def tries_of_codes(page: Bench, address: str):
    page.again(address)
    page.open("houses.json", look.example("houses.json"))
    fragment = page.link()
    page.focus_on("code")
    page.press("Enter")
    yield "from a disk a code wants an address", page.says("code-says").startswith("Type the address") and page.value(SQUARES) == 0
    page.press(*"http://a.example/m.html#x")
    whole = "http://a.example/m.html" + fragment
    yield "the code has the size for its letters", page.says("code-says") == f"The link has {len(whole)} letters, and its code {page.value(SQUARES)} squares on each side."
    read = read_code(page)
    if read is None:
        print("zbarimg is left out: it isn't here, so the code isn't read")
    else:
        yield "it is read as the link", read == whole
    page.browser.run(KEEP)
    page.click("#code-save")
    yield "it is saved as a picture", [(name, text[:4]) for name, text in page.browser.run(OFFERED)] == [("houses-code.svg", "<svg")]
    page.open("many.json", b'{"version":1,"firms":[],"trades":[],"note":"' + b64encode(b"".join(hashlib.sha512(bytes([k])).digest() for k in range(40))) + b'"}')
    page.link()
    page.click("#code")
    yield "a document too long for a code is told", page.says("code-says").startswith("The document is too long for a code: the link has ") and page.value(SQUARES) == 0
    page.click("#linked-close")
    yield "and closed", page.value("document.getElementById('linked').hidden")


# Each card: the name on it, its numbers, and what may be sold and bought; and whether anything else is seen.
CARDS = """
const texts = (card, selector) => [...card.querySelectorAll(selector)].map(({textContent}) => textContent);
return [...document.querySelectorAll(".card")].map((card) => [texts(card, "h3")[0], texts(card, ".own")[0] ?? "", texts(card, "li")]);"""


def tries_of_cards(page: Bench, address: str):
    """A card for each firm, with nothing of the others; printed, there are eight on a sheet."""
    page.again(f"{address}#lang=en")
    lesson(page, "7-dealer")
    page.click("#cards-show")
    cards = page.browser.run(CARDS)
    yield "each has its card", [name for name, _, _ in cards] == ["Pam", "Quin", "Dee", "Xaver", "Yara"]
    yield "with its own numbers", cards[0][1] == "sells from 4, at most 1" and "12" in cards[3][1]
    yield "and its trades", cards[0][2] == ["pam-dee to Dee: sells from 4", "pam-xaver to Xaver: sells from 4"] and len(cards[2][2]) == 4
    yield "nothing else is seen", page.value("document.querySelector('main').getClientRects().length") == 0
    page.open("many.json", json.dumps({"version": 2, "firms": [{"name": f"F{k}", "kind": "table", "rows": []} for k in range(16)], "trades": []}).encode())
    page.click("#cards-show")
    sheets = sheets_in(page.browser.printed())
    yield f"eight are on a sheet, sixteen on {sheets}", sheets == 2
    page.click("#cards-close")
    yield "and the network is there again", page.value("document.querySelector('main').getClientRects().length") == 1
    for path in sorted((look.ROOT / "docs" / "lesson").glob("*.html")):
        page.browser.open(path.as_uri())
        pages = sheets_in(page.browser.printed())
        yield f"the sheet {path.name} has {pages} pages", 1 <= pages <= 2
    page.again(address)
