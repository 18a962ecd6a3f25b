"""What is tried of the page's languages, by pointer and keys: which one it begins with, the hour of docs/LESSON.md in German, and the
change of the language while something is shown."""
import json
import re
import time

import bench
import lesson
import look

# All that stands in the page to be read or heard, but for what comes from documents, names of examples and licences.
READ = """
const page = document.body.cloneNode(true);
for (const each of page.querySelectorAll("script, noscript, pre, option[value$='.json'], .CodeMirror, #title, #task, #version, #language, .quiet > summary")) each.remove();
const names = ["aria-label", "placeholder", "title", "label"].flatMap((name) => [...page.querySelectorAll(`[${name}]`)].map((each) => each.getAttribute(name)));
const texts = [...page.querySelectorAll("*")].flatMap((each) => [...each.childNodes].filter(({nodeType}) => nodeType === 3).map(({data}) => data.trim()));
return [...new Set([...names, ...texts])].filter((text) => /[a-z]{3}/.test(text));"""

ENGLISH = re.compile(r"\b(the|and|with|would|are|is|of|from|firm|firms|trade|trades|price|prices|save|answer|sign|guess|document|network|show|what)\b", re.IGNORECASE)

# Chooses a language, as somebody does who has the focus there.
CHOOSE = """
const select = document.getElementById("language");
select.focus();
select.value = arguments[0];
select.dispatchEvent(new Event("change", {bubbles: true}));"""


def english_in(page: bench.Bench) -> list[str]:
    """What is left of English in the page, but for the commands of the program."""
    return [text for text in page.browser.run(READ) if ENGLISH.search(re.sub(r"^(\w+( --csv)?: |market .*)", "", text))]


def has_changed(page: bench.Bench) -> bool:
    """Whether nothing is left in English as soon as the answer to a command is told again, which takes a moment."""
    ends = time.monotonic() + 10
    while english_in(page) and time.monotonic() < ends:
        time.sleep(0.1)
    return english_in(page) == []


def tries(page: bench.Bench, program: str | None, address: str):
    """Each as a name, and whether it is so."""
    page.again(f"{address}#lang=de")
    yield "a link has the language", page.value("document.documentElement.lang") == "de" and page.guess().startswith("✓ Ein Gleichgewicht")
    yield "with the name of the page", page.value("document.title") == "market: Handelsnetze, gelöst und beurteilt"
    yield f"nothing is left in English {english_in(page)[:4]}", english_in(page) == []
    for name, is_so in (*lesson.tries_of_the_hour(page, program, "de"), *lesson.tries_of_auctions(page, program)):
        yield f"in German, {name}", is_so
    for part in (tries_of_views, tries_of_a_change, tries_of_links):
        yield from part(page, address)


def tries_of_views(page: bench.Bench, address: str):
    """Each view in German."""
    left = []
    page.open("used-cars-bypassed.json", look.example("used-cars-bypassed.json"))
    bench.judged(page)
    left += english_in(page)
    page.click("#reason-claim")
    bench.decided(page)
    left += english_in(page)
    for name in ("keeps-a-car.json", "car-dealer.json", "capacity.json"):
        page.open(name, look.example(name))
        page.click("#tab-build")
        for place in range(len(json.loads(page.text())["firms"])):
            page.browser.run(lesson.ENTERED, "firm", str(place))
            left += english_in(page)
    page.open("used-cars-misspelt.json", look.example("used-cars-misspelt.json"))
    page.click("#tab-document")
    left += english_in(page)
    page.open("houses.json", look.example("houses.json"))
    page.ask("range")
    left += english_in(page)
    page.click("#tab-guess")
    page.click("#make")
    page.click("#maker-put")
    left += english_in(page)
    page.click("#maker-close")
    yield f"nor in the views of contracts, claims, the form, faults, answers and exercises {left[:4]}", left == []


def tries_of_a_change(page: bench.Bench, address: str):
    """The language is changed while a story is told, and a command is answered."""
    page.open("used-cars-outbid.json", look.example("used-cars-outbid.json"))
    page.click("#tab-guess")
    page.drag(bench.label("D B1"), -32)
    before = page.text()
    page.click("#wonder")
    page.wait_for("reason", "answered")
    told, shown = page.browser.run(bench.STEPS), page.ask("support")
    page.browser.run(CHOOSE, "en")
    page.wait_for("reason", "answered")
    page.wait_for("guess", "answered", "none")
    ends = time.monotonic() + 10
    while page.browser.run(look.SHOWN)["sentences"] == shown["sentences"] and time.monotonic() < ends:
        time.sleep(0.1)
    again, now = page.browser.run(bench.STEPS), page.browser.run(look.SHOWN)
    yield "the story is told in the other language", len(again) == len(told) and told[0].startswith("B3 würde") and again[0].startswith("B3 would give up db3")
    yield "and so is the answer, whose bytes are the same", now["bytes"] == shown["bytes"] and now["sentences"] != shown["sentences"] and "exit status" in now["status"]
    yield "the text is as it was", page.text() == before
    yield "the focus stays where it was", page.value("document.activeElement.id") == "language"
    yield "the tabs and heads are English", page.says("tab-guess") == "Guess" and page.value("document.querySelector('#trades th').textContent") == "Trade"
    yield "and the title", page.value("document.title").startswith("market: trading networks")
    page.click("#undo")
    yield "what was changed before is taken back", page.text() == look.example("used-cars-outbid.json").decode()
    page.click("#reason-close")
    page.browser.run(CHOOSE, "de")
    page.guess()
    yield "and changed back", page.says("tab-guess") == "Vorschlag" and has_changed(page)


def tries_of_links(page: bench.Bench, address: str):
    """Which language is handed on, and kept."""
    page.open("houses.json", look.example("houses.json"))
    fragment = page.link()
    yield "a link hands on the language that was chosen", fragment.startswith("#1.") and fragment.endswith("&lang=de")
    page.click("#forget")
    page.again(address + fragment)
    yield "and brings both", page.text() == look.example("houses.json").decode() and page.guess().startswith("✓ Ein Gleichgewicht")
    page.again(address)
    yield "without one it is the browser's", page.value("document.documentElement.lang") == "en"
    page.browser.run(CHOOSE, "de")
    page.again(address)
    yield "one that was chosen in the page is kept", page.value("document.documentElement.lang") == "de"
    page.browser.run("location.hash = '#lang=en'")
    page.wait_for("guess", "answered")
    yield "and another one taken from the address", page.value("document.documentElement.lang") == "en" and page.guess().startswith("✓ An equilibrium")
    page.click("#forget")
    page.again(address)
    yield "it is forgotten with all else", page.value("document.documentElement.lang") == "en" and page.value("document.getElementById('kept').hidden")
    page.again(f"{address}#lang=xx")
    yield "a language that isn't there is none", page.value("document.documentElement.lang") == "en" and page.guess().startswith("✓ An equilibrium")


def tries_of_access(page: bench.Bench, address: str):
    """Chromium's accessibility tree in German."""
    page.again(f"{address}#lang=de")
    page.open("used-cars-dear-car.json", look.example("used-cars-dear-car.json"))
    page.guess()
    nodes = bench.tree_of(page)
    names = bench.names_in(nodes)
    yield f"all that is pressed or filled in has a German name {bench.unnamed(nodes)}", bench.unnamed(nodes) == [] and {"Sprache", "Preis von o1d", "o1d ist aktiv"} <= set(names)
    yield "firms and trades are told", any(name.startswith("Firma D widerspricht: Ihr Nutzen ist 0, und sie könnte 1 haben") for name in names) and "Geschäft o1d, von O1 an D, für 10: aktiv" in names
    page.again(address)
