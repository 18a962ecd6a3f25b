"""What is tried in the page itself, as a user would: typed, opened and dropped documents, answers, faults, runs that break off."""
import base64
import os
import shutil
import subprocess
from pathlib import Path

import runs

ROOT = Path(__file__).resolve().parents[2]

# Waits until the page is in one of some states, and answers which.
WAIT = """
const wanted = arguments[0], page = document.documentElement;
return new Promise((done) => {
    const look = () => wanted.includes(page.dataset.state) && done(page.dataset.state);
    new MutationObserver(look).observe(page, {attributes: true});
    look();
});"""

TYPE = """
const text = document.getElementById("text");
text.value = arguments[0];
text.dispatchEvent(new Event("input", {bubbles: true}));"""

# Opens a file by the button, or drops it; bytes come in base64.
OPEN = """
const [name, letters, isDropped] = arguments, moved = new DataTransfer();
moved.items.add(new File([Uint8Array.from(atob(letters), (letter) => letter.charCodeAt(0))], name));
const input = document.getElementById("file");
const opened = new Promise((done) => new MutationObserver(done).observe(document.getElementById("name"), {childList: true}));
if (isDropped) document.getElementById("drop").dispatchEvent(new DragEvent("drop", {dataTransfer: moved, bubbles: true, cancelable: true}));
else {
    input.files = moved.files;
    input.dispatchEvent(new Event("change", {bubbles: true}));
}
return opened.then(() => document.getElementById("name").textContent);"""

CHOOSE = """
const [words] = arguments, command = document.getElementById("command");
command.value = [...command.options].some(({value}) => value === words) ? words : "";
command.dispatchEvent(new Event("input", {bubbles: true}));
if (command.value === "") {
    document.getElementById("words").value = words;
    document.getElementById("words").dispatchEvent(new Event("input", {bubbles: true}));
}
document.getElementById("form").requestSubmit();"""

# What is shown: the status, the sentences, what the program wrote, what is marked, and of each picture how many firms it has.
SHOWN = """
const texts = (selector) => [...document.querySelectorAll(selector)].map((element) => element.textContent);
return {status: texts("#status")[0], sentences: texts("#sentences p"), bytes: texts("#bytes")[0], marks: texts("mark"),
    firms: [...document.querySelectorAll("#pictures figure")].map((figure) => figure.querySelectorAll("[data-firm]").length),
    isOld: document.getElementById("shown").dataset.old === "true"};"""


class Page:
    """The page in a browser."""

    def __init__(self, browser, path: Path) -> None:
        self.browser = browser
        browser.open(path.resolve().as_uri())
        self.state = self.wait("ready", "failed")

    def wait(self, *states: str) -> str:
        return self.browser.run(WAIT, list(states))

    def type(self, text: str) -> None:
        self.browser.run(TYPE, text)

    def open(self, name: str, data: bytes, is_dropped: bool = False) -> str:
        return self.browser.run(OPEN, name, base64.b64encode(data).decode(), is_dropped)

    def ask(self, words: str) -> dict:
        self.browser.run(CHOOSE, words)
        state = self.wait("answered", "trouble")
        return {"state": state, **self.browser.run(SHOWN)}


def example(name: str) -> bytes:
    return (ROOT / "examples" / name).read_bytes()


def are_told(shown: dict, program: str | None, name: str, words: list[str]) -> bool:
    """Whether the sentences are those of tools/explain of an example; without node or a program to compare with there must be some."""
    if program is None or shutil.which("node") is None:
        return shown["sentences"] != []
    said = runs.program_at(program).ask(words, example(name))[1]
    told = subprocess.run([ROOT / "tools" / "explain", ROOT / "examples" / name], input=said, capture_output=True, check=True,
                          env={**os.environ, "MARKET": program})
    return shown["sentences"] == told.stdout.decode().splitlines()


def tries(page: Page, program: str | None):
    """Each as a name, and whether it is so."""
    yield "the page is ready", page.state == "ready"
    yield "the page says its version", "market" in page.browser.run("return document.getElementById('version').textContent")
    shown = page.ask("solve")
    yield "the first document is solved", are_told(shown, program, "used-cars.json", ["solve"]) and "exit status 0" in shown["status"]
    yield "its network is drawn", len(shown["firms"]) == 1 and shown["firms"][0] > 1
    for name, words in [("used-cars-dear-car.json", "check"), ("houses.json", "range"), ("used-cars-bypassed.json", "judge"), ("claim-gain.json", "replay"),
                        ("ring.json", "support"), ("no-clearing-prices.json", "firms"), ("second-buyer.json", "session"), ("complements.json", "test")]:
        page.open(name, example(name), is_dropped=words == "judge")
        shown = page.ask(words)
        yield f"{words} of {name} is told as tools/explain does", are_told(shown, program, name, [words])
        yield f"{words} of {name} is drawn", len(shown["firms"]) > 0
    page.open("two\xff.json", b'{"version":1,"note":"\xff"}')
    shown = page.ask("solve")
    yield "bytes that are no UTF-8 go to the program as they are", '"fault":1,' in shown["bytes"] and shown["marks"] != []
    page.type(example("used-cars-misspelt.json").decode())
    shown = page.ask("check")
    yield "a fault is marked at its place", shown["marks"] != [] and all(mark in example("used-cars-misspelt.json").decode() for mark in shown["marks"])
    page.type('{"version":1,"firms":[{"name":"</script><img src=x onerror=alert(1)>","kind":"table","rows":[]}],"trades":[]}')
    shown = page.ask("solve")
    yield "a name that is none of the page is a fault", "<img src=x" in shown["marks"][0] and page.browser.run("return document.images.length") == 0
    page.type(example("one-trade.json").decode())
    yield "an edit makes the answer an old one", page.browser.run(SHOWN)["isOld"] and page.state == "ready"
    yield "rows are shown as they are", page.ask("solve --csv")["bytes"] == "trade,on,price\na,1,3\n"
    yield "other words are asked", '"surplus":872' in page.ask("drill 64 7")["bytes"]


# Asks something that takes long, ends it by the button, and asks again; then a newer question ends an older one.
LONG = """
const long = new TextEncoder().encode(arguments[0]);
return Promise.allSettled([market.ask(["solve"], long), market.ask(["--version"], new Uint8Array(0))])
    .then((ended) => ended.map(({status, reason}) => `${status} ${reason?.constructor.name ?? ""}`.trim()));"""


# In the same step as the question, so that its answer can't come before.
END = """
const {state} = document.documentElement.dataset;
document.getElementById("end").click();
return state;"""


def tries_to_end(page: Page, long: bytes):
    """What ends a run."""
    yield "a newer question ends an older one", page.browser.run(LONG, long.decode()) == ["rejected Ended", "fulfilled"]
    page.open("long.json", long)
    asking = page.browser.run(CHOOSE + END, "solve")
    yield "End ends a run", asking == "asking" and page.wait("ended", "answered") == "ended"
    page.open("one-trade.json", example("one-trade.json"))
    yield "and the next one is answered", page.ask("solve")["bytes"] == '{"answer":"solved","on":["a"],"prices":[["a",3]],"surplus":2}\n'


def tries_of_trouble(page: Page):
    """What is tried in a page whose module breaks off, by `trouble_module`."""
    page.open("small.json", b"{}")
    for words, wanted in [("stacked", "the browser's stack ran out"), ("trap", "the program was stopped by the browser")]:
        shown = page.ask(words)
        yield f"{words} is told", shown["state"] == "trouble" and wanted in shown["status"]
        yield f"after {words} the next run is answered", page.ask("answer")["state"] == "answered"
    page.open("large.json", b" " * 200_000)
    shown = page.ask("answer")
    yield "refused memory is told", shown["state"] == "trouble" and "refused the memory" in shown["status"]
    page.open("small.json", b"{}")
    yield "after it the next run is answered", page.ask("answer")["state"] == "answered"


def trouble_module() -> bytes:
    """
    A module whose page_answer calls itself without an end where the words have 7 bytes, as "stacked", stops where they have 4, as
    "trap", and otherwise answers one byte with the status 0. Its memory has at most three pages.
    """
    def section(number: int, content: bytes) -> bytes:
        assert len(content) < 128
        return bytes([number, len(content)]) + content
    call_itself = b"".join(bytes([0x20, k]) for k in range(6)) + b"\x10\x00"
    body = (b"\x00" + b"\x20\x01\x42\x04\x51\x04\x40\x00\x0b"  # (of 4 bytes: unreachable)
            + b"\x20\x01\x42\x07\x51\x04\x7e" + call_itself + b"\x05\x42\x80\x02\x0b\x0b")  # (of 7: itself; else status 0, 1 byte)
    return (b"\0asm\x01\0\0\0" + section(1, b"\x01\x60\x06" + b"\x7e" * 6 + b"\x01\x7e") + section(3, b"\x01\x00") + section(5, b"\x01\x01\x01\x03")
            + section(7, b"\x02\x06memory\x02\x00\x0bpage_answer\x00\x00") + section(10, b"\x01" + bytes([len(body)]) + body))
