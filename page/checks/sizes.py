"""What is tried of the room that the page takes on screens of several sizes: how large letters are, and what is in sight."""
import json

import bench
import look

# The screens: those of projectors, of a desk, and of a telephone; a browser's window at 200 % of 1366 by 650, and one of 320 pixels.
SCREENS = ((1024, 640), (1366, 650), (1920, 1080), (390, 780))
SMALL = ((683, 325), (320, 568))

# How many pixels letters have at least.
LEAST = 11.9

# What is measured: the size of each text that is seen in the picture, whether the page is larger than its window, and where things stand.
MEASURED = """
const seen = [...document.querySelectorAll("#stage text")].filter((text) => getComputedStyle(text).visibility === "visible");
const sizes = seen.map((text) => Number(text.getAttribute("font-size")) * text.getScreenCTM().a), page = document.documentElement;
const names = seen.map((text) => text.textContent), own = document.querySelectorAll("#stage .firm").length;
return {least: Math.min(99, ...sizes), texts: sizes.length, firms: own, labels: document.querySelectorAll("#stage .lane-label").length, names,
    over: [page.scrollWidth - innerWidth, page.scrollHeight - innerHeight], top: document.getElementById("stage").getBoundingClientRect().top,
    width: innerWidth, height: innerHeight};"""

# Which controls that are seen stick out of the window at a side, or are cut off by what they stand in without a way to scroll there.
CUT = """
const out = [...document.querySelectorAll("button, select, input, summary")].filter((each) => each.getClientRects().length > 0 && !each.closest(".scroll, label.button"));
return out.filter((each) => { const {left, right} = each.getBoundingClientRect(); return left < -1 || right > innerWidth + 1; }).map(({id, className}) => id || className);"""

# How a screen that is read aloud, or used by keys, names the controls: those without a name.
NAMELESS = """
const named = (each) => each.getAttribute("aria-label") || each.textContent.trim() || document.querySelector(`label[for="${each.id}"]`) || each.closest("label");
return [...document.querySelectorAll("button, select, input, textarea, [role=button], [role=tab]")].filter((each) => each.getClientRects().length > 0 && !named(each)).map(({id, className}) => id || `${className}`);"""

LESSON = ("1-one-good", "2-assignment", "3-middleman", "4-substitutes", "5-complements", "6-signed-too-low", "7-dealer", "8-ranges")


def market(sellers: int, buyers: int, each: int) -> bytes:
    """A market in which each seller of one good may sell to some of the buyers of one."""
    trades = [{"name": f"s{k}b{(k * buyers // sellers + j) % buyers}", "seller": f"S{k}", "buyer": f"B{(k * buyers // sellers + j) % buyers}"}
              for k in range(sellers) for j in range(each)]
    firms = [firm(f"S{k}", [trade["name"] for trade in trades if trade["seller"] == f"S{k}"], -5 - 3 * k % 11, -1) for k in range(sellers)]
    firms += [firm(f"B{k}", [trade["name"] for trade in trades if trade["buyer"] == f"B{k}"], 10 + 7 * k % 13, 0) for k in range(buyers)]
    on = [trade["name"] for k, trade in enumerate(trades) if k % each == 0]
    return json.dumps({"version": 2, "firms": firms, "trades": trades, "arrangement": {"on": on, "prices": [[trade["name"], 10] for trade in trades]}}).encode()


def firm(name: str, trades: list[str], amount: int, least: int) -> dict:
    return {"name": name, "kind": "laminar", "amounts": [[trade, amount] for trade in trades], "sets": [{"trades": trades, "from": least, "values": [0, 0]}]}


DOCUMENTS = {name: None for name in LESSON} | {"10 firms": (5, 5, 2), "20 firms": (10, 10, 2), "60 lanes": (12, 15, 5), "mills-low-price": ()}


def shown(page: bench.Bench, name: str) -> None:
    """Opens a document of those by its name."""
    numbers = DOCUMENTS[name]
    if numbers == ():
        data = look.example(f"{name}.json")
    else:
        data = look.example(f"lesson/{name}.json") if numbers is None else market(*numbers)
    page.open(f"{name}.json", data)


def sized(page: bench.Bench, width: int, height: int) -> None:
    """Makes the inside of the window as large as that, where the browser's windows may be."""
    page.browser.size(width, height)
    inside = page.value("[innerWidth, innerHeight]")
    if inside != [width, height]:
        page.browser.size(2 * width - inside[0], 2 * height - inside[1])


def tries(page: bench.Bench, address: str):
    """Each as a name, and whether it is so."""
    page.again(address)
    page.browser.run("document.getElementById('forget').click()")
    page.again(address)
    yield "the first opening says what to try", page.value("document.getElementById('steps').getClientRects().length") == 1
    page.click("#steps-done")
    page.again(address)
    yield "once", page.value("document.getElementById('steps').hidden")
    for width, height in SCREENS:
        sized(page, width, height)
        for name in DOCUMENTS:
            shown(page, name)
            yield from tries_at(page, f"{name} at {width} by {height}", name in LESSON, (width, height))
    yield from tries_of_hints(page)
    for width, height in SMALL:
        sized(page, width, height)
        yield from tries_of_small(page, f"{width} by {height}")
    page.browser.size(1280, 800)


def tries_at(page: bench.Bench, where: str, is_lesson: bool, screen: tuple[int, int]):
    found = page.browser.run(MEASURED)
    yield f"{where}: letters have {found['least']:.1f} pixels", found["least"] >= LEAST
    yield f"{where}: each firm is named", found["texts"] >= found["firms"] > 0
    if screen in ((1024, 640), (1366, 650)) and is_lesson:
        yield f"{where}: the page doesn't scroll {found['over']}", max(found["over"]) <= 0
    if found["width"] <= 900:
        yield f"{where}: the picture begins at {found['top']:.0f} of {found['height']}", found["top"] <= found["height"] / 3 + 1
        yield f"{where}: nothing is wider than the screen", found["over"][0] <= 0
        page.browser.run("document.querySelector('#trades [data-key^=\"price:\"]').scrollIntoView({block: 'center'})")
        top = page.value("document.getElementById('verdict').getBoundingClientRect().top")
        yield f"{where}: the verdict stays in sight", -1 <= top <= 60
        page.browser.run("scrollTo(0, 0)")


def tries_of_hints(page: bench.Bench):
    """Letters that would be too small are left out, and said where the focus is."""
    sized(page, 1024, 640)
    shown(page, "20 firms")
    yield "nothing is said beside what can be read", page.value("document.getElementById('hint').hidden")
    page.click("#zoom-out")
    yield "smaller letters are left out", page.browser.run(MEASURED)["texts"] == 0
    page.focus("firm:S3")
    yield "and come with the focus", page.says("hint").startswith("Firm S3") and not page.value("document.getElementById('hint').hidden")
    page.click("#zoom-fit")
    yield "and in the picture where there is room again", page.browser.run(MEASURED)["texts"] >= 20


def tries_of_small(page: bench.Bench, where: str):
    """Nothing is lost where there is little room: everything is reached without scrolling to a side."""
    shown(page, "4-substitutes")
    page.click("#menu")
    yield f"{where}: nothing is wider than the screen", page.browser.run(MEASURED)["over"][0] <= 0
    for tab in ("guess", "sign", "whatif", "claim", "build", "document", "answer"):
        page.click(f"#tab-{tab}")
        yield f"{where}, {tab}: no control is cut off {page.browser.run(CUT)}", page.browser.run(CUT) == []
        yield f"{where}, {tab}: each control has a name {page.browser.run(NAMELESS)}", page.browser.run(NAMELESS) == []
    page.click("#tab-guess")
    page.click("#help")
    yield f"{where}: the help fits", page.value("document.getElementById('help-panel').scrollWidth <= innerWidth")
    page.press("Escape")
    page.click("#menu")
