"""The pictures of the page in docs/pictures, each of something that is done in it by pointer and keys. tools/screenshots writes them."""
import base64

import bench
import lesson
import look
import sizes

PAGE = look.ROOT / "page" / "market.html"
FOLDER = look.ROOT / "docs" / "pictures"
# How many pixels a picture has, how good it is, and how many bytes one, one of many screens, and all may have.
SIZE, QUALITY, MOST, MOST_OF_MANY, MOST_OF_ALL = (1280, 800), 70, 80_000, 260_000, 1_100_000


def who_objects(page: bench.Bench) -> None:
    page.open("used-cars-dear-car.json", look.example("used-cars-dear-car.json"))
    page.guess()
    page.click("#objects")


def why_none(page: bench.Bench) -> None:
    page.open("used-cars-outbid.json", look.example("used-cars-outbid.json"))
    lesson.wondered(page)
    page.click("#story-next")


def held(page: bench.Bench) -> None:
    page.open("1-one-good.json", look.example("lesson/1-one-good.json"))
    lesson.priced(page, ada_cleo=55, ada_dan=55, ben_cleo=55, ben_dan=55)
    page.guess()
    page.click("#ranges")
    page.wait_for("ranges", "answered")
    page.click('[data-key="low:ada-cleo"]')
    page.wait_for("path", "answered")


def dealer_leaves(page: bench.Bench) -> None:
    page.open("7-dealer.json", look.example("lesson/7-dealer.json"))
    page.click("#tab-whatif")
    page.wait_for("whatif", "answered")
    page.click('[data-firm="Dee"]')
    page.wait_for("whatif", "answered")


def first(page: bench.Bench) -> None:
    page.browser.run("document.getElementById('forget').click(); document.getElementById('tab-guess').click()")
    page.guess()


def on_a_telephone(page: bench.Bench) -> None:
    page.open("1-one-good.json", look.example("lesson/1-one-good.json"))
    page.guess()


def as_pupil(page: bench.Bench) -> None:
    page.open("1-one-good.json", look.example("lesson/1-one-good.json"))
    lesson.to_exercise(page, "Der Preis eines Fahrrads", "equilibrium")
    page.click("#maker-try")
    page.guess()
    page.click("#objects")


# Each picture by its name: the language of the page, and what is done before it is taken.
PICTURES = {"who-objects": ("en", who_objects), "why-none": ("en", why_none), "held": ("en", held), "dealer-leaves": ("en", dealer_leaves),
            "as-pupil-de": ("de", as_pupil), "first": ("en", first, (1366, 650)), "telephone": ("en", on_a_telephone, (390, 780))}


# The pictures of many screens of one size, each with how wide one of them is there.
SCREENS = {f"screens-{width}": ((width, height), 240 if width == 390 else 480) for width, height in sizes.SCREENS}

# Shows pictures beside each other, each with its name.
SHOWN = """
const [pictures, wide] = arguments;
document.body.innerHTML = "";
document.body.style.cssText = "margin:8px;display:flex;flex-wrap:wrap;align-content:flex-start;height:auto;gap:8px;font:14px sans-serif";
return Promise.all(pictures.map(([name, letters]) => new Promise((done) => {
    const figure = document.createElement("div"), image = new Image(wide);
    image.onload = done;
    image.src = "data:image/webp;base64," + letters;
    figure.append(name, document.createElement("br"), image);
    document.body.append(figure);
}))).then(() => Math.ceil(document.body.lastElementChild.getBoundingClientRect().bottom) + 8);"""


def captured(page: bench.Bench, quality: int = QUALITY) -> str:
    """What is seen, as WebP in base64."""
    page.browser.run("scrollTo(0, 0); document.activeElement.blur()")
    return page.browser.driver.execute_cdp_cmd("Page.captureScreenshot", {"format": "webp", "quality": quality})["data"]


def anew(page: bench.Bench, address: str, language: str) -> None:
    """The page as somebody sees it who knows the first steps."""
    page.again(f"{address}#lang={language}")
    page.browser.run("document.getElementById('forget').click(); document.getElementById('steps-done').click()")


def taken(page: bench.Bench, address: str, name: str) -> bytes:
    """A picture of the page in Chromium, as WebP."""
    if name in SCREENS:
        return of_screens(page, address, *SCREENS[name])
    language, steps, *size = PICTURES[name]
    anew(page, address, language)
    page.browser.size(*(size[0] if size else SIZE))
    steps(page)
    return base64.b64decode(captured(page))


def of_screens(page: bench.Bench, address: str, size: tuple[int, int], wide: int) -> bytes:
    """All documents of the lesson, and large ones, on screens of one size."""
    anew(page, address, "en")
    page.browser.size(*size)
    pictures = []
    for name in sizes.DOCUMENTS:
        sizes.shown(page, name)
        page.browser.run("document.activeElement.blur()")
        pictures.append([name, captured(page, 90)])
    page.browser.open("about:blank")
    page.browser.size(4 * wide + 48, 600)
    page.browser.size(4 * wide + 48, page.browser.run(SHOWN, pictures, wide))
    return base64.b64decode(captured(page))


def pages() -> str:
    """All that shows pictures."""
    return "\n".join(path.read_text() for path in (look.ROOT / "README.md", *sorted((look.ROOT / "docs").glob("*.md"))))


def tries(page: bench.Bench, address: str):
    """Each as a name, and whether it is so: the pictures can be taken, and those that are there are shown, and small."""
    shown = pages()
    for name in (*PICTURES, *SCREENS):
        data = taken(page, address, name)
        yield f"the picture {name} is taken", data[:4] == b"RIFF" and len(data) <= (MOST_OF_MANY if name in SCREENS else MOST)
        yield f"the picture {name} is shown", f"pictures/{name}.webp)" in shown and (FOLDER / f"{name}.webp").is_file()
    bytes_of = {path.name: path.stat().st_size for path in FOLDER.iterdir()}
    yield "there are no others", set(bytes_of) == {f"{name}.webp" for name in (*PICTURES, *SCREENS)}
    yield "they are small", max(bytes_of.values()) <= MOST_OF_MANY and sum(bytes_of.values()) <= MOST_OF_ALL
