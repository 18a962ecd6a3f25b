// The network as it is on the screen, as a picture that stands by itself.

/** What the page's style says of an element of a picture. */
const STYLE = ["fill", "fill-opacity", "stroke", "stroke-width", "stroke-dasharray", "opacity", "font-family", "font-size", "font-weight", "text-anchor"];

/** What only the page needs. */
const OF_THE_PAGE = /^(class|role|tabindex|aria-.*|data-.*)$/;

/** How many pixels a unit of the picture has in a picture of pixels, and how many these are at most on a side. */
const FINE = 2, MOST_PIXELS = 8000;

/** An SVG of the page as `{svg, width, height}`: its window, on a white ground, with a title. */
export function standing(drawn, title) {
    const {x, y, width, height} = drawn.viewBox.baseVal, copy = drawn.cloneNode(true);
    const [shown, copied] = [drawn, copy].map((each) => [...each.querySelectorAll("*")]);
    copied.forEach((element, k) => dress(element, getComputedStyle(shown[k])));
    copy.querySelectorAll(".hit, title").forEach((element) => element.remove());
    for (const element of [copy, ...copy.querySelectorAll("*")]) undress(element);
    for (const [name, value] of [["width", width], ["height", height]]) copy.setAttribute(name, Math.round(value));
    copy.prepend(made("title", {}, title), made("rect", {x, y, width, height, fill: "white"}));
    return {svg: new XMLSerializer().serializeToString(copy), width, height};
}

function made(name, attributes, content = "") {
    const element = document.createElementNS("http://www.w3.org/2000/svg", name);
    for (const [key, value] of Object.entries(attributes)) element.setAttribute(key, value);
    element.textContent = content;
    return element;
}

/** Writes at an element what the style says of it. */
function dress(element, style) {
    for (const name of STYLE) element.setAttribute(name, style.getPropertyValue(name));
}

/** Takes away what only the page needs. */
function undress(element) {
    for (const {name} of [...element.attributes]) if (OF_THE_PAGE.test(name)) element.removeAttribute(name);
}

/** A picture of pixels, as a promise of a blob. */
export async function inPixels({svg, width, height}) {
    const fine = Math.min(FINE, MOST_PIXELS / Math.max(width, height)), address = URL.createObjectURL(new Blob([svg], {type: "image/svg+xml"}));
    const image = new Image(), canvas = document.createElement("canvas");
    image.src = address;
    await image.decode().finally(() => URL.revokeObjectURL(address));
    [canvas.width, canvas.height] = [width, height].map((side) => Math.round(side * fine));
    canvas.getContext("2d").drawImage(image, 0, 0, canvas.width, canvas.height);
    return new Promise((done) => canvas.toBlob(done, "image/png"));
}
