// Elements of the page.

/** The element of an id. */
export function part(id) {
    return document.getElementById(id);
}

/** A click on a button that isn't marked as one that does nothing now. */
export function on(id, act) {
    part(id).addEventListener("click", () => part(id).getAttribute("aria-disabled") === "true" || act());
}

/** A new element with a text. What a document holds comes into the page as text alone. */
export function made(name, content = "", attributes = {}) {
    const element = document.createElement(name);
    element.textContent = content;
    for (const [key, value] of Object.entries(attributes)) if (value !== null) element.setAttribute(key, value);
    return element;
}

/** A picture, which is read as XML, so that it holds no script that runs. */
export function drawing(svg) {
    return document.adoptNode(new DOMParser().parseFromString(svg, "image/svg+xml").documentElement);
}

/** Writes a text where it isn't there already, so that nobody is told twice. */
export function write(id, content) {
    if (part(id).textContent !== content) part(id).textContent = content;
}

/** Does something that replaces elements, and gives the focus back to the new one of the same `data-key`. */
export function keepingFocus(container, change) {
    const focused = container.contains(document.activeElement) ? document.activeElement.dataset.key : undefined;
    change();
    if (focused === undefined) return;
    [...container.querySelectorAll("[data-key]")].find((element) => element.dataset.key === focused)?.focus({preventScroll: true});
}

/** Offers bytes or a text as a file to be saved. */
export function offer(name, content, type) {
    const address = URL.createObjectURL(new Blob([content], {type}));
    const link = made("a", "", {href: address, download: name});
    link.click();
    setTimeout(() => URL.revokeObjectURL(address), 60000);
}
