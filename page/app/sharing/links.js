// What hands the document on as an address: in letters, and as a QR code.
import {say} from "../../words/say.js";
import {linkEnd} from "../shell/language.js";
import {drawing, offer, on, part} from "../shell/page.js";
import {codeOf, MOST_IN_CODE} from "./code.js";
import {stem} from "./exports.js";
import {EASY_END, fragmentOf, MOST_LETTERS} from "./link.js";

/** The link that was made last, and the picture of its code, or null. */
let link = {name: "", fragment: "", svg: null};

/** Binds all that. */
export function bindLinks(store) {
    on("link", () => makeLink(store.value.document, store.value.view));
    on("linked-close", () => (part("linked").hidden = true));
    on("code", () => {
        part("code-part").hidden = false;
        part("address").focus();
        showCode();
    });
    part("address").value = isDisk() ? "" : here();
    part("address").addEventListener("input", showCode);
    on("code-save", () => offer(`${stem(link.name)}-code.svg`, link.svg, "image/svg+xml"));
}

function isDisk() {
    return location.protocol === "file:";
}

function here() {
    return location.href.replace(/#.*$/, "");
}

/** Makes a link of a document, and shows it. */
function makeLink({name, bytes}, {isEasy}) {
    return showLink(name, fragmentOf(bytes), isEasy ? EASY_END : "");
}

/** Shows a link, by the promise of its fragment and what else is to stand behind it. */
export async function showLink(name, made, end = "") {
    const fragment = `${await made}${linkEnd()}${end}`, isLong = fragment.length > MOST_LETTERS;
    link = {name, fragment, svg: null};
    part("linked").hidden = false;
    for (const id of ["fragment", "code"]) part(id).hidden = isLong;
    part("code-part").hidden = true;
    part("linked-says").textContent = say(isLong ? "link.too_long" : isDisk() ? "link.from_disk" : "link.from_host");
    if (isLong) return;
    part("fragment").value = isDisk() ? fragment : `${here()}${fragment}`;
    part("fragment").select();
    document.documentElement.dataset.linked = "true";
    await navigator.clipboard?.writeText(part("fragment").value).catch(() => document.execCommand("copy"));
}

/** Shows the code of the link at the address that stands there, or why there is none. */
function showCode() {
    const address = addressIn(part("address").value.trim()), whole = `${address}${link.fragment}`;
    const isLong = address !== null && whole.length > MOST_IN_CODE;
    const code = address === null || isLong ? null : codeOf(whole);
    link.svg = code?.svg ?? null;
    part("code-save").hidden = code === null;
    part("code-picture").replaceChildren(...(code === null ? [] : [picture(code.svg)]));
    part("code-says").textContent = address === null ? say("link.no_address")
        : isLong ? say("link.too_long_code", {letters: whole.length, most: MOST_IN_CODE})
        : say("link.code", {letters: whole.length, squares: code.count});
}

/** An address as browsers write it, without what stands behind a #; null where it is none of the web. */
function addressIn(text) {
    try {
        const {href, protocol} = new URL(text);
        return ["http:", "https:"].includes(protocol) ? href.replace(/#.*$/, "") : null;
    } catch {
        return null;
    }
}

function picture(svg) {
    const drawn = drawing(svg);
    drawn.setAttribute("role", "img");
    drawn.setAttribute("aria-label", say("link.picture"));
    return drawn;
}
