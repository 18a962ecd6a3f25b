// The form for firms and trades: it shows what stands in the text, and each entry is a change of the text.
import {say} from "../../words/say.js";
import {networkOf} from "../document/state.js";
import {keepingFocus, made, part, write} from "../shell/page.js";
import {isRefused, leaving, refuse, typedIn} from "../shell/whole.js";
import {formOf} from "./fields.js";

let store = null, shownOf = null, structure = "", controls = new Map();

/** Makes the form ready for a store. */
export function readyBuild(of) {
    store = of;
}

/**
 * Shows the form of a value. Its elements stay as long as the same kinds of controls are wanted, and are filled anew, so that
 * what is typed in keeps the focus, and a button that is being pressed is still there when it is let go.
 */
export function showBuild(value) {
    const {document, view} = value;
    if (view.panel !== "build") return;
    const {built, ends, asked, isFree} = view, now = {document, built, ends, asked, isFree};
    if (shownOf !== null && Object.keys(now).every((name) => shownOf[name] === now[name])) return;
    shownOf = now;
    const groups = document.isWhole ? formOf(networkOf(document), view) : [];
    write("build-says", groups.length > 0 ? "" : say(document.isWhole ? "build.no_object" : "build.too_long"));
    const list = groups.flatMap(({lines}) => lines.flatMap((line) => line.controls));
    controls = new Map(list.map((control) => [control.key, control]));
    const next = JSON.stringify(groups.map(({lines}) => lines.map((line) => line.controls.map(({kind}) => kind))));
    const fields = part("build-fields");
    if (next !== structure) keepingFocus(fields, () => fields.replaceChildren(...groups.map(groupOf)));
    structure = next;
    showWords(groups);
    fields.querySelectorAll("[data-key]").forEach((element, k) => fill(element, list[k]));
}

function groupOf({lines}) {
    const group = made("fieldset");
    group.append(made("legend"), made("p", "", {class: "quiet"}), ...lines.map(lineOf));
    return group;
}

function lineOf({controls: list}) {
    const line = made("div", "", {class: "row field"});
    line.append(made("span", "", {class: "lead"}), ...list.map((control) => FORMS[control.kind](control)));
    return line;
}

/** The words around the controls. */
function showWords(groups) {
    groups.forEach(({title, hint = "", lines}, k) => {
        const [legend, below, ...rows] = part("build-fields").children[k].children;
        legend.textContent = title;
        below.textContent = hint;
        below.hidden = hint === "";
        rows.forEach(({firstElementChild: lead}, place) => {
            lead.textContent = lines[place].says ?? "";
            lead.hidden = lead.textContent === "";
        });
    });
}

const FORMS = {name: textForm, number: textForm, choice: choiceForm, box: boxForm, button: buttonForm};

/** Puts something in: by edits, after which the page may be looked at in another way, or by such a look alone. */
function enter(element, content, mark = null) {
    const {put, then, look} = controls.get(element.dataset.key);
    const seen = look?.(content) ?? null;
    if (seen !== null) return store.act("looked", seen);
    store.act("edited", put(content), mark);
    if (then) store.act("looked", then);
}

/** A field with its label around it. */
function labelled(...parts) {
    const label = made("label", "", {class: "box"});
    label.append(...parts);
    return label;
}

function textForm({kind, key}) {
    const input = made("input", "", {type: "text", size: kind === "name" ? 8 : 4, autocomplete: "off", spellcheck: "false", "data-key": key});
    const own = () => controls.get(input.dataset.key), take = (content) => content !== own().value && enter(input, content, `form ${input.dataset.key}`);
    const reading = {read: (text) => own().read(text.trim()), why: (text) => own().why(text.trim()), shown: () => own()?.value ?? ""};
    input.addEventListener(kind === "name" ? "change" : "input", () => typedIn(input, {...reading, take}));
    leaving(input, reading);
    if (kind === "number") input.addEventListener("keydown", (event) => stepped(event, input, own()));
    return labelled(made("span"), input);
}

/** The arrow keys make a number one greater or less. */
function stepped(event, input, {read}) {
    const step = {ArrowUp: 1n, ArrowDown: -1n}[event.key], now = read(input.value.trim());
    if (step === undefined || now === null) return;
    event.preventDefault();
    const next = read(String(BigInt(now) + step));
    if (next !== null) enter(input, next);
}

function choiceForm({key}) {
    const select = made("select", "", {"data-key": key});
    select.addEventListener("change", () => enter(select, select.value));
    return labelled(made("span"), select);
}

function boxForm({key}) {
    const box = made("input", "", {type: "checkbox", "data-key": key});
    box.addEventListener("change", () => enter(box, box.checked));
    return labelled(box, made("span"));
}

function buttonForm({key}) {
    const button = made("button", "", {type: "button", "data-key": key});
    button.addEventListener("click", () => enter(button));
    return button;
}

/** Shows what a control says, and what stands in the text; a field that somebody types in keeps what isn't right yet. */
function fill(element, {key, kind, name, says, value, options, read}) {
    if (element.dataset.key !== key) delete element.dataset.shown;
    element.dataset.key = key;
    element.setAttribute("aria-label", name ?? says);
    const word = kind === "button" ? element : element.parentElement.querySelector("span");
    if (word.textContent !== says) word.textContent = says;
    if (kind === "box") element.checked = value;
    if (kind === "choice") choose(element, options, value);
    if (read) written(element, value, read);
}

/** Shows what stands in the text, but not in the place of what says the same, or was refused and nothing changed since. */
function written(input, value, read) {
    const isChanged = input.dataset.shown !== value;
    input.dataset.shown = value;
    if (isRefused(input) ? !isChanged : input === document.activeElement && read(input.value.trim()) === value) return;
    refuse(input, null);
    input.value = value;
}

/** Offers options, and chooses what stands in the text, which may be none of them. */
function choose(select, options, value) {
    const isKnown = options.some((option) => option.value === value), all = isKnown ? options : [{value, says: value}, ...options];
    const key = JSON.stringify(all), fresh = () => all.map((option) => new Option(option.says, option.value));
    if (select.dataset.options !== key) select.replaceChildren(...fresh());
    select.dataset.options = key;
    select.value = value;
}
