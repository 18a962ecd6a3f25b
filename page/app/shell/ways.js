// How the page is used: easily, without the views for those who know the format, and whether firms are called people.
import {isEasyIn} from "../sharing/link.js";
import {keepEasy, keptEasy} from "./keep.js";
import {on, part} from "./page.js";

/** Binds both. */
export function bindWays(store) {
    const be = (isEasy) => store.act("looked", {isEasy});
    on("easy", () => {
        be(!store.value.view.isEasy);
        keepEasy(store.value.view.isEasy);
    });
    addEventListener("hashchange", () => isEasyIn(location.hash) && be(true));
    if (isEasyIn(location.hash) || keptEasy()) be(true);
    part("people").addEventListener("change", () => {
        store.act("looked", {people: {people: true, firms: false}[part("people").value] ?? null});
        store.act("spoken");
    });
}

/** Shows how the page is used. */
export function showWays({view}) {
    document.documentElement.dataset.easy = `${view.isEasy}`;
    part("easy").setAttribute("aria-pressed", `${view.isEasy}`);
}
