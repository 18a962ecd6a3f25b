// The buttons of the chosen trade, below the network, by which a finger changes its price, and its units where it has some.
import {say} from "../../words/say.js";
import {isCounted, networkOf} from "../document/state.js";
import {countOf, priceOf} from "../document/terms.js";
import {on, part, write} from "../shell/page.js";
import {nudge, nudged, nudgeUnits} from "./hand.js";

/** Makes the buttons ready for a store. */
export function readyNudge(store) {
    on("nudge-less", () => nudge(store, -1n));
    on("nudge-more", () => nudge(store, 1n));
    on("units-less", () => nudgeUnits(store, -1n));
    on("units-more", () => nudgeUnits(store, 1n));
}

/** Shows the buttons of the trade that is chosen, if one is. */
export function showNudge(value) {
    const name = value.document.isWhole ? nudged(value) : null;
    const hasUnits = isCounted(value);
    part("nudge").classList.toggle("none", name === null);
    part("nudge-units").classList.toggle("none", name === null || !hasUnits);
    if (name === null) return;
    if (hasUnits) showUnits(value, name);
    write("nudge-says", hasUnits ? say("stage.at", {price: priceOf(value, name)}) : say("picture.at", {name, price: priceOf(value, name)}));
    part("nudge-less").setAttribute("aria-label", say("stage.less", {name}));
    part("nudge-more").setAttribute("aria-label", say("stage.more", {name}));
}

function showUnits(value, name) {
    const count = countOf(value, name), most = networkOf(value.document).capacity(name);
    write("units-says", say("picture.lane_units", {name, units: say("picture.units_bare", {count, most})}));
    part("units-less").setAttribute("aria-label", say("stage.fewer", {name}));
    part("units-more").setAttribute("aria-label", say("stage.more_units", {name}));
}
