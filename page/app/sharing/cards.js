// Cards to print, one for each firm: its own numbers, and what it may sell and buy. Nothing of the others stands in them.
import {eachOf, ownOf} from "../../say/own.js";
import {firmLabel, noteOf} from "../../words/labels.js";
import {say} from "../../words/say.js";
import {networkOf} from "../document/state.js";
import {made, on, part} from "../shell/page.js";

/** Binds the buttons of the cards; a change of the document or of the language takes the cards away. */
export function bindCards(store) {
    const show = (isShown) => {
        if (isShown) fill(networkOf(store.value.document));
        part("cards").hidden = !isShown;
        document.documentElement.dataset.cards = `${isShown}`;
    };
    on("cards-show", () => {
        show(true);
        part("cards-print").focus();
    });
    on("cards-print", () => print());
    on("cards-close", () => {
        show(false);
        part("cards-show").focus();
    });
    store.watch((_, name) => !part("cards").hidden && ["opened", "left", "spoken"].includes(name) && show(false));
}

function fill(network) {
    const [title] = (noteOf(network.data.note) ?? "").split("\n"), names = network.firms.map(({name}) => name).filter((name) => name !== "");
    part("cards-list").replaceChildren(...names.map((name) => cardOf(network, name, title)));
}

function cardOf(network, name, title) {
    const card = made("article", "", {class: "card"}), own = ownOf(network, name), each = eachOf(network, name);
    const told = (says, trade) => (each.has(trade) ? `${says}: ${each.get(trade)}` : says), of = (side) => network.trades.filter((trade) => trade[side] === name);
    const sales = of("seller").map(({name: trade, buyer: firm}) => told(say("cards.to", {trade, firm}), trade));
    const purchases = of("buyer").map(({name: trade, seller: firm}) => told(say("cards.from", {trade, firm}), trade));
    card.append(made("p", title, {class: "quiet"}), made("h3", firmLabel(name)), ...(own === null ? [] : [made("p", own.whole, {class: "own"})]),
        ...listed("cards.sells", sales), ...listed("cards.buys", purchases), made("p", say("cards.rule"), {class: "quiet"}));
    return card;
}

/** A head and a list below it, where there is anything. */
function listed(head, lines) {
    if (lines.length === 0) return [];
    const list = made("ul");
    list.append(...lines.map((line) => made("li", line)));
    return [made("h4", say(head)), list];
}
