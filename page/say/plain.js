// What a firm has, as people say it: what it gives up, pays and gets, and what it gains. The numbers are those of `firms`, or differences of them.
import {nameOn} from "../read/standing.js";
import {say} from "../words/say.js";
import {listed} from "./words.js";

/** A sentence of a line of `firms`; null where what the firm has is impossible. */
export function plainLine({firm, has, worth, utility, gain, best_utility: most}, network) {
    if (worth === null) return null;
    const isSeller = has.length > 0 && has.every((entry) => network.trade(nameOn(entry)).seller === firm);
    const does = listed([...ofWorth(worth, isSeller), ...ofMoney(utility - worth), ofUtility(utility)]);
    return gain === 0n ? say("plain.line", {firm, does}) : say("plain.line_could", {firm, does, most});
}

function ofWorth(worth, isSeller) {
    if (worth === 0n) return [];
    if (worth > 0n) return [say("plain.worth", {number: worth})];
    return [say(isSeller ? "plain.gives" : "plain.costs", {number: -worth})];
}

function ofMoney(money) {
    if (money === 0n) return [];
    return [money > 0n ? say("plain.gets", {number: money}) : say("plain.pays", {number: -money})];
}

function ofUtility(utility) {
    if (utility === 0n) return say("plain.nothing");
    return utility > 0n ? say("plain.gains", {number: utility}) : say("plain.loses", {number: -utility});
}
