// The controls of the form, as plain data.
import {say} from "../../words/say.js";
import {wholeIn, whyNotWhole} from "../shell/whole.js";

/** The most digits of a number of a firm. */
const MOST_DIGITS = 10;

export function button(key, says, name, change) {
    return {key, kind: "button", says, name, put: change};
}

export function box(key, says, name, value, change) {
    return {key, kind: "box", says, name, value, put: change};
}

export function number(key, says, name, value, change) {
    return {key, kind: "number", says, name, value, read: (text) => wholeIn(text, MOST_DIGITS), why: (text) => whyNotWhole(text, MOST_DIGITS), put: change};
}

/** A number that is no less than one, and no more than another. */
export function between(field, least, most) {
    const isIn = (count) => least <= count && count <= most, inIt = (text) => text !== null && isIn(Number(text)) ? text : null;
    return {...field, read: (text) => inIt(field.read(text)),
        why: (text) => field.read(text) === null ? field.why(text) : say("number.between", {least, most})};
}

/** A choice, which makes a change, or another view of the page. */
export function choice(key, says, name, value, options, does) {
    return {key, kind: "choice", says, name, value, options: options.map(([each, shown]) => ({value: each, says: shown})), ...does};
}
