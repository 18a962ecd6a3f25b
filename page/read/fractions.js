// Fractions of whole numbers of any size.
import {fraction, gcd} from "./network.js";

export class Fraction {
    /** A numerator over a denominator that isn't 0, in lowest terms. */
    constructor(numerator, denominator = 1n) {
        const by = denominator < 0n ? -gcd(numerator, denominator) : gcd(numerator, denominator);
        this.numerator = numerator / by;
        this.denominator = denominator / by;
    }

    plus(other) {
        return new Fraction(this.numerator * other.denominator + other.numerator * this.denominator, this.denominator * other.denominator);
    }

    minus(other) {
        return new Fraction(this.numerator * other.denominator - other.numerator * this.denominator, this.denominator * other.denominator);
    }

    times(other) {
        return new Fraction(this.numerator * other.numerator, this.denominator * other.denominator);
    }

    /** The quotient by another one that isn't 0. */
    over(other) {
        return new Fraction(this.numerator * other.denominator, this.denominator * other.numerator);
    }

    isZero() {
        return this.numerator === 0n;
    }

    isAbove(other) {
        return this.numerator * other.denominator > other.numerator * this.denominator;
    }

    toString() {
        return fraction(this.numerator, this.denominator);
    }
}

export const ZERO = new Fraction(0n), ONE = new Fraction(1n);

/** The least common denominator of fractions. */
export function common(fractions) {
    return fractions.reduce((least, {denominator}) => least / gcd(least, denominator) * denominator, 1n);
}

/** A fraction as the whole number of parts of which so many are one; it has to be whole. */
export function counted({numerator, denominator}, over) {
    return numerator * (over / denominator);
}
