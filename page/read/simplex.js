// The simplex method over fractions, for programs whose columns come one after another: the greatest worth of shares of columns, from
// 0, where the first rows come to 1 and the others to 0. It rounds nothing.
import {ONE, ZERO} from "./fractions.js";

/** A program with a basis, a column for each row. A column is `{worth, entries}`, with what one share adds to rows as `[row, number]`. */
export class Simplex {
    /**
     * Each of the first rows begins with the column that is given for it, and each other row with one that is no part of the program,
     * and stays at 0.
     */
    constructor(first, rows) {
        const at = [...Array(rows).keys()];
        this.columns = [...first];
        this.basis = at.map((row) => (row < first.length ? row : null));
        this.levels = at.map((row) => (row < first.length ? ONE : ZERO));
        this.inverse = at.map((row) => at.map((other) => (row === other ? ONE : ZERO)));
    }

    add(column) {
        this.columns.push(column);
    }

    /** For each row what one more of it would bring. */
    duals() {
        const worths = this.basis.map((column) => (column === null ? ZERO : this.columns[column].worth));
        return this.basis.map((_, row) => this.inverse.reduce((sum, parts, k) =>
            worths[k].isZero() || parts[row].isZero() ? sum : sum.plus(worths[k].times(parts[row])), ZERO));
    }

    /** What all shares are worth. */
    value() {
        return this.shares().reduce((sum, [column, share]) => sum.plus(this.columns[column].worth.times(share)), ZERO);
    }

    /** The columns that have a share, as `[index, share]` in their order. */
    shares() {
        const held = this.basis.map((column, row) => [column, this.levels[row]]);
        return held.filter(([column, share]) => column !== null && !share.isZero()).sort(([one], [other]) => one - other);
    }

    /**
     * Takes better columns into the basis until there is none. The first better one goes in, and of those that may go out the first, so
     * that no basis comes twice (Bland, 1977).
     */
    solve() {
        for (let entering = this.better(); entering >= 0; entering = this.better()) this.enter(this.columns[entering].entries, entering);
    }

    /** The first column that is worth more than its entries bring, or -1. */
    better() {
        const duals = this.duals();
        return this.columns.findIndex(({worth, entries}) => worth.isAbove(entries.reduce((sum, [row, number]) => sum.plus(duals[row].times(number)), ZERO)));
    }

    enter(entries, entering) {
        const moves = this.inverse.map((parts) => entries.reduce((sum, [row, number]) => sum.plus(parts[row].times(number)), ZERO));
        const leaving = this.leaving(moves), move = moves[leaving];
        this.inverse[leaving] = this.inverse[leaving].map((part) => part.over(move));
        this.levels[leaving] = this.levels[leaving].over(move);
        for (const [row, other] of moves.entries()) {
            if (row === leaving || other.isZero()) continue;
            this.inverse[row] = this.inverse[row].map((part, k) => part.minus(other.times(this.inverse[leaving][k])));
            this.levels[row] = this.levels[row].minus(other.times(this.levels[leaving]));
        }
        this.basis[leaving] = entering;
    }

    /** The row whose column goes out: of those that reach 0 first the one whose column is the first; those that are no part before all. */
    leaving(moves) {
        let best = null;
        for (const [row, move] of moves.entries()) {
            if (!move.isAbove(ZERO) && (move.isZero() || this.basis[row] !== null)) continue;
            const reach = this.levels[row].over(move), column = this.basis[row] ?? -1;
            if (best === null || best.reach.isAbove(reach) || (!reach.isAbove(best.reach) && column < best.column)) best = {row, reach, column};
        }
        return best.row;
    }
}
