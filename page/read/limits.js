// The limits of documents that the page speaks of, by their version, as docs/FORMAT.md lists them. The program keeps them; here
// they stand in sentences, and beside what can be put in.

const FEW = {own: 32, farthest: 32, values: 65, edits: 256, amount: 10n ** 9n, price: 10n ** 14n, over: 10n ** 5n};

/** The limits by the version. */
export const VERSIONS = new Map([[1n, {most: 64, ...FEW}], [2n, {most: 128, ...FEW}],
    [3n, {most: 1024, own: 60, farthest: 60, values: 121, edits: 2048, amount: 10n ** 7n, price: 10n ** 14n, over: 10n ** 6n}]]);

/** The limits of the version that has room for most. */
export const LARGEST = [...VERSIONS.values()].at(-1);

/** The version in which trades have units. */
export const UNIT_VERSION = 4n;

/**
 * The limits where trades have units: the most firms; the most trades; the most sets of all firms; the most units of a trade, of a
 * step and of all trades together; how many sets of a firm may hold one trade; the most steps of a list; and how far from 0 a set
 * begins, how many numbers it has, the largest number of a firm, the largest price of an arrangement, edits, and edits times trades.
 */
export const UNIT_LIMITS = {most: 1024, trades: 4096, sets: 4096, units: 1048576, holding: 16, steps: 256, farthest: 256, values: 513, amount: 10n ** 7n,
    price: 2n * 10n ** 11n, edits: 2048, edited: 2097152};

/** Whether a document is one in which trades have units, by its plain data. */
export function hasUnits(data) {
    return data.version === UNIT_VERSION;
}

/**
 * The limits of a network's version, those of the first where it has none: the most firms, and trades; the most trades of a firm
 * that is no table; how far from 0 a set begins, and how many numbers it has; edits; the largest number of a firm; the
 * largest price of an arrangement; and the largest denominator of a claim. (Where trades have units they are UNIT_LIMITS.)
 */
export function limitsOf(network) {
    return hasUnits(network.data) ? UNIT_LIMITS : VERSIONS.get(network.data.version) ?? VERSIONS.get(1n);
}
