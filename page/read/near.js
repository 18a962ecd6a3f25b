// Which of some words another one may have been meant as.

/** Whether two words are alike at both ends: what is between has at most two bytes, and fewer than are alike. */
export function isNear(word, known) {
    return apart(word, known) < Infinity;
}

/** The word that is nearest to one, and the first of several; undefined where none is near. */
export function nearest(word, known) {
    const distances = known.map((each) => apart(word, each)), least = Math.min(...distances);
    return least < Infinity ? known[distances.indexOf(least)] : undefined;
}

/** How many bytes are between what two words begin and end with alike; Infinity where they aren't near. */
function apart(word, known) {
    const [one, other] = [word, known].map((each) => [...new TextEncoder().encode(each)]);
    const alike = sameAtHead(one, other) + sameAtHead([...one].reverse(), [...other].reverse());
    const between = Math.max(0, Math.max(one.length, other.length) - alike);
    return between <= 2 && between < alike ? between : Infinity;
}

/** How many bytes two words begin with alike. */
function sameAtHead(word, known) {
    const end = word.findIndex((byte, k) => byte !== known[k]);
    return end < 0 ? word.length : end;
}
