"""Names of the format for names of any letters."""
from __future__ import annotations

import re
import unicodedata
from typing import Iterable

LONGEST = 32
PLAIN = re.compile(rf"[A-Za-z0-9_.-]{{1,{LONGEST}}}")
# letters that have no accent to take away
PLAIN_LETTERS = str.maketrans({
    "ł": "l", "Ł": "L", "ø": "o", "Ø": "O", "đ": "d", "Đ": "D", "ß": "ss", "æ": "ae", "Æ": "AE", "œ": "oe", "Œ": "OE",
    "þ": "th", "Þ": "Th", "ð": "d", "Ð": "D", "ı": "i"})


def codes_of(names: Iterable[tuple[str, int]], word: str) -> dict[str, str]:
    """A name of the format for each name, which comes with its number: its own without accents, where that leaves
    something, or else the word with the number; with a number behind it where that is taken."""
    codes: dict[str, str] = {}
    taken: set[str] = set()
    for name, number in names:
        letters = unicodedata.normalize("NFKD", name.translate(PLAIN_LETTERS)).encode("ascii", "ignore").decode()
        code = re.sub(r"[^A-Za-z0-9_.]+", "-", letters).strip("-")[:LONGEST] or f"{word}{number}"
        begin, more = code[:LONGEST - 9], number
        while code in taken:
            code, more = f"{begin}.{more}", more + 1
        codes[name] = code
        taken.add(code)
    return codes


def codes_for(names: Iterable[str], word: str) -> dict[str, str]:
    """The same, where a name that the format allows stays as it is, whatever stands before it."""
    numbered = [(name, k) for k, name in enumerate(names, 1)]
    plain = {name: name for name, _ in numbered if PLAIN.fullmatch(name)}
    others = codes_of([*((name, 0) for name in plain), *((name, k) for name, k in numbered if name not in plain)], word)
    return {name: plain.get(name) or others[name] for name, _ in numbered}
