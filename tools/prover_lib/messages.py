"""What `rattle check` says: which functions it refuses, and at which goals."""
from __future__ import annotations

import pathlib
import re
from dataclasses import dataclass

from .edits import function_at

OF_ITEM = re.compile(r"(?:fn|struct|enum|trait|impl) \w+::(\S+): (.*)")
MESSAGE = re.compile(r"(note: )?(?:\./)?((?:src|specs|proofs)/\S+?):(\d+):\d+: (.*)")
OF_PROOF = re.compile(r"proofs/(.+)/(?:Answers|Invariants|Proof)\.antt")
UNMET = re.compile(r"`search` did not prove (.*)")
# What follows from names that an edit took away, and says nothing of a contract.
OF_NAMES = re.compile(r"has no field|is not in scope|has no `|was not admitted")


@dataclass(frozen=True)
class Refusal:
    """Where something is refused (a function, or a file of proofs), and at which goals of it, the first first."""
    place: str
    goals: tuple[str, ...]


def goal_of(said: str) -> str:
    """The goal that a message names: in brackets behind what it means, or before a colon."""
    found = re.search(r"\(`([^`]+)(?:`\)|$)", said) or re.search(r"`([^`]+)(?:`|$)", said)
    return found[1] if found else said


def is_of_goal(message: re.Match) -> bool:
    """Whether a message says that a goal isn't met."""
    is_said = bool(message[1]) or message[4].startswith("error")
    return is_said and not (message[2].startswith("proofs/") and OF_NAMES.search(message[4]))


def proved_in(path: str) -> str:
    """The function that a file of proofs is of, or nothing. (A sign stands before one that calls itself.)"""
    found = OF_PROOF.fullmatch(path)
    return found[1].replace("/", "::").replace("+", "") if found else ""


def refused_functions(output: str) -> list[Refusal]:
    """The functions that a check refused at goals of theirs. One whose proof waits for that of a function that it calls has none
    where all of its goals would be searched, since that comes after. The notes on a function stand before its line, which may
    name goals itself, and the errors of its proof's files before all."""
    goals: dict[str, list[str]] = {}
    refused = []
    for line in output.split("\n"):
        message, item = MESSAGE.match(line), OF_ITEM.match(line)
        if message and is_of_goal(message):
            of = "" if message[2].startswith("src/") else proved_in(message[2]) or message[2]
            goals.setdefault(of, []).append(goal_of(message[4]))
        elif item:
            unmet = UNMET.search(item[2])
            own = goals.pop(item[1], []) + goals.pop("", []) + (re.findall(r"`([^`]+)`", unmet[1]) if unmet else [])
            if item[2] != "proved" and own:
                refused.append(Refusal(item[1], tuple(own)))
    return refused


def place_of(path: str, number: int, folder: pathlib.Path) -> str:
    """What a line of a crate's file belongs to: a function, or else the file."""
    if not path.startswith("src/"):
        return proved_in(path) or path
    return function_at(path, (folder / path).read_text(encoding="utf-8").split("\n"), number - 1)


def first_refusal(output: str, folder: pathlib.Path) -> Refusal | None:
    """Where a check refused a crate first."""
    found = next((it for it in map(MESSAGE.match, output.split("\n")) if it and is_of_goal(it)), None)
    return Refusal(place_of(found[2], int(found[3]), folder), (goal_of(found[4]),)) if found else None
