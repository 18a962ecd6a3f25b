"""What the report of `rt ci` says of the edits that it tried."""
from __future__ import annotations

import re

from .crates import crates
from .edits import BUNDLE
from .messages import first_refusal
from .record import read_record

LINE = re.compile(r"(?:rt: )?must-fail (\w+)/([\w.-]+\.edit): (.*)")
REFUSED = "refused, as it must be"


def edits_in(report: str) -> dict[tuple[str, str], str]:
    """What is said of each, by its crate and its file's name."""
    return {(found[1], found[2]): found[3] for found in map(LINE.match, report.split("\n")) if found}


def why_not(crate: str, file: str, said: str) -> str:
    """Why an edit isn't refused as it must be by what `rt ci` said, or nothing. That cuts a long message, so a goal's name may be
    cut."""
    if said != REFUSED and not said.startswith(f"{REFUSED}: "):
        return f"{crate}/{file}: {said or 'rt ci said nothing of it'}"
    if file == BUNDLE:
        return ""
    kept = read_record(crates()[crate]).edits.get(file.removesuffix(".edit"))
    found = first_refusal(said.removeprefix(f"{REFUSED}: "), crates()[crate].folder)
    if kept and found and found.place == kept.place and kept.goal.startswith(found.goals[0]):
        return ""
    return f"{crate}/{file}: by its record it is refused {f'in {kept.place} at {kept.goal}' if kept else 'nowhere'}, and now: {said}"
