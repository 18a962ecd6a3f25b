"""docs/edits/REFUSED.md, made of the records."""
from __future__ import annotations

from .crates import crates
from .record import Tried, read_record

HEAD = """# Wrong edits that are refused

A wrong edit turns the meaning of a function, or of a definition where a crate has laws alone. The crate with it must not be
proved. Here stands for each in which function it is refused, or in which file of the proofs, and at which goal. A goal's name
says which way the function's body ended, and after `clause-` which clause of the contract was not met; one with `requires` is a
condition of a call. [README](README.md) says how they are tried, and what those that tell most show.

Several edits are tried by one check, as far as none hides another: at most one of a function, and none whose goal isn't
searched before a function is proved that another one changes. The gate tries the first pass of each crate, as one edit; an edit
of a definition is tried alone. Made by `tools/refused --page > docs/edits/REFUSED.md`, of `tools/refused_records/`.
"""


def row(name: str, tried: Tried) -> str:
    return f"| `{name}` | `{tried.place}` | `{tried.goal}` | {tried.number or 'alone'} |"


def page() -> str:
    """The page's text, crate for crate."""
    parts = [HEAD]
    for name in sorted(crates()):
        edits = read_record(crates()[name]).edits
        if edits:
            rows = "\n".join(row(*it) for it in sorted(edits.items()))
            parts.append(f"## {name}\n\n| Edit | Refused in | At | Pass |\n|---|---|---|---|\n{rows}\n")
    return "\n".join(parts)
