"""The record of a crate's wrong edits: where each was refused, and of which sources that is."""
from __future__ import annotations

import functools
import hashlib
import json
import pathlib
from dataclasses import dataclass

from .crates import PARTS, ROOT, Crate, kit
from .messages import Refusal

FOLDER = ROOT / "tools/refused_records"


@dataclass(frozen=True)
class Tried:
    """What is kept of an edit: where it was refused, the first goal, and in which pass (0: alone)."""
    place: str
    goal: str
    number: int

    def is_met(self, refusal: Refusal | None) -> bool:
        return refusal is not None and refusal.place == self.place and self.goal in refusal.goals


@dataclass(frozen=True)
class Record:
    sources: str
    edits: dict[str, Tried]


@functools.lru_cache(maxsize=None)
def sum_of(folder: pathlib.Path) -> str:
    """A checksum of the names and the texts of a folder's files."""
    found = hashlib.sha256()
    for file in sorted(it for it in folder.rglob("*") if it.is_file()):
        found.update(f"{file.relative_to(folder)} {hashlib.sha256(file.read_bytes()).hexdigest()}\n".encode())
    return found.hexdigest()


def sources_of(crate: Crate) -> str:
    """A checksum of all that a try rests on: the kit, the crate with its edits, and what those below it state and do. What is made
    of a record is no part of it."""
    version = (kit() / "KIT-ID").read_text(encoding="utf-8").strip()
    edits = [file for part in ("edits", "must-fail") for file in sorted((crate.folder / part).glob("*.edit"))]
    parts = [crate.folder / part for part in PARTS]
    parts += [below.folder / part for below in crate.below() for part in ("src", "specs")]
    told = [version, *(f"{it.relative_to(ROOT)} {sum_of(it)}" for it in parts)]
    told += [f"{it.relative_to(ROOT)} {hashlib.sha256(it.read_bytes()).hexdigest()}" for it in edits if it.stem != "bundle"]
    return hashlib.sha256("\n".join(told).encode()).hexdigest()


def read_record(crate: Crate) -> Record:
    """The record, or one of nothing where there is none."""
    file = FOLDER / f"{crate.name}.json"
    if not file.is_file():
        return Record("", {})
    said = json.loads(file.read_text(encoding="utf-8"))
    return Record(said["sources"], {name: Tried(it["place"], it["goal"], it.get("pass", 0)) for name, it in said["edits"].items()})


def write_record(crate: Crate, record: Record) -> None:
    """A line for each edit, in the order of their names."""
    edits = {name: {"pass": it.number, "place": it.place, "goal": it.goal} for name, it in sorted(record.edits.items())}
    lines = [f'    {json.dumps(name)}: {json.dumps({k: v for k, v in it.items() if v})}' for name, it in edits.items()]
    text = "{\n" + f'  "sources": "{record.sources}",\n' + '  "edits": {\n' + ",\n".join(lines) + "\n  }\n}\n"
    FOLDER.mkdir(exist_ok=True)
    (FOLDER / f"{crate.name}.json").write_text(text, encoding="utf-8")
