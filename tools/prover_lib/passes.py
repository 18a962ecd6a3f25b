"""Which edits are tried by one check, and what all of a crate's come to."""
from __future__ import annotations

import pathlib
import tempfile

from .crates import Crate
from .edits import BUNDLE, Edit, Trouble, edits_of_bodies, edits_of_definitions, functions_of, text_of_bundle
from .messages import Refusal
from .record import Record, Tried, read_record, sources_of, write_record
from .trial import KEPT, linked, prove, try_alone, try_pass


def chosen(crate: Crate, edits: list[Edit], number: int, kept: dict[str, Tried]) -> list[Edit]:
    """Of edits that are still to be tried those for a pass: at most one of a function, and none that was refused in a later pass
    before."""
    taken: list[Edit] = []
    functions: set[str] = set()
    for edit in edits:
        own = functions_of(edit, crate.folder)
        is_later = edit.name in kept and kept[edit.name].number > number
        if not is_later and not own & functions:
            taken.append(edit)
            functions |= own
    return taken


def try_bodies(crate: Crate, kept: dict[str, Tried], words: list[str]) -> dict[str, Tried]:
    """Tries the edits of bodies, pass for pass, and tells where each was refused, of those that were: what a pass doesn't refuse is
    tried in a later one, unless that pass refused nothing."""
    left, tried, number = edits_of_bodies(crate), {}, 1
    while left:
        now = chosen(crate, left, number, kept)
        refused = try_pass(crate, now, words) if now else {}
        tried |= {name: Tried(it.place, it.goals[0], number) for name, it in refused.items()}
        left = [edit for edit in left if edit.name not in refused and (refused or edit not in now)]
        number += 1
    return tried


def try_definitions(crate: Crate, room: pathlib.Path) -> dict[str, Tried]:
    """Tries the edits of definitions, each alone over a proof of the crate as it stands, and tells where each was refused."""
    edits, kept = edits_of_definitions(crate), room / "kept"
    if edits:
        prove(crate, kept)
    found = {edit.name: try_alone(crate, edit, kept, room / edit.name) for edit in edits}
    return {name: Tried(it.place, it.goals[0], 0) for name, it in found.items() if it}


def tried_anew(crate: Crate, record: Record) -> list[str]:
    """Tries the edits of bodies that the record has from nothing, in its passes, and says which of them come to something else."""
    lost = []
    with tempfile.TemporaryDirectory(prefix=f"refused-{crate.name}-kept-") as room:
        edits = edits_of_bodies(crate)
        for number in sorted({it.number for it in record.edits.values() if it.number}):
            now = [edit for edit in edits if edit.name in record.edits and record.edits[edit.name].number == number]
            refused = try_pass(crate, now, ["--incremental", room])
            lost += [f"{crate.name}/{it.name}: {told(record.edits[it.name], refused.get(it.name))}" for it in now
                     if not record.edits[it.name].is_met(refused.get(it.name))]
    return lost


def told(kept: Tried, refusal: Refusal | None) -> str:
    now = f"refused now in {refusal.place} at {', '.join(refusal.goals)}" if refusal else "not refused now"
    return f"{now}; by its record in {kept.place} at {kept.goal}"


def bundle_of(crate: Crate, record: Record) -> str | None:
    """The text of the crate's bundle: the edits of the first pass."""
    first = [edit for edit in edits_of_bodies(crate) if edit.name in record.edits and record.edits[edit.name].number == 1]
    return text_of_bundle(first) if first else None


def write_bundle(crate: Crate, record: Record) -> None:
    text = bundle_of(crate, record)
    if text:
        (crate.folder / "must-fail").mkdir(exist_ok=True)
        (crate.folder / "must-fail" / BUNDLE).write_text(text, encoding="utf-8")


def make_record(crate: Crate, is_anew: bool) -> Record:
    """Tries all edits, and writes the record and the bundle. It begins with what `rt check` kept, and with the passes of the record
    before, unless it's anew. Where an edit isn't refused, the record is of no sources."""
    sources, before = sources_of(crate), Record("", {}) if is_anew else read_record(crate)
    with tempfile.TemporaryDirectory(prefix=f"refused-{crate.name}-kept-") as name:
        room = pathlib.Path(name)
        seed = crate.folder / KEPT
        if seed.is_dir() and not is_anew:
            linked(seed, room / "bodies")
        tried = try_bodies(crate, before.edits, ["--incremental", str(room / "bodies")]) | try_definitions(crate, room)
    lost = [it.name for it in [*edits_of_bodies(crate), *edits_of_definitions(crate)] if it.name not in tried]
    record = Record("" if lost else sources, tried)
    write_bundle(crate, record)
    write_record(crate, record)
    if lost:
        raise Trouble(f"{crate.name}: not refused at a goal, or not in a function that it changes: {' '.join(lost)}")
    return record
