"""Tries wrong edits: `rattle check` over a copy of a crate, as often as edits hide one another."""
from __future__ import annotations

import os
import pathlib
import shutil
import subprocess
import tempfile

from .crates import PARTS, Crate, kit, words_of
from .edits import Edit, Trouble, applied, functions_of
from .messages import Refusal, first_refusal, refused_functions

KEPT = "out/incremental"  # where `rt check` keeps its work in a crate's folder
NO_VERDICT = "no verdict, and the last that was said is:"


def linked(folder: pathlib.Path, to: pathlib.Path) -> None:
    """Copies kept work by links: a check replaces such a file, and changes none."""
    def copy(one: str, other: str) -> None:
        try:
            os.link(one, other)
        except OSError:
            shutil.copy2(one, other)
    shutil.copytree(folder, to, copy_function=copy)


def is_ready(crate: Crate) -> bool:
    """Whether `rt ci` built all libraries below a crate, and no other command since: the others leave a stamp."""
    below = crate.below()
    return all(it.built.is_dir() and not (it.built.parent / "stamp").exists() for it in below)


def make_ready(crate: Crate) -> None:
    """Has rt build the libraries below a crate, where they aren't built of these sources."""
    words = [str(kit() / "bin/rt"), "check", "--only", ""]
    ran = subprocess.run(words, cwd=crate.folder, stdout=subprocess.PIPE, stderr=subprocess.STDOUT, text=True)
    if ran.returncode:
        raise Trouble(f"{crate.name}: {' '.join(words)}: {ran.stdout[-2000:]}")


def prove(crate: Crate, kept: pathlib.Path) -> None:
    """Proves a crate as it stands, and keeps in a folder what came of it."""
    ran = subprocess.run([*words_of(crate), "--incremental", str(kept)], cwd=crate.folder, stdin=subprocess.DEVNULL,
                         stdout=subprocess.PIPE, stderr=subprocess.STDOUT, text=True, errors="replace")
    if ran.returncode:
        raise Trouble(f"{crate.name}: it isn't proved as it stands\n{ran.stdout[-2000:]}")


def check(crate: Crate, edits: list[Edit], words: list[str]) -> str:
    """What the prover says of a crate with edits."""
    with tempfile.TemporaryDirectory(prefix=f"refused-{crate.name}-") as room:
        for part in PARTS:
            if (crate.folder / part).is_dir():
                shutil.copytree(crate.folder / part, pathlib.Path(room) / part)
        for path, text in applied(edits, crate.folder).items():
            (pathlib.Path(room) / path).write_text(text, encoding="utf-8")
        ran = subprocess.run([*words_of(crate), *words], cwd=room, stdin=subprocess.DEVNULL, stdout=subprocess.PIPE,
                             stderr=subprocess.STDOUT, text=True, errors="replace")
    if ran.returncode == 1 and ran.stdout.rstrip().split("\n")[-1].startswith(("logic=not-proved", "only=")):
        return ran.stdout
    if ran.returncode:
        raise Trouble(f"{crate.name}, {' '.join(it.name for it in edits)}: {NO_VERDICT}\n{ran.stdout[-3000:]}")
    return ""


def try_pass(crate: Crate, edits: list[Edit], words: list[str]) -> dict[str, Refusal]:
    """Tries edits of different functions by one check of these functions and what they call, and tells where each was refused,
    of those that were."""
    functions = {edit.name: functions_of(edit, crate.folder) for edit in edits}
    only = [word for name in sorted(set().union(*functions.values())) for word in ("--only", name)]
    refused = refused_functions(check(crate, edits, [*words, *only]))
    ends = {edit: tuple(f"::{it}" for it in names) for edit, names in functions.items()}
    found = {edit: next((it for it in refused if f"::{it.place}".endswith(ends[edit])), None) for edit in ends}
    return {edit: it for edit, it in found.items() if it}


def try_alone(crate: Crate, edit: Edit, kept: pathlib.Path, room: pathlib.Path) -> Refusal | None:
    """Tries an edit of a definition over what a check of the crate as it stands kept."""
    linked(kept, room)
    return first_refusal(check(crate, [edit], ["--incremental", str(room)]), crate.folder)
