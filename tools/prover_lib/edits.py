"""Wrong edits: files of lines `file: PATH`, and then pairs of lines `old: TEXT` and `new: TEXT`, as rt reads them."""
from __future__ import annotations

import pathlib
import re
from dataclasses import dataclass

from .crates import Crate

BUNDLE = "bundle.edit"  # of must-fail/: what is made of edits/
FUNCTION = re.compile(r'(\s*)(?:pub(?:\([a-z]+\))? )?(?:const )?(?:unsafe )?(?:extern "C" )?fn (\w+)')
BLOCK = re.compile(r"(?:unsafe )?(?:impl|(?:pub(?:\([a-z]+\))? )?trait)\b(.*)")


class Trouble(Exception):
    """Why nothing is known of an edit, or why it isn't refused as it must be."""


@dataclass(frozen=True)
class Change:
    path: str
    old: str
    new: str


@dataclass(frozen=True)
class Edit:
    name: str
    changes: tuple[Change, ...]

    @property
    def lines(self) -> str:
        """The edit as lines of a file."""
        return "".join(f"file: {it.path}\nold: {it.old}\nnew: {it.new}\n" for it in self.changes)


def read_edit(file: pathlib.Path) -> Edit:
    path, old, changes = "", "", []
    for line in file.read_text(encoding="utf-8").split("\n"):
        word, _, text = line.partition(":")
        text = text.removeprefix(" ")
        if word == "file":
            path = text.strip()
        elif word == "old":
            old = text
        elif word == "new":
            changes.append(Change(path, old, text))
    if not changes:
        raise Trouble(f"{file} has no 'old:' and 'new:' pair")
    return Edit(file.stem, tuple(changes))


def edits_of_bodies(crate: Crate) -> list[Edit]:
    return [read_edit(file) for file in sorted((crate.folder / "edits").glob("*.edit"))]


def edits_of_definitions(crate: Crate) -> list[Edit]:
    """Those that rt tries one by one."""
    files = sorted((crate.folder / "must-fail").glob("*.edit"))
    return [read_edit(file) for file in files if file.name != BUNDLE]


def text_of_bundle(edits: list[Edit]) -> str:
    """One edit of several, which rt tries by one check."""
    head = "# Made by tools/refused of edits/: those of its first pass.\n"
    return head + "".join(f"# {edit.name}\n{edit.lines}" for edit in edits)


def applied(edits: list[Edit], folder: pathlib.Path) -> dict[str, str]:
    """The texts of the files that edits change, by their paths in the crate's folder."""
    texts: dict[str, str] = {}
    for edit, change in [(edit, change) for edit in edits for change in edit.changes]:
        text = texts.get(change.path) or (folder / change.path).read_text(encoding="utf-8")
        if text.count(change.old) != 1:
            raise Trouble(f"{edit.name}: an 'old:' text is in {change.path} {text.count(change.old)} times, and not once")
        texts[change.path] = text.replace(change.old, change.new)
    return texts


def block_of(head: str) -> str:
    """The name that the prover gives to what stands in a block, such as `impl Valuation for Table<'_> {`: that of the type,
    and then that of the trait."""
    while re.search(r"<[^<>]*>", head):
        head = re.sub(r"<[^<>]*>", "", head)
    named = BLOCK.match(head)[1].partition(":")[0].partition("{")[0].partition(" where ")[0]
    trait, _, of = named.rpartition(" for ")
    return "".join(re.findall(r"\w+", of.split("::")[-1] + trait.split("::")[-1]))


def function_at(path: str, lines: list[str], number: int) -> str:
    """The name of the function that a line of a source file stands in, as far as the prover's name for it must end in: with its
    type, or with its module where it has none. That is the last function whose head is at or above the line; a line above a head,
    such as an attribute, belongs to that head."""
    while number < len(lines) - 1 and lines[number].lstrip().startswith(("#[", "///")):
        number += 1
    above = list(reversed(lines[: number + 1]))
    head = next(filter(None, map(FUNCTION.match, above)), None)
    block = next(filter(BLOCK.match, above), None)
    if head is None or head[1] and block is None:
        raise Trouble(f"line {number + 1} of {path} stands in no function")
    if head[1]:
        return f"{block_of(block)}::{head[2]}"
    module = pathlib.PurePath(path).with_suffix("").name
    return head[2] if module == "lib" else f"{module}::{head[2]}"


def functions_of(edit: Edit, folder: pathlib.Path) -> set[str]:
    """The functions whose bodies an edit changes."""
    texts = {it.path: (folder / it.path).read_text(encoding="utf-8") for it in edit.changes}
    return {function_at(it.path, texts[it.path].split("\n"), texts[it.path].partition(it.old)[0].count("\n"))
            for it in edit.changes}
