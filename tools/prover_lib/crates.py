"""The crates of this repository, as crates.txt lists them, and how `rattle check` is called for one."""
from __future__ import annotations

import functools
import pathlib
import re
import shutil
import sys
from dataclasses import dataclass

ROOT = pathlib.Path(__file__).resolve().parents[2]
PARTS = ("src", "specs", "proofs")
LINE = re.compile(r"^(\w+)(?: (\w+))?:(.*)$", re.MULTILINE)


@dataclass(frozen=True)
class Crate:
    """A crate, and the libraries that its line names, the kit's among them."""
    name: str
    kind: str
    libraries: tuple[str, ...]

    @property
    def folder(self) -> pathlib.Path:
        return ROOT / "crates" / self.name

    @property
    def built(self) -> pathlib.Path:
        """Where rt builds it as a library."""
        return self.folder / "out/rlib" / f"{self.name}.rlib"

    @functools.lru_cache(maxsize=None)
    def below(self) -> list[Crate]:
        """The crates of the repository that it stands on: those of its line, and those that these stand on."""
        own = [crates()[name] for name in self.libraries if name in crates()]
        return list(dict.fromkeys([*own, *(it for one in own for it in one.below())]))


@functools.lru_cache(maxsize=None)
def crates() -> dict[str, Crate]:
    text = (ROOT / "crates.txt").read_text(encoding="utf-8")
    return {name: Crate(name, kind, tuple(libraries.split())) for name, kind, libraries in LINE.findall(text)}


@functools.lru_cache(maxsize=None)
def kit() -> pathlib.Path:
    """The kit's folder."""
    rt = shutil.which("rt")
    if rt is None:
        sys.exit(f"{sys.argv[0]}: there is no rt on the PATH")
    return pathlib.Path(rt).resolve().parent.parent


def words_of(crate: Crate, with_tests: bool = False) -> list[str]:
    """The words of `rattle check` for a crate, or for one with its tests, by one job, from nothing."""
    root = "src/main.rt" if (crate.folder / "src/main.rt").is_file() else "src/lib.rt"
    words = [kit() / "bin/rattle", "check", "--crate-name", crate.name, root, "--jobs", "1", "--logic-built", kit() / "logic_built",
             "--antt-project", kit() / "rattle/logic/antt-project.json", "-L", f"dependency={kit()}/rlibs"]
    own = {below.name: below.built for below in crate.below()}
    for name in ["std", *crate.libraries]:
        words += ["--extern", f"{name}={own.get(name, kit() / 'rlibs' / f'{name}.rlib')}"]
    for built in own.values():
        words += ["-L", f"dependency={built.parent}"]
    if with_tests:
        words.append("--test")
    elif crate.kind:
        words += ["--crate-type", crate.kind]
    return [str(word) for word in words]
