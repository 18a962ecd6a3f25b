"""The program: how it is found, and one run of it."""
from __future__ import annotations

import functools
import json
import operator
import os
import pathlib
import platform
import shutil
import subprocess
from typing import Any, Optional, Protocol, Union

from . import served
from .errors import NoProgram, TimedOut, trouble

PACKAGE = pathlib.Path(__file__).resolve().parent
REPOSITORY = PACKAGE.parent.parent
YES, NO = 0, 6
SERVING = 60  # seconds in which the program says its version, the slowest of machines included


class HasDocument(Protocol):
    """What has a document: one of the builders, or an answer."""

    @property
    def document(self) -> dict[str, Any]:
        """The document."""


Asked = Union[dict[str, Any], str, "os.PathLike[str]", bytes, HasDocument]
"""A document: a dictionary, the path of a file, the bytes of a document, or a builder."""

Path = Union[str, "os.PathLike[str]"]


def is_in_repository() -> bool:
    """Whether the package stands in the repository, and not where it was installed."""
    return (REPOSITORY / "crates.txt").is_file()


def is_in_release() -> bool:
    """Whether the package stands in what tools/release makes, beside the program."""
    return (REPOSITORY / "BUILT-OF").is_file()


def modules() -> pathlib.Path:
    """The folder with page/ and tools/node/, which node runs."""
    return REPOSITORY if is_in_repository() or is_in_release() else PACKAGE / "node"


def find(program: Optional[Path] = None) -> str:
    """The path of the program that is asked: the one that is named; or else the one that MARKET names in the
    environment; in the repository the one that ./market runs; where the package was installed or stands in a release the
    one that came with it, or the module under node; or `market` on the PATH. Raises NoProgram where there is none."""
    named = program or os.environ.get("MARKET")
    if named:
        return os.fspath(named)
    try:
        if is_in_repository():
            return _launched(REPOSITORY)
        native = REPOSITORY / "market" if is_in_release() else PACKAGE / "program" / "market"
        return _installed(native, modules() / "page" / "market.mjs")
    except NoProgram as error:
        found = shutil.which("market")
        if found is None:
            raise NoProgram(f"there is no program to ask: name one, set MARKET, or put `market` on the PATH{error}") from None
        return found


@functools.lru_cache(maxsize=None)
def _launched(home: pathlib.Path) -> str:
    """The path of the program that the launcher of a repository runs; raises NoProgram where there is none."""
    try:
        run = subprocess.run([home / "market", "--which"], capture_output=True, text=True, check=False)
    except OSError as error:
        raise NoProgram(f". {error.filename}: {error.strerror}") from None
    if run.returncode != 0:
        raise NoProgram(f". {run.stderr.strip()}")
    return run.stdout.strip()


@functools.lru_cache(maxsize=None)
def _installed(native: pathlib.Path, module: pathlib.Path) -> str:
    """The path of the program that came with the package, where it runs here, and otherwise that of the module."""
    if native.is_file() and platform.system() == "Linux" and _runs([str(native)]):
        return str(native)
    if module.is_file() and _runs(served.words_for(str(module))):
        return str(module)
    raise NoProgram(". The package's own program runs on Linux on x86-64, and its module where node 18 or later is")


def _runs(words: list[str]) -> bool:
    """Whether a program says its version."""
    try:
        run = subprocess.run([*words, "--version"], capture_output=True, timeout=SERVING, check=False)
    except (OSError, subprocess.TimeoutExpired):
        return False
    return run.returncode == 0 and run.stdout.startswith(b"market ")


def bytes_of(document: Optional[Asked]) -> bytes:
    """The document as the program gets it. Whole numbers of other modules, as numpy's, are taken as whole numbers."""
    if document is None:
        return b""
    if isinstance(document, bytes):
        return document
    if isinstance(document, (str, os.PathLike)):
        return pathlib.Path(document).read_bytes()
    plain: Any = document
    if not isinstance(document, dict):
        plain = getattr(plain, "document", plain)  # (once: a builder makes it then)
    return json.dumps(plain, default=operator.index, allow_nan=False, ensure_ascii=False).encode()


def run(command: str, document: Optional[Asked], program: Optional[Path],
        timeout: Optional[float]) -> tuple[bool, str, bytes]:
    """Whether the verdict is yes, what the program wrote, and the document's bytes."""
    path, asked = find(program), bytes_of(document)
    try:
        status, output, told = _ended(path, command.split(), asked, timeout)
    except subprocess.TimeoutExpired:
        raise TimedOut(f"{command} took longer than {timeout} s") from None
    except OSError as error:
        raise NoProgram(f"{path}: {error.strerror}") from error
    written = output.decode(errors="replace")
    if status not in (YES, NO):
        raise trouble(status, command, written, told.decode(errors="replace"), asked)
    return status == YES, written, asked


def _ended(path: str, words: list[str], asked: bytes, timeout: Optional[float]) -> tuple[int, bytes, bytes]:
    """The status of a run, what it wrote, and what it said beside that."""
    if served.is_module(path) and timeout is None:
        return *served.program_at(path).ask(words, asked), b""
    ended = subprocess.run([*served.words_for(path), *words], input=asked, capture_output=True, timeout=timeout, check=False)
    return ended.returncode, ended.stdout, ended.stderr
