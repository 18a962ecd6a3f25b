"""Whether a network has no prices, by the JavaScript of the page, which node runs (docs/REPLAY.md)."""
from __future__ import annotations

import json
import os
import pathlib
import shutil
import subprocess
import tempfile
from dataclasses import dataclass
from typing import Optional

from .errors import NoProgram, TimedOut
from .kinds import Json
from .program import NO, YES, Asked, Path, bytes_of, find, modules
from .tables import Trouble


@dataclass(frozen=True)
class Shown:
    """Of `no_prices`: whether there are none, and what shows it.

    is_none: whether no prices make any set of trades an equilibrium; the object is true where they don't.
    document: where there are none, the document with a plan in parts as its claim, which `replay` calls valid; otherwise
    with trades and prices at which `firms` says that all are content, all numbers of it multiplied where these weren't
    whole. said: a sentence on what the best plan is worth.
    """
    is_none: bool
    document: Json
    said: str

    def __bool__(self) -> bool:
        return self.is_none


def no_prices(document: Asked, *, program: Optional[Path] = None, timeout: Optional[float] = None) -> Shown:
    """Whether no prices make any set of trades an equilibrium, and what shows it. Tables need not meet the exchange
    property. Raises NoProgram where there is no node of version 18 or later, and Trouble where there is no answer."""
    node, script = shutil.which("node"), modules() / "tools" / "node" / "none.mjs"
    if node is None:
        raise NoProgram("whether there are no prices is found by node 18 or later (Debian's package nodejs), and there is "
                        "none here")
    if not script.is_file():
        raise NoProgram(f"whether there are no prices is found by {script}, which comes with the wheel alone")
    asked = bytes_of(document)
    with tempfile.TemporaryDirectory() as folder:
        file = pathlib.Path(folder) / "document.json"
        file.write_bytes(asked)
        try:
            ended = subprocess.run([node, str(script), str(file)], capture_output=True, text=True, timeout=timeout,
                                   check=False, env={**os.environ, "MARKET": find(program)})
        except subprocess.TimeoutExpired:
            raise TimedOut(f"no_prices took longer than {timeout} s") from None
    if ended.returncode not in (YES, NO):
        raise Trouble(ended.stderr.strip())
    return Shown(ended.returncode == YES, json.loads(ended.stdout), ended.stderr.strip())
