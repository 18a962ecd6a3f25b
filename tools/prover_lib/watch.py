"""What provers take while they run: the seconds of a processor of each module that they keep, by looks at them from outside."""
from __future__ import annotations

import bisect
import collections
import os
import pathlib
import re
import tempfile
import threading
import time
from collections.abc import Iterator
from dataclasses import dataclass, field

PART = re.compile(r"\.(Statement|Code|Proof|Lts|Tie|Met|Goals|Answers|Invariants)\b.*")
PAUSE = 0.1


@dataclass
class Prover:
    """A process of `rattle` that proves a crate by one job. It keeps a file for each module, one after another."""
    process: str
    words: list[str]
    times: list[int] = field(default_factory=list)
    seconds: list[float] = field(default_factory=list)
    files: dict[str, int] = field(default_factory=dict)

    @property
    def crate(self) -> str:
        return self.words[self.words.index("--crate-name") + 1]

    @property
    def with_tests(self) -> bool:
        return "--test" in self.words

    def kept(self) -> Iterator[pathlib.Path]:
        """The files that it has kept until now: where its words say so, or else in a folder of its own."""
        if "--incremental" in self.words:
            yield from pathlib.Path(self.words[self.words.index("--incremental") + 1]).rglob("*.oantt")
        else:
            yield from pathlib.Path(tempfile.gettempdir()).glob(f"rattle-logic-built-locked-{self.process}-*/*.oantt")

    def look(self, stat: list[str]) -> None:
        user, system = stat[11:13]
        self.times.append(time.time_ns())
        self.seconds.append((int(user) + int(system)) / os.sysconf("SC_CLK_TCK"))
        for file in self.kept():
            if file.name not in self.files:
                try:
                    self.files[file.name] = file.stat().st_mtime_ns
                except OSError:
                    pass  # it has just been moved

    def at(self, moment: int) -> float:
        """The seconds of a processor that it had taken at a time."""
        k = bisect.bisect_right(self.times, moment)
        if k in (0, len(self.times)):
            return self.seconds[min(k, len(self.times) - 1)]
        share = (moment - self.times[k - 1]) / (self.times[k] - self.times[k - 1])
        return self.seconds[k - 1] + share * (self.seconds[k] - self.seconds[k - 1])

    def modules(self) -> Iterator[tuple[str, float]]:
        """Each module, with the seconds since the one before it; what comes before the first and after the last has no name."""
        before = 0.0
        for moment, name in sorted((moment, name) for name, moment in self.files.items()):
            at = self.at(moment)
            yield re.sub(r"(\.decls)?\.oantt$", "", name.partition("Rattle-")[2]), at - before
            before = at
        yield "", (self.seconds[-1] if self.seconds else 0.0) - before


class Watch:
    """Looks at all provers that work in a folder, from when it is made until it is ended."""

    def __init__(self, folder: pathlib.Path) -> None:
        self.folder, self.provers, self.is_over = folder.resolve(), {}, threading.Event()
        self.looking = threading.Thread(target=self.look_on, daemon=True)
        self.looking.start()

    def look_on(self) -> None:
        while not self.is_over.wait(PAUSE):
            for process in filter(str.isdigit, os.listdir("/proc")):
                try:
                    self.look(process)
                except OSError:
                    pass  # it has just ended, or is somebody else's

    def look(self, process: str) -> None:
        entry = pathlib.Path("/proc", process)
        words = (entry / "cmdline").read_bytes().decode(errors="replace").split("\0")
        if not words[0].endswith("/rattle") or "--crate-name" not in words:
            return
        if self.folder not in pathlib.Path(os.readlink(entry / "cwd")).parents:
            return
        stat = (entry / "stat").read_text().rpartition(")")[2].split()
        self.provers.setdefault((process, stat[19]), Prover(process, words)).look(stat)

    def end(self) -> list[Prover]:
        self.is_over.set()
        self.looking.join()
        return list(self.provers.values())


def by_function(provers: list[Prover]) -> dict[str, collections.Counter]:
    """The seconds of each function, by part; what is no function's stands under its module's name."""
    functions = collections.defaultdict(collections.Counter)
    for name, seconds in (module for prover in provers for module in prover.modules()):
        part = PART.search(name)
        function = PART.sub("", name)
        functions[function.partition("-proofs.")[2] or function][part[1] if part else ""] += seconds
    return functions
