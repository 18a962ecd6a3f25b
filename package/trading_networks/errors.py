"""What is raised where there is no verdict. All of these can be pickled, as pools of processes do."""
from __future__ import annotations

import functools
import json
import operator
import reprlib
from typing import Any, NoReturn, Optional, Sequence, Union

from . import faults


class MarketError(Exception):
    """There is no verdict. Each cause has a class of its own below.

    yes: None, where an Answer has its verdict. answered: how many documents a stream had answered before it ended by
    this, int; None where it is of no stream.
    """
    yes: None = None
    answered: Optional[int] = None


class _Absent:
    def __repr__(self) -> str:
        return "ABSENT"

    __reduce__ = __repr__  # (what is pickled by its name is the same one)


ABSENT = _Absent()
"""The value of a fault where there is none: a member is missing, a trade has no price, or the bytes are no JSON."""


class Fault(MarketError, ValueError):
    """The document has a fault (status 1).

    number: from 1 to 20, and name: as docs/FORMAT.md lists them.
    place: a tuple of member names (str) and indices from 0 (int) that lead to the faulty value.
    value: the value there, or ABSENT.
    said: the program's answer, a dictionary; for fault 16 it has `x`, `y` and `at` too.
    asked: the document's bytes as the program got them.

    As a text it says what stands at the place and what is wanted there. A fault is neither true nor false: in a stream
    `yes` tells it from answers, and so does isinstance.
    """

    def __init__(self, said: dict[str, Any], asked: bytes):
        super().__init__(said, asked)
        self.said, self.asked, self.value = said, asked, _value_at(parsed(asked), said["place"])
        self.number, self.name, self.place = said["fault"], said["name"], tuple(said["place"])

    def __str__(self) -> str:
        place = json.dumps(self.place, separators=(",", ":"))
        sentence = faults.sentence(self.said, self.asked) or reprlib.repr(self.value)
        return f"fault {self.number}, {self.name}, at {place}: {sentence}"

    def __bool__(self) -> NoReturn:
        raise TypeError("a fault is no verdict, so it is neither true nor false: ask whether `yes` is None, or "
                        f"isinstance(.., Fault); it is {self}")


class Usage(MarketError, ValueError):
    """The words are no command (status 2)."""


class ReadFailed(MarketError, OSError):
    """The program could not read its input (status 3)."""


class WriteFailed(MarketError, OSError):
    """The program could not write its answer (status 4)."""


class NoMemory(MarketError, MemoryError):
    """The program ran out of memory (status 5)."""


class TimedOut(MarketError, TimeoutError):
    """The program took longer than it was given, and was ended."""


class NoProgram(MarketError):
    """There is no program to ask, it can't be run, or the launcher could not build it (status 70)."""


class Unexpected(MarketError):
    """The program was ended by a signal, or ended as none of the above."""


_CAUSES: dict[int, type[MarketError]] = {
    2: Usage, 3: ReadFailed, 4: WriteFailed, 5: NoMemory, 70: NoProgram}


def cause_of(status: int) -> type[MarketError]:
    """What is raised where the program ends with a status that is no verdict, and no fault."""
    return _CAUSES.get(status, Unexpected)


def trouble(status: int, command: str, written: str, told: str, asked: bytes) -> MarketError:
    """What to raise where a run came to no verdict."""
    said = parsed(written)
    if status == 1 and isinstance(said, dict) and said.get("answer") == "fault":
        return Fault(said, asked)
    return cause_of(status)(f"{command} ended with status {status}: {(written + told).strip()}")


def parsed(text: Union[str, bytes]) -> Any:
    """The JSON of a text, or ABSENT where it is none."""
    try:
        return json.loads(text)
    except (ValueError, RecursionError):
        return ABSENT


def _value_at(value: Any, place: Sequence[Any]) -> Any:
    """The value that a place leads to, or ABSENT."""
    try:
        return functools.reduce(operator.getitem, place, value)
    except (KeyError, IndexError, TypeError):
        return ABSENT
