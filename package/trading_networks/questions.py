"""One question about one document: each command of the program as a function."""
from __future__ import annotations

import json
import reprlib
from typing import Any, Optional, Union, cast

from . import program as programs
from .answers import (KINDS, Accepted, Answer, Better, Blocks, Completes, Cycle, Drops, Equilibrium, ExchangeFails, Firms,
                      Impossible, Invalid, Prices, Ranges, Session, Solved, Valid, object_of)
from .errors import Unexpected, parsed
from .program import Asked, Path


def ask(command: str, document: Optional[Asked] = None, *, program: Optional[Path] = None,
        timeout: Optional[float] = None) -> Any:
    """What the program answers: a dictionary as docs/ANSWERS.md has it, or text where it writes rows or a page.

    command: its words with blanks between them: "solve", "solve --csv", "drill 40 7".
    document: None for a command that reads nothing.
    Raises Fault where the document has a fault, and another MarketError where there is no verdict for another reason;
    a file that can't be read raises OSError, and a value that JSON hasn't, TypeError or ValueError.
    """
    _, written, _ = programs.run(command, document, program, timeout)
    return json.loads(written) if written.startswith("{") else written


def _asked(command: str, document: Asked, program: Optional[Path], timeout: Optional[float]) -> Answer:
    yes, written, asked = programs.run(command, document, program, timeout)
    said = parsed(written)
    if not isinstance(said, dict) or said.get("answer") not in KINDS:
        raise Unexpected(f"{command} wrote what is no answer: {reprlib.repr(written)}")
    return object_of(said, asked, yes)


def solve(document: Asked, *, program: Optional[Path] = None, timeout: Optional[float] = None) -> Solved:
    """An equilibrium of the network, a SolvedByCounts where its trades have units (so it is of the other questions: RangesByCounts,
    FirmsByCounts, BetterByCounts, PricesByCounts and CycleByCounts are of their kinds). Raises as `ask` does."""
    return cast(Solved, _asked("solve", document, program, timeout))


def ranges(document: Asked, *, program: Optional[Path] = None, timeout: Optional[float] = None) -> Ranges:
    """How far each price may move, over all equilibria of the network. Raises as `ask` does."""
    return cast(Ranges, _asked("range", document, program, timeout))


def firms(document: Asked, *, program: Optional[Path] = None, timeout: Optional[float] = None) -> Firms:
    """What each firm has at the document's arrangement, and what it would rather have. Raises as `ask` does."""
    return cast(Firms, _asked("firms", document, program, timeout))


def check(document: Asked, *, program: Optional[Path] = None,
          timeout: Optional[float] = None) -> Union[Equilibrium, Better, Impossible]:
    """Whether the document's arrangement is an equilibrium. Raises as `ask` does."""
    return cast(Union[Equilibrium, Better, Impossible], _asked("check", document, program, timeout))


def support(document: Asked, *, program: Optional[Path] = None,
            timeout: Optional[float] = None) -> Union[Prices, Impossible, Cycle]:
    """Prices for the trades that are on in the document's arrangement, or why there are none. Raises as `ask` does."""
    return cast(Union[Prices, Impossible, Cycle], _asked("support", document, program, timeout))


def test(document: Asked, *, program: Optional[Path] = None,
         timeout: Optional[float] = None) -> Union[Accepted, ExchangeFails]:
    """Whether every firm meets the exchange property. Raises as `ask` does."""
    return cast(Union[Accepted, ExchangeFails], _asked("test", document, program, timeout))


def judge(document: Asked, *, program: Optional[Path] = None,
          timeout: Optional[float] = None) -> Union[Drops, Completes, Blocks]:
    """Whether what is signed by the document's outcome lasts. Raises as `ask` does."""
    return cast(Union[Drops, Completes, Blocks], _asked("judge", document, program, timeout))


def session(document: Asked, *, program: Optional[Path] = None, timeout: Optional[float] = None) -> Session:
    """An equilibrium after each of the document's edits. Raises as `ask` does."""
    return cast(Session, _asked("session", document, program, timeout))


def replay(document: Asked, claim: Union[Answer, dict[str, Any], None] = None, *, program: Optional[Path] = None,
           timeout: Optional[float] = None) -> Union[Valid, Invalid]:
    """Whether the document's claim is so. Raises as `ask` does.

    claim: an answer of check, test, support, solve or judge (an Answer, or the dictionary that the program wrote), or
    another claim as a dictionary, which is put into the document as its claim; None where the document has one.
    """
    if claim is not None:
        said = claim.said if isinstance(claim, Answer) else claim
        document = {**json.loads(programs.bytes_of(document)), "claim": said}
    return cast(Union[Valid, Invalid], _asked("replay", document, program, timeout))
