"""The program that is asked: what tools/lanes tells of a document, it was told by it."""
from __future__ import annotations

from typing import Iterable, Iterator, Optional

import trading_networks as market
from trading_networks.tables import Trouble


class Program:
    """A market program, by its path."""

    def __init__(self, path: str):
        self.path = path

    def run(self, command: str, document: market.Asked) -> dict:
        """The answer to a document; it is raised where there is no verdict."""
        try:
            return market.ask(command, document, program=self.path)
        except market.MarketError as error:
            raise Trouble(f"{self.path} {command}: {error}") from None

    def ask_each(self, command: str, documents: Iterable[market.Asked], seconds: Optional[float] = None) -> Iterator[dict]:
        """The answers to documents, in their order, by one process; it is raised where one has no verdict. They end where
        one takes longer than so many seconds."""
        try:
            for answer in market.stream(command, documents, program=self.path, timeout=seconds):
                if isinstance(answer, market.MarketError):
                    raise answer
                yield answer.said
        except market.TimedOut:
            return
        except market.MarketError as error:
            raise Trouble(f"{self.path} {command}: {error}") from None


def program_of(path: Optional[str]) -> Program:
    """The program that is named, or else the one that the package finds."""
    try:
        return Program(market.find(path))
    except market.NoProgram as error:
        raise Trouble(str(error)) from None
