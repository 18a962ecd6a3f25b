"""Trading networks, solved and judged by a proved program, and made by builders.

    import trading_networks as tn

    market = tn.Document().seller("Ann", costs={"a": 3}).buyer("Bob", worths={"a": 5})
    tn.solve(market).prices["a"]        # 3
    tn.ranges(market)["a"].width        # 2
    tn.ranges(market).frame()           # needs pandas
    tn.ranges(market).plot()            # needs matplotlib

It needs Python 3.9 or later. The functions ask the program, and compute nothing that an answer says. docs/ANSWERS.md of the
repository says what each answer means, and docs/NOTEBOOK.md has examples.

What is asked about is a builder, a dictionary, the path of a file (str or PathLike), or the bytes of a document. All
amounts, worths and prices are in the document's unit of money. They are int where they are whole, and
fractions.Fraction where the outcome has a denominator; they are never floats, but in plots.

Each question takes two more arguments. `program` is the path of the program; where it is None, `find` says which one is
taken. `timeout` is in seconds, and None for no limit. Each question is a process of its own, but that one process of the
page's module answers all that have no `timeout`; `stream` asks one process about any number of documents.
"""
from .answers import (Accepted, Answer, Better, BetterByCounts, Blocks, Completes, Cycle, CycleByCounts, Drops, Equilibrium,
                      ExchangeFails, Firm, FirmByCounts, Firms, FirmsByCounts, Impossible, Invalid, Prices, PricesByCounts,
                      Range, RangeByCounts, Ranges, RangesByCounts, Session, SessionByCounts, Solved, SolvedByCounts, State,
                      StateByCounts, Valid)
from .assignments import assignment
from .contributions import FirmMarginal, Marginals, TradeMarginal, clarke, marginals
from .documents import Document
from .errors import (ABSENT, Fault, MarketError, NoMemory, NoProgram, ReadFailed, TimedOut, Unexpected, Usage, WriteFailed)
from .frames import from_lanes, from_networkx
from .given import DocumentWarning
from .none import Shown, no_prices
from .program import Asked, find
from .questions import ask, check, firms, judge, ranges, replay, session, solve, support, test
from .standing import highest, lowest, middle
from .streams import stream
from .tables import Trouble

__version__ = "2.1.0"

__all__ = [
    "ABSENT", "Accepted", "Answer", "Asked", "Better", "BetterByCounts", "Blocks", "Completes", "Cycle",
    "CycleByCounts", "Document", "DocumentWarning", "Drops", "Equilibrium", "ExchangeFails", "Fault", "Firm",
    "FirmByCounts", "FirmMarginal", "Firms", "FirmsByCounts", "Impossible", "Invalid", "Marginals", "MarketError",
    "NoMemory", "NoProgram", "Prices", "PricesByCounts", "Range", "RangeByCounts", "Ranges", "RangesByCounts",
    "ReadFailed", "Session", "SessionByCounts", "Shown", "Solved", "SolvedByCounts", "State", "StateByCounts",
    "TimedOut", "TradeMarginal", "Trouble", "Unexpected", "Usage", "Valid", "WriteFailed", "ask", "assignment",
    "check", "clarke", "find", "firms", "from_lanes", "from_networkx", "highest", "judge", "lowest", "marginals",
    "middle", "no_prices", "ranges", "replay", "session", "solve", "stream", "support", "test",
]
