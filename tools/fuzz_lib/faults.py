"""The first fault of a document, by the words of docs/FORMAT.md alone: `first_fault`. Nothing here looks at the program."""
from fuzz_lib.reader import Fault, Reader, value_of
from fuzz_lib.unit_reader import COUNTING, UnitReader, has_units


def first_fault(words, text, triple_of):
    """What a command answers where the bytes have a fault, and otherwise None.

    `triple_of(firm, place, own, buys)`, with the place as an answer shows it, gives the triple at which a table fails exchange, as `x`, `y` and `at`, or None.
    """
    command = words.split()[0]
    try:
        top = value_of(text)
        (UnitReader if command in COUNTING and has_units(top) else Reader)(command, top, triple_of).read()
    except Fault as fault:
        return fault.answer
