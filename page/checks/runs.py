"""Runs of the program: words and a document each, and what the program itself answers to them."""
import importlib
import json
import random
import subprocess
import sys
from dataclasses import dataclass, field
from pathlib import Path

ROOT = Path(__file__).resolve().parents[2]
sys.path[:0] = [str(ROOT / "tools"), str(ROOT / "package")]
from trading_networks.served import program_at  # noqa: E402

COMMANDS = [["check"], ["firms"], ["test"], ["support"], ["solve"], ["solve", "--csv"], ["solve", "--csv=wide"], ["range"], ["range", "--csv"], ["session"],
            ["firms", "--csv"], ["support", "--csv"], ["judge"], ["replay"]]
# Words that read nothing, or are no command; "solve " has a blank.
OTHERS = [["cases"], ["help"], ["help", "solve"], ["judge", "--help"], ["drill", "-h"], ["help", "solev"], ["-h"], ["--help"], ["--version"], [], [""], ["nonsense"], ["solve", "x"], ["solve", "--csv", "y"], ["judge", "--csv"], ["solve "],
          ["\u00e4", "\u20ac"], ["drill"], ["drill", "1", "0"], ["drill", "5", "7"], ["drill", "64", "2147483647"], ["drill", "65", "0"],
          ["drill", "0", "0"], ["drill", "x", "1"], ["drill", "03", "1"]]
# Documents that are none, or have more bytes than one may have.
ODD = {"no bytes": b"", "no UTF-8": b'{"version":1,"note":"\xff"}', "a byte order mark": b"\xef\xbb\xbf{}", "a zero byte": b"\0", "a word": b"null",
       "4 MiB and one": b" " * 4194305}


@dataclass
class Run:
    """One run, and what the program answers: its exit status, and the bytes that it writes."""
    name: str
    words: list[str]
    document: bytes
    status: int = field(default=-1)
    answer: bytes = field(default=b"")

    def told(self) -> str:
        return f"{' '.join(self.words) or '(no word)'}: {self.name}"


def answered(program: str, runs: list[Run]) -> list[Run]:
    """The runs, with what the program answers."""
    for run in runs:
        run.status, run.answer = program_at(program).ask(run.words, run.document)
    return runs


def of_examples() -> list[Run]:
    """Every example with every command, and the other words."""
    documents = {path.name: path.read_bytes() for path in sorted((ROOT / "examples").glob("*.json"))}
    one = documents["one-trade.json"]
    return ([Run(name, words, document) for name, document in {**documents, **ODD}.items() for words in COMMANDS]
            + [Run("one-trade.json", words, one) for words in OTHERS])


def drawn(count: int) -> list[Run]:
    """Documents that tools/fuzz draws, each with one command after another."""
    documents, counted = (importlib.import_module(f"fuzz_lib.{name}") for name in ("documents", "unit_documents"))
    examples, with_units = documents.example_texts(ROOT / "examples")
    runs = []
    for k in range(count):
        draw = random.Random(f"page-{k}")
        document, is_refused = counted.make_units(draw, with_units) if k % 6 == 5 else documents.make(draw, examples)
        text = json.dumps(document, ensure_ascii=k % 2 == 0).encode()
        text = documents.spoil(draw, text) if is_refused else text
        runs += [Run(f"drawn {k}", words, text) for words in (COMMANDS[k % len(COMMANDS)], COMMANDS[(k + 4) % len(COMMANDS)])]
    return runs


def filled(piece: str, begin: str, between: str, end: str) -> bytes:
    """A document of 4 MiB whose note is full of one piece."""
    head, tail, most = '{"version":1,"firms":[],"trades":[],"note":' + begin, end + "}", 4194304
    count = (most - len(head) - len(tail) + len(between)) // (len(piece) + len(between))
    return (head + between.join([piece] * count) + tail).ljust(most).encode()


def large() -> list[Run]:
    """Documents of 4 MiB: deep and wide notes, one long text, and what is no document."""
    deep, lists = '{"":' * 123 + "{}" + "}" * 123, "[" * 123 + "{}" + "]" * 123
    documents = {
        "objects in objects": filled(deep, "[", ",", "]"), "lists in lists": filled(lists, "[", ",", "]"), "small objects": filled('{"":0}', "[", ",", "]"),
        "numbers": filled("0", "[", ",", "]"), "texts": filled('"\\n"', "[", ",", "]"), "one text": filled("x", '"', "", '"'),
        "one member": filled('"a":0', "{", ",", "}"), "digits": filled("1", "0.", "", ""), "too many firms": b'{"version":1,"firms":[' + b",".join([b"{}"] * 1398000) + b"]}",
        "open lists": b"[" * 4194304, "zero bytes": b"\0" * 4194304}
    return [Run(name, ["solve"], document) for name, document in documents.items()]


def processor_time(program: str, document: bytes) -> float:
    """The median of 20 runs of solve, user and system, in milliseconds."""
    import resource
    import statistics
    spent = []
    for _ in range(20):
        before = resource.getrusage(resource.RUSAGE_CHILDREN)
        subprocess.run([program, "solve"], input=document, capture_output=True, check=True)
        after = resource.getrusage(resource.RUSAGE_CHILDREN)
        spent.append((after.ru_utime + after.ru_stime - before.ru_utime - before.ru_stime) * 1000)
    return statistics.median(spent)
