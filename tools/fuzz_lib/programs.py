"""The program under trial, as it is asked, and what has to hold of every run: a status, one line or rows, and the first fault."""
import collections
import csv
import functools
import json
import os
import pathlib
import subprocess

from fuzz_lib.documents import NO
from fuzz_lib.faults import first_fault
from fuzz_lib.network import first_triple
from trading_networks.served import program_at

HOME = pathlib.Path(__file__).resolve().parent.parent.parent
ASKED = ("check", "firms", "test", "support", "solve", "judge", "range", "session")
STATUS = dict(fault=1, usage=2, read_fault=3, no_memory=5, **{answer: 6 for answer in NO})  # and 0 for all others
# the head of what a layout writes
LAYOUTS = {"solve --csv": "trade,on,price", "solve --csv=wide": "trade,seller,buyer,on,price",
           "support --csv": "trade,seller,buyer,on,price", "range --csv": "trade,seller,buyer,on,low,high",
           "firms --csv": "firm,content,worth,utility,best_utility,gain,has,best"}
COMMANDS = (*ASKED, "replay", *LAYOUTS)
MORE_ASKED = 6  # how many times as often as for rows, which take a process of their own
MOST_BUNDLES = 24  # of tables of which all triples are tried


class Unconfirmed(Exception):
    """An answer that something else contradicts."""


def want(so, *why):
    if not so:
        raise Unconfirmed(*why)


def status_of(answer):
    """The status that a run ends with which gives this answer."""
    is_no = answer["answer"] == "firms" and answer["content"] < len(answer["firms"])
    return 6 if is_no else STATUS.get(answer["answer"], 0)


class Program:
    """The program, and how often it gave which answer to which command."""

    def __init__(self, path):
        self.path, self.environment, self.counts, self.runs = str(path), {}, collections.Counter(), 0
        self.ends = [os.memfd_create(name) for name in ("input", "output", "errors")]

    def start(self, words, text):
        """The status of a run on a text, with what it wrote: by posix_spawn over files in memory, which is quick."""
        for end in self.ends:
            os.ftruncate(end, 0)
            os.lseek(end, 0, os.SEEK_SET)
        os.pwrite(self.ends[0], text, 0)
        ends = [(os.POSIX_SPAWN_DUP2, end, k) for k, end in enumerate(self.ends)]
        child = os.posix_spawn(self.path, [self.path, *words.split()], self.environment, file_actions=ends)
        status = os.waitstatus_to_exitcode(os.waitpid(child, 0)[1])
        return status, *(os.pread(end, os.fstat(end).st_size, 0) for end in self.ends[1:])

    def say(self, words, text):
        """The answer to a text, or its rows, which have their status and are nothing but one line, or but lines of fields."""
        status, output, errors = self.start(words, text)
        self.runs += 1
        want(errors == b"", "text on standard error", words, errors)
        if output.startswith((b"trade,", b"firm,")):
            want(output.startswith(LAYOUTS[words].encode() + b"\n"), "the head of rows", words, output)
            rows = list(csv.reader(output.decode().splitlines()))[1:]
            is_no = words == "firms --csv" and any(row[1] == "0" for row in rows)
            want(status == (6 if is_no else 0), "the status of rows", words, status)
            self.counts[words, "rows"] += 1
            return output.decode()
        want(output.endswith(b"\n") and output.count(b"\n") == 1, "not one line", words, output)
        answer = json.loads(output)
        want(status in (status_of(answer), None), "the status", words, answer, status)
        self.counts[words, answer["answer"]] += 1
        return answer

    def run(self, words, text):
        """The same, and a fault is answered exactly where there is one, and is the first."""
        said = self.say(words, text)
        hold_fault(words, text, {"answer": "rows"} if isinstance(said, str) else said)
        return said

    def ask(self, words, document, **members):
        return self.run(words, json.dumps({**document, **members}).encode())

    def again(self, words, document, **members):
        """What is said of a document without a fault, with another part, where one answer is wanted: so no fault is looked for."""
        return self.say(words, json.dumps({**document, **members}).encode())


class LineProgram(Program):
    """The same with one process for each command, which answers line by line, so that a document takes no start; it has one
    status for all, so those lines have none. What has a line end within, and what asks for rows, has a process of its own still."""

    def __init__(self, path):
        super().__init__(path)
        self.processes = {}

    def start(self, words, text):
        if b"\n" in text or not text.strip() or " " in words:
            return super().start(words, text)
        if words not in self.processes:
            ends = dict(stdin=subprocess.PIPE, stdout=subprocess.PIPE, stderr=self.ends[2], env=self.environment)
            self.processes[words] = subprocess.Popen([self.path, words, "--lines"], **ends)
        process = self.processes[words]
        process.stdin.write(text + b"\n")
        process.stdin.flush()
        output = process.stdout.readline()
        return None, output, os.pread(self.ends[2], os.fstat(self.ends[2]).st_size, 0)


class ServedProgram(Program):
    """The page's module, of which one process answers all."""

    def start(self, words, text):
        return *program_at(self.path).ask(words.split(), text), b""


@functools.lru_cache(maxsize=10_000)
def first_shown(worths, bought, own):
    """The first failing triple of a table, by trades; None where none fails."""
    triple = first_triple(dict(worths), bought, (1 << len(own)) - 1)
    if triple is None:
        return None
    x, y, at = ([name for k, name in enumerate(own) if part >> k & 1] for part in triple)
    return dict(x=x, y=y, at=at[0] if at else None)


def hold_fault(words, text, said):
    """A fault is the first one, and where there is one it is answered."""
    def triple_of(firm, place, own, buys):
        if len(firm["rows"]) > MOST_BUNDLES:  # too many triples to try them all
            is_said = said.get("fault") == 16 and said["place"] == place
            return {member: said[member] for member in ("x", "y", "at")} if is_said else None
        worths = {0: 0, **{sum(1 << own.index(name) for name in names): number for names, number in firm["rows"]}}
        return first_shown(tuple(sorted(worths.items())), sum(1 << own.index(name) for name in buys), tuple(own))

    if said["answer"] not in ("usage", "read_fault", "no_memory"):
        fault = first_fault(words, text, triple_of)
        want(said == (fault or said) and (fault is not None) == (said["answer"] == "fault"), "the first fault", words, said, fault)
