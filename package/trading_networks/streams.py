"""One question about any number of documents, by one process."""
from __future__ import annotations

import contextlib
import os
import queue
import select
import subprocess
import threading
import time
from collections.abc import Iterable, Iterator, Mapping
from typing import IO, Any, Literal, Optional, Union, overload

from .answers import (KINDS, NOES, Accepted, Answer, Better, Blocks, Completes, Cycle, Drops, Equilibrium, ExchangeFails,
                      Firms, Impossible, Invalid, Prices, Ranges, Session, Solved, Valid, object_of)
from .errors import Fault, MarketError, NoMemory, NoProgram, TimedOut, cause_of, parsed
from .program import YES, Asked, Path, bytes_of, find
from .served import words_for

Told = Union[Fault, NoMemory]
"""What comes in a stream in place of an answer."""


@overload
def stream(command: Literal["solve"], documents: Iterable[Asked], *, program: Optional[Path] = None,
           timeout: Optional[float] = None) -> Iterator[Union[Solved, Told]]: ...
@overload
def stream(command: Literal["range"], documents: Iterable[Asked], *, program: Optional[Path] = None,
           timeout: Optional[float] = None) -> Iterator[Union[Ranges, Told]]: ...
@overload
def stream(command: Literal["firms"], documents: Iterable[Asked], *, program: Optional[Path] = None,
           timeout: Optional[float] = None) -> Iterator[Union[Firms, Told]]: ...
@overload
def stream(command: Literal["check"], documents: Iterable[Asked], *, program: Optional[Path] = None,
           timeout: Optional[float] = None) -> Iterator[Union[Equilibrium, Better, Impossible, Told]]: ...
@overload
def stream(command: Literal["support"], documents: Iterable[Asked], *, program: Optional[Path] = None,
           timeout: Optional[float] = None) -> Iterator[Union[Prices, Impossible, Cycle, Told]]: ...
@overload
def stream(command: Literal["test"], documents: Iterable[Asked], *, program: Optional[Path] = None,
           timeout: Optional[float] = None) -> Iterator[Union[Accepted, ExchangeFails, Told]]: ...
@overload
def stream(command: Literal["judge"], documents: Iterable[Asked], *, program: Optional[Path] = None,
           timeout: Optional[float] = None) -> Iterator[Union[Drops, Completes, Blocks, Told]]: ...
@overload
def stream(command: Literal["session"], documents: Iterable[Asked], *, program: Optional[Path] = None,
           timeout: Optional[float] = None) -> Iterator[Union[Session, Told]]: ...
@overload
def stream(command: Literal["replay"], documents: Iterable[Asked], *, program: Optional[Path] = None,
           timeout: Optional[float] = None) -> Iterator[Union[Valid, Invalid, Told]]: ...
@overload
def stream(command: str, documents: Iterable[Asked], *, program: Optional[Path] = None,
           timeout: Optional[float] = None) -> Iterator[Union[Answer, Told]]: ...


def stream(command: str, documents: Iterable[Asked], *, program: Optional[Path] = None,
           timeout: Optional[float] = None) -> Iterator[Any]:
    """The answers to documents, in their order, all by one process; each comes as soon as it is made.

    command: check, test, support, solve, range, session, judge, replay or firms.
    documents: an iterable of documents, and not one document. A thread goes through it, some documents ahead of the
    answers.
    timeout: for the answer to one document, in seconds.

    What is the matter with one document ends no stream: its Fault or NoMemory comes in place of the answer, with `yes`
    None. All else is raised, after the answers that came before: a MarketError has their count as `answered`; what
    `documents` raises, or for one that is none (see `ask`), is as it is. Closing the generator ends the process.
    """
    if isinstance(documents, (str, bytes, os.PathLike, Mapping)) or not isinstance(documents, Iterable):
        raise TypeError(f"stream wants several documents, and here is one {type(documents).__name__}: write "
                        f"stream({command!r}, [document])")
    return _answers(command, documents, program, timeout)


def _answers(command: str, documents: Iterable[Asked], program: Optional[Path],
             timeout: Optional[float]) -> Iterator[Union[Answer, Told]]:
    """What `stream` yields."""
    process = _started([*words_for(find(program)), *command.split(), "--lines"])
    output = process.stdout
    assert output is not None
    sent: queue.SimpleQueue[Union[bytes, BaseException, None]] = queue.SimpleQueue()  # at last None, or what was raised
    writer = threading.Thread(target=_write, args=(documents, process, sent), daemon=True)
    writer.start()
    asked: Union[bytes, BaseException, None]
    answered, lines = 0, _lines(output, timeout)
    error: MarketError
    try:
        while (asked := sent.get()) is not None:
            if isinstance(asked, BaseException):
                raise asked
            line = next(lines, b"")
            item = _item(parsed(line), asked)
            if item is None:
                break
            yield item
            answered += 1
        else:
            line = next(lines, b"")
            if not line and process.wait(timeout) in (YES, 1, 5):
                return
        output.close()  # (so that it doesn't wait to be read)
        status, written = process.wait(timeout), line.decode(errors="replace")
        error = cause_of(status)(f"{command} ended with status {status}, after {answered}: {written}")
    except subprocess.TimeoutExpired:
        error = TimedOut(f"{command} took longer than {timeout} s, after {answered}")
    finally:
        process.kill()
        process.wait()
        output.close()
        writer.join(1)  # (it may wait for the next of `documents`, and then ends)
    error.answered = answered
    raise error


def _started(words: list[str]) -> subprocess.Popen[bytes]:
    try:
        return subprocess.Popen(words, stdin=subprocess.PIPE, stdout=subprocess.PIPE)
    except OSError as error:
        raise NoProgram(f"{words[0]}: {error.strerror}") from error


def _write(documents: Iterable[Asked], process: subprocess.Popen[bytes],
           sent: queue.SimpleQueue[Union[bytes, BaseException, None]]) -> None:
    """Writes each document as a line. A carriage return for a line feed changes no answer: it is as blank between the
    parts of a document, and as wrong within a text of it."""
    last: Optional[BaseException] = None
    assert process.stdin is not None
    try:
        for asked in map(bytes_of, documents):
            sent.put(asked)
            with contextlib.suppress(BrokenPipeError):  # (told where the answer is waited for)
                process.stdin.write(asked.replace(b"\n", b"\r") + b"\n")
                process.stdin.flush()
            if process.poll() is not None:
                break
    except BaseException as error:  # (whatever it is, it is raised where the answer is waited for)
        last = error
    with contextlib.suppress(OSError):
        process.stdin.close()
    sent.put(last)


def _lines(output: IO[bytes], timeout: Optional[float]) -> Iterator[bytes]:
    """The lines that a process writes; each has the time that is given."""
    ready, rest = select.poll(), b""
    ready.register(output, select.POLLIN)
    begun = time.monotonic()
    while ready.poll(timeout and 1000 * max(0.0, begun + timeout - time.monotonic())):
        piece = os.read(output.fileno(), 65536)
        *whole, rest = (rest + piece).split(b"\n")
        for line in whole:
            yield line
            begun = time.monotonic()
        if not piece:
            yield from filter(None, [rest])
            return
    raise subprocess.TimeoutExpired("market", timeout or 0)


def _item(said: Any, asked: bytes) -> Union[Answer, Fault, NoMemory, None]:
    """A line as an item of a stream, or None where it is no answer to a document."""
    kind = said.get("answer") if isinstance(said, dict) else None
    if kind == "fault":
        return Fault(said, asked)
    if kind == "no_memory":
        return NoMemory("memory ran out for this document")
    if kind == "firms":
        return object_of(said, asked, said["content"] == len(said["firms"]))
    return object_of(said, asked, kind not in NOES) if kind in KINDS else None
