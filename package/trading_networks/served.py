"""The program as a function of words and a document. The page's module takes a quarter of a second to start under node, so one process
of it answers all (`page/market.mjs --serve`); any other program is a process for each question.
"""
from __future__ import annotations

import atexit
import errno
import functools
import json
import os
import subprocess
import threading
from typing import Union


class Native:
    """A program with a process of its own for each question."""

    def __init__(self, path: str):
        self.path = path

    def ask(self, words: list[str], document: bytes) -> tuple[int, bytes]:
        """The exit status and the bytes that are written."""
        ended = subprocess.run([self.path, *words], input=document, stdout=subprocess.PIPE, stderr=subprocess.DEVNULL, check=False)
        return ended.returncode, ended.stdout


class Served:
    """The page's module: one process answers all questions."""

    def __init__(self, path: str):
        process = subprocess.Popen([*words_for(path), "--serve"], stdin=subprocess.PIPE, stdout=subprocess.PIPE,
                                   stderr=subprocess.DEVNULL)
        assert process.stdin is not None and process.stdout is not None
        self.process, self.input, self.output = process, process.stdin, process.stdout
        self.turn = threading.Lock()
        atexit.register(self.end)

    def ask(self, words: list[str], document: bytes) -> tuple[int, bytes]:
        """The exit status and the bytes that are written. Raises OSError where the process has ended; the next question begins one."""
        with self.turn:
            self.input.write(f"{len(document)} {json.dumps(words)}\n".encode() + document)
            self.input.flush()
            head = self.output.readline()
            if head == b"":
                program_at.cache_clear()
                raise OSError(errno.EPIPE, "the process of the module has ended")
            status, length = head.split()
            return int(status), self.output.read(int(length))

    def end(self) -> None:
        """Ends the process."""
        self.input.close()
        self.process.wait()


def is_module(path: str) -> bool:
    """Whether a program is the page's module, which node runs."""
    return str(path).endswith(".mjs")


def words_for(path: str) -> list[str]:
    """The words that run a program. A module that can't be executed itself, as an installed one, is run by node's name."""
    return ["node", path] if is_module(path) and not os.access(path, os.X_OK) else [path]


@functools.lru_cache(maxsize=None)
def program_at(path: str) -> Union[Native, Served]:
    """The program at a path, to be asked."""
    return Served(path) if is_module(path) else Native(path)
