"""A line on standard error that says what is being done, from two seconds on."""
from __future__ import annotations

import sys
import threading
import time

AFTER, EVERY = 2.0, 1.0  # seconds


class Progress:
    """Says what is being done, where it takes longer: on a terminal in one line, and otherwise in a line for each task."""

    def __init__(self) -> None:
        self._begun, self._text, self._told = time.monotonic(), "", ""
        self._is_terminal, self._is_over = sys.stderr.isatty(), threading.Event()
        self._thread = threading.Thread(target=self._run, daemon=True)

    def __enter__(self) -> Progress:
        self._thread.start()
        return self

    def __exit__(self, *_: object) -> None:
        self._is_over.set()
        self._thread.join()
        if self._is_terminal and self._told:
            print("\r\x1b[K", end="", file=sys.stderr)

    def say(self, text: str) -> None:
        """What is being done now; a task is what stands before the colon."""
        self._text = text

    def _run(self) -> None:
        wait = AFTER
        while not self._is_over.wait(wait):
            wait = EVERY
            text = f"lanes: {time.monotonic() - self._begun:.0f} s: {self._text}"
            if self._is_terminal:
                print(f"\r\x1b[K{text}", end="", file=sys.stderr, flush=True)
            elif self._text.split(":")[0] != self._told:
                print(text, file=sys.stderr, flush=True)
            self._told = self._text.split(":")[0]
