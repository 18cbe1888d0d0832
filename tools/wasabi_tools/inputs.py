"""Files that a command names, and standard input."""
from __future__ import annotations

import sys
import time
from pathlib import Path
from typing import Union

from wasabi_tools.faults import Fault


def read_bytes(path: Union[str, Path]) -> bytes:
    try:
        return Path(path).read_bytes()
    except OSError as fault:
        raise Fault(f"{path} can't be read: {(fault.strerror or str(fault)).lower()}") from None


def read_text(path: Union[str, Path]) -> str:
    """The text of a file in UTF-8; - is standard input."""
    data = sys.stdin.buffer.read() if str(path) == "-" else read_bytes(path)
    try:
        return data.decode("utf-8")
    except UnicodeDecodeError:
        raise Fault(f"{'standard input' if str(path) == '-' else path} is no text in UTF-8") from None


def note(sentence: str) -> None:
    """A word on standard error."""
    print(f"wasabi: {sentence}", file=sys.stderr, flush=True)


class Progress:
    """How far a long work is, on a terminal: a line that is written again, from the first second on."""

    def __init__(self, what: str) -> None:
        self.what, self.is_shown = what, False
        self.next = time.monotonic() + 1 if sys.stderr.isatty() else float("inf")

    def tell(self, done: int, whole: int) -> None:
        if time.monotonic() >= self.next:
            print(f"\rwasabi: {self.what}: {100 * done // max(whole, 1)} %", end="", file=sys.stderr, flush=True)
            self.next, self.is_shown = time.monotonic() + 0.5, True

    def end(self) -> None:
        if self.is_shown:
            print("\r" + " " * (len(self.what) + 20), end="\r", file=sys.stderr, flush=True)
