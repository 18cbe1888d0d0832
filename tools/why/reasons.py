"""Why a command of wasabi was refused, a sentence each.

It reads the files that the command names, if they are ordinary ones, and changes none. If it finds no cause, it says nothing: only the
program decides that a command is refused, and with which status.
"""
from __future__ import annotations

import contextlib
from typing import Iterator

import causes
import files
import scripts
from front.words import Line, wrong_words
from wasabi_tools.faults import Fault


def reasons(status: int, start: float, program: str, line: Line) -> Iterator[str]:
    """Yields the sentences on a command that a program ended with a status, begun at a time."""
    if status == 2:
        yield from wrong_words(line)
    elif status in (3, 4):
        yield from files.wrong_files(line)
    elif status == 5:
        yield from files.wrong_writes(line, start)
    with contextlib.suppress(Fault):  # a module that can't be read has another cause, of which another status tells
        if status in (10, 11, 13):
            yield from scripts.wrong_script(line, status)
        elif status in causes.OF:
            yield from causes.OF[status](program, line)
