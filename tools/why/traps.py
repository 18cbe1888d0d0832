"""At which instruction a call of a script trapped: the module is instrumented with all hooks in a folder of its own, and run once more.

With all hooks each instruction that is done tells an event, so the one that trapped comes behind that of the last event. It is named
only if it is one that traps for the cause that the program prints.
"""
from __future__ import annotations

import collections
import json
import os
import re
import resource
import subprocess
import tempfile
import time
from typing import TYPE_CHECKING, Any, Iterator, Sequence

import files
import scripts
from front.words import Line
from search import named
from wasabi_tools.faults import Fault
from wasabi_tools.module import Module

if TYPE_CHECKING:
    from wasabi_tools.traces import Event

# The seconds are of a processor, and for all commands together; the clock may show more of them on a machine that is busy.
LARGEST_MODULE, LONGEST_TRACE, SECONDS, WAIT = 1 << 20, 1 << 20, 1, 20
NUMBERS = [*range(0x6D, 0x71), *range(0x7F, 0x83)]
TRAPS: dict[str, Sequence[int]] = {
    "unreachable": [0], "divide by zero": NUMBERS, "integer overflow": NUMBERS, "out of bounds": range(0x28, 0x3F),
    "no slot": [0x11], "empty slot": [0x11], "wrong type": [0x11], "call depth": [0x10, 0x11],
}


def last_event(path: str) -> Event | None:
    """Returns the last event of a trace, or None if there is none or it is a stray."""
    from wasabi_tools.traces import Trace  # (only here, because it takes a while)
    events = collections.deque(Trace(path).events(), maxlen=1)
    return events[0] if events and events[0].name != "stray" else None


class Runs:
    """Runs of the output of a module with all hooks, in a folder, till a time."""

    def __init__(self, program: str, folder: str) -> None:
        self.program, self.folder, self.end = program, folder, time.monotonic() + WAIT

    def path(self, name: str) -> str:
        return os.path.join(self.folder, name)

    def run(self, *words: str) -> tuple[int, str]:
        left = max(self.end - time.monotonic(), 0.01)
        used = resource.getrusage(resource.RUSAGE_CHILDREN)
        if used.ru_utime + used.ru_stime > SECONDS:
            raise subprocess.TimeoutExpired(words, SECONDS)
        limit = lambda: resource.setrlimit(resource.RLIMIT_CPU, (SECONDS, SECONDS))
        done = subprocess.run([self.program, *words], capture_output=True, timeout=left, check=False, preexec_fn=limit)
        return done.returncode, done.stdout.decode("utf-8", "replace")

    def record(self, script: dict[str, Any]) -> str:
        """Returns what is printed of a run by a script whose steps do not end it."""
        with open(self.path("s.json"), "w", encoding="utf-8") as file:
            json.dump({**script, "steps": scripts.RANGES["steps"][1]}, file)
        names = ["--info", self.path("b.json"), "--script", self.path("s.json"), "--out", self.path("t")]
        return self.run("record", self.path("b.wasm"), *names, "--max-output", str(LONGEST_TRACE))[1]


def first_trap(text: str) -> tuple[int, str] | None:
    """Returns the number of the first call that trapped, -1 for the start, and the cause; None if none did."""
    found = re.search(r"^(?:start|call (\d+) .*): trap ([a-z ]+)$", text, re.M)
    return (int(found[1] or -1), found[2]) if found else None


def place_behind(event: Event, blocks: list[list[int]]) -> int | None:
    """Returns the position of the instruction that comes behind an event, by the blocks of its function."""
    position, target = event.position, event.fields.get("target")
    if position is None or event.name in ("unreachable", "call_pre", "call_indirect_pre"):
        return position
    if event.name == "br_table":
        return target if isinstance(target, int) else None
    if event.name == "if" and not event.fields["condition"]:
        return next(it[3] for it in blocks if it[1] == position)
    return position + 1


def trap_of(runs: Runs, data: bytes, script: dict[str, Any]) -> Iterator[str]:
    """Yields the instruction that trapped first in the run of a script."""
    trap = first_trap(runs.record(script))
    if trap and trap[0] + 1 < len(script["calls"]):
        script = {**script, "calls": script["calls"][:trap[0] + 1]}
        trap = first_trap(runs.record(script))
    if not trap:
        return
    event = last_event(runs.path("t"))
    if event is None or event.func is None:
        return
    blocks = json.loads(files.read(runs.path("b.json")) or b"{}")["functions"][event.func][2]
    place, module = place_behind(event, blocks), Module(data)
    body = module.body(event.func)
    if place is not None and place < len(body) and body[place].opcode in TRAPS.get(trap[1], []):
        yield "the first trap, %s, was in %s at position %d, byte %#x of the file" % (trap[1], named(module, event.func), place, body[place].offset)


def trapped(program: str, line: Line) -> Iterator[str]:
    """Yields the place at which a run trapped first, if that is found in a few seconds."""
    if line.mode in ("report", "record", "tree"):
        yield "run looks for the instruction that trapped, if it is given the module that %s was made from" % line.subject
    data, text = files.read(line.subject), files.read(line.value("--script"))
    if line.mode not in ("run", "taint") or line.subject is None or data is None or text is None:
        return
    found = []
    try:
        with tempfile.TemporaryDirectory() as folder:
            runs, script = Runs(program, folder), scripts.parse(text)[0]
            names = ["--out", runs.path("b.wasm"), "--info", runs.path("b.json")]
            if len(data) <= LARGEST_MODULE and runs.run("instrument", *names, "--", line.subject)[0] == 0:
                found = list(trap_of(runs, data, script))
    except (subprocess.TimeoutExpired, OSError, LookupError, TypeError, StopIteration, Fault):
        pass
    yield from found or [
        "the instruction that trapped is not found at once; the trace that record makes of an output with all hooks ends right before the last trap"]
