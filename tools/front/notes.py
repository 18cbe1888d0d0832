"""What of a command that was done had no effect."""
from __future__ import annotations

import json
import os
from pathlib import Path
from typing import Any, Iterator

from front import table
from front.words import Line

LONGEST_READ = 1 << 24
EMPTY_TRACE = b"WTR1\0"


def read(name: str | None) -> bytes | None:
    """The bytes of an ordinary file that is not long."""
    try:
        if name is not None and os.path.isfile(name) and os.path.getsize(name) <= LONGEST_READ:
            return Path(name).read_bytes()
    except OSError:
        pass
    return None


def object_in(name: str | None) -> dict[str, Any]:
    """The JSON object in a file; empty if there is none."""
    try:
        value = json.loads(read(name) or b"{}")
    except (ValueError, RecursionError):
        return {}
    return value if isinstance(value, dict) else {}


def ignored(line: Line, mode: table.Mode) -> Iterator[str]:
    takes = [it.name for it in table.taken(mode.name)]
    unused = [it for it, _ in line.options if it not in takes]
    if unused:
        yield f"the mode {mode.name} ignores: {' '.join(unused)}"


def idle_script(line: Line) -> Iterator[str]:
    if object_in(line.value("--script")).get("calls") == []:
        yield f"{line.value('--script')} has no call"


def idle_reports(line: Line) -> Iterator[str]:
    """Which reports are of groups that the information lacks."""
    groups = object_in(line.value("--info")).get("groups")
    asked = (line.value("--reports") or "all").split(",")
    if isinstance(groups, list):
        told = set(map(str, groups))
        wanted = [it for it in table.KINDS if "all" in asked or it.name in asked]
        idle = [it.name for it in wanted if not set(it.groups.split()) & told]
        if idle:
            yield f"the output lacks the hooks for these reports, which count nothing: {' '.join(idle)}"


def idle_trace(name: str | None) -> Iterator[str]:
    if name is not None and os.path.isfile(name):
        with open(name, "rb") as file:
            if file.read(len(EMPTY_TRACE)) == EMPTY_TRACE:
                yield f"{name} has no event"


def idle_names(line: Line) -> Iterator[str]:
    """Whether names were kept where there are none."""
    data = read(line.subject) if line.value("--names") == "keep" else None
    if data is not None:
        from wasabi_tools.module import Module

        if not any(Module(data).named()):
            yield f"{line.subject} has no names of functions that could be kept"


def notes(line: Line, mode: table.Mode) -> Iterator[str]:
    """Yields what had no effect, a sentence each."""
    yield from ignored(line, mode)
    takes = [it.name for it in table.taken(mode.name)]
    if "--out" in takes and line.value("--out") == "-":
        yield "the file is written under the name -; for a pipe, open another file than standard output: --out /dev/fd/3 3>FILE"
    if "--script" in takes:
        yield from idle_script(line)
    if "--names" in takes:
        yield from idle_names(line)
    if mode.name == "report":
        yield from idle_reports(line)
    if mode.name in ("record", "replay"):
        yield from idle_trace(line.value("--out") if mode.name == "record" else line.subject)
    if mode.name == "taint" and not (line.has("--sources") and line.has("--sinks")):
        yield "without --sources and --sinks there is no warning"
