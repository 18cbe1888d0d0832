"""The calls of a trace as Chrome's trace events, which chrome://tracing, Perfetto and speedscope show on a timeline.

An event counts as a microsecond, so with more groups a width comes nearer to the number of instructions. What is open when a call traps
ends there. Only the group call shows that another call begins then.
"""
from __future__ import annotations

import json
from typing import Iterator, List, Optional

from wasabi_tools.calls import check_groups, with_entries
from wasabi_tools.information import Information
from wasabi_tools.profiles import Names
from wasabi_tools.traces import Trace


def row(phase: str, func: int, time: int, names: Names) -> str:
    return json.dumps({"name": names.of(func), "cat": "wasm", "ph": phase, "ts": time, "pid": 1, "tid": 1, "args": {"function": func}})


def phases(trace: Trace, names: Names, has_calls: bool) -> Iterator[str]:
    """The begin and the end of each function, at the number of its event."""
    opened: List[int] = []
    time = -1
    for time, (event, entry) in enumerate(with_entries(trace.events(), has_calls)):
        if entry:
            while opened:
                yield row("E", opened.pop(), time, names)
        if event.is_function and event.name == "begin" and event.func is not None:
            opened.append(event.func)
            yield row("B", event.func, time, names)
        elif event.is_function and event.name == "end" and opened:
            yield row("E", opened.pop(), time, names)
    while opened:
        yield row("E", opened.pop(), time + 1, names)


def chrome(trace: Trace, names: Names, information: Optional[Information]) -> Iterator[str]:
    groups = check_groups(set(trace.names()), information, str(trace.path))
    yield '{"displayTimeUnit": "ns", "traceEvents": ['
    last = None
    for told in phases(trace, names, "call" in groups):
        if last is not None:
            yield last + ","
        last = told
    yield from [] if last is None else [last]
    yield "]}"
