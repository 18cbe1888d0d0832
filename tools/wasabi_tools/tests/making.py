"""Modules and traces that tests make by hand."""
from __future__ import annotations

import contextlib
import io
import tempfile
from pathlib import Path
from typing import Iterable, Iterator, List, Tuple

from wasabi_tools.__main__ import main
from wasabi_tools.binary import module, signed, sized, unsigned, vector
from wasabi_tools.traces import TAGS, Trace

MADE = Path(__file__).parent / "made"
EXAMPLES = Path(__file__).resolve().parents[3] / "examples"


def event(name: str, func: int, position: int, *fields: bytes) -> bytes:
    return bytes([TAGS[name]]) + unsigned(func) + signed(position) + b"".join(fields)


def begin(func: int, position: int = -1, kind: int = 0) -> bytes:
    return event("begin", func, position, bytes([kind]))


def end(func: int, position: int, kind: int = 0, begun: int = -1) -> bytes:
    return event("end", func, position, bytes([kind]), signed(begun))


def values(*numbers: int) -> bytes:
    return vector([b"\x7f" + signed(it) for it in numbers])


def call(func: int, position: int, callee: int, *args: int) -> bytes:
    return event("call_pre", func, position, unsigned(callee), values(*args))


def returned(func: int, position: int, *results: int) -> bytes:
    return event("call_post", func, position, values(*results))


def load(func: int, position: int, address: int, opcode: int = 0x28) -> bytes:
    return event("load", func, position, bytes([opcode]), unsigned(0), unsigned(address), b"\x7f\0")


def store(func: int, position: int, address: int) -> bytes:
    return event("store", func, position, b"\x36", unsigned(0), unsigned(address), b"\x7f\0")


def trace_bytes(events: Iterable[bytes]) -> bytes:
    listed = list(events)
    return b"WTR1" + b"".join(listed) + b"\0" + unsigned(len(listed))


@contextlib.contextmanager
def trace_of(events: Iterable[bytes]) -> Iterator[Trace]:
    with tempfile.TemporaryDirectory() as folder:
        path = Path(folder) / "t"
        path.write_bytes(trace_bytes(events))
        yield Trace(path)


def functions(bodies: List[bytes], imports: Iterable[Tuple[str, str]] = (), type_: bytes = b"\x60\0\0") -> bytes:
    """A module of functions of one type, given by their code, behind imported ones."""
    imported = [sized(a.encode()) + sized(b.encode()) + b"\0\0" for a, b in imports]
    return module([
        (1, vector([type_])), *([(2, vector(imported))] if imported else []), (3, vector([b"\0"] * len(bodies))),
        (10, vector([sized(b"\0" + it + b"\x0B") for it in bodies])),
    ])


def ran(*words: str) -> Tuple[int, str, str]:
    """The status of a command of the package, and what it prints on standard output and on standard error."""
    out, err = io.TextIOWrapper(io.BytesIO(), "utf-8"), io.StringIO()
    with contextlib.redirect_stdout(out), contextlib.redirect_stderr(err):
        status = main(list(words))
    out.flush()
    return status, out.buffer.getvalue().decode("utf-8"), err.getvalue()  # type: ignore[attr-defined]
