"""What is wrong with a script, and with its calls of a module."""
from __future__ import annotations

import json
from typing import Any, Callable, Iterable, Iterator, Sequence

import files
from front import words as command
from front.words import Line
from wasabi_tools.binary import HEADER
from wasabi_tools.module import FunctionType, Module

TYPES = {"i": "i32", "l": "i64"}
KEYS = {"calls", "host", "globals", "pages", "depth", "steps"}
RANGES = {"pages": (0, 4096), "depth": (1, 100000), "steps": (1, 1000000000000)}
STEPS, PAGES, SLOTS = 10000000, 1024, 1000000
# What is longer takes more than a second to read as JSON.
LONGEST = 1 << 24
LEAST, MOST = -(1 << 63), (1 << 64) - 1


class Odd(str):
    """A number that is not written as a whole one."""


def whole(text: str) -> Odd | int:
    return Odd(text) if text == "-0" or len(text) > 40 else int(text)


def constant(text: str) -> None:
    raise json.JSONDecodeError("%s is no number in JSON" % text, "", 0)


def parse(data: bytes) -> tuple[Any, str | None]:
    """Returns the value of a JSON text and None, or None and what is wrong with it."""
    if data.startswith(b"\0asm"):
        return None, "it is a module"
    try:
        text = data.decode("utf-8")
    except UnicodeDecodeError as fault:
        return None, "its byte %d is not UTF-8" % fault.start
    if text.startswith("\ufeff"):
        return None, "it begins with a byte order mark: save it as UTF-8 without one"
    if not text.strip():
        return None, "it is empty"
    try:
        value = json.loads(text, parse_int=whole, parse_float=Odd, parse_constant=constant)
    except json.JSONDecodeError as fault:
        if not fault.doc:
            return None, fault.msg
        return None, "line %d, column %d: %s%s" % (fault.lineno, fault.colno, fault.msg[:1].lower() + fault.msg[1:], behind(fault))
    except RecursionError:
        return None, "it nests more than 127 deep"
    return value, "it nests more than 127 deep, or has a number that no double has or half of a surrogate pair" if is_odd(value) else None


def behind(fault: json.JSONDecodeError) -> str:
    """Returns what most often stands behind a fault: a comma before a closing bracket."""
    before, here = fault.doc[:fault.pos].rstrip(), fault.doc[fault.pos:].lstrip()[:1]
    return " (a comma stands before a closing %s)" % here if before.endswith(",") and here in "]}" and here else ""


def is_odd(value: Any, depth: int = 0) -> bool:
    """Returns whether a JSON value is one that the program does not read."""
    inner = list(value.values()) + list(value) if isinstance(value, dict) else value if isinstance(value, list) else []
    if isinstance(value, str) and not isinstance(value, Odd):
        return any(0xD800 <= ord(it) < 0xE000 for it in value)
    if isinstance(value, Odd):
        return float(value) in (float("inf"), float("-inf"))
    return depth > 127 or any(is_odd(it, depth + 1) for it in inner)


def wrong_number(what: str, value: Any, least: int = LEAST, most: int = MOST) -> Iterator[str]:
    """Yields what is wrong with a number."""
    if isinstance(value, Odd) or not isinstance(value, int) or isinstance(value, bool):
        yield "%s is %s; a number is a whole one, without quotes, a fraction or an exponent" % (what, shown(value))
    elif not least <= value <= most:
        yield "%s is %d; it must be %d to %d" % (what, value, least, most)


def shown(value: Any) -> str:
    return value if isinstance(value, Odd) else json.dumps(value, ensure_ascii=False)[:60]


def wrong_keys(what: str, value: Any, keys: Sequence[str]) -> Iterator[str]:
    """Yields what is wrong with the keys of an object that must have exactly some."""
    if not isinstance(value, dict):
        yield "%s is %s; it must be an object with %s" % (what, shown(value), " and ".join(keys))
        return
    for key in value:
        if key not in keys:
            yield "%s has the key %s%s" % (what, shown(key), command.nearest(key, keys))
    for key in keys:
        if key not in value:
            yield "%s lacks %s" % (what, key)


def wrong_list(what: str, value: Any, wrong: Callable[[str, Any], Iterable[str]]) -> Iterator[str]:
    """Yields what is wrong with a list; wrong: what yields it of an item."""
    if not isinstance(value, list):
        yield "%s is %s; it must be a list" % (what, shown(value))
        return
    for at, item in enumerate(value):
        yield from wrong("%s[%d]" % (what, at), item)


def wrong_call(what: str, call: Any) -> Iterator[str]:
    yield from wrong_keys(what, call, ["export", "args"])
    if isinstance(call, dict):
        if not isinstance(call.get("export", ""), str):
            yield "%s.export is %s; it must be a text" % (what, shown(call["export"]))
        yield from wrong_list(what + ".args", call.get("args", []), wrong_number)


def wrong_write(what: str, write: Any) -> Iterator[str]:
    if not (isinstance(write, list) and len(write) == 2 and isinstance(write[1], str)):
        yield '%s is %s; it must be like [1024, "00FF"]' % (what, shown(write))
        return
    yield from wrong_number(what + "[0]", write[0], 0, (1 << 32) - 1)
    if len(write[1]) % 2 or set(write[1]) - set("0123456789abcdefABCDEF"):
        yield "%s[1] is %s; it must be pairs of hexadecimal digits" % (what, shown(write[1]))


def wrong_answer(what: str, answer: Any) -> Iterator[str]:
    yield from wrong_keys(what, answer, ["results", "writes"])
    if isinstance(answer, dict):
        yield from wrong_list(what + ".results", answer.get("results", []), wrong_number)
        yield from wrong_list(what + ".writes", answer.get("writes", []), wrong_write)


def wrong_parts(script: Any) -> Iterator[str]:
    """Yields what is wrong with a script that is JSON, in the order in which the program looks."""
    if not isinstance(script, dict):
        yield "it is %s; it must be an object with calls" % shown(script)
        return
    if "calls" not in script and {"functions", "hooks"} <= set(script):
        yield "it is the information on an output; a script is an object with calls"
    for key in script:
        if key not in KEYS:
            yield "it has the key %s%s" % (shown(key), command.nearest(key, sorted(KEYS)))
    if "calls" not in script:
        yield "it lacks calls"
    yield from wrong_list("calls", script.get("calls", []), wrong_call)
    yield from wrong_list("host", script.get("host", []), wrong_answer)
    yield from wrong_list("globals", script.get("globals", []), wrong_number)
    for key, (least, most) in RANGES.items():
        if key in script:
            yield from wrong_number(key, script[key], least, most)


def signature(kind: FunctionType) -> str:
    """Returns how a function is called, in words."""
    params = [TYPES[it] for it in kind.params]
    return "%d argument%s%s" % (len(params), "" if len(params) == 1 else "s", " (%s)" % ", ".join(params) if params else "")


def wrong_calls(module: Module, calls: list[dict[str, Any]]) -> Iterator[str]:
    """Yields what is wrong with the calls of a script by the exports of its module."""
    for at, call in enumerate(calls):
        name, args = call["export"], call["args"]
        if name not in module.exports:
            known = sorted(module.exports)
            yield "call %d is of %s%s" % (at, shown(name), command.nearest(name, known) if known else "; the module exports no function")
            return
        kind = module.functions[module.exports[name]]
        if len(kind.params) != len(args):
            yield "call %d: %s takes %s, and is given %d" % (at, name, signature(kind), len(args))
            return
        for place, (param, arg) in enumerate(zip(kind.params, args)):
            bits = 32 if param == "i" else 64
            if not -(1 << bits - 1) <= arg < 1 << bits:
                yield "call %d: the argument %d of %s is %d, which no %s has" % (at, place, name, arg, TYPES[param])
                return


def wrong_room(module: Module, script: dict[str, Any]) -> Iterator[str]:
    """Yields what has no room: the memory, the table, or a segment in them."""
    pages = max([it[0] for it in module.memories], default=0)
    slots = max([it[0] for it in module.tables], default=0)
    most = script.get("pages", PAGES)
    if pages > most:
        yield "the memory begins with %d pages, and the script allows %d: \"pages\": %d allows them" % (pages, most, pages)
    elif slots > SLOTS:
        yield "the table has %d slots, and a run has at most %d" % (slots, SLOTS)
    for segments, what, room, unit in ((module.elements, "table", slots, "slots"), (module.contents, "memory", pages * 65536, "bytes")):
        for offset, content in segments:
            if offset is not None and (offset & 0xFFFFFFFF) + len(content) > room:
                yield "a segment of %d %s at %d ends beyond its %s, which has %d %s" % (len(content), unit, offset & 0xFFFFFFFF, what, room, unit)
                return


def wrong_script(line: Line, status: int) -> Iterator[str]:
    """Yields why a script is refused, or how a run of it goes on."""
    name = line.value("--script")
    data = files.read(name)
    if data is None or line.mode == "trial" or len(data) > LONGEST:
        return
    script, fault = parse(data)
    fault = fault or next(wrong_parts(script), None)
    if fault:
        yield "%s: %s" % (name, fault)
    elif status == 13:
        steps = script.get("steps", STEPS)
        yield "the run was not over after %d steps%s: \"steps\": N in %s gives it more, up to %d" % (
            steps, "" if "steps" in script else ", which are the default", name, RANGES["steps"][1])
        if line.mode in ("report", "record", "tree", "taint"):
            yield "the calls of hooks are steps too, so fewer groups take fewer"
    else:
        module = Module(files.read(line.subject) or HEADER)
        yield from wrong_calls(module, script["calls"]) if status == 10 else wrong_room(module, script)
