"""What rows state of an output, its information, its report and its hook calls, and what of that does not hold."""
from __future__ import annotations

import json
import os
import re
import shutil
import subprocess
import sys
from collections import Counter
from pathlib import Path
from typing import Any, Dict, Iterator, List, Optional

HERE = Path(__file__).resolve().parent
TOP = HERE.parent
sys.path.insert(0, str(TOP / "tools"))
from wasabi_tools.module import HOOKS, Module  # noqa: E402

Row = Dict[str, Any]
Files = Dict[str, bytes]
HAS_NODE = shutil.which("node") is not None
GROUPS = [
    "start", "nop", "unreachable", "if", "br", "br_if", "br_table", "begin", "end", "const", "unary", "binary", "drop",
    "select", "local", "global", "load", "store", "memory_size", "memory_grow", "call", "return",
]


def told_of(data: bytes) -> Dict[str, Any]:
    """What rows say of an output, by their keys."""
    module = Module(data)
    hooks = [it for it in module.imports if it.module == HOOKS]
    own = [it.type for it in module.imports if it.module != HOOKS]
    return {
        "hooks": [it.name for it in hooks],
        "hook_types": [module.types[it.type].params for it in hooks],
        "hook_count": len(hooks),
        "imports": len(own),
        "types": [list(module.types[it]) for it in own + module.defined],
        "elements": [it.content for it in module.elements],
        "exports": module.exports,
        "bodies": {str(place): module.bytes_of(func) for place, func in enumerate(module.defined_functions())},
    }


def wrong_output(row: Row, data: bytes) -> Iterator[str]:
    """Which keys of a row its output does not meet."""
    told = told_of(data)
    for key in ("hooks", "hook_types", "hook_count", "elements"):
        if key in row and told[key] != row[key]:
            yield f"{key}: {told[key]}, not {row[key]}"
    for name, index in row.get("exports", {}).items():
        if told["exports"].get(name) != index:
            yield f"{name} is exported for function {told['exports'].get(name)}"
    bodies = told["bodies"]
    for at, form in row.get("bodies", {}).items():
        if bodies.get(at) != bytes.fromhex(form):
            yield f"body {at} is {bodies.get(at, b'').hex()}"
    for at, form in row.get("bodies_start", {}).items():
        if not bodies.get(at, b"").startswith(bytes.fromhex(form)):
            yield f"body {at} begins otherwise"
    for at, forms in row.get("bodies_contain", {}).items():
        yield from (f"body {at} lacks {form}" for form in forms if bytes.fromhex(form) not in bodies.get(at, b""))


def groups_named(words: List[str]) -> List[str]:
    """The groups that a command selects, in their order."""
    named = words[words.index("--hooks") + 1] if "--hooks" in words else "all"
    return [it for it in GROUPS if named == "all" or it in named.split(",")]


def compact(value: Any) -> bytes:
    """The JSON text of a value with its keys in order and no spaces."""
    return json.dumps(value, separators=(",", ":"), sort_keys=True, ensure_ascii=False).encode("utf-8")


def object_of(text: bytes) -> Dict[str, Any]:
    """The object that a JSON text holds, without keys if the text holds no object."""
    try:
        value = json.loads(text)
    except ValueError:
        return {}
    return value if isinstance(value, dict) else {}


def wrong_information(words: List[str], before: Files, after: Files) -> Iterator[str]:
    """What is wrong with the information that a command wrote; before and after: the files by their names."""
    if words[0] not in ("wasabi", "program") or words[1:2] != ["instrument"] or "--info" not in words:
        return
    info_name, out_name = (os.path.normpath(words[words.index(option) + 1]) for option in ("--info", "--out"))
    if info_name == out_name:
        return
    if not {info_name, out_name} <= set(after):
        yield "the information or the output is not written"
        return
    text, told = after[info_name], told_of(after[out_name])
    info = object_of(text)
    if compact(info) != text:
        yield "the information is not compact, or its keys are not in order"
    facts = {"dropped": Module(before[words[2]]).customs, "groups": groups_named(words), "hooks": told["hooks"],
             "imports": told["imports"], "version": 1}
    if sorted(info) != sorted([*facts, "functions"]):
        yield f"the information has the keys {sorted(info)}"
    for key, value in facts.items():
        if info.get(key) != value:
            yield f"the information has {key} {info.get(key)}, not {value}"
    functions = info.get("functions", [])
    if [it[:2] for it in functions] != told["types"]:
        yield "the information's functions have other types"
    if [len(it) for it in functions] != [2 if at < told["imports"] else 4 for at in range(len(functions))]:
        yield "the information's functions are not the imported and then the defined ones"


# The words of a report for branches.
WORDS = {"If": "if", "Br": "br", "BrIf": "br_if", "BrTable": "br_table"}


def counted(event: Row) -> Optional[str]:
    """How a report shows an event, without its place; None if the event has no row, or a row with more than its fields say."""
    if event["event"] == "Begin":
        return f"block {event['kind']}"
    if event["event"] in ("If", "BrIf"):
        return f"branch {WORDS[event['event']]} {int(event['cond'] != 0)}"
    if event["event"] in WORDS:
        return f"branch {WORDS[event['event']]} {event['label']}"
    return None


def wrong_events(row: Row, text: str) -> Iterator[str]:
    """Which of a row's events a report does not count."""
    told: Counter[str] = Counter()
    for kind, what, count in re.findall(r"^(block|branch) \d+:-?\d+ (.+) (\d+)$", text, re.M):
        told[f"{kind} {what}"] += int(count)
    if "events" in row:
        if Counter(filter(None, map(counted, row["events"]))) != told:
            yield f"the report counts {dict(told)}"
        if f"events {len(row['events'])} stray 0\n" not in text:
            yield f"the report does not count {len(row['events'])} events"
    for variant, events in row.get("events_of", {}).items():
        of_variant = {it: count for it, count in told.items() if it.split()[1] == WORDS[variant]}
        if Counter(map(counted, events)) != of_variant:
            yield f"the report counts {of_variant}"


def wrong_hook_calls(row: Row, folder: Path) -> Iterator[str]:
    """Which hook calls of a row Node does not see in the run of its output."""
    if not HAS_NODE or not ("hook_calls" in row or "hook_calls_of" in row):
        return
    words = ["node", str(HERE / "hooks.js"), "b.wasm", "s.json"]
    seen = json.loads(subprocess.run(words, cwd=folder, capture_output=True, timeout=60, check=True).stdout)
    if "hook_calls" in row and row["hook_calls"] != seen:
        yield f"hook calls {seen}"
    for hook, expected in row.get("hook_calls_of", {}).items():
        if [it["words"] for it in seen if it["hook"] == hook] != expected:
            yield f"hook calls {seen}"


def wrong_lines(row: Row, text: str) -> Iterator[str]:
    """Which lines do not end as a row says, and whether the two runs of a trial differ in what is printed."""
    lines = text.splitlines()
    for at, end in row.get("stdout_lines_end", []):
        if not (at <= len(lines) and lines[at - 1].endswith(end)):
            yield f"line {at} does not end with {end!r}"
    if row.get("trial_parts_equal"):
        original = text.partition("\noriginal:\n")[2].partition("output:\n")[0]
        if not original or not text.partition("\noutput:\n")[2].startswith(original + "events "):
            yield "the two runs differ in what is printed"


def wrong_text(row: Row, text: str) -> Iterator[str]:
    """What of the text is not as a row says."""
    expected = row["stdout"]
    if expected is not None and text != expected:
        yield f"printed {text!r}, not {expected!r}"
    for key, meets in (("stdout_starts_with", str.startswith), ("stdout_ends_with", str.endswith)):
        if key in row and not meets(text, row[key]):
            yield f"printed {text!r}"
    lines = text.splitlines(keepends=True)
    yield from (f"printed {text!r}, without {it!r}" for it in row.get("stdout_contains", []) if it not in lines)
    yield from wrong_lines(row, text)
