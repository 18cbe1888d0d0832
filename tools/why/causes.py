"""Why a command is refused for what its subject or its information is, and what else may be told behind a status."""
from __future__ import annotations

import os
import re
import resource
import subprocess
from typing import Any, Callable, Iterable, Iterator

import features
import files
import scripts
import traps
from front import words as command
from front.words import Line
from search import Search, named
from wasabi_tools.binary import HEADER
from wasabi_tools.module import HOOKS, Module

RULES = {
    1: "is broken nowhere", 2: "the type of an imported function is out of range", 3: "the type of a function is out of range",
    4: "there is more than one table", 5: "there is more than one memory", 6: "the maximum of a table is below its minimum",
    7: "a memory has more than 65536 pages", 8: "the maximum of a memory is below its minimum",
    9: "the initialiser of a global is not exactly one constant or global.get",
    10: "the initialiser of a global names one that is not imported or not immutable", 11: "the initialiser of a global is of another type",
    12: "the index of an export is out of range", 13: "the name of an export is repeated", 14: "the start function is out of range",
    15: "the start function takes or answers something", 16: "the table of an element segment is out of range",
    17: "the offset of an element segment is not exactly one i32.const or global.get of an immutable i32",
    18: "a function of an element segment is out of range", 19: "the memory of a data segment is out of range",
    20: "the offset of a data segment is not exactly one i32.const or global.get of an immutable i32",
}
SECTIONS = "a custom one|the types|the imports|the functions|the tables|the memories|the globals|the exports|the start|the elements|the code|the data".split("|")
LIMITS = {
    "functions": (100000, 600000), "types": (100000, 600000), "parameters": (400, 900), "locals": (50000, 60000), "nesting": (1000, 1002),
}
LARGEST = 268435456


def said(program: str, line: Line) -> str:
    """Returns what the program says of the subject in the mode check, which changes nothing, if it takes a second of a processor at most."""
    limit = lambda: resource.setrlimit(resource.RLIMIT_CPU, (1, 1))
    try:
        done = subprocess.run([program, "check", "--", line.subject or ""], capture_output=True, timeout=10, check=False, preexec_fn=limit)
    except (OSError, subprocess.TimeoutExpired):
        return ""
    return done.stdout.decode("utf-8", "replace")


def read_again(name: str | None) -> Iterator[str]:
    """Yields that a file is not read again to look for a cause, if it is not an ordinary one that can be read."""
    if files.read(name) is None and name is not None and os.path.exists(name):
        yield "%s is not an ordinary file, so it is not read again, and no reason is told" % name


def section(text: str) -> Iterator[str]:
    """Yields which section a line names by its number."""
    found = re.search(r"in section (\d+)$", text.strip())
    number = int(found[1]) if found else 999
    if number < len(SECTIONS):
        yield "the section %d has %s" % (number, SECTIONS[number])
    elif number == 257:
        yield "the numbers of bodies and of functions differ"


def malformed(program: str, line: Line) -> Iterator[str]:
    data = files.read(line.subject)
    kind = None if data is None else files.kind_of(data)
    if data is None or kind:
        yield from read_again(line.subject) if data is None else ["%s is %s" % (line.subject, kind)]
        return
    search = Search(data)
    found = search.first("broken", "later")
    if found is None:
        yield from section(said(program, line))
    elif found.feature:
        yield "%s: %s: %s came after version 1.0" % (search.place(found), found.what, found.feature)
        yield features.advice(found.feature)
    else:
        yield "%s: %s" % (search.place(found), found.what)


def refused(program: str, line: Line) -> Iterator[str]:
    """Yields the first thing that floats, or what is limited."""
    data = files.read(line.subject)
    search = None if data is None else Search(data, is_for_floats=True)
    found = search and search.first("float")
    if search and found:
        yield "%s: %s" % (search.place(found), found.what)
        yield "wasabi accepts only integers; a compiler makes floats from float and double, and from functions that print or compute with them"
    elif data is not None:
        wide = 0 if line.mode in ("instrument", "taint") else 1
        yield "the limits of %s are %s" % (line.mode, ", ".join("%s %d" % (it, limits[wide]) for it, limits in LIMITS.items()))
    yield from read_again(line.subject)


def invalid(program: str, line: Line) -> Iterator[str]:
    data = files.read(line.subject)
    if data is None:
        return
    text = said(program, line)
    rule, body = re.search(r"breaks rule (\d+)$", text.strip()), re.search(r"invalid body: function (\d+)$", text.strip())
    if rule:
        twice = repeated(it[0] for it in Module(data).exported) if rule[1] == "13" else None
        yield "rule %s: %s%s" % (rule[1], RULES.get(int(rule[1]), "told in docs/MODULES.md"), "" if twice is None else ": " + scripts.shown(twice))
    elif body:
        module, func = Module(data), int(body[1])
        yield "the body of %s, at byte %#x of the file, is not typed as the standard requires" % (named(module, func), module.place_of(func).begin)
        yield "wasm-validate of wabt says at which instruction"


def repeated(names: Iterable[str]) -> str | None:
    """The first name that came before."""
    seen: set[str] = set()
    for it in names:
        if it in seen:
            return it
        seen.add(it)
    return None


def taken(program: str, line: Line) -> Iterator[str]:
    data = files.read(line.subject)
    if data is not None and any(it.module == HOOKS for it in Module(data).outside):
        yield "%s already has hooks: %s takes the module that it was made from" % (line.subject, line.mode)
    elif data is not None:
        most = line.value("--max-output") or str(LARGEST)
        yield "the output may have %s bytes%s; fewer groups of --hooks make it shorter" % (most, "" if int(most) >= LARGEST else ", which --max-output raises")


def information(program: str, line: Line) -> Iterator[str]:
    """Yields what is wrong with an information."""
    name = line.value("--info")
    data = files.read(name)
    if data is None:
        yield from read_again(name)
        return
    value, fault = scripts.parse(data)
    keys = ("dropped", "functions", "groups", "hooks", "imports", "version")
    if fault:
        yield "%s: %s" % (name, fault)
    elif not isinstance(value, dict) or set(value) != set(keys):
        what = "a script" if isinstance(value, dict) and "calls" in value else "JSON"
        yield "%s is %s, and not what instrument writes under --info" % (name, what)
    else:
        hooks = Module(files.read(line.subject) or HEADER).hooks
        if not hooks and value["hooks"]:
            yield "%s has no hooks: %s takes the output of instrument, and %s is of another" % (line.subject, line.mode, name)
        elif hooks != value["hooks"]:
            yield "%s has %d hooks, and %s lists %d: they were not written by one command" % (line.subject, len(hooks), name, len(value["hooks"]))
        else:
            yield "%s is not of the form that instrument writes, or of another module" % name


def long_trace(program: str, line: Line) -> Iterator[str]:
    most = line.value("--max-output") or str(LARGEST)
    yield "a trace may have %s bytes%s; an output with fewer groups of --hooks makes it shorter" % (most, "" if int(most) >= LARGEST else ", which --max-output raises")


def no_trace(program: str, line: Line) -> Iterator[str]:
    data = files.read(line.subject)
    if data is None:
        yield from read_again(line.subject)
        return
    kind = "a module" if data.startswith(b"\0asm") else files.kind_of(data)
    if data.startswith(b"WTR1"):
        yield "%s begins like a trace, but was cut off or changed" % line.subject
    else:
        yield "%s is %s" % (line.subject, kind)
        yield "replay takes what record wrote"


def no_import(program: str, line: Line) -> Iterator[str]:
    """Yields which of the names in a list no import has."""
    data = files.read(line.subject)
    if data is None:
        return
    known = sorted({"%s.%s" % it[:2] for it in Module(data).imports})
    for option in ("--sources", "--sinks"):
        value = line.value(option)
        if value is None:
            continue
        name = next((it for it in value.split(",") if it not in known), None)
        if name is not None:
            yield from command.misspelt(option, value, name, known) or ["%s: no function is imported as %s%s" % (option, name, other(name, known))]
            return


def other(name: str, known: list[str]) -> str:
    """Returns words on an import that may be meant by a name that no import has."""
    same = [it for it in known if it.split(".", 1)[-1] == name]
    if same:
        return "; there is %s, because a name is MODULE.NAME" % same[0]
    return command.nearest(name, known) if known else "; the module imports none"


def no_function(program: str, line: Line) -> Iterator[str]:
    """Yields which piece of a list of functions is that of no function with a body."""
    data = files.read(line.subject)
    if data is None:
        return
    module = Module(data)
    first = len(module.imports)
    last = first + len(module.defined) - 1
    called = [*module.exports.items(), *((name, func) for func, name in module.named())]
    known = sorted({name for name, func in called if func >= first})
    for option in ("--functions", "--except"):
        for piece in (line.value(option) or "").split(",") if line.has(option) else []:
            bounds = re.fullmatch(r"([0-9]+)(?:-([0-9]+))?", piece)
            if bounds and not all(first <= int(it[-12:]) <= last for it in bounds.groups() if it):
                yield "%s: %s names a function without a body: those with one are %d to %d" % (option, piece, first, last)
                return
            if not bounds and not any(it.startswith(piece[:-1]) if piece.endswith("*") else it == piece for it in known):
                yield "%s: no function is named %s%s" % (option, piece, command.nearest(piece, known) if known else "; the module has no names")
                return


def no_ends(program: str, line: Line) -> Iterator[str]:
    value, fault = scripts.parse(files.read(line.value("--info")) or b"{}")
    if not fault and isinstance(value, dict) and isinstance(value.get("groups"), list):
        yield "%s has the groups %s: instrument the module with --hooks begin,end" % (line.value("--info"), ", ".join(map(str, value["groups"])) or "none")


def no_nest(program: str, line: Line) -> Iterator[str]:
    yield "the information belongs to another output than %s: instrument writes both in one command" % line.subject


def unprinted(program: str, line: Line) -> Iterator[str]:
    yield "standard output is closed, or its disk is full%s" % ("; the files of the command were written" if line.value("--out") else "")


def no_memory(program: str, line: Line) -> Iterator[str]:
    yield "the machine, or a limit of the shell (ulimit -v), gives no more"


OF: dict[int, Callable[[str, Line], Iterator[str]]] = {
    6: malformed, 7: refused, 8: invalid, 9: taken, 12: traps.trapped, 14: no_memory, 15: unprinted, 16: information, 18: long_trace, 19: no_trace,
    20: no_import, 21: no_ends, 22: no_nest, 23: no_function,
}
