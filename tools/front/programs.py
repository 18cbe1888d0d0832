"""Which program runs: where it is, how it was made, and whether it was made from the sources that are there.

A program has a record beside it: how it was made, its own sum, and the sum of each source. By these sums, and not by the times of
files, it is told whether a source changed. What was found is kept in out/known, for the script: it asks again if a file of the
sources was touched since, by the time of its last change, which nobody can set back.
"""
from __future__ import annotations

import hashlib
import json
import os
import shlex
import time
from pathlib import Path
from typing import Dict, Iterator, NamedTuple

from front import table

TOP = Path(__file__).resolve().parents[2]
CRATE = "wasabi_cli"
PROVED = TOP / "crates" / CRATE / "out" / CRATE
QUICK = TOP / "out" / "quick"
INSTALLED = TOP / "program" / "wasabi"
KNOWN = TOP / "out" / "known"
HOW = {
    "proved": "proved",
    "compiled": "compiled without proofs, with run-time checks",
    "unknown": "no record says how it was made",
}
RENEWED = {"proved": "--prove", "compiled": "--compile", "unknown": "--prove"}
Sums = Dict[str, str]


class Program(NamedTuple):
    path: Path
    how: str  # a key of HOW
    changed: str | None  # a source that is another one than it was made from
    kit: str = ""  # the kit that made it


def sum_of(data: bytes) -> str:
    return hashlib.sha256(data).hexdigest()


def crates() -> dict[str, str]:
    """The lines of crates.txt for the crates of the program: its own, and those of this repository that it depends on."""
    lines: dict[str, str] = {}
    try:
        text = (TOP / "crates.txt").read_text("utf-8")
    except OSError:
        return {}
    for line in text.splitlines():
        if line[:1].isalpha():
            lines[line.split(":")[0].split()[0]] = line
    found: dict[str, str] = {}
    left = [CRATE]
    while left:
        name = left.pop()
        if name in lines and name not in found:
            found[name] = lines[name]
            left += lines[name].partition(":")[2].split()
    return found


def files_of(parts: tuple[str, ...]) -> Iterator[str]:
    """The files of these parts of the program's crates, by their names below TOP."""
    for name in sorted(crates()):
        for part in parts:
            for folder, _, names in os.walk(TOP / "crates" / name / part):
                yield from (os.path.relpath(f"{folder}/{it}", TOP) for it in names)


def sums(parts: tuple[str, ...] = ("src",)) -> Sums:
    """The sums of all that a program is made from. A proof changes no program, so a program is told by its `src` alone."""
    found = {f"crates.txt: {name}": sum_of(line.encode()) for name, line in crates().items()}
    for name in files_of(parts):
        try:
            found[name] = sum_of((TOP / name).read_bytes())
        except OSError:
            found[name] = "unread"
    return dict(sorted(found.items()))


def sum_of_all(those: Sums) -> str:
    return sum_of(json.dumps(those, sort_keys=True).encode())


def record_of(path: Path) -> Path:
    return path.with_name(path.name + ".record")


def write_record(path: Path, how: str, those: Sums, kit: str) -> None:
    """Writes what a program was made from; the record has the program's own sum, and is of no other."""
    text = json.dumps({"how": how, "kit": kit, "program": sum_of(path.read_bytes()), "sources": those}, indent=0, sort_keys=True)
    replace(record_of(path), text + "\n")


def replace(path: Path, text: str, when: float | None = None) -> None:
    """Gives a file a text, all at once; when: the time that it gets."""
    new = path.with_name(f".{path.name}.{os.getpid()}")
    try:
        new.write_text(text, "utf-8")
        if when is not None:
            os.utime(new, (when, when))
        os.replace(new, path)
    finally:
        new.unlink(missing_ok=True)


def read_record(path: Path) -> dict[str, object]:
    """The record of a program; empty if it has none, or one of another program."""
    try:
        record = json.loads(record_of(path).read_text("utf-8"))
        own = sum_of(path.read_bytes())
    except (OSError, ValueError):
        return {}
    return record if isinstance(record, dict) and record.get("program") == own and isinstance(record.get("sources"), dict) else {}


def changed(record: dict[str, object], now: Sums, parts: tuple[str, ...] = ("src",)) -> str | None:
    """A source that changed since a record was written, came or went; None if there is none, or no sources are there at all."""
    then = record["sources"]
    assert isinstance(then, dict)
    inside = {it for it in then if it.startswith("crates.txt") or it.split("/")[2] in parts}
    return next((it for it in sorted(inside | set(now)) if then.get(it) != now.get(it)), None) if now else None


def is_program(path: Path) -> bool:
    return path.is_file() and os.access(path, os.X_OK)


def state(path: Path, now: Sums) -> Program | None:
    """What is known of a program; None if it is not there."""
    if not is_program(path):
        return None
    record = read_record(path)
    if not record:
        return Program(path, "unknown", None)
    how = str(record.get("how"))
    return Program(path, how if how in HOW else "unknown", changed(record, now), str(record.get("kit", "")))


def compiled() -> list[Path]:
    """The programs that were compiled without proofs, the newest first. Each is in a folder with the sum of its sources as the name."""
    try:
        folders = [it for it in QUICK.iterdir() if not it.name.startswith(".") and is_program(it / "wasabi")]
    except OSError:
        return []
    return [it / "wasabi" for it in sorted(folders, key=lambda it: -it.stat().st_mtime)]


def chosen(now: Sums) -> Program | None:
    """The program that runs: one made from the sources that are there, a proved one before a compiled one; otherwise what there is."""
    if is_program(INSTALLED):
        return state(INSTALLED, {})
    current = QUICK / sum_of_all(now)[:16] / "wasabi"
    found = (state(path, now) for path in [PROVED, current, *(it for it in compiled() if it != current)])
    others: list[Program] = []
    for program in found:
        if program and program.changed is None and program.how != "unknown":
            return program
        others += [program] if program else []
    return next((it for it in others if it.changed is None), others[0] if others else None)


def note(program: Program) -> str:
    """What is said after each command of a program that was made from other sources."""
    if program.changed is None:
        return ""
    return f"the program was made from other sources ({program.changed}): wasabi {RENEWED[program.how]} makes a new one"


def known(path: str, said: str = "") -> str:
    """What the script keeps, in bash: the program, by its path below TOP, what is said of it, the options of each mode, and the groups of
    each report."""
    lines = [f"program=$top/{shlex.quote(path)}", f"note={shlex.quote(said)}"]
    lines += [f"takes[{it.name}]=' {' '.join(option.name for option in table.taken(it.name))} '" for it in table.MODES]
    lines += [f"need[{it.name}]='{it.groups.replace(' ', '|')}'" for it in table.KINDS]
    return "\n".join(lines) + "\n"


def look() -> tuple[Program | None, float]:
    """The program that runs, and the time up to which changes of files were seen."""
    # the times of files are those of the last tick of a clock
    when = time.time() - 0.1
    return chosen(sums()), when


def keep(program: Program, when: float) -> str:
    """Keeps what the script needs to know, where the folder allows it, and returns it."""
    text = known(os.path.relpath(program.path, TOP), note(program))
    try:
        KNOWN.parent.mkdir(exist_ok=True)
        replace(KNOWN, text, when)
    except OSError:
        pass
    return text
