"""The kit's own scripts as a library: which crates there are, how one is checked and built, and what its text has."""
from __future__ import annotations

import functools
import importlib.machinery
import importlib.util
import os
import re
import shutil
import sys
import threading
from typing import Any, NoReturn

TOP = os.path.dirname(os.path.dirname(os.path.realpath(__file__)))
BIN = os.path.dirname(os.path.realpath(shutil.which("rt") or "/opt/rattle/bin/rt"))


def load(name: str) -> Any:
    """Loads a script of the kit, from the folder of its command rt."""
    loader = importlib.machinery.SourceFileLoader(re.sub(r"\W", "_", name.removesuffix(".py")), f"{BIN}/{name}")
    spec = importlib.util.spec_from_loader(loader.name, loader)
    assert spec
    made = importlib.util.module_from_spec(spec)
    sys.modules[loader.name] = made
    try:
        loader.exec_module(made)
    except FileNotFoundError:
        stop()
    return made


def stop() -> NoReturn:
    """Ends with status 3, if the kit's scripts are others than those that are known here."""
    print("tools: this kit's scripts are others than those of the kits that docs/PROVED.md names", file=sys.stderr)
    sys.exit(3)


rtlib, bodies = load("rtlib.py"), load("rt-plant-bodies")
with open(f"{os.path.dirname(BIN)}/KIT-ID", encoding="utf-8") as it:
    KIT_ID = it.read().strip()
# What is used of them, here and in what stands on this file.
USED = {
    rtlib: "crates_below guarded kit_sources lock number_in text_of PARTS RATTLE Crate",
    rtlib.Crate: "below build_and_run build_rlib count is_built makes_rlib sources_below stamp words",
    bodies: "Source named",
}
if not all(hasattr(it, name) for it, names in USED.items() for name in names.split()):
    stop()
_sums, _sum = threading.local(), rtlib.Crate.stamp


def _sum_once(crate: Any) -> Any:
    """The kit's sum of what a crate is made from. The kit takes it once for each path to a crate below; this takes it once a call."""
    if getattr(_sums, "known", None) is None:
        _sums.known = {}
        try:
            return _sum_once(crate)
        finally:
            _sums.known = None
    if crate not in _sums.known:
        _sums.known[crate] = _sum(crate)
    return _sums.known[crate]


rtlib.Crate.stamp = _sum_once


def crates(folder: str = f"{TOP}/crates") -> list[Any]:
    """Returns the crates at or below a folder, and those below them, lowest first."""
    return list(rtlib.crates_below(folder))


def files_in(folder: str, parts: Any = rtlib.PARTS) -> list[str]:
    """Returns the files of a crate's parts, in order."""
    found: list[str] = []
    for part in parts:
        for at, folders, names in os.walk(f"{folder}/{part}"):
            found += [f"{at}/{it}" for it in names]
    return sorted(found)


def source_at(folder: str) -> Any:
    """Reads the functions and types of the crate in a folder."""
    source = bodies.Source(folder)
    source.read("src/main.rt" if os.path.isfile(f"{folder}/src/main.rt") else "src/lib.rt")
    return source


# Comments and hints on inlining, which state nothing, and empty lines.
SAYS_NOTHING = re.compile(rb"(?m)^[ \t]*(//.*|#\[(inline|cold)\b.*\])?\n")


@functools.lru_cache(maxsize=None)
def stated_by(folder: str) -> list[tuple[str, bytes]]:
    """Returns what a crate states to those above it: its definitions, and its code without private functions, bodies and comments."""
    found = []
    for file in files_in(folder, ("specs",)):
        found.append((os.path.relpath(file, folder), rtlib.text_of(file)))
    source = source_at(folder)
    for file, data in sorted(source.data.items()):
        kept, at = b"", 0
        for f in sorted((it for it in source.functions if it.file == file and it.has_body), key=lambda it: int(it.opens)):
            begins = f.opens if f.is_pub else f.first
            if begins >= at:
                kept, at = kept + data[at:begins], f.end
        found.append((file, SAYS_NOTHING.sub(b"", kept + data[at:])))
    return found


def is_made(crate: Any) -> bool:
    """Returns whether a library stands as its sources are: by the kit's sum or, behind the gate, which keeps none, by when it was put there."""
    if crate.is_built():
        return True
    if not os.path.isdir(crate.rlib) or os.path.exists(f"{crate.folder}/out/rlib/stamp"):
        return False
    files = [file for it in [crate, *crate.below()] for file in files_in(it.folder)]
    # what an earlier run of the gate proved is put there with the time of that run as its own
    return max(os.path.getmtime(it) for it in files) < os.stat(f"{crate.rlib}/format").st_ctime
