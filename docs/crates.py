#!/usr/bin/env python3
"""Writes the list of crates in docs/ARCHITECTURE.md again from crates.txt: its headings, its order, and what each crate stands on.
What the list says of a crate stays as it is; of a new crate it says the first sentence of the root file.

    docs/crates.py            writes the list
    docs/crates.py --check    ends with 1 if the list is another one, whatever links it has
"""
from __future__ import annotations

import os
import pathlib
import re
import sys
import textwrap
from typing import Dict, List, Tuple

sys.dont_write_bytecode = True
from links import linked

TOP = os.path.dirname(os.path.dirname(os.path.abspath(__file__)))
LIST = re.compile(r"(?<=\n)### .*?(?=\n## )", re.S)
ENTRY = re.compile(r"^- \[?`(\w+)`[^:]*:\s(.*(?:\n  .*)*)", re.M)
WITHOUT_PROOFS = "Tests alone"


def read(*names: str) -> str:
    with open(os.path.join(TOP, *names), encoding="utf-8") as source:
        return source.read()


def listed() -> Tuple[Dict[str, List[str]], Dict[str, List[str]]]:
    """The crates under each heading of crates.txt, and the libraries that each names."""
    groups: Dict[str, List[str]] = {}
    below: Dict[str, List[str]] = {}
    for line in read("crates.txt").splitlines():
        if line.startswith("# "):
            crates = groups.setdefault(line[2:].capitalize(), [])
        elif ":" in line:
            head, _, names = line.partition(":")
            crates.append(head.split()[0])
            below[crates[-1]] = names.split()
    return groups, below


def all_below(crate: str, below: Dict[str, List[str]]) -> set[str]:
    """The libraries that a crate names, and those that stand below them."""
    return {it for name in below.get(crate, ()) for it in (name, *all_below(name, below))}


def right_below(crate: str, below: Dict[str, List[str]]) -> List[str]:
    """The libraries that a crate names, without those that stand below another of these."""
    lower = {it for other in below[crate] for it in all_below(other, below)}
    return [it for it in below[crate] if it not in lower]


def first_sentence(crate: str) -> str:
    root = next(it for it in ("lib.rt", "main.rt") if os.path.exists(os.path.join(TOP, "crates", crate, "src", it)))
    words = " ".join(line[2:].strip() for line in read("crates", crate, "src", root).split("#![", 1)[0].splitlines())
    return words[:1].lower() + words[1:].split(". ")[0].rstrip(".")


def entry(crate: str, below: Dict[str, List[str]], said: Dict[str, str]) -> str:
    names = ", ".join("`%s`" % it for it in right_below(crate, below))
    text = "- `%s`%s: %s" % (crate, names and " on " + names, said.get(crate) or first_sentence(crate))
    return textwrap.fill(text, 128, subsequent_indent="  ", break_on_hyphens=False, break_long_words=False)


def without_links(page: str) -> List[str]:
    """The words of a page, without the brackets of links and without the breaks of lines."""
    return page.replace("[`", "`").replace("`]", "`").split()


def main() -> int:
    groups, below = listed()
    page = read("docs", "ARCHITECTURE.md")
    old = LIST.search(page)
    said = {name: " ".join(without_links(text)) for name, text in ENTRY.findall(old[0] if old else "")}
    parts = ["### %s\n\n%s\n" % (heading, "\n".join(entry(it, below, said) for it in crates)) for heading, crates in groups.items()]
    written = LIST.sub(lambda _: "\n".join(parts), page, count=1)
    if sys.argv[1:] == ["--check"]:
        if without_links(page) != without_links(written):
            print("docs/ARCHITECTURE.md: the list of crates is not that of crates.txt; docs/crates.py writes it")
            return 1
        return 0
    path = os.path.join(TOP, "docs", "ARCHITECTURE.md")
    with open(path, "w", encoding="utf-8") as out:
        out.write(written)
    with_links = linked(pathlib.PurePosixPath("docs/ARCHITECTURE.md"))
    with open(path, "w", encoding="utf-8") as out:
        out.write(with_links)
    return 0


if __name__ == "__main__":
    sys.exit(main())
