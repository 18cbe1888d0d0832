#!/usr/bin/env python3
"""Lists the lemmas and definitions of proofs/ that nothing names, each with its file and line: python3 docs/unused.py [CRATE ..]

It ends with 1 if there are any; docs/unused.py --check looks at all crates.

A name counts as used if its file has it outside its own definition. A name that is `pub` also counts as used if another file has it
in a list of imports, or beside the name of its file. Worked examples are left out: the files that are named Examples, and those
that export nothing. What a record or a data type lists is not a definition here. This script reads text and proves nothing: a check
says whether a proof can do without a name.
"""
from __future__ import annotations

import collections
import pathlib
import re
import sys
from typing import Iterator, List, Tuple

CRATES = pathlib.Path(__file__).resolve().parent.parent / "crates"
WORD = re.compile(r"[^\s(){}\[\].,;:∷λ]+")
HEAD = re.compile(r"( *)(abbrev )?(pub )?([A-Za-z_][^\s:(){}]*) : ")
PROOF_FILES = {"Answers.antt", "Invariants.antt", "Proof.antt", "Lib.antt"}


def indent(line: str) -> int:
    return len(line) - len(line.lstrip())


def end_of(lines: List[str], at: int, name: str) -> int:
    """The line behind a definition: its clauses, and what is deeper, also behind an empty line."""
    depth, end, seen = indent(lines[at]), at + 1, at + 1
    while seen < len(lines):
        line = lines[seen]
        if line.strip():
            closes = line.strip()[0] in "})]"
            if indent(line) < depth or indent(line) == depth and not closes and line.split()[0] != name:
                break
            end = seen + 1
        seen += 1
    return end


def definitions(lines: List[str]) -> Iterator[Tuple[int, int, str, bool]]:
    """Each definition with a clause of its own: its line, the one behind it, its name, and whether others may name it."""
    for at, line in enumerate(lines):
        head = HEAD.match(line)
        if not head:
            continue
        depth, name = len(head[1]), head[4]
        end = end_of(lines, at, name)
        if any(indent(it) == depth and it.split()[:1] == [name] for it in lines[at + 1 : end]):
            yield at, end, name, bool(head[3])


def main() -> int:
    wanted = [it for it in sys.argv[1:] if it != "--check"]
    is_any = False
    texts = {it: it.read_text() for it in CRATES.rglob("*") if it.suffix in (".rt", ".antt") and "out" not in it.parts}
    words = {it: collections.Counter(WORD.findall(text)) for it, text in texts.items()}
    lists = {it: set(WORD.findall(" ".join(re.findall(r"(?m)use [^\n{]*\{([^}]*)\}", text)))) for it, text in texts.items()}
    for file, text in sorted(texts.items()):
        crate, part = file.relative_to(CRATES).parts[:2]
        exports = re.search(r"(?m)^ *(abbrev )?pub ", text)
        if part != "proofs" or file.name in PROOF_FILES or "Examples" in file.name or not exports or wanted and crate not in wanted:
            continue
        lines = text.split("\n")
        for at, end, name, is_public in definitions(lines):
            own = WORD.findall("\n".join(lines[at:end])).count(name)
            others = (it for it in texts if is_public and it != file and name in words[it])
            if words[file][name] == own and not any(name in lists[it] or file.stem in words[it] or it.suffix == ".rt" for it in others):
                print(f"{file.relative_to(CRATES.parent)}:{at + 1}: {name}")
                is_any = True
    return int(is_any)


if __name__ == "__main__":
    sys.exit(main())
