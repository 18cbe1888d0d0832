#!/usr/bin/env python3
"""Prints what the crates promise, and checks the names in docs/PROVED.md.

    docs/proved.py [CRATE ..]    prints, for each public function, method and law of the crates, the names of its `ensures` clauses and
                                 the first sentence of its comment
    docs/proved.py --check       ends with 1 if docs/PROVED.md names a call, a law or a clause that is not there

In the page, a name with :: is that of a call or a law. Names in brackets behind it, and those that begin the points beneath it, are
clauses of it. Names that begin the points of the section "The program" are clauses of `run_app`.
"""
from __future__ import annotations

import os
import re
import sys
import textwrap
from collections.abc import Iterable, Iterator

sys.dont_write_bytecode = True
from crates import TOP, WITHOUT_PROOFS, listed, read

PAGE = ("docs", "PROVED.md")
ITEM = re.compile(r"( *)(?:pub )?(?:const )?(fn|trait|struct|enum|impl|mod)\b(?:<.*?>(?= ))? ?(.*)")
NAME = re.compile(r"\w+")
END = re.compile(r"(?<!\.)\.(?=\s+[A-Z`]|\s*$)")


class Item:
    """A function, a type or a trait: whether it is public, its sentence, its clauses, and the methods of a type or a trait."""

    def __init__(self, kind: str, name: str, is_public: bool, sentence: str) -> None:
        self.kind, self.name, self.is_public, self.sentence = kind, name, is_public, sentence
        self.clauses: list[str] = []
        self.methods: list[Item] = []
        self.traits: list[str] = []


# An `impl`: its type and its trait, each empty if it has none, and its methods.
Impl = tuple[str, str, list[Item]]


def first_sentence(lines: list[str]) -> str:
    """The first sentence of the comment that ends above a line, with a small letter in front; empty if there is none."""
    words: list[str] = []
    for line in reversed(lines):
        line = line.strip()
        if line.startswith("//"):
            words.insert(0, line.lstrip("/").strip())
        elif not line.startswith("#["):
            break
    text = END.split(" ".join(" ".join(words).split("  ")[0].split()), maxsplit=1)[0]
    text = re.sub(r"\[(`\w+`)\]", r"\1", text).replace(". (Standard, ", " (Standard, ")
    first = NAME.match(text)
    return text[:1].lower() + text[1:] if first and first[0][1:] == first[0][1:].lower() else text


def clauses_at(lines: list[str], at: int, depth: int) -> tuple[list[str], int]:
    """The names of the `ensures` clauses of the function that begins at a line, and the line of its body or behind it."""
    names: list[str] = []
    while True:
        names += re.findall(r"^ +ensures (\w+) \{", lines[at])
        text = lines[at].rstrip()
        is_deeper = len(text) - len(text.lstrip()) > depth
        if text.endswith(";") or text and not is_deeper and text.endswith(("{", "}")):
            return names, at
        at += 1


def subject_of(rest: str) -> tuple[str, str]:
    """The type of an `impl`, without a name if it is `()`, and the trait that it implements, if any."""
    head = rest.split(" {")[0]
    of_trait, _, of_type = head.rpartition(" for ")
    named, met = NAME.search(of_type), NAME.search(of_trait)
    return named[0] if named else "", met[0] if met else ""


def items_of(text: str) -> tuple[list[Item], list[Impl]]:
    """The items of a file at its top, and for each `impl` its type, its trait and its methods."""
    lines = text.split("\n")
    items: list[Item] = []
    impls: list[Impl] = []
    owner: list[Item] | None = None
    at = 0
    while at < len(lines):
        found = ITEM.fullmatch(lines[at].rstrip())
        if lines[at].rstrip() == "}":
            owner = None
        if found and len(found[1]) == (4 if owner is not None else 0):
            at, owner = take(lines, at, found, owner, items, impls)
        at += 1
    return items, impls


def take(lines: list[str], at: int, found: re.Match[str], owner: list[Item] | None, items: list[Item],
         impls: list[Impl]) -> tuple[int, list[Item] | None]:
    """Takes the item at a line. What comes back is the last line read, and the list that methods go into."""
    depth, kind, rest = len(found[1]), found[2], found[3]
    is_open = lines[at].rstrip().endswith("{")
    if kind == "mod":
        return at, [] if is_open else owner
    if kind == "impl":
        methods: list[Item] = []
        impls.append((*subject_of(rest), methods))
        return at, methods if is_open else None
    named = NAME.match(rest)
    assert named, lines[at]
    item = Item(kind, named[0], lines[at].lstrip().startswith("pub "), first_sentence(lines[:at]))
    (items if owner is None else owner).append(item)
    if kind == "fn":
        item.clauses, at = clauses_at(lines, at, depth)
        return at, owner
    return at, item.methods if kind == "trait" and is_open else owner


class Crate:
    """What a crate shows to others: its items by their paths, in the order of its files, laws last."""

    def __init__(self, name: str) -> None:
        self.name = name
        self.items: dict[str, Item] = {}
        self.folder = os.path.join(TOP, "crates", name, "src")
        is_program = os.path.exists(os.path.join(self.folder, "main.rt"))
        root = read("crates", name, "src", "main.rt" if is_program else "lib.rt")
        self.shown = set(re.findall(r"\w+", " ".join(re.findall(r"^pub use (?:crate::)?\w+::([^;]*);", root, re.M | re.S))))
        modules = re.findall(r"^(pub )?mod (\w+);", root, re.M)
        files: list[tuple[str, str, bool]] = [("", root, True)] + [(file, self.text(file), bool(public)) for public, file in modules]
        files.sort(key=lambda it: it[0] == "laws")
        read_files = [(path, is_open, items_of(text)) for path, text, is_open in files]
        for path, is_open, (items, _) in read_files:
            for item in items:
                if is_program or item.is_public and (is_open or item.name in self.shown):
                    is_deep = path and is_open and item.name not in self.shown
                    self.items["%s::%s" % (path, item.name) if is_deep else item.name] = item
        by_name = {item.name: item for item in self.items.values() if item.kind != "fn"}
        for _, _, (_, impls) in read_files:
            for of_type, of_trait, methods in impls:
                if of_type in by_name and of_trait:
                    by_name[of_type].traits.append(of_trait)
                elif of_type in by_name:
                    by_name[of_type].methods += [it for it in methods if it.is_public]

    def text(self, module: str) -> str:
        return read("crates", self.name, "src", module + ".rt")


def line(indent: str, path: str, item: Item, traits: set[str]) -> str:
    meets = [it for it in item.traits if it in traits]
    text = "%s- `%s`" % (indent, path)
    if item.clauses:
        text += " (%s)" % ", ".join("`%s`" % it for it in item.clauses)
    if meets:
        text += ", which meets %s" % ", ".join("`%s`" % it for it in meets)
    if item.sentence:
        text += ": " + item.sentence
    return textwrap.fill(text, 128, subsequent_indent=indent + "  ", break_on_hyphens=False, break_long_words=False)


def section(crate: Crate, traits: set[str]) -> str:
    lines: list[str] = []
    for path, item in crate.items.items():
        if item.kind == "fn" or item.methods or any(it in traits for it in item.traits):
            lines.append(line("", path, item, traits))
            lines += [line("  ", method.name, method, traits) for method in item.methods]
    return "\n### %s\n\n%s\n" % (crate.name, "\n".join(lines))


def named_in(page: str) -> Iterator[tuple[str, str | None]]:
    """Each call or law that the page names, and each clause that it says of one: (item, clause or None)."""
    section = ""
    of: str | None = None
    for line in page.splitlines():
        if line.startswith("## "):
            section, of = line[3:], None
        begins = re.match(r"( *)- `(\w+)`(?=[:,])", line)
        if line.startswith("- "):
            of = None
        if begins and begins[1] and of:
            yield of, begins[2]
        elif begins and not begins[1] and section == "The program":
            yield "run_app", begins[2]
        for found in re.finditer(r"`(\w+(?:::\w+)+)`(?: \(((?:`\w+`(?:, )?)+)\))?", line):
            of = found[1]
            yield of, None
            yield from ((of, clause) for clause in re.findall(r"\w+", found[2] or ""))


def lost_in(page: str, crates: Iterable[Crate]) -> Iterator[str]:
    """What the page names and no crate has."""
    clauses: dict[str, set[str]] = {}
    for crate in crates:
        for path, item in crate.items.items():
            for names in ([path], [path.split("::")[-1]], [crate.name, path]):
                clauses.setdefault("::".join(names), set()).update(item.clauses)
            for method in item.methods:
                clauses.setdefault("%s::%s" % (path, method.name), set()).update(method.clauses)
                clauses.setdefault("%s::%s::%s" % (crate.name, path, method.name), set()).update(method.clauses)
    for of, clause in named_in(page):
        if of not in clauses:
            yield "no crate has %s" % of
        elif clause and clause not in clauses[of]:
            yield "%s has no clause %s" % (of, clause)


def main() -> int:
    crates = [Crate(it) for heading, names in listed()[0].items() if heading != WITHOUT_PROOFS for it in names]
    if sys.argv[1:] == ["--check"]:
        lost = list(dict.fromkeys(lost_in(read(*PAGE), crates)))
        for fault in lost:
            print("docs/PROVED.md: " + fault)
        return 1 if lost else 0
    traits = {item.name for crate in crates for item in crate.items.values() if item.kind == "trait"}
    wanted = sys.argv[1:]
    print("".join(section(it, traits) for it in crates if not wanted or it.name in wanted))
    return 0


if __name__ == "__main__":
    sys.exit(main())
