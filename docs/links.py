#!/usr/bin/env python3
"""Checks the links of all documents, and adds those that are missing.

A link leads to a file or to a section that is there. A file, a folder or a crate that a page names is a link where a section of the
page names it first. It is written as a name in backticks and brackets, and where it leads stands in a list at the end of the page.
A section that a page names in quotes is a link too. A name such as `crate/proofs/File` is that of a file below crates/, and a name
with an upper-case first letter beside it, in brackets or after "of", stands in that file.

    docs/links.py [PAGE ..]            puts names into brackets, and writes the lists at the ends of the pages
    docs/links.py --check [PAGE ..]    prints what is wrong, and ends with 1 if something is
"""
from __future__ import annotations

import functools
import pathlib
import re
import subprocess
import sys
from collections.abc import Iterator

TOP = pathlib.Path(__file__).resolve().parent.parent
# Crates that are also called as a mode or as a word of the program. They are links only where a page makes them so.
ALSO_WORDS = {"report", "instrument"}
# docs/definitions.py links the entries of this page; names beneath them are those of definitions.
LINKED = pathlib.PurePosixPath("docs/DEFINITIONS.md")
BARE = re.compile(r"(?<![\w/`(\[<.-])(?:docs|examples|js|tests|bench|tools)/[\w./-]*\w")
NAMED = re.compile(r"(?<![\w/.-])(?:docs|examples|js|tests|bench|tools)/[\w/-]+(?:\.\w+)+\b")
SPAN = re.compile(r"(?<!`)`([^`\n]+)`(?!`)")
INLINE = re.compile(r"!?\[((?:[^\[\]]|\[[^\]]*\])*)\]\(([^()\s]+)\)")
SHORTCUT = re.compile(r"\[`([^`\]]+)`\](?![(\[])")
LISTED = re.compile(r"^\[`([^`\]]+)`\]: (\S+)$", re.M)
HEADING = re.compile(r"^(#+) (.*)$")
BULLET = re.compile(r"( *)(?:[-*]|\d+\.) +")


@functools.cache
def repository() -> tuple[set[str], set[str]]:
    """The files of the repository and their folders, from its top; what is made and ignored is neither."""
    words = ["git", "-C", str(TOP), "ls-files", "--cached", "--others", "--exclude-standard"]
    listed = subprocess.run(words, capture_output=True, encoding="utf-8", check=True).stdout.splitlines()
    files = {it for it in listed if (TOP / it).exists()}
    folders = {str(parent) for it in files for parent in pathlib.PurePosixPath(it).parents}
    return files, folders - {"."}


@functools.cache
def crates() -> set[str]:
    return {line.split(":")[0].split()[0] for line in (TOP / "crates.txt").read_text("utf-8").splitlines() if ":" in line}


def pages() -> list[pathlib.PurePosixPath]:
    return sorted(pathlib.PurePosixPath(it) for it in repository()[0] if it.endswith(".md"))


def read(page: pathlib.PurePosixPath) -> str:
    return (TOP / page).read_text("utf-8")


def body_of(text: str) -> str:
    """A page without the list of links at its end."""
    return LISTED.sub("", text).rstrip("\n") + "\n"


def is_prose(lines: list[str]) -> list[bool]:
    """Of each line whether it is text, and not part of a block of code."""
    told, fence, depth, was_blank, in_code = [], False, 0, True, False
    for line in lines:
        width = len(line) - len(line.lstrip())
        if line.lstrip().startswith("```"):
            fence = not fence
            told.append(False)
            continue
        if not line.strip():
            told.append(not fence)
            was_blank = True
            continue
        bullet = BULLET.match(line)
        if width < depth:
            depth = width if not bullet else len(bullet[0])
        in_code = (in_code or was_blank) and width >= depth + 4
        if bullet and not in_code:
            depth = len(bullet[0])
        was_blank = False
        told.append(not fence and not in_code)
    return told


def slug(heading: str) -> str:
    text = INLINE.sub(r"\1", heading).replace("`", "").lower()
    return re.sub(r"[^\w\- ]", "", text).replace(" ", "-")


@functools.cache
def headings(page: pathlib.PurePosixPath) -> dict[str, str]:
    """The sections of a page by their anchors."""
    found: dict[str, str] = {}
    lines = read(page).splitlines()
    for line, prose in zip(lines, is_prose(lines)):
        match = HEADING.match(line)
        if match and prose:
            anchor, times = slug(match[2]), 0
            while anchor in found:
                times += 1
                anchor = f"{slug(match[2])}-{times}"
            found[anchor] = match[2]
    return found


@functools.cache
def all_headings() -> dict[str, list[pathlib.PurePosixPath]]:
    named: dict[str, list[pathlib.PurePosixPath]] = {}
    for page in pages():
        for heading in list(headings(page).values())[1:]:
            named.setdefault(heading, []).append(page)
    return named


def place_of(name: str, page: pathlib.PurePosixPath) -> str | None:
    """The file or folder that a page means by a name, from the top; None if it means none."""
    files, folders = repository()
    if name in crates() and name not in ALSO_WORDS:
        return f"crates/{name}"
    if not re.fullmatch(r"[\w./+-]+", name) or "/" not in name and "." not in name and name != "HANDLES":
        return None
    name = name.rstrip("/")
    tried = [name, str(page.parent / name)]
    if name.split("/")[0] in crates():
        tried += [f"crates/{name}{ending}" for ending in ("", ".antt", ".rt")]
    for it in tried:
        if it in files or "/" in it and it in folders:
            return it
    return None


def path_to(place: str, page: pathlib.PurePosixPath) -> str:
    """A place as a link of a page names it."""
    up = [".."] * (len(page.parts) - 1)
    own, parts = list(page.parts[:-1]), place.split("/")
    while own and len(parts) > 1 and own[0] == parts[0]:
        own, parts, up = own[1:], parts[1:], up[1:]
    return "/".join(up + parts)


def sections(lines: list[str]) -> Iterator[tuple[str, list[int]]]:
    """The sections of a page: the heading of each, and the numbers of its lines of text."""
    prose = is_prose(lines)
    heading = ""
    numbers: list[int] = []
    for at, line in enumerate(lines):
        match = HEADING.match(line) if prose[at] else None
        if match:
            yield heading, numbers
            heading, numbers = match[2], []
        elif prose[at]:
            numbers.append(at)
    yield heading, numbers


def linked(page: pathlib.PurePosixPath) -> str:
    """A page with each name in brackets where its section has it first, and with the list at its end."""
    if page == LINKED:
        return read(page)
    lines = body_of(read(page)).splitlines()
    used: dict[str, str] = {}
    for _, numbers in sections(lines):
        seen: set[str] = set()
        for at in numbers:
            for match in list(SHORTCUT.finditer(lines[at])) + list(INLINE.finditer(lines[at])):
                seen.update(filter(None, (place_of(it, page) for it in SPAN.findall(match[0]) or [match[1]])))
        for at in numbers:
            lines[at] = with_brackets(lines[at], page, seen)
            for name in SHORTCUT.findall(lines[at]):
                place = place_of(name, page)
                if place:
                    used[name] = path_to(place, page)
    listed = "".join(f"[`{name}`]: {path}\n" for name, path in sorted(used.items()))
    return "\n".join(lines).rstrip("\n") + "\n" + (listed and "\n" + listed)


def with_brackets(line: str, page: pathlib.PurePosixPath, seen: set[str]) -> str:
    """A line in which the names that were not seen yet are in brackets."""
    kept = [it.span() for pattern in (INLINE, SHORTCUT) for it in pattern.finditer(line)]

    def put(match: re.Match[str]) -> str:
        name = match[1] if match[0].startswith("`") else match[0]
        place = place_of(name, page)
        if not place or place in seen or place == str(page) or any(a <= match.start() < b for a, b in kept):
            return match[0]
        seen.add(place)
        return f"[`{name}`]"

    return re.sub(f"{SPAN.pattern}|{BARE.pattern}", put, line)


def wrong_targets(page: pathlib.PurePosixPath) -> Iterator[str]:
    """Links that lead nowhere, and sections that are named in quotes without a link."""
    files, folders = repository()
    lines = body_of(read(page)).splitlines()
    prose = "\n".join(it if prose else "" for it, prose in zip(lines, is_prose(lines)))
    for _, target in INLINE.findall(prose):
        if re.match(r"[a-z]+:", target):
            continue
        path, _, anchor = target.partition("#")
        place = str(page)
        if path:
            parts: list[str] = list(page.parts[:-1])
            for part in path.split("/"):
                parts = parts[:-1] if part == ".." else parts + [part] if part != "." else parts
            place = "/".join(parts).rstrip("/")
        if place not in files and place not in folders:
            yield f"there is no {target}"
        elif anchor and anchor not in headings(pathlib.PurePosixPath(place)):
            yield f"{place} has no section #{anchor}"
    without = SPAN.sub("", INLINE.sub("", prose))
    for heading in re.findall(r"\"([^\"\n]+)\"", without):
        if heading in all_headings():
            yield f'"{heading}" is a section of {all_headings()[heading][0]}, and no link'
    for name in SHORTCUT.findall(prose):
        if not place_of(name, page):
            yield f"[`{name}`] names no file and no crate"


def lost_files(page: pathlib.PurePosixPath) -> Iterator[str]:
    """Files that a page names, also in its commands, and that are not there; and names beside a file that are not in it."""
    text = read(page)
    for name in sorted(set(NAMED.findall(text))):
        if not place_of(name, page):
            yield f"there is no {name}"
    for name in sorted(set(SPAN.findall(INLINE.sub("", text)))):
        is_below_crates = name.split("/")[0] in crates() and name.count("/") > 1 and re.fullmatch(r"[\w./+-]+", name)
        if is_below_crates and "NAME" not in name and not place_of(name, page):
            yield f"there is no crates/{name}"
    named = re.findall(r"`([\w-]+)`\s+(?:\(|of\s+)\[?`(\w+/(?:specs|proofs)/\w+(?:/\w+)*)`", text)
    for place, names in re.findall(r"^\| \[?`(\w+/proofs/\w+)`\]? \| (`[^|]*`) \|", text, re.M):
        named += [(name, place) for name in re.findall(r"`([^`]+)`", names)]
    for name, file in named:
        place = place_of(file, page)
        begins = re.compile(rf"^ *(?:\w+ )*{re.escape(name)}(?!\w)", re.M)
        if place and place.endswith(".antt") and not begins.search((TOP / place).read_text("utf-8")):
            yield f"{place} has no {name}"


def main() -> int:
    words = sys.argv[1:]
    is_check = words[:1] == ["--check"]
    wanted = {str(pathlib.Path(it).resolve().relative_to(TOP)) for it in words[is_check:]}
    failed = False
    for page in pages():
        if wanted and str(page) not in wanted:
            continue
        text = linked(page)
        if not is_check:
            (TOP / page).write_text(text, "utf-8")
        elif text != read(page):
            was = set(read(page).splitlines())
            first = next((it for it in text.splitlines() if it not in was), "the list at its end")
            print(f"{page}: names without a link, or an old list; docs/links.py writes them: {first.strip()[:100]}")
            failed = True
        for fault in [*wrong_targets(page), *lost_files(page)]:
            print(f"{page}: {fault}")
            failed = True
    return int(failed)


if __name__ == "__main__":
    sys.exit(main())
