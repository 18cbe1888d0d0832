#!/usr/bin/env python3
"""Compares the table of tools/front with the program, and the documents with the table: they name the same modes, options, groups of
hooks, kinds of reports and statuses, and the version of the file VERSION. It also looks for cells of tables that are longer than 200
characters. It prints what is wrong, and ends with 1 if something is, with --check and without. Links and names of files are
docs/links.py's."""
from __future__ import annotations

import glob
import json
import os
import re
import sys
from typing import Dict, Iterator, List, Tuple

TOP = os.path.dirname(os.path.dirname(os.path.abspath(__file__)))
sys.dont_write_bytecode = True
sys.path.insert(0, os.path.join(TOP, "tools"))
from front import pages, table
LONGEST_CELL = 200


def read(name: str) -> str:
    with open(os.path.join(TOP, name), encoding="utf-8") as source:
        return source.read()


def found_in(form: str, text: str, flags: int = 0) -> re.Match[str]:
    """The first match of a form; that there is none is a fault of this script or of a file that it reads."""
    found = re.search(form, text, flags)
    assert found, form
    return found


def under(heading: str, page: str) -> str:
    """What stands under a heading of a document, up to the next one that is not below it."""
    level = heading.split(" ")[0]
    text = page.partition("\n%s\n" % heading)[2]
    return re.split(r"^#{1,%d} " % len(level), text, maxsplit=1, flags=re.M)[0]


def cells(page: str) -> Iterator[str]:
    for line in page.splitlines():
        if line.startswith("|"):
            yield from (it.strip() for it in re.split(r"(?<!\\)\|", line.strip("| ")))


def stated() -> Dict[str, List[str]]:
    """The names that the table has, by what they are."""
    return {
        "modes": [it.name for it in table.MODES],
        "options": [it.name for it in table.OPTIONS],
        "groups": [it.name for it in table.GROUPS],
        "kinds": [it.name for it in table.KINDS],
        "statuses": [str(it.number) for it in table.STATUSES],
    }


def of_program() -> Dict[Tuple[str, str], List[str]]:
    """The names in the sources of the program, by what they are and where they stand. The script alone has --in-place and 70."""
    command, groups = read("crates/command_line/src/command.rt"), read("crates/hook_select/src/lib.rt")
    options = found_in(r"const OPTIONS: .*?\[(.*?)\n\];", command, re.S)[1]
    rows = found_in(r"macro_rules! each_group .*?\n}", groups, re.S)[0]
    modes = re.findall(r'"(\w+)" => \w+\(', read("crates/wasabi_app/src/app.rt"))
    found = {
        ("modes", "crates/wasabi_app/src/app.rt"): modes,
        ("options", "crates/command_line/src/command.rt"): ["--" + it for it in re.findall(r'\(\s*"([\w-]+)", *\n? *Takes', options)] + ["--in-place"],
        ("groups", "crates/hook_select/src/lib.rt"): re.findall(r'"(\w+)"', rows),
        ("statuses", "crates/app_load/src/status.rt"): re.findall(r"=> (\d+),", read("crates/app_load/src/status.rt")) + ["70"],
        ("kinds", "crates/app_load/src/kinds.rt"): re.findall(r"^    (\w+): bool", read("crates/app_load/src/kinds.rt"), re.M),
    }
    most = dict(re.findall(r"pub(?:\(crate\))? const (\w+): u64 = ([\d_]+);", command + read("crates/module_ast/src/module.rt")))
    numbers = re.findall(r'"([\w-]+)",\s*Takes::NumberTo\((\w+)', options)
    found["greatest numbers", "crates/command_line/src/command.rt"] = [f"--{name} {int(most[limit])}" for name, limit in numbers]
    return found


def wrong_names() -> Iterator[str]:
    """What the program or a document has otherwise than the table, or in another order if a document has an order."""
    commands, hooks, readme = read("docs/CLI.md"), read("docs/HOOKS.md"), read("README.md")
    groups = found_in(r"The groups of hooks are (.*?)\.", readme, re.S)[1]
    told = {
        ("modes", "docs/CLI.md"): re.findall(r"^### (\w+)$", under("## Modes", commands), re.M),
        ("modes", "README.md"): re.findall(r"^- `(\w+)`", under("## Modes and groups", readme), re.M),
        ("options", "docs/CLI.md"): re.findall(r"^\| `(--[a-z-]+)", under("## Options", commands), re.M),
        ("groups", "docs/HOOKS.md"): list(dict.fromkeys(re.findall(r"^\| `(\w+)` \|", under("## The hooks", hooks), re.M))),
        ("groups", "README.md"): re.findall(r"`(\w+)`", groups),
        ("statuses", "docs/CLI.md"): list(dict.fromkeys(re.findall(r"^\| (\d+) \|", under("## Statuses", commands), re.M))),
    }
    rows = stated()
    for (what, document), names in told.items():
        if names != rows[what] or not names:
            yield f"{document}: the {what} are {' '.join(names)}, and in tools/front/table.py {' '.join(rows[what])}"
    rows["greatest numbers"] = [f"{it.name} {it.most}" for it in table.OPTIONS if it.most]
    for (what, source), names in of_program().items():
        if sorted(names) != sorted(rows[what]) or not names:
            yield f"tools/front/table.py: the {what} are {' '.join(rows[what])}, and in {source} {' '.join(names)}"
    for line in [it for mode in table.MODES for it in pages.page(mode)] + pages.main_page():
        if len(line) > pages.WIDTH:
            yield f"tools/front: a line of a page is too long: {line}"


def wrong_versions() -> Iterator[str]:
    """Where another version is told than the one of the file VERSION."""
    version = read("VERSION").strip()
    told = {"CHANGELOG.md": found_in(r"^## (\S+)", read("CHANGELOG.md"), re.M)[1]}
    if os.path.exists(os.path.join(TOP, "js/package.json")):
        told["js/package.json"] = json.loads(read("js/package.json"))["version"]
    for document in ("README.md", "docs/RUNTIME.md"):
        told.update((document, it) for it in re.findall(r"\bwasabi (\d+\.\d+\.\d+)", read(document)))
    for document, other in told.items():
        if other != version:
            yield f"{document}: the version is {other}, and in VERSION {version}"


def main() -> int:
    wrong = [*wrong_names(), *wrong_versions()]
    for path in sorted(glob.glob(os.path.join(TOP, "*.md")) + glob.glob(os.path.join(TOP, "*", "*.md"))):
        name = os.path.relpath(path, TOP)
        page = read(name)
        for cell in cells(page):
            if len(cell) > LONGEST_CELL:
                wrong.append("%s: a cell has %d characters: %s" % (name, len(cell), cell[:40]))
    for line in wrong:
        print(line)
    return 1 if wrong else 0


if __name__ == "__main__":
    sys.exit(main())
