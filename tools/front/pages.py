"""The usage page, the page of a mode and the lines on the version, at most 80 columns wide."""
from __future__ import annotations

import textwrap
from typing import Iterable, Iterator, Sequence

from front import table

WIDTH, INDENT = 80, 20


def form(option: table.Option) -> str:
    """An option with what it takes."""
    return f"{option.name} {option.value}".rstrip()


def usage(mode: table.Mode) -> Iterator[str]:
    """The line of a mode with its options, broken where it is too long."""
    parts = [form(it) for it in table.needed(mode.name)]
    parts += [f"[{form(it)}]" for it in table.taken(mode.name) if mode.name in it.taken.split()]
    line = f"Usage: wasabi {mode.name} {mode.subject}"
    for part in parts:
        if len(line) + 1 + len(part) > WIDTH:
            yield line
            line = " " * 13
        line += " " + part
    yield line


def entry(name: str, says: str, indent: int = INDENT) -> list[str]:
    """A name with what is said of it beside it, or below it if the name is long."""
    lines = textwrap.wrap(says, WIDTH - indent, break_on_hyphens=False, break_long_words=False)
    beside = len(name) + 3 < indent
    head = [("  " + name).ljust(indent) + lines[0]] if beside else ["  " + name, " " * indent + lines[0]]
    return head + [" " * indent + it for it in lines[1:]]


def part(heading: str, entries: Iterable[tuple[str, str]], indent: int = INDENT) -> list[str]:
    found = [it for name, says in entries for it in entry(name, says, indent)]
    return ["", *textwrap.wrap(heading, WIDTH), *found] if found else []


def groups() -> list[str]:
    return part("Groups of hooks, and what the hooks of each report", table.GROUPS, 16)


def options(those: Iterable[table.Option]) -> list[str]:
    return part("Options, each at most once, as --out FILE or --out=FILE", ((form(it), it.says) for it in those), 24)


def page(mode: table.Mode) -> list[str]:
    """The page of a mode."""
    found = [*usage(mode), "", *textwrap.wrap(f"{mode.name} {mode.says}.", WIDTH)]
    found += options(table.taken(mode.name))
    if any(it.value == "GROUPS" for it in table.taken(mode.name)):
        found += groups()
    return found + ["", "Example, at the top of the repository", *(it for command in mode.example for it in copied(command))]


def copied(command: str) -> list[str]:
    """The lines of a command to copy."""
    lines = textwrap.wrap(command, WIDTH - 4, initial_indent="  ", subsequent_indent="    ", break_on_hyphens=False)
    return [it + " \\" for it in lines[:-1]] + lines[-1:]


def main_page() -> list[str]:
    """The usage page."""
    found = ["Usage: wasabi MODE MODULE [OPTION]..."]
    for name, says in table.SCRIPT_WORDS:
        lines = textwrap.wrap(says, WIDTH - 31, break_on_hyphens=False)
        found.append(f"       wasabi {name}".ljust(31) + lines[0])
        found += [" " * 31 + it for it in lines[1:]]
    found += part("Modes; wasabi MODE --help says which options each takes", ((it.name, it.says) for it in table.MODES), 14)
    found += part("Commands on top of the modes; wasabi COMMAND --help says what each takes", table.jobs().items(), 14)
    found += options(table.OPTIONS)
    found += ["", "No word behind a word -- is an option."]
    found += groups()
    found += part("Statuses", ((str(it.number), it.says) for it in table.STATUSES), 6)
    return found + ["", "docs/ of the repository describes all of these."]


def printed(lines: Sequence[str]) -> str:
    return "".join(it.rstrip() + "\n" for it in lines)
