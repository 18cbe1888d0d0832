"""What a word of a command can go on with, for completion in a shell."""
from __future__ import annotations

from typing import Sequence

from front import table

ALONE = ["--help", "--version", "--compile", "--prove"]


def values(option: table.Option) -> list[str]:
    """The words that an option takes; none where it takes a name of a file, or any text."""
    if option.value == "GROUPS":
        return ["all", "none", *(it.name for it in table.GROUPS)]
    if option.value == "KINDS":
        return ["all", *(it.name for it in table.KINDS)]
    return option.value.split("|") if "|" in option.value else []


def candidates(words: Sequence[str]) -> list[str]:
    """The words that the last of some words can become; empty if it is the name of a file, or nothing is known of it."""
    *before, word = words
    option = table.option(before[-1]) if before else None
    if option and option.value:
        found, front = values(option), ""
        if option.value in ("GROUPS", "KINDS") and "," in word:
            front = word.rpartition(",")[0] + ","
        return [front + it for it in found if (front + it).startswith(word)]
    mode = next((it for it in before if not it.startswith("-")), None)
    modes = [it.name for it in table.MODES]
    if mode == "help":
        found = modes
    elif word.startswith("-"):
        of_mode = table.taken(mode) if mode in modes else table.OPTIONS
        found = [it.name for it in of_mode] + (["--help"] if mode else ALONE)
    elif mode is None:
        found = [*modes, *table.jobs(), "help"]
    else:
        found = []
    return [it for it in found if it.startswith(word)]
