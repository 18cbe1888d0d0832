"""Says what is at the positions of a module: the byte of the file, the function, the line of the source, and the instruction.

    wasabi positions MODULE [PLACE ..]            all instructions, or those at places such as 2:17; 2:-1 is the entry of function 2
    wasabi positions MODULE --json [PLACE ..]     the same as JSON
    wasabi report .. | wasabi positions MODULE --report -        a report, in which each place is followed by what is there
    wasabi positions MODULE --trace FILE [PLACE ..]              the events of a trace, each followed by what is at its place

MODULE is the original. A line has the form 2:17 0xd3 ways queens.c:14 br_if 0, with a - for what is not known. Names come from the
section of names or from exports, and lines from version 4 or 5 of DWARF.
"""
from __future__ import annotations

import json
import re
from typing import Dict, Iterable, Iterator, List, NamedTuple, Optional, Tuple

from wasabi_tools.arguments import Parser, keep_inputs, parser, write
from wasabi_tools.code import Instruction, text_of
from wasabi_tools.faults import WRONG_ARGUMENTS, Fault
from wasabi_tools.inputs import read_text
from wasabi_tools.lines import Lines
from wasabi_tools.module import Module
from wasabi_tools.opcodes import NUMBERS
from wasabi_tools.traces import Event, Trace

PLACE = re.compile(r"(?<![\w:])(\d+):(-1|\d+)(?![\w:])")
ENTRY = -1
Key = Tuple[int, int]


class Standing(NamedTuple):
    """What stands at a position."""

    function: int
    name: Optional[str]
    position: int
    offset: int
    file: Optional[str]
    line: Optional[int]
    instruction: str

    def __str__(self) -> str:
        line = f"{self.file}:{self.line}" if self.file and self.line else "-"
        return f"{self.offset:#x} {self.name or '-'} {line} {self.instruction}"


class Places:
    """What stands at the positions of a module; a body is read when one of its positions is asked for."""

    def __init__(self, module: Module) -> None:
        module.need_original()
        self.module, self.lines = module, Lines(module)
        self.bodies: Dict[int, List[Instruction]] = {}

    def body(self, func: int) -> List[Instruction]:
        if func not in self.bodies:
            self.bodies[func] = self.module.body(func)
        return self.bodies[func]

    def at(self, func: int, position: int) -> Optional[Standing]:
        if not self.module.has_body(func) or not ENTRY <= position < len(self.body(func)):
            return None
        instruction = self.body(func)[max(position, 0)]
        place = self.lines.at(instruction.offset)
        offset = self.module.place_of(func).begin if position == ENTRY else instruction.offset
        return Standing(func, self.module.names.get(func), position, offset, self.lines.shown(place.path) if place else None,
                        place.line if place else None, "entry" if position == ENTRY else text_of(instruction))

    def need(self, func: int, position: int) -> Standing:
        found = self.at(func, position)
        if found is None:
            raise Fault(f"the module has no position {func}:{position}")
        return found

    def all(self) -> Iterator[Standing]:
        self.lines.all()
        for func in self.module.defined_functions():
            for position in range(ENTRY, len(self.body(func))):
                yield self.need(func, position)
            del self.bodies[func]

    def need_named(self, func: int, position: int, name: str, what: str) -> Standing:
        """What stands at a position, which must be an instruction of a name; what: what else would be of another module."""
        found = self.at(func, position)
        there = found.instruction.split(" ")[0] if found else "nothing"
        if found is None or there != name:
            raise Fault(f"{what} is of another module: it has {name} at {func}:{position}, where {self.module.what} has {there}")
        return found

    def followed(self, text: str, what: str) -> str:
        """A line in which the first place is followed by what is there."""
        found = PLACE.search(text)
        if not found:
            return text
        func, position = int(found[1]), int(found[2])
        name = next((it for it in text.split()[:3] if it in NUMBERS and it not in KINDS), None)
        there = self.need_named(func, position, name, what) if name else self.at(func, position)
        if there is None:
            raise Fault(f"{what} is of another module: {self.module.what} has no position {found[0]}")
        return f"{text[:found.end()]} ({there}){text[found.end():]}"


# Words that name a part of a body or an event at another instruction.
KINDS = {"block", "loop", "if", "else", "end", "call", "return"}


def event_text(event: Event) -> str:
    place = "" if event.func is None else f"{event.func}:{event.position}"
    fields = " ".join(f"{name} {json.dumps(value)}" for name, value in event.fields.items())
    return " ".join(filter(None, [place, event.name, fields]))


def arguments() -> Parser:
    found = parser("positions", __doc__ or "")
    found.add_argument("module", metavar="MODULE")
    found.add_argument("places", metavar="PLACE", nargs="*")
    how = found.add_mutually_exclusive_group()
    how.add_argument("--json", action="store_true")
    how.add_argument("--report", metavar="FILE")
    how.add_argument("--trace", metavar="FILE")
    found.add_argument("--out", metavar="FILE", help="the file that is written; by default standard output")
    return found


def chosen(words: Iterable[str]) -> List[Key]:
    found = []
    for word in words:
        place = PLACE.fullmatch(word)
        if not place:
            raise Fault(f"{word} is no place; a place is a function, a colon and a position, as 2:17", WRONG_ARGUMENTS)
        found.append((int(place[1]), int(place[2])))
    return found


def lines(places: Places, wanted: List[Key], report: Optional[str], trace: Optional[str]) -> Iterator[str]:
    if report:
        for line in read_text(report).splitlines():
            place = PLACE.search(line)
            if not wanted or (place and (int(place[1]), int(place[2])) in wanted):
                yield places.followed(line, "the report")
    elif trace:
        for event in Trace(trace).events():
            if not wanted or (event.func, event.position) in wanted:
                yield places.followed(event_text(event), trace)
    else:
        found = [places.need(*it) for it in wanted] if wanted else places.all()
        yield from (f"{it.function}:{it.position} {it}" for it in found)


def main(words: List[str]) -> None:
    given = arguments().parse_intermixed_args(words)
    wanted = chosen(given.places)
    keep_inputs(given.out, [given.module, given.report, given.trace])
    places = Places(Module.read(given.module))
    if given.json:
        rows = [places.need(*it) for it in wanted] if wanted else list(places.all())
        write(given.out, [json.dumps([it._asdict() for it in rows], indent=0)])
    else:
        write(given.out, lines(places, wanted, given.report, given.trace))
