"""Entries of DWARF in version 4 or 5 (chapters 2, 3 and 7 of both): units, functions, and copies of functions that stand inline.

    for unit in units(module): unit.folder, unit.functions()
"""
from __future__ import annotations

from dataclasses import dataclass, field
from functools import lru_cache
from typing import Dict, Iterator, List, NamedTuple, Optional, Tuple

from wasabi_tools.binary import Reader
from wasabi_tools.faults import Fault
from wasabi_tools.module import Module

COMPILE_UNIT, SUBPROGRAM, INLINED = 0x11, 0x2E, 0x1D
NAME, STATEMENTS, LOW, HIGH, FOLDER, ORIGIN, SPECIFICATION = 0x03, 0x10, 0x11, 0x12, 0x1B, 0x31, 0x47
FILE, LINE, RANGES, LINKAGE, CALL_FILE, CALL_LINE = 0x3A, 0x3B, 0x55, 0x6E, 0x58, 0x59
STRINGS_BASE, ADDRESSES_BASE, LISTS_BASE = 0x72, 0x73, 0x74

STRING, STRP, LINE_STRP, IMPLICIT, INDIRECT, PRESENT = 0x08, 0x0E, 0x1F, 0x21, 0x16, 0x19
SDATA, UDATA, EXPRESSION, LISTX = 0x0D, 0x0F, 0x18, 0x23
# How many bytes a form takes.
FIXED = {
    0x01: 4, 0x05: 2, 0x06: 4, 0x07: 8, 0x0B: 1, 0x0C: 1, 0x0E: 4, 0x10: 4, 0x11: 1, 0x12: 2, 0x13: 4, 0x14: 8, 0x17: 4, 0x19: 0,
    0x1C: 4, 0x1D: 4, 0x1E: 16, 0x1F: 4, 0x20: 8, 0x21: 0, 0x24: 8, 0x25: 1, 0x26: 2, 0x27: 3, 0x28: 4, 0x29: 1, 0x2A: 2, 0x2B: 3,
    0x2C: 4,
}
NUMBERED = {UDATA, 0x15, 0x1A, 0x1B, 0x22, LISTX}
BLOCKS = {0x0A: 1, 0x03: 2, 0x04: 4}
STRINGS_BY_INDEX, ADDRESSES_BY_INDEX = {0x1A, 0x25, 0x26, 0x27, 0x28}, {0x1B, 0x29, 0x2A, 0x2B, 0x2C}
REFERENCES = {0x11, 0x12, 0x13, 0x14, 0x15}  # from the begin of the unit; 0x10 counts from that of the section


class Value(NamedTuple):
    """What stands in an entry under an attribute: a number, or a text that stands there itself."""

    form: int
    number: int
    text: str = ""


@dataclass(frozen=True)
class Shape:
    """How entries of one abbreviation go on; size: that of all their attributes, if each has a fixed one."""

    tag: int
    has_children: bool
    attributes: List[Tuple[int, int, int]]
    size: Optional[int]


@dataclass
class Entry:
    tag: int
    offset: int
    depth: int
    values: Dict[int, Value]


@dataclass(frozen=True)
class Inlined:
    """A copy of a function that stands in another one, in these ranges of the code section."""

    name: str
    file: int  # of the unit, where the function is declared
    line: int
    ranges: Tuple[Tuple[int, int], ...]
    depth: int


@dataclass
class Function:
    """A function of the source that has code of its own, and the copies in it, outer ones first."""

    name: str
    file: int
    line: int
    begin: int
    end: int
    inlined: List[Inlined] = field(default_factory=list)


def read_value(form: int, constant: int, reader: Reader) -> Value:
    if form == INDIRECT:
        return read_value(reader.number(), 0, reader)
    if form == STRING:
        return Value(form, 0, reader.text())
    if form == SDATA:
        return Value(form, reader.number(signed=True))
    if form in NUMBERED:
        return Value(form, reader.number())
    if form in (0x09, EXPRESSION):
        reader.take(reader.number())
        return Value(form, 0)
    if form in BLOCKS:
        reader.take(reader.fixed(BLOCKS[form]))
        return Value(form, 0)
    if form == IMPLICIT:
        return Value(form, constant)
    if form == PRESENT:
        return Value(form, 1)
    if form not in FIXED:
        raise reader.fault(f"has an entry of the form {form:#x}, which is not known")
    return Value(form, reader.fixed(FIXED[form]))


@dataclass
class Unit:
    """A unit of .debug_info."""

    module: Module
    version: int
    begin: int  # its first byte, in .debug_info
    reader: Reader  # at its first entry
    shapes: Dict[int, Shape]
    top: Dict[int, Value] = field(default_factory=dict)

    def __post_init__(self) -> None:
        self.top = next((it.values for it in self.entries({COMPILE_UNIT})), {})

    def entries(self, tags: set[int]) -> Iterator[Entry]:
        """Those of some tags, each before those below it."""
        reader = Reader(self.reader.data, self.reader.at, self.reader.end, self.reader.what)
        section, depth = self.module.custom(".debug_info").at, 0
        while reader.more():
            offset, code = reader.at - section, reader.number()
            if code == 0:
                depth -= 1
                continue
            shape = self.shapes.get(code)
            if shape is None:
                raise reader.fault(f"has an entry of the abbreviation {code}, which is not there")
            if shape.tag in tags:
                yield Entry(shape.tag, offset, depth, {
                    attribute: read_value(form, constant, reader) for attribute, form, constant in shape.attributes})
            elif shape.size is not None:
                reader.take(shape.size)
            else:
                for _, form, constant in shape.attributes:
                    read_value(form, constant, reader)
            depth += shape.has_children

    @property
    def folder(self) -> str:
        """The folder in which the compiler ran."""
        return self.text(self.top.get(FOLDER))

    @property
    def statements(self) -> Optional[int]:
        """Where its lines begin in .debug_line."""
        found = self.top.get(STATEMENTS)
        return found.number if found else None

    def _indexed(self, section: str, base: int, index: int) -> int:
        found = self.top.get(base)
        reader = self.module.custom(section)
        reader.take((found.number if found else 8) + 4 * index)
        return reader.fixed(4)

    def text(self, value: Optional[Value]) -> str:
        if value is None:
            return ""
        form, number, text = value
        if form in STRINGS_BY_INDEX:
            form, number = STRP, self._indexed(".debug_str_offsets", STRINGS_BASE, number)
        if form in (STRP, LINE_STRP):
            reader = self.module.custom(".debug_line_str" if form == LINE_STRP else ".debug_str")
            reader.take(number)
            return reader.text()
        return text

    def address(self, value: Value) -> int:
        return self._indexed(".debug_addr", ADDRESSES_BASE, value.number) if value.form in ADDRESSES_BY_INDEX else value.number

    def ranges(self, values: Dict[int, Value]) -> Tuple[Tuple[int, int], ...]:
        """Where the code of an entry stands, each range with the place behind it."""
        low, high, listed = values.get(LOW), values.get(HIGH), values.get(RANGES)
        if listed:
            return tuple(it for it in (self._listed(listed) if self.version >= 5 else self._paired(listed)) if it[0] < it[1])
        if low is None or high is None:
            return ()
        begin = self.address(low)
        end = self.address(high) if high.form == 0x01 or high.form in ADDRESSES_BY_INDEX else begin + high.number
        return ((begin, end),)

    def _base(self) -> int:
        low = self.top.get(LOW)
        return self.address(low) if low else 0

    def _paired(self, listed: Value) -> Iterator[Tuple[int, int]]:
        """Ranges in .debug_ranges, of version 4 (2.17.3)."""
        reader, base = self.module.custom(".debug_ranges"), self._base()
        reader.take(listed.number)
        while True:
            begin, end = reader.fixed(4), reader.fixed(4)
            if begin == 0xFFFFFFFF:
                base = end
            elif (begin, end) == (0, 0):
                return
            else:
                yield base + begin, base + end

    def _listed(self, listed: Value) -> Iterator[Tuple[int, int]]:
        """Ranges in .debug_rnglists, of version 5 (2.17.3)."""
        reader, base, start = self.module.custom(".debug_rnglists"), self._base(), listed.number

        def indexed() -> int:
            return self._indexed(".debug_addr", ADDRESSES_BASE, reader.number())

        if listed.form == LISTX:
            found = self.top.get(LISTS_BASE)
            lists = found.number if found else 12
            start = lists + self._indexed(".debug_rnglists", LISTS_BASE, listed.number)
        reader.take(start)
        while kind := reader.byte():
            if kind == 1:
                base = indexed()
            elif kind == 5:
                base = reader.fixed(4)
            elif kind == 4:
                yield base + reader.number(), base + reader.number()
            else:
                begin = indexed() if kind in (2, 3) else reader.fixed(4)
                end = indexed() if kind == 2 else reader.fixed(4) if kind == 6 else begin + reader.number()
                yield begin, end

    def functions(self) -> List[Function]:
        """The functions with code, each with the copies of others in it."""
        found = list(self.entries({SUBPROGRAM, INLINED}))
        by_offset = {it.offset: it for it in found}
        functions: List[Function] = []
        for entry in found:
            ranges = self.ranges(entry.values)
            if not ranges:
                continue
            name, file, line = self._declared(entry, by_offset)
            if entry.tag == SUBPROGRAM:
                functions.append(Function(name, file, line, ranges[0][0], ranges[0][1]))
            elif functions:
                functions[-1].inlined.append(Inlined(name, file, line, ranges, entry.depth))
        return functions

    def _declared(self, entry: Entry, by_offset: Dict[int, Entry]) -> Tuple[str, int, int]:
        """The name, the file and the line of a function, which may stand in entries that this one refers to."""
        name, file, line = "", 0, 0
        for _ in range(8):
            values = entry.values
            name = name or self.text(values.get(NAME) or values.get(LINKAGE))
            if FILE in values and not line:
                file, line = values[FILE].number, values[LINE].number if LINE in values else 0
            other = values.get(ORIGIN) or values.get(SPECIFICATION)
            offset = None if other is None else other.number + (self.begin if other.form in REFERENCES else 0)
            if offset is None or offset not in by_offset:
                break
            entry = by_offset[offset]
        return name, file, line


def abbreviations(module: Module, offset: int) -> Dict[int, Shape]:
    """The abbreviations at a place of .debug_abbrev, by their codes (7.5.3)."""
    reader, found = module.custom(".debug_abbrev"), {}
    reader.take(offset)
    while code := reader.number():
        tag, has_children, attributes = reader.number(), reader.byte() == 1, []
        while True:
            attribute, form = reader.number(), reader.number()
            constant = reader.number(signed=True) if form == IMPLICIT else 0
            if not attribute and not form:
                break
            attributes.append((attribute, form, constant))
        sizes = [FIXED.get(form) for _, form, _ in attributes]
        found[code] = Shape(tag, has_children, attributes, None if None in sizes else sum(it or 0 for it in sizes))
    return found


def units(module: Module) -> Iterator[Unit]:
    """The units of .debug_info, in order."""
    reader = module.custom(".debug_info")
    section = reader.at
    shapes = lru_cache(maxsize=None)(lambda offset: abbreviations(module, offset))
    while reader.more():
        begin = reader.at - section
        content = reader.part(reader.fixed(4))
        version = content.fixed(2)
        if version not in (4, 5):
            raise Fault(f"{module.what} has debug information in version {version} of DWARF: compile with -gdwarf-4 or -gdwarf-5")
        kind = content.byte() if version == 5 else 1
        if version == 5:
            content.byte()
        offset = content.fixed(4)
        if version == 4:
            content.byte()
        if kind == 1:
            yield Unit(module, version, begin, content, shapes(offset))
