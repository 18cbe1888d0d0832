"""Which line of which source an instruction comes from, by the section .debug_line in version 4 or 5 of DWARF (6.2 in both).

    lines = Lines(module)
    lines.at(instruction.offset)         Place(path, line), or None; units are read until one has the offset
"""
from __future__ import annotations

import posixpath
import re
from bisect import bisect_right
from functools import cached_property
from typing import Dict, Iterator, List, NamedTuple, Optional, Tuple

from wasabi_tools.binary import Reader, leb
from wasabi_tools.dwarf import LINE_STRP, STRP, read_value, units
from wasabi_tools.faults import Fault
from wasabi_tools.module import Module

NO_LINES = "has no lines: compile it with -gdwarf-4, without wasm-opt (clang -c, then wasm-ld), and give it as it was before instrument, " \
    "whose output has none"
PATH, FOLDER = 1, 2


class Place(NamedTuple):
    path: str
    line: int


class Sequence(NamedTuple):
    """The rows of one piece of code without gaps, by parallel lists; a row holds up to the next one, and a line 0 is none."""

    begin: int
    end: int
    offsets: List[int]
    files: List[int]
    lines: List[int]


class Header(NamedTuple):
    """What stands before the program of a unit: its files, and how its opcodes are read (6.2.4)."""

    paths: List[str]
    program: int  # in the file
    end: int
    least: int
    width: int
    first: int
    operands: bytes


class Lines:
    """The lines of a module. Offsets count from the first byte of the file, paths are those of the compiler."""

    def __init__(self, module: Module) -> None:
        self.module = module
        self._sequences: List[Sequence] = []
        self._paths: List[List[str]] = []
        self._waiting: Optional[Iterator[Header]] = None
        self._sorted: Optional[Tuple[List[int], List[Tuple[Sequence, List[str]]]]] = None

    @cached_property
    def folders(self) -> Dict[int, str]:
        """The folder of the compiler for each unit, by where its lines begin."""
        return {it.statements: it.folder for it in units(self.module) if it.statements is not None}

    @cached_property
    def by_statements(self) -> Dict[int, Header]:
        """The headers of the units by where they begin in .debug_line."""
        reader = self.module.custom(".debug_line")
        section, found = reader.at, {}
        while reader.more():
            begin = reader.at - section
            found[begin] = header(self.module, reader.part(reader.fixed(4)), self.folders.get(begin, ""))
        return found

    @property
    def headers(self) -> List[Header]:
        return list(self.by_statements.values())

    def need(self) -> None:
        """Raises a Fault if the module has no lines."""
        if not self.headers:
            raise Fault(f"{self.module.what} {NO_LINES}")

    @cached_property
    def paths(self) -> List[str]:
        """The paths of all sources that are listed, in order."""
        return sorted({path for it in self.headers for path in it.paths if path})

    @cached_property
    def _shown(self) -> Dict[str, str]:
        """For each path its shortest end that no other one has."""
        ends: Dict[str, set[str]] = {}
        for path in self.paths:
            for end in ends_of(path):
                ends.setdefault(end, set()).add(path)
        return {path: next(end for end in ends_of(path) if ends[end] == {path} or end == path) for path in self.paths}

    def shown(self, path: str) -> str:
        """A path as it is printed where room is short: its shortest end that tells it from the others."""
        return self._shown.get(path, path)

    def at(self, offset: int) -> Optional[Place]:
        """The line of the instruction at a byte of the file."""
        found = self._row(offset - self.module.code)
        if found is None:
            return None
        sequence, paths, row = found
        file, line = sequence.files[row], sequence.lines[row]
        return Place(paths[file], line) if line and file < len(paths) and paths[file] else None

    def _row(self, offset: int) -> Optional[Tuple[Sequence, List[str], int]]:
        if self._sorted:
            begins, sequences = self._sorted
            at = bisect_right(begins, offset) - 1
            found = [sequences[at]] if at >= 0 else []
        else:
            found = list(zip(self._sequences, self._paths))
        for sequence, paths in found:
            if sequence.begin <= offset < sequence.end:
                return sequence, paths, bisect_right(sequence.offsets, offset) - 1
        return None if self._sorted else self._directly(offset) or self._further(offset)

    def _directly(self, offset: int) -> Optional[Tuple[Sequence, List[str], int]]:
        """Looks in each unit for the sequence that has an offset, without reading those before it."""
        for it in self.headers:
            found = sequence_at(self.module.data, it, offset)
            if found:
                self._sequences.append(found)
                self._paths.append(it.paths)
                return found, it.paths, bisect_right(found.offsets, offset) - 1
        return None

    def _further(self, offset: int) -> Optional[Tuple[Sequence, List[str], int]]:
        """Reads units until one has an offset."""
        if self._waiting is None:
            self._waiting = iter(self.headers)
        for header in self._waiting:
            new = [it for it in sequences(self.module.data, header) if 0 < it.begin < it.end]
            self._sequences += new
            self._paths += [header.paths] * len(new)
            if any(it.begin <= offset < it.end for it in new):
                return self._row(offset)
        order = sorted(zip(self._sequences, self._paths), key=lambda it: it[0].begin)
        self._sorted = [it[0].begin for it in order], order
        return self._row(offset)

    def all(self) -> Lines:
        """The same, with every unit read: for many questions."""
        if not self._sorted:
            self._further(-1)
        return self


def ends_of(path: str) -> List[str]:
    """The ends of a path, from its last part to the whole."""
    parts = path.split("/")
    return ["/".join(parts[-length:]) for length in range(1, len(parts) + 1)]


def joined(*parts: str) -> str:
    return posixpath.normpath(posixpath.join(*parts)) if parts[-1] else ""


def header(module: Module, reader: Reader, folder: str) -> Header:
    version = reader.fixed(2)
    if version not in (4, 5):
        raise Fault(f"{module.what} has lines in version {version} of DWARF: compile with -gdwarf-4 or -gdwarf-5")
    if version == 5:
        reader.take(2)  # the sizes of an address and of a segment's selector
    length = reader.fixed(4)
    program = reader.at + length
    reader.take(3)  # the length of an instruction, operations in one, whether a row begins a statement
    least, width, first = int.from_bytes(reader.take(1), "little", signed=True), reader.byte(), reader.byte()
    operands = reader.take(first - 1)
    paths = listed_files(reader, folder) if version == 4 else formed_files(module, reader, folder)
    return Header(paths, program, reader.end, least, max(width, 1), first, operands)


def listed_files(reader: Reader, folder: str) -> List[str]:
    """The files in version 4, by their numbers; 0 is none."""
    folders, paths = [folder], [""]
    while name := reader.text():
        folders.append(joined(folder, name))
    while name := reader.text():
        place = reader.number()
        reader.number()
        reader.number()
        paths.append(joined(folders[place] if place < len(folders) else folder, name))
    return paths


def formed_files(module: Module, reader: Reader, folder: str) -> List[str]:
    """The files in version 5, in which a list says what form each entry of the next list has. Folders come first."""
    folders = [joined(folder, path) for path, _ in entries(module, reader)]
    return [joined(folders[place] if place < len(folders) else folder, path) for path, place in entries(module, reader)]


def entries(module: Module, reader: Reader) -> List[Tuple[str, int]]:
    """The path and the folder's number of each entry."""
    forms = [(reader.number(), reader.number()) for _ in range(reader.byte())]
    found = []
    for _ in range(reader.number()):
        path, place = "", 0
        for kind, form in forms:
            value = read_value(form, 0, reader)
            if kind == PATH:
                path = value.text
                if form in (STRP, LINE_STRP):
                    strings = module.custom(".debug_line_str" if form == LINE_STRP else ".debug_str")
                    strings.take(value.number)
                    path = strings.text()
            elif kind == FOLDER:
                place = value.number
        found.append((path, place))
    return found


# The end of a sequence, and the opcodes before the address of the next one, which set its file, its column and its flags.
NEXT = re.compile(rb"\x00\x01\x01(?:[\x04\x05][\x80-\xff]*[\x00-\x7f]|[\x06\x07\x0a\x0b])*\x00\x05\x02(....)", re.S)


def sequence_at(data: bytes, header: Header, offset: int) -> Optional[Sequence]:
    """The sequence of a unit that has an offset, by the addresses at which sequences begin. It may miss one, if other opcodes come first."""
    begins = [(int.from_bytes(it[1], "little"), it.start() + 3) for it in NEXT.finditer(data, header.program, header.end)]
    if data.startswith(b"\0\5\2", header.program):
        begins.append((int.from_bytes(data[header.program + 3:header.program + 7], "little"), header.program))
    address, place = max((it for it in begins if it[0] <= offset), default=(0, header.end))
    found = next(sequences(data, header._replace(program=place)), None) if address else None
    return found if found and found.begin <= offset < found.end else None


def sequences(data: bytes, header: Header) -> Iterator[Sequence]:
    """Those of a unit's program (6.2.5). The loop is written out, because it is most of the time that lines take."""
    at, end, first, operands = header.program, header.end, header.first, header.operands
    steps = [((it - first) // header.width, header.least + (it - first) % header.width) for it in range(256)]
    offset, file, line = 0, 1, 1
    offsets: List[int] = []
    files: List[int] = []
    numbers: List[int] = []
    while at < end:
        opcode = data[at]
        at += 1
        if opcode >= first:
            advance, delta = steps[opcode]
            offset += advance
            line += delta
        elif opcode == 0:
            length, at = leb(data, at)
            extended, behind = data[at], at + length
            if extended == 1:
                if offsets:
                    yield Sequence(offsets[0], offset, offsets, files, numbers)
                offset, file, line, offsets, files, numbers = 0, 1, 1, [], [], []
            elif extended == 2:
                offset = int.from_bytes(data[at + 1:behind], "little")
            at = behind
            continue
        elif opcode == 3:
            delta, at = leb(data, at, True)
            line += delta
            continue
        elif opcode in (2, 4):
            value, at = leb(data, at)
            offset, file = (offset + value, file) if opcode == 2 else (offset, value)
            continue
        elif opcode != 1:
            if opcode == 8:
                offset += steps[255][0]
            elif opcode == 9:
                offset += int.from_bytes(data[at:at + 2], "little")
                at += 2
            else:
                for _ in range(operands[opcode - 1]):
                    _, at = leb(data, at)
            continue
        offsets.append(offset)
        files.append(file)
        numbers.append(line)
