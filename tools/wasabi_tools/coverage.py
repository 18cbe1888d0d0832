"""Which lines, functions and branches of the sources of a module ran, and how often.

How often parts began and branches were taken determines how often each instruction ran. Of the instructions of a line, the one that ran
most often tells how often the line ran. A function that the compiler put into others in copies has its lines in each of them, and so have
the functions that are made of one generic function: the copies of a line are added up.
"""
from __future__ import annotations

from bisect import bisect_left
from collections import Counter, defaultdict
from dataclasses import dataclass, field
from pathlib import Path
from typing import Dict, Iterator, List, NamedTuple, Optional, Set, Tuple

from wasabi_tools.code import Instruction, labels_of
from wasabi_tools.counts import SILENT, Counts
from wasabi_tools.dwarf import Function as Declared, Inlined, units
from wasabi_tools.faults import Fault
from wasabi_tools.information import Information
from wasabi_tools.inputs import note, read_bytes
from wasabi_tools.lines import Lines
from wasabi_tools.module import Module, functions_with
from wasabi_tools.opcodes import BR_IF, BR_TABLE, IF


class Copy(NamedTuple):
    """Where a copy of a line stands: a function of the module, and which of the copies of other functions in it, or -1."""

    func: int
    inlined: int


@dataclass
class Line:
    """What ran of a line: for each copy of it, how often each of its instructions ran."""

    copies: Dict[Copy, List[int]] = field(default_factory=lambda: defaultdict(list))

    @property
    def count(self) -> int:
        return sum(max(each) for each in self.copies.values())

    @property
    def state(self) -> str:
        """Whether all of the line ran, a part of it, or nothing. What ran in one copy need not run in another."""
        if not self.count:
            return "never"
        shape = max(map(len, self.copies.values()))
        whole = [each for each in self.copies.values() if len(each) == shape]
        ran = [any(each[at] for each in whole) for at in range(shape)]
        return "ran" if all(ran) or any(all(each) for each in self.copies.values()) else "partly"


@dataclass(frozen=True, order=True)
class SourceFunction:
    """A function of a source: its name, where it begins, how often it was entered, and in how many copies it stands in others."""

    line: int
    name: str
    count: int
    copies: int


@dataclass(frozen=True, order=True)
class Branch:
    """A choice of a branch: its line, the byte of the instruction, the choice, and how often it came."""

    line: int
    offset: int
    choice: int
    count: int


@dataclass
class Source:
    """What ran of one source, by the path that the compiler wrote."""

    path: str
    lines: Dict[int, Line] = field(default_factory=lambda: defaultdict(Line))
    functions: List[SourceFunction] = field(default_factory=list)
    branches: List[Branch] = field(default_factory=list)
    left_out: Set[int] = field(default_factory=set)  # lines whose functions have no hooks


@dataclass
class Coverage:
    sources: Dict[str, Source]
    lines: Lines
    left_out: List[int]  # functions that have no hooks
    generated: int  # instructions without a line, which the compiler made


class Measurer:
    """Finds what ran of each source of a module."""

    def __init__(self, module: Module, counts: Counts, hooked: Optional[Set[int]]) -> None:
        self.module, self.counts = module, counts
        self.lines = Lines(module).all()
        self.lines.need()
        self.sources: Dict[str, Source] = {}
        self.entered: Dict[Tuple[str, int, str], List[int]] = defaultdict(lambda: [0, 0])  # by path, line and name: entries, copies
        self.hooked, self.generated = hooked, 0
        self.declared = {it.begin: (it, paths) for it, paths in self._declared()}

    def _declared(self) -> Iterator[Tuple[Declared, List[str]]]:
        """The functions that the debug information tells, each with the sources of its unit."""
        by_statements = self.lines.by_statements
        for unit in units(self.module):
            header = by_statements.get(-1 if unit.statements is None else unit.statements)
            for function in unit.functions():
                yield function, header.paths if header else []

    def source(self, path: str) -> Source:
        if path not in self.sources:
            self.sources[path] = Source(path)
        return self.sources[path]

    def measured(self) -> Coverage:
        left_out = []
        for func in self.module.defined_functions():
            if self.hooked is not None and func not in self.hooked:
                left_out.append(func)
                self._leave_out(func)
            else:
                self._measure(func)
        for (path, line, name), (count, copies) in self.entered.items():
            self.source(path).functions.append(SourceFunction(line, name, count, copies))
        for source in self.sources.values():
            source.functions.sort()
            source.branches.sort()
            source.left_out -= set(source.lines)
        return Coverage(self.sources, self.lines, left_out, self.generated)

    def _measure(self, func: int) -> None:
        body = self.module.body(func)
        ran = self.counts.runs(func, body)
        begin = self.module.place_of(func).begin - self.module.code
        declared, paths = self.declared[begin] if begin in self.declared else (None, [])
        self._enter(func, body, declared, paths)
        owners = self._owners(body, declared, ran, paths)
        for position, (instruction, owner, times) in enumerate(zip(body, owners, ran)):
            place = self.lines.at(instruction.offset)
            if place is None:
                self.generated += instruction.opcode not in SILENT
                continue
            source = self.source(place.path)
            if instruction.opcode not in SILENT:
                source.lines[place.line].copies[Copy(func, owner)].append(times)
            if instruction.opcode in (IF, BR_IF, BR_TABLE):
                choices = labels_of(instruction) if instruction.opcode == BR_TABLE else (0, 1)
                seen = self.counts.seen.get(func) or Counter()
                source.branches += [Branch(place.line, instruction.offset, it, seen[position, it]) for it in choices]

    def _leave_out(self, func: int) -> None:
        """Notes the lines of a function without hooks."""
        for instruction in self.module.body(func):
            place = None if instruction.opcode in SILENT else self.lines.at(instruction.offset)
            if place:
                self.source(place.path).left_out.add(place.line)

    def _enter(self, func: int, body: List[Instruction], declared: Optional[Declared], paths: List[str]) -> None:
        """Notes how often a function was entered."""
        first = self.lines.at(body[0].offset)
        path, line = (first.path, first.line) if first else ("", 0)
        if declared and declared.line and declared.file < len(paths):
            path, line = paths[declared.file], declared.line
        if path and line:
            name = self.module.names.get(func) or (declared.name if declared else "") or f"function {func}"
            self.entered[path, line, name][0] += self.counts.entries(func)

    def _owners(self, body: List[Instruction], declared: Optional[Declared], ran: List[int], paths: List[str]) -> List[int]:
        """For each instruction, which copy of another function it stands in, or -1. Notes how often the copies were entered."""
        owners = [-1] * len(body)
        offsets = [it.offset - self.module.code for it in body]
        for number, copy in enumerate(declared.inlined if declared else []):
            spans = [(bisect_left(offsets, begin), bisect_left(offsets, end)) for begin, end in copy.ranges]
            for begin, end in spans:
                owners[begin:end] = [number] * (end - begin)
            self._enter_copy(copy, [ran[begin] for begin, end in spans if begin < end], paths)
        return owners

    def _enter_copy(self, copy: Inlined, firsts: List[int], paths: List[str]) -> None:
        if firsts and copy.line and copy.file < len(paths) and paths[copy.file]:
            entered = self.entered[paths[copy.file], copy.line, copy.name]
            entered[0] += firsts[0]
            entered[1] += 1


def measured(module: Module, information: Information, output: Module, counts: Counts, what: str) -> Coverage:
    """What ran of the sources of a module, by what was counted in runs of its output."""
    information.check_original(module)
    information.check_output(output)
    counts.check(module, what)
    hooked = functions_with(output, "begin_function")
    if not hooked:
        raise Fault(f"{output.what} has no function with hooks of the group begin")
    return Measurer(module, counts, hooked).measured()


def file_of(path: str, folder: Path) -> Optional[Path]:
    """The file of a source on this machine, if it is where the compiler found it: from here, or from the folder of the module."""
    return next((it for it in (Path(path), folder / path) if it.is_file()), None)


def path_of(coverage: Coverage, name: str, folder: Path) -> Optional[str]:
    """The path by which a module knows a file: the one with the longest end in common. A source that is there itself is no other file."""
    given = Path(name)
    common: Dict[str, int] = {}
    for path in coverage.lines.paths:
        there = file_of(path, folder)
        if there is None or not given.exists() or there.samefile(given):
            common[path] = same_end(path.split("/"), given.parts)
            if there and given.exists():
                return path
    most = max(common.values(), default=0)
    found = [path for path, length in common.items() if length == most and length]
    if len(found) > 1:
        raise Fault(f"{name} may be {' or '.join(found[:4])}: name it with its folder")
    return found[0] if found else None


def same_end(first: List[str], second: Tuple[str, ...]) -> int:
    """How many parts two paths have in common at their ends."""
    length = 0
    while length < min(len(first), len(second)) and first[-1 - length] == second[-1 - length]:
        length += 1
    return length


def sources_of(coverage: Coverage, names: List[str], folder: Path) -> List[Tuple[Source, Path]]:
    """The sources that are named, or else all that are there, each with its file. Those that are not there are told."""
    if not names:
        found = [(coverage.sources[path], file_of(path, folder)) for path in sorted(coverage.sources)]
        missing = [source.path for source, file in found if file is None]
        if missing:
            note(f"not found: {', '.join(missing[:5])}{f' and {len(missing) - 5} more' if len(missing) > 5 else ''}")
        return [(source, file) for source, file in found if file]
    chosen = []
    for name in names:
        read_bytes(name)
        path = path_of(coverage, name, folder)
        if path is None or path not in coverage.sources:
            note(f"{name} has no code in the module")
        else:
            chosen.append((coverage.sources[path], Path(name)))
    return chosen
