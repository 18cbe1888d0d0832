"""A module, as far as it is asked for: its sections, types, imports, exports, names, and where its bodies stand.

    module = Module.read("a.wasm")
    module.names[2], module.body(2)          each section is read once, when something of it is asked for first
"""
from __future__ import annotations

from functools import cached_property
from pathlib import Path
from typing import Dict, Iterator, List, NamedTuple, Optional, Sequence, Tuple, Union

from wasabi_tools.binary import HEADER, Reader
from wasabi_tools.code import Instruction, instructions
from wasabi_tools.faults import Fault
from wasabi_tools.inputs import read_bytes

HOOKS = "__wasabi_hooks"
I32_CONST = 0x41
TYPE, IMPORT, FUNCTION, TABLE, MEMORY, GLOBAL, EXPORT, START, ELEMENT, CODE, DATA = range(1, 12)
LETTERS = {0x7F: "i", 0x7E: "l", 0x7D: "f", 0x7C: "d"}


class Section(NamedTuple):
    identity: int
    name: str  # of a custom section
    begin: int
    end: int


class FunctionType(NamedTuple):
    """A letter for each parameter and for each result: i for i32, l for i64."""

    params: str
    results: str


class Import(NamedTuple):
    module: str
    name: str
    type: int


class Outside(NamedTuple):
    """What is imported: a function, a table, a memory or a global, by its kind from 0 on."""

    module: str
    name: str
    kind: int
    numbers: Tuple[int, ...]  # the type of a function, the limits of a table or a memory, the type of a global and whether it changes


class Segment(NamedTuple):
    """What is put into the table or the memory; offset: where, or None if a global says it."""

    offset: Optional[int]
    content: Sequence[int]  # indices of functions, or bytes


class Body(NamedTuple):
    """Where the body of a function stands: it begins with its locals, and its code with the first instruction."""

    begin: int
    end: int


class Module:
    """What the bytes of a module say. A place is a byte of the file."""

    def __init__(self, data: bytes, what: str = "the module") -> None:
        self.data, self.what = data, what
        if not data.startswith(HEADER):
            raise Fault(f"{what} is no WebAssembly module of version 1")

    @classmethod
    def read(cls, path: Union[str, Path]) -> Module:
        return cls(read_bytes(path), str(path))

    def walk(self) -> Iterator[Section]:
        """The sections, in the order of the file; a Fault comes only where it is cut off or changed."""
        reader = Reader(self.data, len(HEADER), what=self.what)
        while reader.more():
            identity, content = reader.byte(), reader.part(reader.number())
            name = "" if identity else content.name()
            yield Section(identity, name, content.at, content.end)

    @cached_property
    def sections(self) -> List[Section]:
        return list(self.walk())

    def section(self, identity: int) -> Reader:
        """The content of a section; of one that is not there, that of an empty list. What stands behind it is not looked at."""
        found = next((it for it in self.walk() if it.identity == identity), None)
        return Reader(self.data, found.begin, found.end, self.what) if found else Reader(b"\0", what=self.what)

    def custom(self, name: str) -> Reader:
        """The content of the first custom section of a name, or no bytes."""
        found = next((it for it in self.sections if not it.identity and it.name == name), None)
        return Reader(self.data, found.begin, found.end, self.what) if found else Reader(b"", what=self.what)

    @cached_property
    def customs(self) -> List[str]:
        """The names of the custom sections, in the order of the file."""
        return [it.name for it in self.sections if not it.identity]

    @cached_property
    def types(self) -> List[FunctionType]:
        reader, found = self.section(TYPE), []
        for _ in range(reader.number()):
            reader.byte()
            params, results = ("".join(LETTERS.get(it, "?") for it in reader.take(reader.number())) for _ in range(2))
            found.append(FunctionType(params, results))
        return found

    @cached_property
    def outside(self) -> List[Outside]:
        """All that is imported."""
        reader, found = self.section(IMPORT), []
        for _ in range(reader.number()):
            module, name, kind = reader.name(), reader.name(), reader.byte()
            numbers: Tuple[int, ...]
            if kind == 0:
                numbers = (reader.number(),)
            elif kind == 3:
                numbers = tuple(reader.take(2))
            else:
                numbers = limits_of_table(reader) if kind == 1 else limits(reader)
            found.append(Outside(module, name, kind, numbers))
        return found

    @cached_property
    def imports(self) -> List[Import]:
        """The functions that are imported, hooks among them."""
        return [Import(it.module, it.name, it.numbers[0]) for it in self.outside if it.kind == 0]

    @cached_property
    def tables(self) -> List[Tuple[int, ...]]:
        """The limits of each table: the least number of slots, and the greatest if there is one."""
        reader = self.section(TABLE)
        return [it.numbers for it in self.outside if it.kind == 1] + [limits_of_table(reader) for _ in range(reader.number())]

    @cached_property
    def memories(self) -> List[Tuple[int, ...]]:
        """The limits of each memory in pages."""
        reader = self.section(MEMORY)
        return [it.numbers for it in self.outside if it.kind == 2] + [limits(reader) for _ in range(reader.number())]

    @cached_property
    def hooks(self) -> List[str]:
        """The names of the hooks that are imported."""
        return [it.name for it in self.imports if it.module == HOOKS]

    @cached_property
    def defined(self) -> List[int]:
        """The types of the functions that the module defines."""
        reader = self.section(FUNCTION)
        return [reader.number() for _ in range(reader.number())]

    @cached_property
    def functions(self) -> List[FunctionType]:
        """The type of each function, in the order of their indices."""
        kinds = [it.type for it in self.imports] + self.defined
        if any(it >= len(self.types) for it in kinds):
            raise Fault(f"{self.what} has a function whose type is not there")
        return [self.types[it] for it in kinds]

    @cached_property
    def exported(self) -> List[Tuple[str, int, int]]:
        """Each export: its name, its kind, which is 0 for a function, and its index."""
        reader = self.section(EXPORT)
        return [(reader.name(), reader.byte(), reader.number()) for _ in range(reader.number())]

    @cached_property
    def exports(self) -> Dict[str, int]:
        """The function that each name is exported for."""
        return {name: index for name, kind, index in self.exported if kind == 0}

    @cached_property
    def elements(self) -> List[Segment]:
        """The functions of each element segment."""
        reader = self.section(ELEMENT)
        return [Segment(offset(reader), [reader.number() for _ in range(reader.number())]) for _ in range(reader.number())]

    @cached_property
    def contents(self) -> List[Segment]:
        """The bytes of each data segment."""
        reader = self.section(DATA)
        return [Segment(offset(reader), reader.take(reader.number())) for _ in range(reader.number())]

    @cached_property
    def bodies(self) -> List[Body]:
        """Where the bodies of the functions stand that the module defines, in their order."""
        reader, found = self.section(CODE), []
        for _ in range(reader.number()):
            body = reader.part(reader.number())
            found.append(Body(body.at, body.end))
        return found

    @cached_property
    def code(self) -> int:
        """The first byte of the content of the code section, from which the offsets of DWARF count."""
        return next((it.begin for it in self.sections if it.identity == CODE), 0)

    def has_body(self, func: int) -> bool:
        return len(self.imports) <= func < len(self.imports) + len(self.bodies)

    def bytes_of(self, func: int) -> bytes:
        """The body of a function, with its locals."""
        found = self.place_of(func)
        return self.data[found.begin:found.end]

    def place_of(self, func: int) -> Body:
        if not self.has_body(func):
            raise Fault(f"{self.what} has no function {func} with a body")
        return self.bodies[func - len(self.imports)]

    def body(self, func: int) -> List[Instruction]:
        """The instructions of a function; a position is an index in this list."""
        place = self.place_of(func)
        reader = Reader(self.data, place.begin, place.end, self.what)
        for _ in range(reader.number()):
            reader.number()
            reader.byte()
        return instructions(self.data, reader.at, place.end, self.what)

    def defined_functions(self) -> range:
        return range(len(self.imports), len(self.imports) + len(self.bodies))

    def named(self) -> Iterator[Tuple[int, str]]:
        """What the section of names says of functions; a section that is not of its form says nothing."""
        reader, found = self.custom("name"), []
        try:
            while reader.more():
                part, content = reader.byte(), reader.part(reader.number())
                if part == 1:
                    found = [(content.number(), content.name()) for _ in range(content.number())]
        except Fault:
            return
        yield from found

    @cached_property
    def names(self) -> Dict[int, str]:
        """The names of functions by their indices in the original, also of an output: of the section of names, or else of the
        exports and the imports."""
        own = [it for it in self.imports if it.module != HOOKS]
        found = {index: f"{it.module}.{it.name}" for index, it in enumerate(own)}
        for told in ([(index, name) for name, index in self.exports.items()], self.named()):
            found.update((self.original(index), name) for index, name in told)
        return found

    def original(self, func: int) -> int:
        """The index in the original of a function of an output."""
        own = len(self.imports) - len(self.hooks)
        return func if func < own else func - len(self.hooks)

    def name_of(self, func: int) -> str:
        """A function in words: its name, or its number if it has none."""
        return self.names.get(func) or f"function {func}"

    def has_hooks(self) -> bool:
        return bool(self.hooks)

    def need_original(self) -> None:
        """Raises a Fault if this is an output: positions are those of the original."""
        if self.has_hooks():
            raise Fault(f"{self.what} has hooks: the original is needed, whose positions the hooks tell")


def limits(reader: Reader) -> Tuple[int, ...]:
    return tuple(reader.number() for _ in range(1 + reader.number()))


def limits_of_table(reader: Reader) -> Tuple[int, ...]:
    """The limits behind the type of what is in the slots."""
    reader.byte()
    return limits(reader)


def offset(reader: Reader) -> Optional[int]:
    """Reads where a segment goes, behind the index of its table or memory: one instruction with one number, and an end."""
    reader.number()
    is_constant, number = reader.byte() == I32_CONST, reader.number(signed=True)
    reader.byte()
    return number if is_constant else None


def functions_with(output: Module, hook: str) -> Optional[set[int]]:
    """The functions, by their indices in the original, whose body in an output calls a hook of a name; None if it has no such hook."""
    wanted = next((at for at, it in enumerate(output.imports) if it == (HOOKS, hook, it.type)), None)
    if wanted is None:
        return None
    return {output.original(func) for func in output.defined_functions() if calls(output.body(func), wanted)}


def calls(body: List[Instruction], func: int) -> bool:
    return any(it.opcode == 0x10 and it.numbers[0] == func for it in body)
