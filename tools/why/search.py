"""Finds the first thing in a module that is broken, that version 1.0 does not have, or that is floating.

All else that reasons say of a module comes from wasabi_tools.module. That reader takes whatever follows a form as if it had the form; this
search looks at each byte that another version could use otherwise, and passes over plain bodies a hundred times as fast, so it stays.
"""
from __future__ import annotations

import re
from typing import Iterator, NamedTuple, NoReturn, Optional

import features
from wasabi_tools.binary import HEADER, Reader, leb
from wasabi_tools.faults import Fault
from wasabi_tools.module import Module
from wasabi_tools.opcodes import BLOCK, BR_TABLE, CALL_INDIRECT, END, IF, LOOP, NAMES, OPCODES

TYPES = {0x7F: "i32", 0x7E: "i64", 0x7D: "f32", 0x7C: "f64"}
FORM_OF_FUNCTIONS, FUNCTIONS_IN_SLOTS, I64_CONST = 0x60, 0x70, 0x42
# The instructions behind which version 1.0 has a zero byte, where a later one has an index.
INDEXED = {CALL_INDIRECT: "references", 0x3F: "several memories", 0x40: "several memories"}
# Bodies are passed over by what their instructions look like; only those in which another one stands are decoded.
NUMBER, LONG = rb"[\x80-\xff]{0,4}[\x00-\x7f]", rb"[\x80-\xff]{0,9}[\x00-\x7f]"
PLAIN = re.compile(
    rb"(?:[\x0c\x0d\x10\x20-\x24\x41]" + NUMBER + rb"|[\x00\x01\x05\x0b\x0f\x1a\x1b\x45-\x5a\x67-\x8a\xa7\xac\xad\xc0-\xc4]"
    rb"|[\x28\x29\x2c-\x37\x3a-\x3e]" + 2 * NUMBER + rb"|[\x02-\x04][\x40\x7e\x7f\x00-\x3f]|\x42" + LONG +
    rb"|\x11" + NUMBER + rb"\x00|[\x3f\x40]\x00){0,500}", re.S)
LARGE = 1 << 16
LOCALS = re.compile(NUMBER + rb"[\x7e\x7f]", re.S)
SECTIONS = "custom type import function table memory global export start element code data".split()


class Found(NamedTuple):
    """A thing that is broken, floating or later: what it is, the feature that brought it, and where it stands."""

    kind: str
    what: str
    feature: Optional[str]
    at: int
    func: Optional[int]
    position: Optional[int]
    type: Optional[int]


class Stop(Exception):
    """The search is over."""


def name_of(module: Module, func: int) -> str | None:
    """The name of a function by the section of names, or else by its first export, as far as the module is sound."""
    def exported() -> Iterator[tuple[int, str]]:
        return ((index, name) for name, index in module.exports.items())

    for told in (module.named, exported):
        try:
            found = next((name for index, name in told() if index == func and name), None)
        except Fault:
            continue
        if found:
            return found
    return None


def named(module: Module, func: int) -> str:
    """A function in words: its number, and its name if it has one."""
    name = name_of(module, func)
    return f"function {func} {name}" if name else f"function {func}"


class Search(Reader):
    """Reads a module from its front as far as it is sound, or only to the first thing that floats."""

    def __init__(self, data: bytes, is_for_floats: bool = False) -> None:
        super().__init__(data, len(HEADER))
        self.is_for_floats = is_for_floats
        self.found: list[Found] = []
        self.imported = 0
        self.func: int | None = None
        self.position: int | None = None
        self.type: int | None = None
        try:
            self.read_sections()
        except Stop:
            pass
        except Fault as fault:
            self.note("broken", str(fault), None, self.at)
        except IndexError:
            self.note("broken", str(self.short()), None, self.at)

    def first(self, *kinds: str) -> Found | None:
        """The first thing that was found of some kinds: broken, later or float."""
        return next((it for it in self.found if it.kind in kinds), None)

    def note(self, kind: str, what: str, feature: str | None, at: int) -> None:
        self.found.append(Found(kind, what, feature, at, self.func, self.position, self.type))
        if kind == "float" and self.is_for_floats:
            raise Stop

    def stop(self, what: str, feature: str | None = None, at: int | None = None) -> NoReturn:
        self.note("later" if feature else "broken", what, feature, self.at if at is None else at)
        raise Stop

    def short(self) -> Fault:
        return Fault("bytes that end where more must follow")

    def no_text(self, at: int) -> Fault:
        return Fault("a name that is not UTF-8")

    def next_byte(self) -> int:
        """The byte that is read next."""
        if not self.more():
            raise self.short()
        return self.data[self.at]

    def number(self, signed: bool = False, most: int = 5) -> int:
        begin = self.at
        value = super().number(signed)
        if self.at - begin > most:
            self.stop(f"a number is longer than {most} bytes", at=begin)
        return value

    def value_type(self) -> None:
        at, byte = self.at, self.byte()
        if byte in (0x7D, 0x7C):
            self.note("float", f"the type {TYPES[byte]}", None, at)
        elif byte not in TYPES:
            what, feature = features.TYPES.get(byte, (f"a type {byte:#04x}", "garbage collection" if 0x60 <= byte <= 0x74 else None))
            self.stop(f"the type {what}" if feature else f"{what} that no version has", feature, at)

    def limits(self) -> None:
        at, flags = self.at, self.byte()
        if flags > 1:
            feature = "memories of 64 bits" if flags & 4 else "threads" if flags < 4 else "pages of another size"
            self.stop(f"limits of the form {flags}", feature, at)
        self.pass_numbers(1 + flags)

    def table(self) -> None:
        at, byte = self.at, self.byte()
        if byte != FUNCTIONS_IN_SLOTS:
            self.stop(f"a table of {features.TYPES.get(byte, ('another type',))[0]}", "references", at)
        self.limits()

    def read_sections(self) -> None:
        while self.more():
            at, kind, self.func, self.position = self.at, self.byte(), None, None
            length = self.number()
            self.end = self.at + length
            if self.end > len(self.data):
                self.stop(f"the section of the id {kind} has {length} bytes, and the file ends before", at=at)
            if kind == 12:
                self.stop("a section with the number of data segments", "bulk memory", at)
            if kind == 13:
                self.stop("a section of tags", "exceptions", at)
            if kind > 13:
                self.stop(f"a section of the unknown id {kind}", at=at)
            getattr(self, "read_" + SECTIONS[kind])()
            if self.more():
                self.stop(f"the section of the id {kind} has bytes left over")
            self.end = len(self.data)

    def read_custom(self) -> None:
        self.name()
        self.at = self.end

    def read_type(self) -> None:
        for self.type in range(self.number()):
            at, form = self.at, self.byte()
            if form != FORM_OF_FUNCTIONS:
                self.stop(f"a type of the form {form:#04x}", "garbage collection", at)
            for _ in range(2):
                for _ in range(self.number()):
                    self.value_type()
        self.type = None

    def read_import(self) -> None:
        for _ in range(self.number()):
            self.one_import()

    def one_import(self) -> None:
        self.name()
        self.name()
        at, kind = self.at, self.byte()
        if kind == 0:
            self.imported += 1
            self.number()
        elif kind == 1:
            self.table()
        elif kind == 2:
            self.limits()
        elif kind == 3:
            self.value_type()
            self.byte()
        elif kind == 4:
            self.stop("an import of a tag", "exceptions", at)
        else:
            self.stop(f"an import of the kind {kind}", at=at)

    def read_function(self) -> None:
        self.pass_numbers(self.number())

    def read_table(self) -> None:
        for _ in range(self.number()):
            self.table()

    def read_memory(self) -> None:
        for _ in range(self.number()):
            self.limits()

    def read_export(self) -> None:
        for _ in range(self.number()):
            self.name()
            self.byte()
            self.number()

    def read_start(self) -> None:
        self.number()

    def read_global(self) -> None:
        for _ in range(self.number()):
            self.value_type()
            self.byte()
            self.expression()

    def read_element(self) -> None:
        for _ in range(self.number()):
            at, flags = self.at, self.number()
            if flags:
                self.stop(f"an element segment of the form {flags}", "bulk memory" if flags in (1, 3) else "references", at)
            self.expression()
            self.pass_numbers(self.number())

    def read_data(self) -> None:
        for _ in range(self.number()):
            at, flags = self.at, self.number()
            if flags:
                self.stop(f"a data segment of the form {flags}", "bulk memory" if flags == 1 else "several memories", at)
            self.expression()
            self.take(self.number())

    def read_code(self) -> None:
        whole = self.end
        for place in range(self.number()):
            length = self.number()
            self.func, self.position = self.imported + place, None
            end = self.at + length
            if end > whole:
                raise self.short()
            if len(self.data) > LARGE and self.is_plain(self.at, end):
                self.at = end
                continue
            self.end = end
            for _ in range(self.number()):
                self.number()
                self.value_type()
            self.position = 0
            self.expression()
            if self.more():
                self.stop("a body has bytes after its end")
            self.end = whole

    def is_plain(self, at: int, end: int) -> bool:
        """Whether a body is seen at once to have only instructions of version 1.0 that are not floating."""
        groups = self.data[at]
        at += 1
        for _ in range(groups):
            local = LOCALS.match(self.data, at, end)
            if groups > 127 or not local:
                return False
            at = local.end()
        while at < end:
            match = PLAIN.match(self.data, at, end)
            passed = match.end() if match else at
            if passed == at and self.data[at] == BR_TABLE:
                passed = self.behind_table(at + 1)
            if passed == at:
                return False
            at = passed
        return at == end and self.data[end - 1] == END

    def behind_table(self, at: int) -> int:
        """The place behind the numbers of a br_table whose opcode stands before a place; that of the opcode if their count is too long."""
        begin, (left, at) = at, leb(self.data, at)
        if at - begin > 5:
            return begin - 1
        while left >= 0:
            left -= self.data[at] < 128
            at += 1
        return at

    def expression(self) -> None:
        """Reads instructions to the end of the outermost block; the position counts those of a body."""
        depth = 1
        while depth:
            depth += self.instruction()
            if self.position is not None:
                self.position += 1

    def instruction(self) -> int:
        """Reads one instruction, and returns how many more blocks are open behind it."""
        at, code = self.at, self.byte()
        if code in features.FLOATING:
            self.note("float", features.FLOATING[code], None, at)
        later = features.LATER.get(code) or (features.prefixed(code, self.number()) if code >= 0xFB else None)
        if later:
            self.stop(*later, at)
        if code not in OPCODES:
            self.stop(f"the opcode {code:#04x}, which no instruction has", at=at)
        if code in (BLOCK, LOOP, IF):
            self.block_type()
            return 1
        if code in INDEXED:
            self.indexed(code, at)
        else:
            self.operands(code)
        return -1 if code == END else 0

    def operands(self, code: int) -> None:
        """Passes over what follows an opcode."""
        for it in OPCODES[code].operands:
            if it == "L":
                self.pass_numbers(self.number() + 1)
            elif it.isdigit():
                self.take(int(it))
            else:
                self.number(most=10 if code == I64_CONST else 5)

    def block_type(self) -> None:
        if self.next_byte() in (0x7B, 0x70, 0x6F, 0x7D, 0x7C):
            self.value_type()
        else:
            self.number()

    def indexed(self, code: int, at: int) -> None:
        """Reads what ends a call_indirect, a memory.size or a memory.grow: one zero byte in version 1.0."""
        if code == CALL_INDIRECT:
            self.number()
        begin, index = self.at, self.number()
        if index or self.at != begin + 1:
            form = f"the index {index}" if index else f"a zero of {self.at - begin} bytes"
            self.stop(f"{NAMES[code]} with {form}", INDEXED[code], at)

    def place(self, found: Found) -> str:
        """The place of what was found, in words."""
        inside = ""
        if found.func is not None:
            inside = f"{self.named(found.func)}{'' if found.position is None else f' at position {found.position}'}, "
        elif found.type is not None:
            inside = f"type {found.type}{self.user_of(found)}, "
        return f"{inside}byte {found.at:#x} of the file"

    def named(self, func: int) -> str:
        return named(Module(self.data), func)

    def user_of(self, found: Found) -> str:
        """The first function of a type in words. A module that floats is sound otherwise; of another one nothing behind the type is read."""
        module = Module(self.data)
        kinds = [*(it.type for it in module.imports), *module.defined] if found.kind == "float" else []
        return f" of {named(module, kinds.index(found.type))}" if found.type in kinds else ""
