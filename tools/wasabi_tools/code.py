"""The instructions of a body: their places, their opcodes and the numbers that follow these."""
from __future__ import annotations

from typing import List, NamedTuple, Tuple

from wasabi_tools.binary import leb
from wasabi_tools.faults import Fault
from wasabi_tools.opcodes import BLOCK, BR_TABLE, CALL_INDIRECT, IF, LOADS, LOOP, NAMES, OPCODES, STORES


class Instruction(NamedTuple):
    offset: int  # in the file
    opcode: int
    numbers: Tuple[int, ...]

    @property
    def name(self) -> str:
        return NAMES[self.opcode]


# How many numbers follow an opcode; -1: a list and one more, -2: none that wasabi takes.
COUNTS = [-2] * 256
SIGNED = [False] * 256
for _opcode, _it in OPCODES.items():
    if _it.feature is None:
        COUNTS[_opcode] = -1 if _it.operands == "L" else len(_it.operands)
        SIGNED[_opcode] = _it.operands == "s"


def instructions(data: bytes, at: int, end: int, what: str) -> List[Instruction]:
    """Those from a place to an end; what: the name of the bytes in a Fault."""
    found: List[Instruction] = []
    begin, add, make = at, found.append, Instruction
    try:
        while at < end:
            begin = at
            opcode = data[at]
            at += 1
            count = COUNTS[opcode]
            if count == 0:
                add(make(begin, opcode, ()))
                continue
            if count == -1:
                count, at = leb(data, at)
                count += 1
            elif count == -2:
                raise Fault(f"{what} has the opcode {opcode:#04x} at byte {begin:#x}, which no module has that wasabi takes")
            numbers = []
            is_signed = SIGNED[opcode]
            for _ in range(count):
                number, at = leb(data, at, is_signed)
                numbers.append(number)
            add(make(begin, opcode, tuple(numbers)))
    except IndexError:
        at = end + 1
    if at != end:
        raise Fault(f"{what} has an instruction at byte {begin:#x} that goes on behind the end of its body")
    return found


BLOCK_TYPES = {-64: "", -1: " i32", -2: " i64"}


def text_of(instruction: Instruction) -> str:
    """An instruction as it is written, with its numbers."""
    opcode, numbers = instruction.opcode, instruction.numbers
    if opcode in (BLOCK, LOOP, IF):
        return instruction.name + BLOCK_TYPES.get(numbers[0], f" type {numbers[0]}")
    if opcode in LOADS or opcode in STORES:
        return instruction.name + (f" offset={numbers[1]}" if numbers[1] else "")
    if opcode in (0x3F, 0x40):
        return instruction.name
    return " ".join([instruction.name, *map(str, numbers[:1] if opcode == CALL_INDIRECT else numbers)])


def labels_of(instruction: Instruction) -> Tuple[int, ...]:
    """The labels that a branch may take, each once."""
    return tuple(sorted(set(instruction.numbers))) if instruction.opcode == BR_TABLE else instruction.numbers
