"""The opcodes of WebAssembly: what each is called, which operands follow it, and which feature after version 1.0 brought it."""
from __future__ import annotations

from typing import Dict, Iterator, List, NamedTuple, Optional, Tuple

UNREACHABLE, NOP, BLOCK, LOOP, IF, ELSE, END = 0x00, 0x01, 0x02, 0x03, 0x04, 0x05, 0x0B
BR, BR_IF, BR_TABLE, RETURN, CALL, CALL_INDIRECT = 0x0C, 0x0D, 0x0E, 0x0F, 0x10, 0x11
LOADS, STORES = range(0x28, 0x36), range(0x36, 0x3F)
FLOATS = "floats"


class Opcode(NamedTuple):
    """An instruction. Its operands are letters: u a number, s a signed one, L a list of numbers with one more, 4 and 8 so many bytes."""

    name: str
    operands: str = ""
    feature: Optional[str] = None  # what it belongs to beside the integers of version 1.0


COMPARED = "eq ne lt_s lt_u gt_s gt_u le_s le_u ge_s ge_u".split()
COMPUTED = "clz ctz popcnt add sub mul div_s div_u rem_s rem_u and or xor shl shr_s shr_u rotl rotr".split()
FLOAT_COMPARED = "eq ne lt gt le ge".split()
FLOAT_COMPUTED = "abs neg ceil floor trunc nearest sqrt add sub mul div min max copysign".split()
LOADED = "i32.load i64.load f32.load f64.load i32.load8_s i32.load8_u i32.load16_s i32.load16_u i64.load8_s i64.load8_u i64.load16_s " \
    "i64.load16_u i64.load32_s i64.load32_u".split()
STORED = "i32.store i64.store f32.store f64.store i32.store8 i32.store16 i64.store8 i64.store16 i64.store32".split()
CONVERTED = "i32.wrap_i64 i32.trunc_f32_s i32.trunc_f32_u i32.trunc_f64_s i32.trunc_f64_u i64.extend_i32_s i64.extend_i32_u " \
    "i64.trunc_f32_s i64.trunc_f32_u i64.trunc_f64_s i64.trunc_f64_u f32.convert_i32_s f32.convert_i32_u f32.convert_i64_s " \
    "f32.convert_i64_u f32.demote_f64 f64.convert_i32_s f64.convert_i32_u f64.convert_i64_s f64.convert_i64_u f64.promote_f32 " \
    "i32.reinterpret_f32 i64.reinterpret_f64 f32.reinterpret_i32 f64.reinterpret_i64".split()


def of_type(kind: str, names: List[str]) -> List[str]:
    return [f"{kind}.{name}" for name in names]


# By the first opcode of a row: the names, and the operands of each.
ROWS: List[Tuple[int, List[str], str]] = [
    (0x00, ["unreachable", "nop"], ""), (0x02, ["block", "loop", "if"], "s"), (0x05, ["else"], ""), (0x0B, ["end"], ""),
    (0x0C, ["br", "br_if"], "u"), (0x0E, ["br_table"], "L"), (0x0F, ["return"], ""), (0x10, ["call"], "u"), (0x11, ["call_indirect"], "uu"),
    (0x1A, ["drop", "select"], ""), (0x20, "local.get local.set local.tee global.get global.set".split(), "u"),
    (0x28, LOADED + STORED, "uu"), (0x3F, ["memory.size", "memory.grow"], "u"), (0x41, ["i32.const", "i64.const"], "s"),
    (0x43, ["f32.const"], "4"), (0x44, ["f64.const"], "8"),
    (0x45, of_type("i32", ["eqz"] + COMPARED) + of_type("i64", ["eqz"] + COMPARED), ""),
    (0x5B, of_type("f32", FLOAT_COMPARED) + of_type("f64", FLOAT_COMPARED), ""),
    (0x67, of_type("i32", COMPUTED) + of_type("i64", COMPUTED), ""),
    (0x8B, of_type("f32", FLOAT_COMPUTED) + of_type("f64", FLOAT_COMPUTED), ""), (0xA7, CONVERTED, ""),
    (0xC0, of_type("i32", ["extend8_s", "extend16_s"]) + of_type("i64", ["extend8_s", "extend16_s", "extend32_s"]), ""),
]


def listed() -> Iterator[Tuple[int, Opcode]]:
    for first, names, operands in ROWS:
        for opcode, name in enumerate(names, first):
            is_float = name.startswith("f") or "_f" in name
            yield opcode, Opcode(name, operands, FLOATS if is_float else None)


# Every opcode of version 1.0, and of the sign extension, by its number.
OPCODES: Dict[int, Opcode] = dict(listed())
NAMES: Dict[int, str] = {number: it.name for number, it in OPCODES.items()}
NUMBERS: Dict[str, int] = {name: number for number, name in NAMES.items()}

# What came after version 1.0: one opcode, or a prefix and a number.
LATER: Dict[int, Opcode] = {
    **{op: Opcode(name, feature="exceptions") for op, name in zip(
        (6, 7, 8, 9, 10, 0x18, 0x19, 0x1F), "try catch throw rethrow throw_ref delegate catch_all try_table".split())},
    0x12: Opcode("return_call", feature="tail calls"), 0x13: Opcode("return_call_indirect", feature="tail calls"),
    0x14: Opcode("call_ref", feature="typed references"), 0x15: Opcode("return_call_ref", feature="typed references"),
    0x1C: Opcode("select with a type", feature="references"), 0x25: Opcode("table.get", feature="references"),
    0x26: Opcode("table.set", feature="references"), 0xD0: Opcode("ref.null", feature="references"),
    0xD1: Opcode("ref.is_null", feature="references"), 0xD2: Opcode("ref.func", feature="references"),
    **{op: Opcode(name, feature="typed references") for op, name in zip(
        range(0xD3, 0xD7), "ref.eq ref.as_non_null br_on_null br_on_non_null".split())},
}
SATURATING = [f"{to}.trunc_sat_{it}" for to in ("i32", "i64") for it in "f32_s f32_u f64_s f64_u".split()]
BULK = "memory.init data.drop memory.copy memory.fill table.init elem.drop table.copy".split()
# Behind the prefix FC.
PREFIXED: Dict[int, Opcode] = {
    **{at: Opcode(name, feature="conversions that saturate") for at, name in enumerate(SATURATING)},
    **{at: Opcode(name, feature="bulk memory") for at, name in enumerate(BULK, 8)},
    **{at: Opcode(name, feature="references") for at, name in enumerate("table.grow table.size table.fill".split(), 15)},
}


def prefixed(prefix: int, number: int) -> Optional[Opcode]:
    """The instruction of a prefix and a number, if there is one."""
    if prefix == 0xFC:
        return PREFIXED.get(number)
    if prefix == 0xFD:
        return Opcode(f"v128 instruction {number}", feature="relaxed vectors" if number >= 256 else "vectors")
    if prefix == 0xFE:
        return Opcode(f"atomic instruction {number}", feature="threads")
    if prefix == 0xFB:
        return Opcode(f"instruction {number} on structs and arrays", feature="garbage collection")
    return None
