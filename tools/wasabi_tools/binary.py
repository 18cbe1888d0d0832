"""Bytes as WebAssembly and DWARF write them: numbers in LEB128, names and lists, read from the front or written."""
from __future__ import annotations

from typing import Iterable, Sequence, Tuple

from wasabi_tools.faults import Fault

HEADER = b"\0asm\1\0\0\0"


def signed_of(value: int, bits: int) -> int:
    """The number that the lowest bits of a value are in two's complement."""
    value &= (1 << bits) - 1
    return value - (1 << bits) if value >> (bits - 1) else value


def leb(data: bytes, at: int, signed: bool = False) -> Tuple[int, int]:
    """The number in LEB128 at a place, and the place behind it; IndexError if the bytes end before."""
    byte = data[at]
    at += 1
    if byte < 128:
        return (byte - 128 if signed and byte & 64 else byte), at
    value, shift = byte & 127, 7
    while True:
        byte = data[at]
        at += 1
        value |= (byte & 127) << shift
        shift += 7
        if byte < 128:
            return (value - (1 << shift) if signed and byte & 64 else value), at


class Reader:
    """Reads a part of some bytes from its front; what: the name of the bytes in sentences on what is wrong."""

    def __init__(self, data: bytes, at: int = 0, end: int | None = None, what: str = "the module") -> None:
        self.data, self.at, self.what = data, at, what
        self.end = len(data) if end is None else end
        if self.end > len(data):
            raise self.fault(f"ends before its byte {self.end:#x}, to which a part of it goes")

    def fault(self, sentence: str) -> Fault:
        return Fault(f"{self.what} {sentence}")

    def short(self) -> Fault:
        return self.fault(f"is cut off or changed: more bytes must follow at {self.at:#x}")

    def no_text(self, at: int) -> Fault:
        return self.fault(f"has a name at byte {at:#x} that is not UTF-8")

    def more(self) -> bool:
        return self.at < self.end

    def take(self, length: int) -> bytes:
        if length > self.end - self.at:
            raise self.short()
        self.at += length
        return self.data[self.at - length:self.at]

    def part(self, length: int) -> Reader:
        """A reader of the next bytes, which this one passes over."""
        if length > self.end - self.at:
            raise self.short()
        self.at += length
        return Reader(self.data, self.at - length, self.at, self.what)

    def byte(self) -> int:
        if self.at >= self.end:
            raise self.short()
        self.at += 1
        return self.data[self.at - 1]

    def fixed(self, length: int) -> int:
        """A number of so many bytes, the least significant one first."""
        return int.from_bytes(self.take(length), "little")

    def number(self, signed: bool = False) -> int:
        """A number in LEB128."""
        try:
            value, at = leb(self.data, self.at, signed)
        except IndexError:
            raise self.short() from None
        if at > self.end:
            raise self.short()
        self.at = at
        return value

    def pass_numbers(self, count: int) -> None:
        """Passes over numbers in LEB128."""
        for _ in range(count):
            self.number()

    def text(self) -> str:
        """What stands before the next zero byte, which is passed over."""
        end = self.data.find(0, self.at, self.end)
        if end < 0:
            raise self.short()
        found = self.data[self.at:end].decode("utf-8", "replace")
        self.at = end + 1
        return found

    def name(self) -> str:
        """A text behind its length."""
        at = self.at
        try:
            return self.take(self.number()).decode("utf-8")
        except UnicodeDecodeError:
            raise self.no_text(at) from None


def unsigned(value: int) -> bytes:
    """A number that is not negative, in its shortest LEB128."""
    out = bytearray()
    while value >= 128:
        out.append(128 | value & 127)
        value >>= 7
    out.append(value)
    return bytes(out)


def signed(value: int) -> bytes:
    """A number in its shortest signed LEB128."""
    out = bytearray()
    while not -64 <= value < 64:
        out.append(128 | value & 127)
        value >>= 7
    out.append(value & 127)
    return bytes(out)


def sized(content: bytes) -> bytes:
    """Bytes behind their number."""
    return unsigned(len(content)) + content


def vector(items: Sequence[bytes]) -> bytes:
    """Items behind their number."""
    return unsigned(len(items)) + b"".join(items)


def section(identity: int, content: bytes) -> bytes:
    return bytes([identity]) + sized(content)


def module(sections: Iterable[Tuple[int, bytes]]) -> bytes:
    """A module of sections, each given by its id and its content."""
    return HEADER + b"".join(section(*it) for it in sections)
