"""Which instructions are floating or came after version 1.0, with what leaves them out."""
from __future__ import annotations

from wasabi_tools import opcodes

FLAGS = {
    "bulk memory": ("-mno-bulk-memory", "-bulk-memory"), "references": ("-mno-reference-types", "-reference-types"),
    "vectors": ("-mno-simd128", "-simd128"), "relaxed vectors": ("-mno-relaxed-simd", "-relaxed-simd"), "threads": ("-mno-atomics", "-atomics"),
    "tail calls": ("-mno-tail-call", "-tail-call"), "exceptions": ("-mno-exception-handling", "-exception-handling"),
    "conversions that saturate": ("-mno-nontrapping-fptoint", "-nontrapping-fptoint"),
}
TARGETS = {"memories of 64 bits": "--target=wasm32"}

# The names of the floating instructions by their opcodes, and by one opcode the name of a later instruction and the feature that brought it.
FLOATING = {number: it.name for number, it in opcodes.OPCODES.items() if it.feature == opcodes.FLOATS}
LATER = {number: (it.name, it.feature) for number, it in opcodes.LATER.items()}
TYPES = {0x7B: ("v128", "vectors"), 0x70: ("funcref", "references"), 0x6F: ("externref", "references"), 0x69: ("exnref", "exceptions")}


def prefixed(prefix: int, number: int) -> tuple[str, str | None] | None:
    """Returns the name of an instruction of two numbers, and its feature, or None."""
    found = opcodes.prefixed(prefix, number)
    return (found.name, found.feature) if found else None


def advice(feature: str) -> str:
    """Returns how a feature is left out, in words."""
    if feature in FLAGS:
        return "clang leaves it out by -mcpu=mvp or %s, rustc by -C target-cpu=mvp or -C target-feature=%s; libraries that come compiled stay as they are" % FLAGS[feature]
    if feature in TARGETS:
        return "clang leaves it out by %s" % TARGETS[feature]
    return "clang and rustc leave it out by -mcpu=mvp and -C target-cpu=mvp"
