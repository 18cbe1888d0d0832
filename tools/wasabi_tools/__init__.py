"""Readers of what wasabi reads and writes, and the commands coverage, profile and memory, which stand on them.

faults, inputs, binary, opcodes, code and module read modules; lines and dwarf their debug information; information, scripts, traces
and reports what wasabi writes. flow says how often instructions ran, calls which paths of calls there were. docs/ARCHITECTURE.md of
the repository says how it all fits together.
"""
