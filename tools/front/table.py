"""The modes, options, groups of hooks, kinds of reports and statuses of wasabi: each is one row here, and stands nowhere else.

The usage page, the pages of modes, completion and the checks of words are made of these rows, and the script wasabi gets from them
which options a mode takes. docs/pages.py compares them with the program and with the documents.
"""
from __future__ import annotations

from typing import NamedTuple, Tuple

MOST_BYTES = 268435456


class Mode(NamedTuple):
    name: str
    subject: str  # what the word behind the mode is
    says: str
    example: Tuple[str, ...]  # commands to copy


class Option(NamedTuple):
    name: str
    value: str  # what it takes: the name of a form of `words.FORMS`; empty for an option that takes nothing
    needed: str  # the modes that need it
    taken: str  # the modes that may have it
    says: str
    most: int = 0  # the greatest number that it takes


class Group(NamedTuple):
    name: str
    says: str


class Kind(NamedTuple):
    name: str
    groups: str  # the report counts events of these groups


class Status(NamedTuple):
    number: int
    says: str


MADE = "./wasabi instrument examples/queens.wasm --out b.wasm --info b.json"
MODES = (
    Mode("check", "MODULE", "checks whether a module is valid, and counts its parts", ("./wasabi check examples/queens.wasm",)),
    Mode("instrument", "MODULE", "writes the module with calls of hooks, and the information with which these calls are read",
         (MADE + " --hooks begin,br_if",)),
    Mode("run", "MODULE", "runs the start function and the calls of a script, and prints their answers",
         ("./wasabi run examples/queens.wasm --script examples/queens.json",)),
    Mode("report", "MODULE", "runs a module with hooks by a script, and prints how often blocks, branches and calls occurred, and "
         "which addresses were used",
         (MADE, "./wasabi report b.wasm --info b.json --script examples/queens.json --reports blocks")),
    Mode("record", "MODULE", "runs a module with hooks by a script, and writes the events that its hook calls report as a trace",
         (MADE, "./wasabi record b.wasm --info b.json --script examples/queens.json --out b.trace")),
    Mode("replay", "TRACE", "prints the reports on the events of a trace, without the module", ("./wasabi replay examples/weekday.trace",)),
    Mode("tree", "MODULE", "runs a module with hooks by a script, and prints how often each path of calls occurred; the hooks must "
         "include those of begin and end",
         (MADE + " --hooks begin,end", "./wasabi tree b.wasm --info b.json --script examples/queens.json")),
    Mode("trial", "NUMBER", "makes a module from a number below 2^64, instruments it with all hooks, runs both modules, and prints "
         "how both runs ended", ("./wasabi trial 7",)),
    Mode("taint", "MODULE", "instruments a module with all hooks, runs it by a script, follows the results of sources, and prints "
         "where they reach sinks",
         ("./wasabi taint examples/secret.wasm --script examples/secret.json --sources env.read --sinks env.show",)),
)
OPTIONS = (
    Option("--out", "FILE", "instrument record", "", "the file of the output, or of the trace"),
    Option("--info", "FILE", "report record tree", "instrument", "the file of the information, in JSON"),
    Option("--script", "FILE", "run report record tree taint", "",
           'the file of a script, such as {"calls":[{"export":"f","args":[1]}]}'),
    Option("--sources", "IMPORTS", "", "taint", "the imported functions whose results are followed, such as env.read,env.get; by "
           "default none"),
    Option("--sinks", "IMPORTS", "", "taint", "the imported functions whose arguments are watched; by default none"),
    Option("--hooks", "GROUPS", "", "instrument", "the groups of hooks: all (the default), none, or groups with commas between them, "
           "such as begin,br_if,load"),
    Option("--functions", "FUNCTIONS", "", "instrument", "the functions that get hooks, with commas between them: indices, ranges such "
           "as 3-7, names of exports and of the section of names, and beginnings of names such as str*; by default all"),
    Option("--except", "FUNCTIONS", "", "instrument", "functions that get no hooks, listed in the same way; by default none"),
    Option("--reports", "KINDS", "", "report replay", "the reports: all (the default), or some of blocks, branches, calls and memory, "
           "with commas between them"),
    Option("--names", "keep|drop", "", "instrument report", "whether the names of functions are kept; by default drop"),
    Option("--max-output", "BYTES", "", "instrument record", f"the most bytes that the output or the trace may have, 1 to {MOST_BYTES} "
           "(256 MiB), which is the default", MOST_BYTES),
    Option("--jobs", "NUMBER", "", "check instrument run report record tree taint", "how many threads check the module and make the "
           "output, 1 to 64; by default 1", 64),
    Option("--in-place", "", "", "instrument", "allows the output to take the place of the module"),
)
GROUPS = (
    Group("start", "the start function is entered"),
    Group("nop", "a nop"),
    Group("unreachable", "an unreachable"),
    Group("if", "an if, and its condition"),
    Group("br", "a br, and the position that it leads to"),
    Group("br_if", "a br_if, the position that it leads to, and its condition"),
    Group("br_table", "a br_table, and its index"),
    Group("begin", "a function, block, loop, if or else begins"),
    Group("end", "a function, block, loop, if or else ends, or a branch leaves it"),
    Group("const", "a constant"),
    Group("unary", "a number instruction with one operand: the operand and the result"),
    Group("binary", "a number instruction with two operands: these and the result"),
    Group("drop", "a drop: the value"),
    Group("select", "a select: both values and the condition"),
    Group("local", "a local.get, local.set or local.tee: the local and the value"),
    Group("global", "a global.get or global.set: the global and the value"),
    Group("load", "a load: the address, and the value read"),
    Group("store", "a store: the address, and the value written"),
    Group("memory_size", "a memory.size: the number of pages"),
    Group("memory_grow", "a memory.grow: the number of pages asked for, and the result"),
    Group("call", "a call: the function and the arguments, and later the results"),
    Group("return", "a return, or the last end of a function: the results"),
)
KINDS = (
    Kind("blocks", "begin"),
    Kind("branches", "if br br_if br_table"),
    Kind("calls", "call"),
    Kind("memory", "load store"),
)
STATUSES = (
    Status(0, "done"),
    Status(2, "bad words"),
    Status(3, "a file is missing or too long"),
    Status(4, "a file can't be read"),
    Status(5, "a file can't be written"),
    Status(6, "malformed"),
    Status(7, "floats, or a quantity above its limit"),
    Status(8, "not valid"),
    Status(9, "already instrumented, or the output is too large"),
    Status(10, "not a script, or its calls do not fit the module"),
    Status(11, "the memory, the table or a segment is out of range"),
    Status(12, "the start or a call trapped"),
    Status(13, "out of steps"),
    Status(14, "out of memory"),
    Status(15, "the answer can't be printed"),
    Status(16, "not the information on the module"),
    Status(18, "the trace is too long"),
    Status(19, "not a trace"),
    Status(20, "a name in a list is not that of an imported function"),
    Status(21, "the information lacks begin or end"),
    Status(22, "the events do not nest"),
    Status(23, "a piece of a list is no function with a body"),
    Status(70, "there is no program, and none could be made"),
)
# Words of the script alone, each at the front of a command.
SCRIPT_WORDS = (
    ("MODE --help", "prints the page of a mode, with an example; so does help MODE"),
    ("--help", "prints this page; so do -h and help"),
    ("--version", "says which version this is and which program runs; so does -V"),
    ("--compile", "compiles the program without proofs, with run-time checks, if it is not there or its sources changed; takes three to "
     "four minutes"),
    ("--prove", "proves every crate and builds the program, if this is not done or a file of theirs changed; takes some two hours of "
     "processor time at first"),
)

def mode(name: str | None) -> Mode | None:
    return next((it for it in MODES if it.name == name), None)


def option(name: str) -> Option | None:
    return next((it for it in OPTIONS if it.name == name), None)


def status(number: int) -> Status | None:
    return next((it for it in STATUSES if it.number == number), None)


def needed(name: str) -> list[Option]:
    """The options that a mode must have."""
    return [it for it in OPTIONS if name in it.needed.split()]


def taken(name: str) -> list[Option]:
    """All options of a mode, those that it must have before the others."""
    return needed(name) + [it for it in OPTIONS if name in it.taken.split()]


def jobs() -> dict[str, str]:
    """The commands that stand on the program, where tools/wasabi_tools is there, and what each shows."""
    try:
        from wasabi_tools.__main__ import COMMANDS
    except ImportError:
        return {}
    return dict(COMMANDS)
