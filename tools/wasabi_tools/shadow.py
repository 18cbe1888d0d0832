"""Follows marks through a run: a shadow of the operand stack, the locals, the globals and the memory, rebuilt from a trace of all groups.

    shadow = Shadow(module, Policy(sources={0}))
    for event in trace.events():
        marked = shadow.hear(event)      which of the arguments of a call are marked, or none

A mark is made by the results of sources, and goes on as the policy says: by default with values alone, as in the mode taint.
"""
from __future__ import annotations

from dataclasses import dataclass, field
from typing import Dict, FrozenSet, List, Optional, Set, Tuple

from wasabi_tools.accesses import WIDTHS
from wasabi_tools.code import Instruction
from wasabi_tools.faults import Fault
from wasabi_tools.module import FunctionType, Module
from wasabi_tools.opcodes import BLOCK, ELSE, END, IF, LOOP
from wasabi_tools.traces import Event

# What an instruction takes from the operand stack and leaves there unmarked, by the name of its event.
PLAIN = {"const": (0, 1), "memory_size": (0, 1), "memory_grow": (1, 1), "if": (1, 0), "drop": (1, 0)}


@dataclass(frozen=True)
class Policy:
    """Which imported functions are sources, and whether a marked address marks what is loaded by it, and a marked condition what a
    select chooses by it."""

    sources: FrozenSet[int] = frozenset()
    addresses: bool = False
    conditions: bool = False


@dataclass
class Frame:
    """A function that is open: marks of its locals and operands, and of each label around the height of the stack below it and how many
    values a branch to it takes."""

    func: int
    locals: Dict[int, bool]
    stack: List[bool] = field(default_factory=list)
    labels: List[Tuple[int, int]] = field(default_factory=list)
    leaving: int = 0  # how many parts a branch still ends


def openers(body: List[Instruction]) -> Dict[int, Instruction]:
    """The instructions that begin blocks, by their positions; at that of an else stands its if."""
    found: Dict[int, Instruction] = {}
    opened: List[Instruction] = []
    for position, it in enumerate(body):
        if it.opcode in (BLOCK, LOOP, IF):
            opened.append(it)
            found[position] = it
        elif it.opcode == ELSE:
            found[position] = opened[-1]
        elif it.opcode == END and opened:
            opened.pop()
    return found


class Shadow:
    def __init__(self, module: Module, policy: Policy) -> None:
        module.need_original()
        self.module, self.policy = module, policy
        self.frames: List[Frame] = []
        self.globals: Dict[int, bool] = {}
        self.bytes: Set[int] = set()
        self.openers: Dict[int, Dict[int, Instruction]] = {}
        self.calling: Optional[Tuple[Optional[int], List[bool]]] = None  # the callee that was told last, and its arguments
        self.results: List[bool] = []  # those of the function that ended last

    def hear(self, event: Event) -> List[int]:
        """Takes an event, and returns which arguments of a call are marked."""
        try:
            return self._hear(event)
        except (IndexError, KeyError, AttributeError, TypeError):
            raise Fault(f"the trace is not one of all groups, or not of {self.module.what}: its event {event.name} at "
                        f"{event.func}:{event.position} finds no operand") from None

    def _hear(self, event: Event) -> List[int]:
        name = event.name
        if name == "begin":
            self._begin(event)
        elif name == "end":
            self._end(event)
        elif name in ("call_pre", "call_indirect_pre"):
            return self._call(event)
        elif name == "call_post":
            self._called(event)
        elif name in ("br", "br_if", "br_table", "return"):
            self._branch(event)
        elif name in PLAIN:
            takes, leaves = PLAIN[name]
            self._take(takes)
            self.frames[-1].stack += [False] * leaves
        elif name not in ("start", "nop", "unreachable", "stray"):
            self._compute(event)
        return []

    def _take(self, count: int) -> List[bool]:
        """The marks of the top operands, which are taken away."""
        stack = self.frames[-1].stack
        if count > len(stack):
            raise IndexError
        taken = stack[len(stack) - count:]
        del stack[len(stack) - count:]
        return taken

    def _compute(self, event: Event) -> None:
        """An instruction that computes, moves or stores a value."""
        frame, fields = self.frames[-1], event.fields
        if event.name in ("unary", "binary"):
            frame.stack.append(any(self._take(1 if event.name == "unary" else 2)))
        elif event.name == "select":
            first, second, condition = self._take(3)
            frame.stack.append((first if fields["condition"] else second) or condition and self.policy.conditions)
        elif event.name in ("local", "global"):
            self._move(str(fields["op"]), frame.locals if event.name == "local" else self.globals, int(str(fields["index"])))
        else:
            self._access(event, int(str(fields["offset"])) + int(str(fields["address"])), WIDTHS[str(fields["op"])])

    def _move(self, op: str, marks: Dict[int, bool], index: int) -> None:
        if not op.endswith("get"):
            marks[index], = self._take(1)
        if not op.endswith("set"):
            self.frames[-1].stack.append(marks.get(index, False))

    def _access(self, event: Event, begin: int, width: int) -> None:
        used = set(range(begin, begin + width))
        if event.name == "load":
            address, = self._take(1)
            self.frames[-1].stack.append(bool(used & self.bytes) or address and self.policy.addresses)
            return
        address, value = self._take(2)
        if value or address and self.policy.addresses:
            self.bytes |= used
        else:
            self.bytes -= used

    def _begin(self, event: Event) -> None:
        assert event.func is not None and event.position is not None
        if event.is_function:
            callee, args = self.calling or (None, [])
            if self.calling is None or callee not in (None, event.func):
                self.frames, args = [], []
            self.calling = None
            results = len(self.module.functions[event.func].results)
            self.frames.append(Frame(event.func, dict(enumerate(args)), labels=[(0, results)]))
            return
        frame = self.frames[-1]
        opener, kind = self._opener(event.func, event.position)
        takes, leaves = len(kind.params), len(kind.results)
        frame.labels.append((len(frame.stack) - takes, takes if opener == LOOP else leaves))

    def _opener(self, func: int, position: int) -> Tuple[int, FunctionType]:
        """The opcode and the type of the block that begins at a position."""
        if func not in self.openers:
            self.openers[func] = openers(self.module.body(func))
        found = self.openers[func][position]
        return found.opcode, self._type(found.numbers[0])

    def _type(self, number: int) -> FunctionType:
        return self.module.types[number] if number >= 0 else FunctionType("", "" if number == -64 else "i")

    def _branch(self, event: Event) -> None:
        frame = self.frames[-1]
        if event.name == "return":
            results = event.fields["results"]
            assert isinstance(results, list)
            self.results = self._take(len(results))
            frame.leaving = len(frame.labels)
            return
        if event.name != "br":
            self._take(1)
        if event.name == "br_if" and not event.fields["condition"]:
            return
        label = int(str(event.fields["label"]))
        height, count = frame.labels[-1 - label]
        carried = self._take(count)
        del frame.stack[height:]
        frame.stack += carried
        frame.leaving = label + 1
        if frame.leaving == len(frame.labels):
            self.results = carried

    def _end(self, event: Event) -> None:
        frame = self.frames[-1]
        frame.labels.pop()
        frame.leaving = max(0, frame.leaving - 1)
        if event.is_function:
            self.frames.pop()

    def _call(self, event: Event) -> List[int]:
        callee, args = event.fields["callee"], event.fields["args"]
        assert isinstance(args, list)
        if event.name == "call_indirect_pre":
            self._take(1)
        marks = self._take(len(args))
        self.calling = callee if isinstance(callee, int) else None, marks
        return [at for at, it in enumerate(marks) if it]

    def _called(self, event: Event) -> None:
        results = event.fields["results"]
        assert isinstance(results, list)
        if self.calling:  # nothing began, so it was the host's
            callee, _ = self.calling
            self.results = [callee in self.policy.sources] * len(results)
            self.calling = None
        self.frames[-1].stack += self.results[-len(results):] if results else []
