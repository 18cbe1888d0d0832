"""How often each part of a module began and each branch was taken, and what follows: how often each instruction ran."""
from __future__ import annotations

from collections import Counter, defaultdict
from dataclasses import dataclass, field
from typing import Counter as CounterOf, Dict, List, Optional, Set, Tuple

from wasabi_tools.code import Instruction
from wasabi_tools.faults import Fault
from wasabi_tools.information import PARTS
from wasabi_tools.module import Module
from wasabi_tools.opcodes import BLOCK, BR, BR_IF, BR_TABLE, ELSE, END, IF, LOOP, NUMBERS, RETURN, UNREACHABLE
from wasabi_tools.reports import Report
from wasabi_tools.traces import Event, Trace

GROUPS = {"begin", "if", "br", "br_if", "br_table"}
BRANCHES = {it: NUMBERS[it] for it in ("if", "br", "br_if", "br_table")}
# These do nothing, and may stand on any line.
SILENT = {BLOCK, LOOP, ELSE, END}
Key = Tuple[int, Optional[int]]  # a position, and the choice of a branch, or None for the begin of a part
Seen = CounterOf[Key]


@dataclass
class Counts:
    """What was counted, in one run or in several."""

    seen: Dict[int, Seen] = field(default_factory=lambda: defaultdict(Counter))  # by function
    kinds: Dict[Tuple[int, int], str] = field(default_factory=dict)  # which part began or which branch was taken at a place

    def add(self, func: int, position: int, kind: str, choice: Optional[int], count: int) -> None:
        self.seen[func][position, choice] += count
        self.kinds[func, position] = kind

    def add_report(self, report: Report, what: str) -> None:
        report.need(["blocks", "branches"], what)
        for row in report.rows("blocks"):
            self.add(int(row["function"] or 0), int(row["position"] or 0), str(row["part"]), None, int(row["count"] or 0))
        for row in report.rows("branches"):
            self.add(int(row["function"] or 0), int(row["position"] or 0), str(row["branch"]), int(row["choice"] or 0), int(row["count"] or 0))

    def add_trace(self, trace: Trace) -> None:
        for event, count in trace.counted(GROUPS):
            if event.func is not None and event.position is not None:
                self.add(event.func, event.position, str(event.fields.get("kind", event.name)), choice_of(event), count)

    def check(self, module: Module, what: str) -> None:
        """Raises a Fault if something was counted where the module has no such part or branch."""
        wanted = {**PARTS, **BRANCHES}
        bodies: Dict[int, List[Instruction]] = {}
        for (func, position), kind in self.kinds.items():
            if func not in bodies:
                bodies[func] = module.body(func) if module.has_body(func) else []
            body = bodies[func]
            fits = bool(body) if position == -1 else 0 <= position < len(body) and body[position].opcode == wanted.get(kind)
            if not fits or (position == -1) != (kind == "function"):
                raise Fault(f"{what} is of another module: it has {kind} at {func}:{position}, and {module.what} has none there")

    def runs(self, func: int, body: List[Instruction]) -> List[int]:
        """How often each instruction of a function ran."""
        return runs(body, self.seen.get(func) or Counter())

    def entries(self, func: int) -> int:
        """How often a function was entered."""
        return self.seen[func][-1, None] if func in self.seen else 0


def choice_of(event: Event) -> Optional[int]:
    """The choice of a branch, as reports tell it; None if the event is no branch."""
    if event.name in ("if", "br_if"):
        return int(event.fields["condition"] != 0)
    label = event.fields.get("label")
    return label if isinstance(label, int) else None


def runs(body: List[Instruction], times: Seen) -> List[int]:
    """How often each instruction of a body ran, by how often its parts began and its branches were taken. A call that traps, or runs
    out of steps, counts as if it went on to the next branch."""
    found: List[int] = []
    reached = times[-1, None]
    labels = [[BLOCK, 0]]  # of each part around: its opcode, and how often its end is reached by a branch
    for position, (_, opcode, numbers) in enumerate(body):
        found.append(reached)
        if opcode in (BLOCK, LOOP, IF):
            labels.append([opcode, times[position, 0] if opcode == IF else 0])
            reached = times[position, None]
        elif opcode == ELSE:
            labels[-1][1] += reached - times[position, None]
            reached = times[position, None]
        elif opcode == END:
            kind, branches = labels.pop()
            reached += 0 if kind == LOOP else branches
        elif opcode == BR_IF:
            labels[-1 - numbers[0]][1] += times[position, 1]
            reached = times[position, 0]
        elif opcode in (BR, BR_TABLE):
            for label in set(numbers):
                labels[-1 - label][1] += times[position, label]
        if opcode in (BR, BR_TABLE, RETURN, UNREACHABLE):
            reached = 0
    return found


def need_branches(func: int, body: List[Instruction], ran: List[int], told: Set[str]) -> None:
    """Raises a Fault if a branch ran of which nothing was told, because its group was not selected."""
    for instruction, times in zip(body, ran):
        if times and instruction.name in BRANCHES and instruction.name not in told:
            raise Fault(f"nothing was told of the group {instruction.name}, whose instructions ran in function {func}: "
                        f"the groups {', '.join(sorted(GROUPS))} are needed")
