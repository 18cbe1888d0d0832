"""The tree of a run's calls: of what wasabi tree prints, or of a trace, which also has the instructions.

A node is a path of calls. It knows its function, the place of the call, how often the path occurred, and the nodes that go on from it.
Paths are never copied: walk goes through the tree with the nodes that are open.
"""
from __future__ import annotations

from collections import Counter
from typing import Counter as CounterOf, Dict, FrozenSet, Iterator, List, Optional, Set, Tuple

from wasabi_tools.code import Instruction
from wasabi_tools.counts import BRANCHES, GROUPS, SILENT, Key, Seen, choice_of, need_branches, runs
from wasabi_tools.faults import Fault
from wasabi_tools.information import Information
from wasabi_tools.lines import Lines, Place
from wasabi_tools.module import Module
from wasabi_tools.opcodes import CALL, CALL_INDIRECT
from wasabi_tools.reports import Report
from wasabi_tools.traces import CALLS, Event, Trace

NESTING = {"begin", "end"}
INSTRUCTIONS = sorted(GROUPS | {"end", "call"})
HEARD = GROUPS | CALLS | {"end", "call_post"}
Costs = CounterOf[Optional[Place]]


class Node:
    """A path of calls. site: the place of the call in the caller, where it is told; costs: what ran in the function itself, by lines."""

    __slots__ = ("func", "site", "calls", "seen", "costs", "below")

    def __init__(self, func: int = -1, site: Optional[int] = None) -> None:
        self.func, self.site, self.calls = func, site, 0
        self.seen: Seen = Counter()
        self.costs: Costs = Counter()
        self.below: Dict[Tuple[int, Optional[int]], Node] = {}

    def child(self, func: int, site: Optional[int] = None) -> Node:
        found = self.below.get((func, site))
        if found is None:
            found = self.below[func, site] = Node(func, site)
        return found

    @property
    def cost(self) -> int:
        return sum(self.costs.values())


def walk(root: Node) -> Iterator[Tuple[Node, bool]]:
    """The nodes below, each twice: when it is entered, and when all nodes below it were left."""
    waiting = [(child, True) for child in reversed(list(root.below.values()))]
    while waiting:
        node, is_entered = waiting.pop()
        yield node, is_entered
        if is_entered:
            waiting.append((node, False))
            waiting.extend((child, True) for child in reversed(list(node.below.values())))


def nodes(root: Node) -> Iterator[Node]:
    return (node for node, is_entered in walk(root) if is_entered)


def totals(root: Node) -> Dict[int, int]:
    """What each node cost with all that it called, by the node's id."""
    found: Dict[int, int] = {}
    sums = [0]
    for node, is_entered in walk(root):
        if is_entered:
            sums.append(node.cost)
        else:
            whole = found[id(node)] = sums.pop()
            sums[-1] += whole
    return found


def of_report(report: Report, what: str) -> Node:
    """The tree that wasabi tree prints; a node costs its calls."""
    report.need(["tree"], what)
    root = Node()
    path = [root]
    for row in report.rows("tree"):
        depth = int(row["depth"] or 0)
        if depth >= len(path):
            raise Fault(f"{what} has a tree with a path that nothing leads to")
        del path[depth + 1:]
        path.append(path[-1].child(int(row["function"] or 0)))
        path[-1].calls += int(row["count"] or 0)
        path[-1].costs[None] += int(row["count"] or 0)
    return root


def check_calls(root: Node, module: Module, what: str) -> None:
    """Raises a Fault if a tree has a call that no instruction of a module makes."""
    module.need_original()
    callees: Dict[int, Set[int]] = {}
    path = [-1]
    for node, is_entered in walk(root):
        if not is_entered:
            path.pop()
            continue
        caller, callee = path[-1], node.func
        if not module.has_body(callee):
            raise Fault(f"{what} is of another module: it has a function {callee}, and {module.what} has none with a body")
        if caller >= 0 and caller not in callees:
            body = module.body(caller)
            callees[caller] = {it.numbers[0] if it.opcode == CALL else -1 for it in body if it.opcode in (CALL, CALL_INDIRECT)}
        if caller >= 0 and not {callee, -1} & callees[caller]:
            raise Fault(f"{what} is of another module: function {caller} calls function {callee} in it, and in {module.what} it does not")
        path.append(callee)


def check_groups(told: Set[str], information: Optional[Information], what: str) -> Set[str]:
    """The groups of a trace, by its information or else by the events that it has."""
    groups = set(information.groups) if information else told | ({"call"} if CALLS & told else set())
    if "begin" not in groups or "end" not in groups:
        hint = "" if information or "begin" not in groups else "; if the group end was selected and no function ended, give --info"
        raise Fault(f"where functions begin or end is not told in {what}: the trace needs the groups begin and end{hint}")
    return groups


def with_entries(events: Iterator[Event], has_calls: bool, hooked: Optional[Set[int]] = None) -> Iterator[Tuple[Event, bool]]:
    """The events, each with whether it is the begin of a function that the host calls. If calls are told, a begin without a call of its
    function before it is one. Otherwise it is one if nothing is open. hooked: the functions with hooks, if it is known that others have
    none; what begins while such a function is called is called by it."""
    callee: Optional[int] = None
    called = False
    outside: List[bool] = []  # for each function that is open: whether it waits for one without hooks
    for event in events:
        begins = event.name == "begin" and event.is_function
        is_called = called and (callee is None or callee == event.func)
        entry = begins and (not is_called and not any(outside[-1:]) if has_calls else not outside)
        if begins:
            outside = [] if entry else outside
            outside.append(False)
        elif event.name == "end" and event.is_function:
            del outside[-1:]
        yield event, entry
        if event.name in CALLS:
            told = event.fields["callee"]
            called, callee = True, told if isinstance(told, int) else None
            if outside:
                outside[-1] = hooked is not None and callee is not None and callee not in hooked
        else:
            called = called and event.name == "start"
            if outside and event.name == "call_post":
                outside[-1] = False


def of_trace(trace: Trace, module: Module, information: Optional[Information] = None, hooked: Optional[Set[int]] = None) -> Node:
    """The tree of a trace. What a node costs is the instructions that ran in its function, by the lines of the module. hooked: which
    functions have hooks; without it, all have."""
    told = set(trace.names())
    groups = check_groups(told, information, str(trace.path))
    root, site = Node(), None
    path = [root]
    for event, entry in with_entries(trace.events(HEARD | {"start"}), "call" in groups, hooked):
        if event.name in CALLS:
            site = event.position
        elif event.name == "begin" and event.is_function:
            path = [root] if entry else path
            path.append(path[-1].child(event.func or 0, None if entry else site))
            path[-1].calls += 1
            site = None
        elif event.name == "call_post":
            site = None
        if len(path) > 1:
            count(path, event)
    Weights(module, groups, str(trace.path)).weigh(root)
    return root


def count(path: List[Node], event: Event) -> None:
    """Counts an event for the function that is open, which ends by it or not."""
    if event.name in GROUPS and event.position is not None:
        path[-1].seen[event.position, choice_of(event)] += 1
    elif event.name == "end" and event.is_function:
        path.pop()


class Weights:
    """What nodes cost, by the code of a module; nodes that saw the same cost the same."""

    def __init__(self, module: Module, groups: Set[str], what: str) -> None:
        module.need_original()
        self.module, self.groups, self.what = module, groups, what
        self.lines = Lines(module).all()
        self.bodies: Dict[int, Tuple[List[Instruction], List[Optional[Place]]]] = {}
        self.known: Dict[Tuple[int, FrozenSet[Tuple[Key, int]]], Costs] = {}

    def weigh(self, root: Node) -> None:
        for node in nodes(root):
            if not self.module.has_body(node.func):
                raise Fault(f"{self.what} is of another module: it has a function {node.func}, and {self.module.what} has none with a body")
            key = node.func, frozenset(node.seen.items())
            if key not in self.known:
                self.known[key] = self._costs(node.func, node.seen)
            node.costs = self.known[key]

    def body(self, func: int) -> Tuple[List[Instruction], List[Optional[Place]]]:
        if func not in self.bodies:
            body = self.module.body(func)
            self.bodies[func] = body, [self.lines.at(it.offset) for it in body]
        return self.bodies[func]

    def _costs(self, func: int, seen: Seen) -> Costs:
        body, places = self.body(func)
        self._check(func, body, seen)
        ran = runs(body, seen)
        need_branches(func, body, ran, self.groups)
        costs: Costs = Counter()
        for instruction, place, times in zip(body, places, ran):
            if times and instruction.opcode not in SILENT:
                costs[place] += times
        return costs

    def _check(self, func: int, body: List[Instruction], seen: Seen) -> None:
        for position, choice in seen:
            if choice is not None and not (position < len(body) and body[position].name in BRANCHES):
                raise Fault(f"{self.what} is of another module: it has a branch at {func}:{position}, and {self.module.what} has none there")
