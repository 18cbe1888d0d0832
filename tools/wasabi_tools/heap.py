"""A checker of malloc and free by their names: blocks that are never freed, freed twice, or used after they were freed.

It hears the events of the groups call, load and store. What the allocator itself reads and writes is not checked, and neither are calls
that the host makes, whose arguments no event tells.
"""
from __future__ import annotations

from bisect import bisect_right, insort
from dataclasses import dataclass
from typing import Dict, List, NamedTuple, Optional, Set, Tuple

from wasabi_tools.accesses import Access, access_of
from wasabi_tools.traces import CALLS, Event

Place = Tuple[int, int]  # a function, and a position in it
ROLES = ("malloc", "calloc", "realloc", "free")


class Finding(NamedTuple):
    """What is wrong, with the place where it came and those where the block was made and freed."""

    what: str
    place: Optional[Place]
    address: int
    size: int
    made: Optional[Place] = None
    freed: Optional[Place] = None


@dataclass
class Block:
    begin: int
    size: int
    made: Place
    freed: Optional[Place] = None


class OpenCall(NamedTuple):
    place: Place
    role: Optional[str]
    args: List[int]


class Heap:
    """The blocks of a run; roles: which function of the module is malloc, calloc, realloc and free."""

    def __init__(self, roles: Dict[int, str]) -> None:
        self.roles, self.findings = roles, []  # type: Dict[int, str], List[Finding]
        self.blocks: Dict[int, Block] = {}
        self.begins: List[int] = []
        self.calls: List[OpenCall] = []
        self.inside = 0  # how many calls of the allocator are open
        self.told: Set[Tuple[str, Optional[Place], int]] = set()
        self.allocations = self.bytes = 0

    def hear(self, event: Event) -> None:
        if event.name in ("load", "store"):
            if not self.inside:
                self._access(access_of(event))
        elif event.func is not None and event.position is not None:
            place = event.func, event.position
            if event.name in CALLS:
                self._called(place, event)
            else:
                self._returned(place, event)

    def _called(self, place: Place, event: Event) -> None:
        callee, args = event.fields["callee"], event.fields["args"]
        role = self.roles.get(callee) if isinstance(callee, int) else None
        call = OpenCall(place, role, [it & 0xFFFFFFFF for it in args] if isinstance(args, list) else [])
        self.calls.append(call)
        if role and not self.inside and role in ("free", "realloc"):
            self._free(place, call.args[0])
        self.inside += role is not None

    def _returned(self, place: Place, event: Event) -> None:
        """Closes the call at a place, and those that traps left open above it."""
        while self.calls:
            call = self.calls.pop()
            self.inside -= call.role is not None
            if call.place == place:
                results = event.fields["results"]
                if call.role and call.role != "free" and not self.inside and isinstance(results, list) and results and results[0]:
                    self._make(place, results[0] & 0xFFFFFFFF, size_of(call))
                return

    def _make(self, place: Place, begin: int, size: int) -> None:
        """Notes a block; those that were freed and lie in the same bytes are forgotten."""
        at = max(bisect_right(self.begins, begin) - 1, 0)
        while at < len(self.begins) and self.begins[at] < begin + max(size, 1):
            old = self.blocks[self.begins[at]]
            if old.begin + max(old.size, 1) > begin:
                del self.blocks[self.begins.pop(at)]
            else:
                at += 1
        insort(self.begins, begin)
        self.blocks[begin] = Block(begin, size, place)
        self.allocations += 1
        self.bytes += size

    def _free(self, place: Place, begin: int) -> None:
        block = self.blocks.get(begin)
        if not begin:
            return
        if block is None:
            self._find(Finding("free of what malloc did not give", place, begin, 0))
        elif block.freed:
            self._find(Finding("freed twice", place, begin, block.size, block.made, block.freed))
        else:
            block.freed = place

    def _access(self, access: Access) -> None:
        at = bisect_right(self.begins, access.end - 1) - 1
        if at >= 0:
            block = self.blocks[self.begins[at]]
            if block.freed and access.begin < block.begin + block.size:
                what = "written after it was freed" if access.is_store else "read after it was freed"
                self._find(Finding(what, (access.func, access.position), block.begin, block.size, block.made, block.freed))

    def _find(self, finding: Finding) -> None:
        """Notes a finding, once for each block and place."""
        key = finding.what, finding.place, finding.address
        if key not in self.told:
            self.told.add(key)
            self.findings.append(finding)

    def leaks(self) -> List[Finding]:
        return [Finding("never freed", None, it.begin, it.size, it.made) for it in self.blocks.values() if not it.freed]


def size_of(call: OpenCall) -> int:
    if call.role == "calloc":
        return call.args[0] * call.args[1]
    return call.args[1 if call.role == "realloc" else 0]
