"""The loads and stores of a trace: how often each line of the memory was used, and what a cache would have missed."""
from __future__ import annotations

from collections import Counter, OrderedDict
from dataclasses import dataclass, field
from typing import Counter as CounterOf, Dict, Iterator, List, NamedTuple, Tuple

from wasabi_tools.faults import WRONG_ARGUMENTS, Fault
from wasabi_tools.traces import Event

NAMES = {"load", "store"}
LINE = 64  # the bytes of a line of the heat map
PAGE = 65536


def width_of(op: str) -> int:
    """How many bytes an instruction reads or writes."""
    kind, _, name = op.partition(".")
    bits = "".join(it for it in name.partition("_")[0] if it.isdigit())
    return int(bits or kind[1:]) // 8


WIDTHS = {f"{kind}.{name}": width_of(f"{kind}.{name}") for kind in ("i32", "i64") for name in (
    "load load8_s load8_u load16_s load16_u load32_s load32_u store store8 store16 store32").split()}


class Access(NamedTuple):
    """The bytes that a load or a store used, and where it stands."""

    func: int
    position: int
    is_store: bool
    begin: int
    end: int


def access_of(event: Event) -> Access:
    offset, address = event.fields["offset"], event.fields["address"]
    assert isinstance(offset, int) and isinstance(address, int) and event.func is not None and event.position is not None
    begin = offset + address
    return Access(event.func, event.position, event.name == "store", begin, begin + WIDTHS[str(event.fields["op"])])


@dataclass
class HeatMap:
    """How often the lines of the memory were read and written."""

    loads: CounterOf[int] = field(default_factory=Counter)
    stores: CounterOf[int] = field(default_factory=Counter)

    def hear(self, access: Access) -> None:
        counts = self.stores if access.is_store else self.loads
        for line in range(access.begin // LINE, (access.end - 1) // LINE + 1):
            counts[line] += 1

    def pages(self) -> Dict[int, List[Tuple[int, int]]]:
        """For each page that was used, how often each of its lines was read and written."""
        used = sorted({line * LINE // PAGE for line in (*self.loads, *self.stores)})
        lines = PAGE // LINE
        return {page: [(self.loads[at], self.stores[at]) for at in range(page * lines, (page + 1) * lines)] for page in used}


@dataclass
class Cache:
    """A cache of so many bytes, in sets of so many lines, of which the one that was used longest ago goes first."""

    size: int = 32768
    ways: int = 8
    line: int = 64
    hits: int = 0
    misses: int = 0
    by_place: Dict[Tuple[int, int], List[int]] = field(default_factory=dict)  # by function and position: accesses and misses

    def __post_init__(self) -> None:
        if min(self.size, self.ways, self.line) < 1 or self.size % (self.ways * self.line):
            raise Fault("the size of a cache is a multiple of its ways times the bytes of a line", WRONG_ARGUMENTS)
        self._sets: List[OrderedDict[int, None]] = [OrderedDict() for _ in range(self.size // self.ways // self.line)]

    @classmethod
    def parse(cls, text: str) -> Cache:
        """A cache of words such as 32K,8,64: its size, its ways, and the bytes of a line."""
        parts = text.upper().split(",")
        factors = {"K": 1 << 10, "M": 1 << 20}
        try:
            size, ways, line = (int(it.rstrip("KM")) * factors.get(it[-1:], 1) for it in parts)
        except ValueError:
            raise Fault(f"a cache is its size, its ways and the bytes of a line, such as 32K,8,64, and not {text}", WRONG_ARGUMENTS) from None
        return cls(size, ways, line)

    def hear(self, access: Access) -> None:
        missed = 0
        for line in range(access.begin // self.line, (access.end - 1) // self.line + 1):
            missed += not self._use(line)
        counts = self.by_place.setdefault((access.func, access.position), [0, 0])
        counts[0] += 1
        counts[1] += missed > 0
        self.misses += missed > 0
        self.hits += not missed

    def _use(self, line: int) -> bool:
        """Uses a line, and says whether it was there."""
        lines = self._sets[line % len(self._sets)]
        is_there = line in lines
        if is_there:
            lines.move_to_end(line)
        else:
            lines[line] = None
            if len(lines) > self.ways:
                lines.popitem(last=False)
        return is_there

    def worst(self) -> Iterator[Tuple[int, int, int, int]]:
        """The places with misses, those with most first: function, position, accesses, misses."""
        for (func, position), (accesses, misses) in sorted(self.by_place.items(), key=lambda it: (-it[1][1], it[0])):
            if misses:
                yield func, position, accesses, misses
