"""A tree of calls in the formats of other viewers: folded stacks, callgrind, speedscope and pprof."""
from __future__ import annotations

import gzip
import json
from collections import Counter
from dataclasses import dataclass, field
from typing import Any, Counter as CounterOf, Dict, Iterable, Iterator, List, Optional, Tuple

from wasabi_tools.binary import sized, unsigned
from wasabi_tools.calls import Node, nodes, totals, walk
from wasabi_tools.lines import Lines, Place
from wasabi_tools.module import Module

NOWHERE = "???"
DEEPER = "(deeper)"
Edge = Tuple[int, Optional[Place], int]


@dataclass
class Names:
    """How functions and their places are told, by a module or by numbers alone."""

    module: Optional[Module] = None
    lines: Optional[Lines] = None
    funcs: Iterable[int] = ()
    _places: Dict[Tuple[int, int], Optional[Place]] = field(default_factory=dict)

    def __post_init__(self) -> None:
        times = Counter(self._plain(func) for func in set(self.funcs))
        self._repeated = {name for name, count in times.items() if count > 1}

    def _plain(self, func: int) -> str:
        return self.module.name_of(func).replace("\n", " ") if self.module else f"function {func}"

    def of(self, func: int) -> str:
        """The name of a function, with its number if two functions have the same name."""
        name = self._plain(func)
        return f"{name} [{func}]" if name in self._repeated else name

    def home(self, func: int) -> Optional[Place]:
        """Where a function begins."""
        return self.place(func, 0)

    def place(self, func: int, position: Optional[int]) -> Optional[Place]:
        """The line of a position, or where the function begins if no position is given."""
        key = func, position or 0
        if key not in self._places:
            self._places[key] = self._read_place(*key)
        return self._places[key]

    def _read_place(self, func: int, position: int) -> Optional[Place]:
        if self.lines is None or self.module is None or not self.module.has_body(func):
            return None
        body = self.module.body(func)
        return self.lines.at(body[position].offset) if position < len(body) else None


def names_of(root: Node, module: Optional[Module], with_lines: bool) -> Names:
    return Names(module, Lines(module).all() if module and with_lines else None, {it.func for it in nodes(root)})


def merged(root: Node) -> Node:
    """The tree in which calls of one function at several places of a function are one."""
    top = Node()
    path = [top]
    for node, is_entered in walk(root):
        if is_entered:
            same = path[-1].child(node.func)
            same.calls += node.calls
            same.costs = same.costs + node.costs if same.costs else node.costs
            path.append(same)
        else:
            path.pop()
    return top


def folded(root: Node, names: Names, most: int) -> Iterator[str]:
    """Folded stacks: the names of a path, the outermost first, and what its last function cost. Paths of more than so many functions
    are one with those that they go on from."""
    root = merged(root)
    path: List[str] = []
    sums, depth = totals(root), 0
    for node, is_entered in walk(root):
        depth += 1 if is_entered else -1
        if not is_entered:
            if depth < most:
                path.pop()
            continue
        if depth <= most:
            path.append(names.of(node.func).replace(";", ":"))
            if node.cost:
                yield f"{';'.join(path)} {node.cost}"
        if depth == most and sums[id(node)] > node.cost:
            yield f"{';'.join(path)};{DEEPER} {sums[id(node)] - node.cost}"


@dataclass
class Callgrind:
    """What callgrind tells of a run: by function and line what it cost, and by call how often it came and what ran until it was over.
    If functions call themselves, an instruction counts once for each pair of caller and callee."""

    own: CounterOf[Tuple[int, Optional[Place]]] = field(default_factory=Counter)
    calls: CounterOf[Edge] = field(default_factory=Counter)
    costs: CounterOf[Edge] = field(default_factory=Counter)

    def add(self, root: Node, names: Names) -> None:
        opened: CounterOf[Edge] = Counter()
        path: List[Tuple[Node, Optional[Edge]]] = []
        sums = totals(root)
        for node, is_entered in walk(root):
            if is_entered:
                caller = path[-1][0] if path else None
                edge = (caller.func, names.place(caller.func, node.site), node.func) if caller else None
                path.append((node, edge))
                for place, cost in node.costs.items():
                    self.own[node.func, place] += cost
                if edge:
                    self.calls[edge] += node.calls
                    self.costs[edge] += 0 if opened[edge] else sums[id(node)]
                    opened[edge] += 1
            else:
                _, edge = path.pop()
                if edge:
                    opened[edge] -= 1


def file_of(place: Optional[Place]) -> str:
    return place.path if place else NOWHERE


def line_of(place: Optional[Place]) -> int:
    return place.line if place else 0


def callgrind(root: Node, names: Names, event: str) -> Iterator[str]:
    """A profile of callgrind, which callgrind_annotate and KCachegrind read. If the trace has the group call, calls are at their lines;
    otherwise they are at the first line of the caller."""
    profile = Callgrind()
    profile.add(root, names)
    own: Dict[int, List[Tuple[Optional[Place], int]]] = {}
    calls: Dict[int, List[Edge]] = {}
    for (func, place), cost in profile.own.items():
        own.setdefault(func, []).append((place, cost))
    for edge in profile.calls:
        calls.setdefault(edge[0], []).append(edge)
    yield f"# callgrind format\nversion: 1\ncreator: wasabi\npositions: line\nevents: {event}"
    yield f"summary: {sum(profile.own.values())}"
    for func in sorted({*own, *(edge[2] for edge in profile.calls)}):
        home = file_of(names.home(func))
        yield f"\nfl={home}\nfn={names.of(func)}"
        for place, cost in sorted(own.get(func, []), key=lambda it: (file_of(it[0]), line_of(it[0]))):
            is_other = file_of(place) != home
            yield from [f"fi={file_of(place)}"] * is_other + [f"{line_of(place)} {cost}"] + [f"fe={home}"] * is_other
        for edge in sorted(calls.get(func, []), key=lambda it: (file_of(it[1]), line_of(it[1]), it[2])):
            callee = names.home(edge[2])
            yield f"cfi={file_of(callee)}\ncfn={names.of(edge[2])}\ncalls={profile.calls[edge]} {line_of(callee)}"
            yield f"{line_of(edge[1])} {profile.costs[edge]}"


def speedscope(root: Node, names: Names, unit: str, title: str) -> Iterator[str]:
    """A file of speedscope, in which a node is opened and closed in turn: it is as long as the tree."""
    frames: Dict[int, int] = {}
    told: List[Dict[str, Any]] = []
    events, time = [], 0
    for node, is_entered in walk(root):
        if node.func not in frames:
            frames[node.func] = len(told)
            home = names.home(node.func)
            told.append({"name": names.of(node.func), **({"file": home.path, "line": home.line} if home else {})})
        events.append({"type": "O" if is_entered else "C", "frame": frames[node.func], "at": time})
        time += node.cost if is_entered else 0
    yield json.dumps({
        "$schema": "https://www.speedscope.app/file-format-schema.json", "exporter": "wasabi", "name": title, "shared": {"frames": told},
        "profiles": [{"type": "evented", "name": unit, "unit": "none", "startValue": 0, "endValue": time, "events": events}],
    }, separators=(",", ":"))


def numbered(tag: int, value: int) -> bytes:
    """A field of a protocol buffer that is a number."""
    return unsigned(tag << 3) + unsigned(value)


def lengthy(tag: int, content: bytes) -> bytes:
    """A field of a protocol buffer that has a length."""
    return unsigned(tag << 3 | 2) + sized(content)


class Strings:
    """The table of texts of a profile, whose first one is empty."""

    def __init__(self) -> None:
        self.known: Dict[str, int] = {"": 0}

    def of(self, text: str) -> int:
        return self.known.setdefault(text, len(self.known))


class Pprof:
    """A profile of pprof (profile.proto): samples of paths, whose places are functions and lines."""

    def __init__(self, names: Names, unit: str) -> None:
        self.names, self.strings = names, Strings()
        self.functions: Dict[int, int] = {}
        self.places: Dict[Tuple[int, int], int] = {}
        kind = numbered(1, self.strings.of(unit.lower())) + numbered(2, self.strings.of("count"))
        self.out = [lengthy(1, kind)]

    def function(self, func: int) -> int:
        if func not in self.functions:
            number = self.functions[func] = len(self.functions) + 1
            home = self.names.home(func)
            name = numbered(2, self.strings.of(self.names.of(func)))
            file = numbered(4, self.strings.of(home.path)) + numbered(5, home.line) if home else b""
            self.out.append(lengthy(5, numbered(1, number) + name + file))
        return self.functions[func]

    def place(self, func: int, line: int) -> int:
        if (func, line) not in self.places:
            number = self.places[func, line] = len(self.places) + 1
            self.out.append(lengthy(4, numbered(1, number) + lengthy(4, numbered(1, self.function(func)) + numbered(2, line))))
        return self.places[func, line]

    def sample(self, place: int, callers: bytes, value: int) -> None:
        """A path that ends at a place, behind the places of its callers, the last first; and what it cost."""
        self.out.append(lengthy(2, lengthy(1, unsigned(place) + callers) + lengthy(2, unsigned(value))))

    def bytes(self) -> bytes:
        texts = [lengthy(6, it.encode("utf-8")) for it in self.strings.known]
        return gzip.compress(b"".join(self.out + texts), mtime=0)


def pprof(root: Node, names: Names, unit: str, most: int) -> bytes:
    """A profile of pprof. Of paths of more than so many functions, the deeper functions count for the last that is told."""
    profile, sums, depth = Pprof(names, unit), totals(root), 0
    path: List[Tuple[int, bytes]] = []  # each function that is open, and the places of its callers
    for node, is_entered in walk(root):
        depth += 1 if is_entered else -1
        if not is_entered:
            if depth < most:
                path.pop()
        elif depth <= most:
            callers = b""
            if path:
                func, callers = path[-1]
                callers = unsigned(profile.place(func, line_of(names.place(func, node.site)))) + callers
            path.append((node.func, callers))
            for place, cost in node.costs.items():
                profile.sample(profile.place(node.func, line_of(place)), callers, cost)
            if depth == most and sums[id(node)] > node.cost:
                profile.sample(profile.place(node.func, line_of(names.home(node.func))), callers, sums[id(node)] - node.cost)
    return profile.bytes()
