"""What ran most often, as text: functions, instructions with their lines, operations."""
from __future__ import annotations

from collections import Counter
from typing import Counter as CounterOf, Dict, Iterator, List, Optional, Tuple

from wasabi_tools.calls import Node, walk
from wasabi_tools.code import Instruction, text_of
from wasabi_tools.counts import GROUPS, SILENT, Counts, need_branches
from wasabi_tools.information import Information
from wasabi_tools.lines import Lines
from wasabi_tools.module import Module
from wasabi_tools.profiles import Names
from wasabi_tools.traces import Trace


def functions(root: Node, names: Names, noun: str, most: int) -> Iterator[str]:
    """The functions that cost most: by themselves, and with what they called; a function that calls itself counts once for that."""
    own: CounterOf[int] = Counter()
    whole: CounterOf[int] = Counter()
    calls: CounterOf[int] = Counter()
    opened: CounterOf[int] = Counter()
    sums = [0]
    for node, is_entered in walk(root):
        if is_entered:
            own[node.func] += node.cost
            calls[node.func] += node.calls
            opened[node.func] += 1
            sums.append(node.cost)
        else:
            opened[node.func] -= 1
            total = sums.pop()
            sums[-1] += total
            whole[node.func] += 0 if opened[node.func] else total
    yield f"{sums[0]} {noun}"
    yield f"{'own':>15} {'':>7}  {'with callees':>15} {'':>7}  {'calls':>10}  function"
    for func, cost in sorted(own.items(), key=lambda it: (-it[1], it[0]))[:most]:
        yield f"{cost:>15} {share(cost, sums[0]):>7}  {whole[func]:>15} {share(whole[func], sums[0]):>7}  {calls[func]:>10}  {names.of(func)}"


def share(part: int, whole: int) -> str:
    return f"{100 * part / max(whole, 1):.1f} %"


def ran_of(trace: Trace, information: Optional[Information], module: Module) -> Iterator[Tuple[int, List[Instruction], List[int]]]:
    """Each function that ran, with its instructions and how often each of them ran."""
    module.need_original()
    counts = Counts()
    counts.add_trace(trace)
    counts.check(module, str(trace.path))
    told = set(information.groups) if information else set(trace.names()) & GROUPS
    for func in sorted(counts.seen):
        body = module.body(func)
        ran = counts.runs(func, body)
        need_branches(func, body, ran, told)
        yield func, body, ran


def instructions(trace: Trace, information: Optional[Information], module: Module, most: int) -> Iterator[str]:
    """The instructions that ran most often, with their places; those of one line together."""
    lines = Lines(module)
    rows: Dict[Tuple[str, int], List[Tuple[int, str]]] = {}
    for func, body, ran in ran_of(trace, information, module):
        for position, (it, times) in enumerate(zip(body, ran)):
            if times and it.opcode not in SILENT:
                place = lines.at(it.offset)
                key = (lines.shown(place.path), place.line) if place else (module.name_of(func), 0)
                rows.setdefault(key, []).append((times, f"{times:>15}  {func}:{position} {it.offset:#x} {text_of(it)}"))
    weight = {key: sum(times for times, _ in each) for key, each in rows.items()}
    for key in sorted(rows, key=lambda it: (-weight[it], it))[:most]:
        yield f"{weight[key]:>15}  {key[0]}{f':{key[1]}' if key[1] else ''}"
        yield from (text for _, text in rows[key])


def operations(trace: Trace, information: Optional[Information], module: Module) -> Iterator[str]:
    """How often each operation ran, with its share."""
    counts: CounterOf[str] = Counter()
    for _, body, ran in ran_of(trace, information, module):
        for it, times in zip(body, ran):
            if it.opcode not in SILENT:
                counts[it.name] += times
    whole = sum(counts.values())
    yield f"{whole} instructions"
    for name, count in sorted(counts.items(), key=lambda it: (-it[1], it[0])):
        if count:
            yield f"{count:>15} {share(count, whole):>7}  {name}"
