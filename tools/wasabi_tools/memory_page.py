"""What a run did with its memory, as text and as a page: a heat map, the misses of a cache, and what is wrong with the heap."""
from __future__ import annotations

import html
import math
from dataclasses import dataclass
from typing import Callable, Iterator, List, Optional, Tuple

from wasabi_tools.accesses import LINE, PAGE, Cache, HeatMap
from wasabi_tools.heap import Finding, Heap

COLUMNS, CELL = 64, 9
STYLE = """
body { font: 14px/1.5 sans-serif; margin: 16px 20px; color: #222 }
h1, h2 { font-size: 19px; margin: 12px 0 4px }
p { margin: 2px 0 12px }
table { border-collapse: collapse; font: 13px/1.45 monospace }
th, td { padding: 0 12px 0 0; text-align: left; white-space: pre }
td.n { text-align: right }
svg { display: block; margin: 0 0 12px }
"""


@dataclass
class Memory:
    """What was heard of a run; told: how a place is printed."""

    heat: HeatMap
    cache: Cache
    heap: Optional[Heap]
    told: Callable[[int, int], str]

    def place(self, place: Optional[Tuple[int, int]]) -> str:
        return self.told(*place) if place else "the end of the run"

    def findings(self) -> List[Finding]:
        return self.heap.findings + self.heap.leaks() if self.heap else []

    def sentence(self, finding: Finding) -> str:
        """A finding in words."""
        block = f"{finding.size} bytes at {finding.address}" if finding.size else f"address {finding.address}"
        parts = [f"{block}: {finding.what}"] + [f"at {self.place(finding.place)}"] * (finding.place is not None)
        parts += [f"made at {self.place(finding.made)}"] * (finding.made is not None)
        parts += [f"freed at {self.place(finding.freed)}"] * (finding.freed is not None)
        return ", ".join(parts)

    def summary(self) -> Iterator[str]:
        for page, lines in self.heat.pages().items():
            loads, stores = sum(it[0] for it in lines), sum(it[1] for it in lines)
            used = sum(any(it) for it in lines)
            yield f"page {page}: {loads} loads and {stores} stores in {used} lines of {LINE} bytes"
        whole = self.cache.hits + self.cache.misses
        yield f"a cache of {self.cache.size} bytes, {self.cache.ways} ways, lines of {self.cache.line} bytes: " \
              f"{self.cache.misses} misses in {whole} accesses"
        if self.heap:
            yield f"{self.heap.allocations} blocks of {self.heap.bytes} bytes in all were allocated; {len(self.findings())} findings"


def text(memory: Memory, most: int) -> Iterator[str]:
    yield from memory.summary()
    for func, position, accesses, misses in list(memory.cache.worst())[:most]:
        yield f"{misses:>12} misses in {accesses:>12} accesses at {memory.told(func, position)}"
    yield from map(memory.sentence, memory.findings())


def heat(lines: List[Tuple[int, int]], page: int, most: int) -> Iterator[str]:
    """A page of the memory: a cell for each line, redder the more it was written, bluer the more it was read."""
    rows = len(lines) // COLUMNS
    yield f'<svg width="{COLUMNS * CELL}" height="{rows * CELL}" style="background:#f4f4f4">'
    for at, (loads, stores) in enumerate(lines):
        if loads or stores:
            strength = math.log1p(loads + stores) / math.log1p(most)
            hue = 220 + 140 * stores / (loads + stores)
            yield f'<rect x="{at % COLUMNS * CELL}" y="{at // COLUMNS * CELL}" width="{CELL - 1}" height="{CELL - 1}" ' \
                  f'fill="hsl({hue:.0f},85%,{90 - 50 * strength:.0f}%)"><title>bytes {page * PAGE + at * LINE} on: {loads} loads, {stores} stores' \
                  "</title></rect>"
    yield "</svg>"


def page(memory: Memory, most: int) -> Iterator[str]:
    yield f'<!doctype html>\n<meta charset="utf-8">\n<title>Use of memory</title>\n<style>{STYLE}</style>\n<h1>Use of memory</h1>'
    yield "".join(f"<p>{html.escape(it)}</p>" for it in memory.summary())
    pages = memory.heat.pages()
    hottest = max((sum(it) for lines in pages.values() for it in lines), default=1)
    for number, lines in pages.items():
        yield f"<h2>Page {number}</h2><p>A cell is a line of {LINE} bytes: blue if it was read, red if it was written, darker the more often.</p>"
        yield from heat(lines, number, hottest)
    yield "<h2>Misses</h2><table><tr><th>misses</th><th>accesses</th><th>place</th></tr>"
    for func, position, accesses, misses in list(memory.cache.worst())[:most]:
        yield f'<tr><td class="n">{misses}</td><td class="n">{accesses}</td><td>{html.escape(memory.told(func, position))}</td></tr>'
    yield "</table>"
    if memory.heap:
        yield "<h2>Heap</h2>" + "".join(f"<p>{html.escape(memory.sentence(it))}</p>" for it in memory.findings())
