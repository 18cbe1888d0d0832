"""Coverage as a tracefile of lcov, which lcov --summary, genhtml and editors read.

A branch has the number of its choice: for an if and a br_if, 0 is not taken and 1 is taken; for a br_table, the number is the label.
"""
from __future__ import annotations

import os
from collections import Counter
from pathlib import Path
from typing import Iterator, List, Tuple

from wasabi_tools.coverage import Source, SourceFunction


def told_apart(functions: List[SourceFunction]) -> List[Tuple[str, SourceFunction]]:
    """The functions by names that differ: where two lines have functions of one name, the line is added."""
    times = Counter(it.name for it in functions)
    return [(it.name if times[it.name] == 1 else f"{it.name} (line {it.line})", it) for it in functions]


def record(source: Source, file: Path) -> Iterator[str]:
    """The lines of a source's record."""
    counts = {line: it.count for line, it in sorted(source.lines.items())}
    named = told_apart(source.functions)
    yield f"SF:{os.path.abspath(file)}"
    yield from (f"FN:{it.line},{name}" for name, it in named)
    yield from (f"FNDA:{it.count},{name}" for name, it in named)
    yield f"FNF:{len(named)}\nFNH:{sum(it.count > 0 for _, it in named)}"
    for it in source.branches:
        yield f"BRDA:{it.line},{it.offset},{it.choice},{it.count if counts.get(it.line) else '-'}"
    yield f"BRF:{len(source.branches)}\nBRH:{sum(it.count > 0 for it in source.branches)}"
    yield from (f"DA:{line},{count}" for line, count in counts.items())
    yield f"LF:{len(counts)}\nLH:{sum(count > 0 for count in counts.values())}\nend_of_record"


def tracefile(sources: List[Tuple[Source, Path]]) -> Iterator[str]:
    yield "TN:wasabi"
    for source, file in sources:
        yield from record(source, file)
