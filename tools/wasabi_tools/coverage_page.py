"""Coverage as a page, and as a short table for a terminal."""
from __future__ import annotations

import html
from pathlib import Path
from typing import Iterator, List, Tuple

from wasabi_tools.coverage import Coverage, Source
from wasabi_tools.inputs import read_text

LEGEND = {"ran": "ran", "partly": "ran in part", "never": "never ran"}
LONGEST_BAR = 60
NOTE = "The number of a line is that of its instruction that ran most often. Copies of a line, in inlined and generic functions, are added up."
STYLE = """
body { font: 14px/1.5 sans-serif; margin: 16px 20px; color: #222 }
h1, h2 { font-size: 19px; margin: 0 }
h2 { margin-top: 24px }
p { margin: 2px 0 12px }
b { font-weight: normal; padding: 2px 8px }
table { border-collapse: collapse; font: 13px/1.45 monospace }
td { padding: 0 8px; white-space: pre }
td:nth-child(-n+2) { text-align: right; color: #666 }
i { display: block; height: 8px; background: #3a8f3a }
.ran { background: #dcf3dc }
.partly { background: #fff0b0 }
.never { background: #fbd0d0 }
.out { background: #eee }
details { margin: 0 0 12px }
nav td:first-child { text-align: left }
"""


def share(part: int, whole: int) -> str:
    return f"{100 * part / whole:.1f} %" if whole else "-"


def numbers(source: Source) -> List[Tuple[int, int]]:
    """How many of the lines, the functions and the branches of a source ran, and how many there are."""
    lines = [it.count for it in source.lines.values()]
    return [(sum(it > 0 for it in each), len(each)) for each in (
        lines, [it.count for it in source.functions], [it.count for it in source.branches])]


def table(coverage: Coverage, sources: List[Tuple[Source, Path]]) -> Iterator[str]:
    """A line for each source, and their sums."""
    rows = [(coverage.lines.shown(source.path), numbers(source)) for source, _ in sources]
    sums = [(sum(row[at][0] for _, row in rows), sum(row[at][1] for _, row in rows)) for at in range(3)]
    width = max([len("all sources"), *(len(name) for name, _ in rows)])
    yield f"{'source':<{width}}  {'lines':>18}  {'functions':>18}  {'branches':>18}"
    for name, row in rows + [("all sources", sums)]:
        cells = [f"{part} of {whole} {share(part, whole):>7}" for part, whole in row]
        yield f"{name:<{width}}  " + "  ".join(f"{it:>18}" for it in cells)
    yield from remarks(coverage)


def remarks(coverage: Coverage) -> Iterator[str]:
    """What the numbers do not count."""
    if coverage.left_out:
        yield f"{len(coverage.left_out)} functions have no hooks and are not counted"
    if coverage.generated:
        yield f"{coverage.generated} instructions have no line: the compiler made them"


def functions_of(source: Source) -> Iterator[str]:
    """The functions of a source, folded away."""
    yield f"<details><summary>{len(source.functions)} functions</summary><table>"
    for it in source.functions:
        copies = f"{it.copies} inlined" if it.copies else ""
        state = "ran" if it.count else "never"
        yield f'<tr class="{state}"><td>{it.line}</td><td>{it.count}</td><td>{html.escape(it.name)}</td><td>{copies}</td></tr>'
    yield "</table></details>"


def section(title: str, source: Source, text: List[str], heading: str, note: str) -> Iterator[str]:
    """A source with its counts, a row for each line."""
    kinds = {line: it.state for line, it in source.lines.items()}
    counts = {line: it.count for line, it in source.lines.items()}
    legend = "".join(f'<b class="{kind}">{list(kinds.values()).count(kind)} {words}</b>' for kind, words in LEGEND.items())
    if source.left_out:
        legend += f'<b class="out">{len(source.left_out)} of functions without hooks</b>'
    yield f"<{heading}>{html.escape(title)}</{heading}>\n<p>Of {len(kinds)} lines with code: {legend} The number says how often.</p>"
    yield from [note] * bool(note)
    yield from functions_of(source)
    yield "<table>"
    most = max([1, *counts.values()])
    for line, content in enumerate(text, 1):
        width = LONGEST_BAR * counts.get(line, 0) // most
        kind = kinds.get(line, "out" if line in source.left_out else "plain")
        copies = len(source.lines[line].copies) if line in kinds else 0
        told = f' title="{copies} copies"' if copies > 1 else ""
        yield f'<tr class="{kind}"{told}><td>{line}</td><td>{counts.get(line, "")}</td><td><i style="width:{width}px"></i></td>' \
              f"<td>{html.escape(content)}</td></tr>"
    yield "</table>"


def page(coverage: Coverage, sources: List[Tuple[Source, Path]]) -> Iterator[str]:
    """The page of some sources, with a table of them if there are several."""
    titles = [coverage.lines.shown(source.path) for source, _ in sources]
    title = titles[0] if len(titles) == 1 else f"Coverage of {len(titles)} sources"
    yield f'<!doctype html>\n<meta charset="utf-8">\n<title>{html.escape(title)}</title>\n<style>{STYLE}</style>'
    if len(sources) > 1:
        yield f"<h1>{title}</h1>\n<nav><table>"
        for name, (source, _) in zip(titles, sources):
            cells = "".join(f"<td>{part} of {whole} {what}, {share(part, whole)}</td>" for (part, whole), what in zip(
                numbers(source), ("lines", "functions", "branches")))
            yield f'<tr><td><a href="#{html.escape(name)}">{html.escape(name)}</a></td>{cells}</tr>'
        yield "</table></nav>"
    note = f"<p>{' '.join([NOTE, *(f'{it}.' for it in remarks(coverage))])}</p>"
    yield from [note] * (len(sources) > 1)
    for name, (source, file) in zip(titles, sources):
        yield f'<a id="{html.escape(name)}"></a>'
        yield from section(name, source, read_text(file).splitlines(), "h2" if len(sources) > 1 else "h1", "" if len(sources) > 1 else note)
