"""A tree of calls as a flame graph, in SVG. A box is a path of calls with the name of its last function, and stands on the box of the
path without that function. Its width is what the function cost on this path, and what all boxes above it cost."""
from __future__ import annotations

import html
import re
from dataclasses import dataclass
from typing import Iterator, List, Tuple

from wasabi_tools.calls import Node, totals, walk
from wasabi_tools.profiles import Names, merged

WIDTH, ROW, MARGIN, HEADING = 1000, 19, 12, 58
LETTER = 7.2  # the width of a letter of 12px
NARROWEST = 0.3  # narrower boxes are left out
STYLE = """
text { font: 12px monospace; fill: #222; white-space: pre }
.title { font: 17px sans-serif }
.note { font: 13px sans-serif; fill: #666 }
rect { stroke: #fff; stroke-width: 0.6 }
"""


@dataclass(frozen=True)
class Unit:
    """What is counted: the noun, the note below the title, and what a box says of itself, with its own number and the sum."""

    noun: str
    note: str
    told: str


CALLS = Unit("calls", "The width of a box: how often its function was entered on this path, plus the same of all boxes above it. Calls, not time.",
             "{own} times on this path, {whole} calls with the boxes above")
INSTRUCTIONS = Unit("instructions", "The width of a box: how many instructions ran in its function on this path and in all boxes above it. "
                    "Instructions, not time.", "{own} instructions on this path, {whole} with the boxes above")


@dataclass(frozen=True)
class Box:
    depth: int
    func: int
    own: int
    left: int
    whole: int


def boxes_of(root: Node) -> Tuple[List[Box], int]:
    """The boxes, each before those that stand on it, and the width of all."""
    sums = totals(root)
    found: List[Box] = []
    lefts = [0]  # by depth, where the next box begins
    for node, is_entered in walk(root):
        if is_entered:
            found.append(Box(len(lefts) - 1, node.func, node.cost, lefts[-1], sums[id(node)]))
            lefts.append(lefts[-1])
        else:
            lefts.pop()
            lefts[-1] += sums[id(node)]
    return found, lefts[0]


def printed(name: str) -> str:
    """A name as it may be in SVG, which allows no control characters."""
    return html.escape(re.sub("[^\t -\ud7ff\ue000-\ufffd\U00010000-\U0010ffff]", "\ufffd", name))


def shape(box: Box, name: str, told: str, scale: float, top: int) -> Iterator[str]:
    """A box with its name as far as there is room, and with all that is known of the box, shown when the mouse points at it."""
    left, width = MARGIN + scale * box.left, scale * box.whole
    room = int((width - 6) / LETTER)
    label = name if len(name) <= room else name[:room - 2] + ".." if room > 3 else ""
    yield f"<g><title>{printed(name)}: {told.format(own=box.own, whole=box.whole)}</title>"
    yield f'<rect x="{left:.1f}" y="{top}" width="{width:.1f}" height="{ROW}" fill="hsl({box.func * 47 % 60},85%,68%)"/>'
    yield f'<text x="{left + 4:.1f}" y="{top + 14}">{printed(label)}</text></g>'


def picture(root: Node, names: Names, unit: Unit) -> Iterator[str]:
    """The flame graph, with the calls of the host at its foot."""
    boxes, whole = boxes_of(merged(root))
    rows = max((box.depth + 1 for box in boxes), default=0)
    width, height = WIDTH + 2 * MARGIN, HEADING + rows * ROW + MARGIN
    yield f'<svg xmlns="http://www.w3.org/2000/svg" width="{width}" height="{height}" viewBox="0 0 {width} {height}">'
    yield f'<style>{STYLE}</style>\n<rect width="100%" height="100%" fill="#fff"/>'
    yield f'<text class="title" x="{MARGIN}" y="26">{whole} {unit.noun} on {len(boxes)} paths</text>'
    yield f'<text class="note" x="{MARGIN}" y="46">{unit.note}</text>'
    for box in boxes:
        scale = WIDTH / max(whole, 1)
        if scale * box.whole >= NARROWEST:
            yield from shape(box, names.of(box.func), unit.told, scale, HEADING + (rows - 1 - box.depth) * ROW)
    yield "</svg>"
