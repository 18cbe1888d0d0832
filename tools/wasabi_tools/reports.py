"""The texts that run, report, replay, tree, taint and trial print, and what the recorder of js/ writes (docs/CLI.md)."""
from __future__ import annotations

import json
import re
from dataclasses import dataclass, field
from pathlib import Path
from typing import Any, Dict, Iterable, Iterator, List, NamedTuple, Optional, Union

from wasabi_tools.faults import Fault
from wasabi_tools.inputs import read_text


class Shape(NamedTuple):
    """How the rows of a report are written; its columns are the groups of the pattern."""

    report: str
    pattern: str
    columns: List[str]


SHAPES = {
    "block": Shape("blocks", r"(\d+):(-?\d+) (\w+) (\d+)", "function position part count".split()),
    "branch": Shape("branches", r"(\d+):(-?\d+) (\w+) (\d+) (\d+)", "function position branch choice count".split()),
    "call": Shape("calls", r"(\d+) (\d+|none) (\d+)", "caller callee count".split()),
    "memory": Shape("memory", r"(\d+):(-?\d+) ([\w.]+) (\d+) (\d+) (\d+)", "function position instruction count least greatest".split()),
    "node": Shape("tree", r"(\d+) (\d+) (\d+)", "depth function count".split()),
    "warning": Shape("warnings", r"(\d+):(\d+) (.*) (\d+)", "function position import argument".split()),
}
ANSWER = re.compile(r"(?:(start)|call (\d+) (.*)): (ok|trap|out of steps)(.*)")
HEAD = re.compile(r"(report|tree|warnings)(?: (\w+))?(?: (\d+))?")
REFUSED = re.compile(r"error \d+: .*")
Row = Dict[str, Union[int, str, None]]


@dataclass
class Report:
    """What one command printed: the answers of the calls, the reports by their kinds, and single numbers by their words."""

    answers: List[Row] = field(default_factory=list)
    reports: Dict[str, List[Row]] = field(default_factory=dict)
    names: Optional[Dict[int, str]] = None
    numbers: Dict[str, int] = field(default_factory=dict)
    runs: Dict[str, Report] = field(default_factory=dict)  # the two of a trial

    @classmethod
    def read(cls, path: Union[str, Path]) -> Report:
        what = "standard input" if str(path) == "-" else str(path)
        return cls.parse(read_text(path), what)

    @classmethod
    def parse(cls, text: str, what: str) -> Report:
        if not text:
            raise Fault(f"{what} is empty: the command before it printed nothing")
        if REFUSED.match(text):
            raise Fault(f"{what} has a refusal, and no report: {text.strip()}")
        found = cls()
        inner = found
        for line in text.splitlines():
            if line in ("original:", "output:"):
                inner = found.runs[line[:-1]] = cls()
            else:
                (found if line.startswith("events ") else inner)._take(line, what)
        return found

    def _take(self, line: str, what: str) -> None:
        word, _, rest = line.partition(" ")
        answered = ANSWER.fullmatch(line)
        shape = SHAPES.get(word)
        row = shape and re.fullmatch(shape.pattern, rest)
        head = HEAD.fullmatch(line)
        if answered:
            self.answers.append(answer_of(*answered.groups()))
        elif shape and row:
            self.reports.setdefault(shape.report, []).append(dict(zip(shape.columns, map(value_of, row.groups()))))
        elif head:
            self.reports.setdefault(head[2] if word == "report" else word, [])
        elif word == "names":
            self.names = {}
        elif word == "name" and self.names is not None:
            func, _, name = rest.partition(" ")
            self.names[int(func)] = json.loads(name)
        else:
            self._take_numbers(line, what)

    def _take_numbers(self, line: str, what: str) -> None:
        """Takes a line of words with numbers, such as events 7 stray 0, or module 600 bytes, 20 functions."""
        pairs = re.findall(r"([a-z]+) (\d+)", line) if re.fullmatch(r"(events \d+ stray|pages|host|trial) \d+", line) else []
        made = re.fullmatch(r"(module|output) (\d+) bytes, (\d+) (functions|hooks)", line)
        if made:
            pairs = [(f"{made[1]} bytes", made[2]), (made[4], made[3])]
        if not pairs:
            raise Fault(f"{what} is no report: it must be what wasabi report, replay, tree, taint or trial prints, and has the line {line[:80]!r}")
        self.numbers.update((word, int(number)) for word, number in pairs)

    def need(self, kinds: Iterable[str], what: str) -> None:
        """Raises a Fault if a report is not there."""
        missing = [it for it in kinds if it not in self.reports]
        if missing:
            raise Fault(f"{what} must have the reports on {' and '.join(kinds)}, as wasabi report prints them")

    def rows(self, kind: str) -> List[Row]:
        return self.reports.get(kind, [])

    def plain(self) -> Dict[str, Any]:
        """The object that JSON writes."""
        told: Dict[str, Any] = {}
        if not self.runs:
            told.update(answers=self.answers, reports=self.reports)
        told.update(self.numbers)
        if self.names is not None:
            told["names"] = self.names
        told.update((name, run.plain()) for name, run in self.runs.items())
        return told


def value_of(word: str) -> Union[int, str, None]:
    return int(word) if re.fullmatch(r"-?\d+", word) else None if word == "none" else word


def answer_of(start: Optional[str], number: str, export: str, word: str, rest: str) -> Dict[str, Any]:
    told: Dict[str, Any] = {"start": True} if start else {"call": int(number), "export": export}
    if word == "ok":
        return dict(told, answer="ok", results=[dict(zip(("type", "value"), it.split(":"))) for it in rest.split()])
    return dict(told, answer=word, **({"cause": rest.strip()} if word == "trap" else {}))


def files_of(paths: Iterable[str], suffix: str) -> Iterator[Path]:
    """The files that are named, and those with a suffix in folders that are named, such as what processes recorded."""
    for name in paths:
        path = Path(name)
        found = sorted(path.glob("*" + suffix)) if path.is_dir() else [path]
        if not found:
            raise Fault(f"the folder {name} has no file that ends with {suffix}")
        yield from found
