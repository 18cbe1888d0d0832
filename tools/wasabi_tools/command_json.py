"""Prints what wasabi report, replay, tree, taint, trial or run prints as JSON.

    wasabi report .. | wasabi json
    wasabi json FILE

A call has its number, its export and its answer. A row of a report has its numbers by their names. The names of functions are under
names if the report has them.
"""
from __future__ import annotations

import json
from typing import List

from wasabi_tools.arguments import parser, write
from wasabi_tools.reports import Report


def main(words: List[str]) -> None:
    found = parser("json", __doc__ or "")
    found.add_argument("file", metavar="FILE", nargs="?", default="-")
    given = found.parse_args(words)
    write(None, [json.dumps(Report.read(given.file).plain(), indent=1)])
