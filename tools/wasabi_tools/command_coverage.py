"""Shows which lines, functions and branches of a module's sources ran.

    wasabi coverage MODULE --script FILE                                runs the module, and prints a table
    wasabi coverage MODULE --script FILE --out page.html                a page with each line
    wasabi coverage MODULE --script FILE --out coverage.info            a tracefile of lcov
    wasabi coverage MODULE --output FILE --info FILE --report FILE ..   from what report or replay printed, or a recorder wrote
    wasabi coverage MODULE --output FILE --info FILE --trace FILE ..    from traces

MODULE was made with -gdwarf-4 or -gdwarf-5. Several reports and traces are added up; for a folder, all its files that end with .report
or .trace are. Without --source, all sources of the module are shown that are there. A function without hooks is not counted.
"""
from __future__ import annotations

from argparse import Namespace
from pathlib import Path
from typing import Callable, Dict, Iterator, List, Tuple

from wasabi_tools.arguments import Parser, add_out, add_run, form_of, keep_inputs, one_input, parser, runner, write
from wasabi_tools.counts import GROUPS, Counts
from wasabi_tools.coverage import Coverage, Source, measured, sources_of
from wasabi_tools.coverage_page import page, table
from wasabi_tools.faults import WRONG_ARGUMENTS, Fault
from wasabi_tools.information import Information
from wasabi_tools.lcov import tracefile
from wasabi_tools.lines import Lines
from wasabi_tools.module import Module
from wasabi_tools.reports import Report, files_of
from wasabi_tools.traces import Trace

Chosen = List[Tuple[Source, Path]]
FORMS: Dict[str, Callable[[Coverage, Chosen], Iterator[str]]] = {
    "text": table, "page": page, "lcov": lambda _, sources: tracefile(sources),
}
ENDS = [(".html", "page"), (".info", "lcov")]


def arguments() -> Parser:
    found = parser("coverage", __doc__ or "")
    add_run(found)
    found.add_argument("--output", metavar="FILE", help="the output that ran, which tells which functions have hooks")
    found.add_argument("--info", metavar="FILE", help="the information of the output")
    found.add_argument("--report", metavar="FILE", nargs="+", help="reports with blocks and branches; - is standard input")
    found.add_argument("--trace", metavar="FILE", nargs="+", help="traces with the groups begin, if, br, br_if and br_table")
    found.add_argument("--source", metavar="FILE", nargs="+", default=[], help="the sources to show")
    add_out(found, FORMS, "text")
    return found


def from_script(given: Namespace, module: Module) -> Coverage:
    Lines(module).need()
    with runner(given) as run:
        run.instrument(GROUPS)
        counts = Counts()
        counts.add_report(run.report("blocks,branches"), "the report")
        return measured(module, run.informed(), run.made(), counts, "the report")


def from_files(given: Namespace, module: Module) -> Coverage:
    if not given.output or not given.info:
        raise Fault("--report and --trace need --output and --info, the files of the command that made the output", WRONG_ARGUMENTS)
    information, output, counts = Information.read(given.info), Module.read(given.output), Counts()
    information.need_groups(GROUPS)
    for path in files_of(given.report or [], ".report"):
        counts.add_report(Report.read(path), str(path))
    for path in files_of(given.trace or [], ".trace"):
        counts.add_trace(Trace(path))
    return measured(module, information, output, counts, " and ".join(given.report or given.trace))


def main(words: List[str]) -> None:
    given = arguments().parse_args(words)
    how = one_input(given, ["script", "report", "trace"])
    keep_inputs(given.out, [given.module, given.script, given.output, given.info, *(given.report or []), *(given.trace or []), *given.source])
    module = Module.read(given.module)
    module.need_original()
    coverage = from_script(given, module) if how == "script" else from_files(given, module)
    sources: List[Tuple[Source, Path]] = sources_of(coverage, given.source, Path(given.module).parent)
    if not sources:
        others = ", ".join(map(coverage.lines.shown, sorted(coverage.sources)))
        raise Fault(f"none of the sources has a line of the module, which has those of {others}; --source names where they are")
    write(given.out, FORMS[form_of(given, ENDS, "text")](coverage, sources))
