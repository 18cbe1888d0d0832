"""Shows where a module spends its instructions, or which paths of calls there were.

    wasabi profile MODULE --script FILE                       runs the module, and prints its hottest functions
    wasabi profile MODULE --script FILE --out page.svg        a flame graph
    wasabi profile MODULE --script FILE --as callgrind --out callgrind.out
    wasabi profile MODULE --trace FILE [--info FILE] [--output FILE] ..
                                                              from a trace with the groups begin, end, if, br, br_if, br_table, and call
    wasabi profile MODULE --tree FILE ..                      from what tree printed, by calls; - is standard input

The forms: text, lines (the hottest lines and instructions), operations (how often each ran), flame (a picture), folded (stacks for
flamegraph.pl, inferno and speedscope), callgrind, speedscope, pprof, chrome (a timeline). The weight is the number of instructions that
ran, without block, loop, else and end, which do nothing; or with --weight calls the number of calls. Time is not measured. A function
without hooks is not counted, and what it calls stands on the last function with hooks before it.
"""
from __future__ import annotations

from argparse import Namespace
from collections import Counter
from typing import Callable, Dict, Iterable, List, Optional, Union

from wasabi_tools import flame
from wasabi_tools.arguments import Parser, add_out, add_run, form_of, keep_inputs, one_input, parser, runner, write
from wasabi_tools.calls import INSTRUCTIONS, NESTING, Node, check_calls, nodes, of_report, of_trace
from wasabi_tools.faults import WRONG_ARGUMENTS, Fault
from wasabi_tools.hottest import functions, instructions, operations
from wasabi_tools.information import Information
from wasabi_tools.lines import Lines
from wasabi_tools.module import Module, functions_with
from wasabi_tools.profiles import Names, callgrind, folded, names_of, pprof, speedscope
from wasabi_tools.program import Runner
from wasabi_tools.reports import Report
from wasabi_tools.timeline import chrome
from wasabi_tools.traces import Trace

ENDS = [(".svg", "flame"), (".folded", "folded"), ("stacks.txt", "folded"), ("callgrind.out", "callgrind"), (".speedscope.json", "speedscope"),
        (".pb.gz", "pprof"), (".json", "chrome")]
OF_TREES = ["text", "flame", "folded", "callgrind", "speedscope", "pprof"]
OF_TRACES = ["lines", "operations", "chrome"]
DEPTH = 1000


def arguments() -> Parser:
    found = parser("profile", __doc__ or "")
    add_run(found)
    found.add_argument("--trace", metavar="FILE", help="a trace, instead of a run")
    found.add_argument("--tree", metavar="FILE", help="the text of tree, instead of a run")
    found.add_argument("--info", metavar="FILE", help="the information of the output that was recorded: says which groups were selected")
    found.add_argument("--output", metavar="FILE", help="the output that was recorded: says which functions have hooks")
    found.add_argument("--weight", choices=["instructions", "calls"], help="what is counted; by default instructions if they are told")
    found.add_argument("--depth", metavar="N", type=int, default=DEPTH,
                       help=f"folded and pprof tell of a path at most so many functions, by default {DEPTH}")
    found.add_argument("--most", metavar="N", type=int, default=30, help="how many rows text and lines print, by default 30")
    add_out(found, OF_TREES + OF_TRACES, "text")
    return found


def in_form(form: str, root: Node, names: Names, unit: flame.Unit, given: Namespace) -> Union[bytes, Iterable[str]]:
    noun = unit.noun.capitalize()
    forms: Dict[str, Callable[[], Union[bytes, Iterable[str]]]] = {
        "text": lambda: functions(root, names, unit.noun, given.most),
        "flame": lambda: flame.picture(root, names, unit),
        "folded": lambda: folded(root, names, given.depth),
        "callgrind": lambda: callgrind(root, names, noun),
        "speedscope": lambda: speedscope(root, names, noun, given.module),
        "pprof": lambda: pprof(root, names, noun, given.depth),
    }
    return forms[form]()


def by_calls(root: Node, module: Module, form: str, given: Namespace) -> Union[bytes, Iterable[str]]:
    return in_form(form, root, names_of(root, module, False), flame.CALLS, given)


def of_events(trace: Trace, information: Optional[Information], output: Optional[Module], module: Module, form: str,
              given: Namespace) -> Union[bytes, Iterable[str]]:
    """What a trace tells in a form; output: the module that ran, where it is known."""
    if form == "chrome":
        return chrome(trace, Names(module, None, module.defined_functions()), information)
    if form in ("lines", "operations"):
        return instructions(trace, information, module, given.most) if form == "lines" else operations(trace, information, module)
    root = of_trace(trace, module, information, (functions_with(output, "begin_function") or set()) if output else None)
    if given.weight == "calls":
        for node in nodes(root):
            node.costs = Counter({None: node.calls})
        return by_calls(root, module, form, given)
    return in_form(form, root, names_of(root, module, bool(Lines(module).headers)), flame.INSTRUCTIONS, given)


def of_run(run: Runner, given: Namespace, module: Module, form: str) -> Union[bytes, Iterable[str]]:
    """What a run by a script tells in a form."""
    if given.weight == "calls" and form in OF_TREES:
        run.instrument(NESTING)
        return by_calls(of_report(run.tree(), "the tree"), module, form, given)
    run.instrument(INSTRUCTIONS)
    return of_events(run.record(), run.informed(), run.made(), module, form, given)


def check(given: Namespace, form: str, how: str) -> None:
    """Raises a Fault if arguments do not go together."""
    if given.depth < 1 or given.most < 1:
        raise Fault("--depth and --most take a number from 1 on", WRONG_ARGUMENTS)
    if how == "tree" and (form in OF_TRACES or given.weight == "instructions"):
        raise Fault(f"a tree has no {'events' if form in OF_TRACES else 'instructions'}: give --script or --trace", WRONG_ARGUMENTS)
    keep_inputs(given.out, [given.module, given.script, given.trace, given.tree, given.info, given.output])


def main(words: List[str]) -> None:
    given = arguments().parse_args(words)
    form = form_of(given, ENDS, "text")
    how = one_input(given, ["script", "trace", "tree"])
    check(given, form, how)
    module = Module.read(given.module)
    if how == "script":
        with runner(given) as run:
            run.tell_selection()
            write(given.out, of_run(run, given, module, form))
    elif how == "trace":
        information = Information.read(given.info) if given.info else None
        if information:
            information.check_original(module)
        output = Module.read(given.output) if given.output else None
        if output and information:
            information.check_output(output)
        write(given.out, of_events(Trace(given.trace), information, output, module, form, given))
    else:
        what = "standard input" if given.tree == "-" else given.tree
        root = of_report(Report.read(given.tree), what)
        check_calls(root, module, what)
        write(given.out, by_calls(root, module, form, given))
