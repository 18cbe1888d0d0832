"""Says which arguments of sinks the results of sources reach, as the mode taint does, by a policy of your own.

    wasabi marks MODULE --trace FILE --sources LIST --sinks LIST

The trace has all groups, and MODULE is the original. A mark goes on with values; with --addresses a marked address also marks what is
loaded or stored by it, and with --conditions a marked condition what a select chooses. The names in a list are those of imports.
"""
from __future__ import annotations

from typing import Iterator, List, Set

from wasabi_tools.arguments import parser, write
from wasabi_tools.faults import WRONG_ARGUMENTS, Fault
from wasabi_tools.module import Module
from wasabi_tools.shadow import Policy, Shadow
from wasabi_tools.traces import CALLS, Trace


def imported(module: Module, names: str) -> Set[int]:
    """The functions that a list of imports names."""
    known = {func: f"{it.module}.{it.name}" for func, it in enumerate(module.imports)}
    missing = [it for it in names.split(",") if it and it not in known.values()]
    if missing:
        raise Fault(f"{module.what} imports no function {missing[0]}; it has {', '.join(known.values()) or 'none'}", WRONG_ARGUMENTS)
    return {func for func, name in known.items() if name in names.split(",")}


def warnings(trace: Trace, module: Module, shadow: Shadow, sinks: Set[int]) -> Iterator[str]:
    for event in trace.events():
        marked = shadow.hear(event)
        callee = event.fields.get("callee")
        if event.name in CALLS and isinstance(callee, int) and callee in sinks:
            it = module.imports[callee]
            yield from (f"warning {event.func}:{event.position} {it.module}.{it.name} {at}" for at in marked)


def main(words: List[str]) -> None:
    found = parser("marks", __doc__ or "")
    found.add_argument("module", metavar="MODULE", help="the original, not an output")
    found.add_argument("--trace", metavar="FILE", required=True, help="a trace with all groups")
    found.add_argument("--sources", metavar="LIST", default="", help="imports whose results are marked, such as env.read,env.get")
    found.add_argument("--sinks", metavar="LIST", default="", help="imports whose marked arguments give warnings")
    found.add_argument("--addresses", action="store_true", help="a marked address marks what is loaded or stored by it")
    found.add_argument("--conditions", action="store_true", help="a marked condition marks what a select chooses")
    given = found.parse_args(words)
    module = Module.read(given.module)
    policy = Policy(frozenset(imported(module, given.sources)), given.addresses, given.conditions)
    told = list(warnings(Trace(given.trace), module, Shadow(module, policy), imported(module, given.sinks)))
    write(None, [f"warnings {len(told)}", *told])
