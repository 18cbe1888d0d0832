"""Shows which memory a module uses, what a cache would miss, and errors of malloc and free.

    wasabi memory MODULE --script FILE                      runs the module, and prints the use of pages, the misses and the errors
    wasabi memory MODULE --script FILE --out page.html      a page with a heat map
    wasabi memory MODULE --trace FILE ..                    from a trace with the groups load, store and call

Functions that are named malloc, calloc, realloc and free are checked: blocks that are never freed, freed twice, or used after they were
freed. --malloc and so on give other names. The cache loses the line that was used longest ago; its form is SIZE,WAYS,LINE.
"""
from __future__ import annotations

from argparse import Namespace
from typing import Dict, List

from wasabi_tools.accesses import NAMES, Cache, HeatMap, access_of
from wasabi_tools.arguments import Parser, add_out, add_run, form_of, keep_inputs, one_input, parser, runner, write
from wasabi_tools.command_positions import Places
from wasabi_tools.faults import WRONG_ARGUMENTS, Fault
from wasabi_tools.heap import ROLES, Heap
from wasabi_tools.memory_page import Memory, page, text
from wasabi_tools.module import Module
from wasabi_tools.traces import CALLS, Trace

FORMS = {"text": text, "page": page}


def arguments() -> Parser:
    found = parser("memory", __doc__ or "")
    add_run(found)
    found.add_argument("--trace", metavar="FILE", help="a trace, instead of a run")
    found.add_argument("--cache", metavar="FORM", default="32K,8,64", help="the size, the ways and the bytes of a line; by default 32K,8,64")
    found.add_argument("--most", metavar="N", type=int, default=30, help="how many places with misses are shown, by default 30")
    for role in ROLES:
        found.add_argument(f"--{role}", metavar="NAME", help=f"the function that is {role}; by default the one of that name")
    add_out(found, FORMS, "text")
    return found


def roles_of(given: Namespace, module: Module) -> Dict[int, str]:
    """Which functions are malloc and so on."""
    found: Dict[int, str] = {}
    for role in ROLES:
        name = getattr(given, role)
        at = [func for func, it in module.names.items() if it in (name or role, f"env.{name or role}")]
        if name and not at:
            raise Fault(f"{module.what} has no function {name}", WRONG_ARGUMENTS)
        found.update((func, role) for func in at)
    return found


def heard(trace: Trace, module: Module, given: Namespace) -> Memory:
    """What a trace tells of the memory."""
    roles = roles_of(given, module)
    heat, cache, heap = HeatMap(), Cache.parse(given.cache), Heap(roles) if roles else None
    places = Places(module)
    for event in trace.events(NAMES | CALLS | {"call_post"}):
        if event.name in NAMES:
            access = access_of(event)
            if (access.func, access.position) not in cache.by_place:
                places.need_named(access.func, access.position, str(event.fields["op"]), str(trace.path))
            heat.hear(access)
            cache.hear(access)
        if heap:
            heap.hear(event)
    return Memory(heat, cache, heap, lambda func, position: f"{func}:{position} {places.need(func, position)}")


def main(words: List[str]) -> None:
    given = arguments().parse_args(words)
    how = one_input(given, ["script", "trace"])
    keep_inputs(given.out, [given.module, given.script, given.trace])
    module = Module.read(given.module)
    form = FORMS[form_of(given, [(".html", "page")], "text")]
    if how == "trace":
        write(given.out, form(heard(Trace(given.trace), module, given), given.most))
        return
    with runner(given) as run:
        run.tell_selection()
        run.instrument({"load", "store", "call"})
        write(given.out, form(heard(run.record(), module, given), given.most))
