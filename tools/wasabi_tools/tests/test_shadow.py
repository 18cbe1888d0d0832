"""Marks through a run, on events that are written by hand."""
import unittest
from typing import List

from wasabi_tools.binary import module, sized, unsigned, vector
from wasabi_tools.faults import Fault
from wasabi_tools.module import Module
from wasabi_tools.shadow import Policy, Shadow
from wasabi_tools.tests.making import begin, call, end, event, load, returned, store, trace_of

SOURCE, SINK, OWN = 0, 1, 2
# (i32) to (i32) three times: two imports, and a function: block (result i32); call 0; local.tee 0; local.get 0; br_if 0; end; call 1
CODE = b"\x02\x7f\x20\0\x10\0\x22\0\x20\0\x0D\0\x0B\x10\1"
MODULE = Module(module([
    (1, vector([b"\x60\1\x7f\1\x7f"])), (2, vector([sized(b"env") + sized(it) + b"\0\0" for it in (b"source", b"sink")])),
    (3, vector([b"\0"])), (10, vector([sized(b"\0" + CODE + b"\x0B")]))]))


def local(position: int, access: int, value: int = 1) -> bytes:
    return event("local", OWN, position, bytes([access]), unsigned(0), b"\x7f" + bytes([value]))


def marked(events: List[bytes], policy: Policy) -> List[List[int]]:
    """Which arguments of each call of the sink are marked."""
    shadow = Shadow(MODULE, policy)
    with trace_of(events) as trace:
        return [shadow.hear(it) for it in trace.events() if it.fields.get("callee") == SINK or shadow.hear(it) and False]


ENTERED = [begin(OWN), begin(OWN, 0, 1), local(1, 0), call(OWN, 2, SOURCE, 1), returned(OWN, 2, 1), local(3, 2), local(4, 0)]
BRANCH = [event("br_if", OWN, 5, unsigned(0), unsigned(7), unsigned(1)), end(OWN, 6, 1, 0)]


class Marks(unittest.TestCase):
    def test_a_branch_carries_a_mark(self) -> None:
        events = ENTERED + BRANCH + [call(OWN, 7, SINK, 1)]
        self.assertEqual(marked(events, Policy(frozenset({SOURCE}))), [[0]])
        self.assertEqual(marked(events, Policy()), [[]])

    def test_memory_keeps_marks_by_bytes(self) -> None:
        const = event("const", OWN, 9, b"\x7f\x40")
        taken = ENTERED + BRANCH
        tests = [(64, [0]), (61, [0]), (67, [0]), (60, []), (68, [])]
        for address, expected in tests:
            # the address, the value: stored at 64 to 67; a load of one word at the address
            events = taken[:-3] + [const, local(4, 0), store(OWN, 9, 64), const, load(OWN, 9, address), call(OWN, 9, SINK, 1)]
            with self.subTest(address=address):
                self.assertEqual(marked(events, Policy(frozenset({SOURCE}))), [expected])

    def test_an_address_marks_only_if_asked(self) -> None:
        events = ENTERED + BRANCH + [load(OWN, 9, 64), call(OWN, 9, SINK, 1)]
        self.assertEqual(marked(events, Policy(frozenset({SOURCE}))), [[]])
        self.assertEqual(marked(events, Policy(frozenset({SOURCE}), addresses=True)), [[0]])

    def test_a_call_of_the_host_behind_a_trap_begins_anew(self) -> None:
        events = ENTERED + [begin(OWN), local(1, 0), call(OWN, 7, SINK, 1)]
        self.assertEqual(marked(events, Policy(frozenset({SOURCE}))), [[]])

    def test_a_trace_that_lacks_groups(self) -> None:
        with self.assertRaisesRegex(Fault, "the trace is not one of all groups, or not of the module: its event call_pre at 2:2 finds no operand"):
            marked([begin(OWN), call(OWN, 2, SOURCE, 1)], Policy())


if __name__ == "__main__":
    unittest.main()
