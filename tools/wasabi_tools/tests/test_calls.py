"""Trees of calls, and the formats of other viewers."""
import gzip
import json
import time
import tracemalloc
import unittest
from collections import Counter
from typing import Iterator, List, Tuple

from wasabi_tools.binary import Reader
from wasabi_tools.calls import Node, nodes, of_report, of_trace
from wasabi_tools.counts import Seen, runs
from wasabi_tools.faults import Fault
from wasabi_tools.flame import CALLS, picture
from wasabi_tools.information import Information
from wasabi_tools.module import Module
from wasabi_tools.profiles import Names, callgrind, folded, names_of, pprof, speedscope
from wasabi_tools.reports import Report
from wasabi_tools.tests.making import begin, call, end, functions, returned, trace_of

TREE = "tree 4\nnode 0 1 2\nnode 1 2 3\nnode 2 1 5\nnode 1 3 1\n"
DEEP = 10_000
# two functions: the first calls the second, which is one nop
PAIR = functions([b"\x10\1\x01", b"\1"])


def tree(text: str) -> Node:
    return of_report(Report.parse(text, "the tree"), "the tree")


class Trees(unittest.TestCase):
    def test_folded_stacks(self) -> None:
        self.assertEqual(list(folded(tree(TREE), Names(), 10)), [
            "function 1 2", "function 1;function 2 3", "function 1;function 2;function 1 5", "function 1;function 3 1"])

    def test_folded_stacks_of_a_bound(self) -> None:
        self.assertEqual(list(folded(tree(TREE), Names(), 1)), ["function 1 2", "function 1;(deeper) 9"])
        self.assertEqual(list(folded(tree(TREE), Names(), 2))[1:3], ["function 1;function 2 3", "function 1;function 2;(deeper) 5"])

    def test_callgrind_counts_a_pair_once_on_each_path(self) -> None:
        # by hand: 1 calls 2 (3 calls, cost 3 + 5), 2 calls 1 (5, cost 5), 1 calls 3 (1, cost 1); 1 itself costs 2 + 5
        text = "\n".join(callgrind(tree(TREE), Names(), "Calls"))
        self.assertIn("summary: 11\n", text)
        self.assertIn("fn=function 1\n0 7\n", text)
        self.assertIn("cfn=function 2\ncalls=3 0\n0 8\n", text)
        self.assertIn("cfn=function 1\ncalls=5 0\n0 5", text)

    def test_a_tree_with_a_gap_is_refused(self) -> None:
        with self.assertRaisesRegex(Fault, "a path that nothing leads to"):
            tree("tree 2\nnode 0 1 2\nnode 2 1 5\n")

    def test_speedscope_opens_and_closes(self) -> None:
        told = json.loads("".join(speedscope(tree(TREE), Names(), "calls", "t")))
        profile = told["profiles"][0]
        self.assertEqual([it["name"] for it in told["shared"]["frames"]], ["function 1", "function 2", "function 3"])
        self.assertEqual([(it["type"], it["frame"], it["at"]) for it in profile["events"]], [
            ("O", 0, 0), ("O", 1, 2), ("O", 0, 5), ("C", 0, 10), ("C", 1, 10), ("O", 2, 10), ("C", 2, 11), ("C", 0, 11)])
        self.assertEqual(profile["endValue"], 11)

    def test_pprof_has_the_samples(self) -> None:
        data = gzip.decompress(pprof(tree(TREE), Names(), "calls", 10))
        samples: List[Tuple[List[int], List[int]]] = []
        texts: List[str] = []
        for tag, content in fields(data):
            if tag == 2:
                (_, places), (_, value) = fields(content)
                samples.append((list(places), list(value)))
            elif tag == 6:
                texts.append(content.decode())
        self.assertEqual(texts, ["", "calls", "count", "function 1", "function 2", "function 3"])
        self.assertEqual([value for _, value in samples], [[2], [3], [5], [1]])
        self.assertEqual([len(places) for places, _ in samples], [1, 2, 3, 2])
        self.assertEqual(samples[2][0], [samples[0][0][0], samples[1][0][0], samples[0][0][0]])  # the leaf is first

    def test_flame_graph(self) -> None:
        text = "\n".join(picture(tree(TREE), Names(), CALLS))
        self.assertIn("11 calls on 4 paths", text)
        self.assertIn("<title>function 2: 3 times on this path, 8 calls with the boxes above</title>", text)

    def test_recursion_is_linear(self) -> None:
        rows = "".join(f"node {depth} 7 1\n" for depth in range(DEEP))
        tracemalloc.start()
        begun = time.process_time()
        root = tree(f"tree {DEEP}\n{rows}")
        lines = list(folded(root, Names(), 1000))
        profile = list(callgrind(root, Names(), "Calls"))
        seconds, peak = time.process_time() - begun, tracemalloc.get_traced_memory()[1]
        tracemalloc.stop()
        self.assertEqual(lines[-1].rpartition(" ")[2], str(DEEP - 1000))
        self.assertIn(f"calls={DEEP - 1} 0\n0 {DEEP - 1}", "\n".join(profile))
        self.assertLess(peak, 50_000_000)
        self.assertLess(seconds, 10)  # below one without the watch on memory; paths that are copied take a minute


def fields(data: bytes) -> Iterator[Tuple[int, bytes]]:
    """The fields of a protocol buffer; those that are numbers have no content."""
    reader = Reader(data)
    while reader.more():
        tag = reader.number()
        content = reader.number()
        yield tag >> 3, reader.take(content) if tag & 7 == 2 else b""


class TracesAsTrees(unittest.TestCase):
    def test_instructions_by_path(self) -> None:
        events = [begin(0), call(0, 0, 1), begin(1), end(1, 1), returned(0, 0), end(0, 2)]
        with trace_of(events) as trace:
            found = [(it.func, it.site, it.calls, it.cost) for it in nodes(of_trace(trace, Module(PAIR)))]
        self.assertEqual(found, [(0, None, 1, 2), (1, 0, 1, 1)])  # call and nop, and nop: an end does nothing

    def test_a_call_behind_a_trap_is_an_entry(self) -> None:
        with trace_of([begin(0), call(0, 0, 1), begin(1), begin(0), end(0, 2)]) as trace:
            found = [(it.func, it.site) for it in nodes(of_trace(trace, Module(PAIR)))]
        self.assertEqual(found, [(0, None), (1, 0)])  # twice entered by the host, and once called

    def test_what_a_function_without_hooks_calls(self) -> None:
        # 0 calls 2, which has no hooks and calls 1 twice
        events = [begin(0), call(0, 0, 2), begin(1), end(1, 1), begin(1), end(1, 1), returned(0, 0), end(0, 2), begin(1), end(1, 1)]
        module = Module(functions([b"\x10\2\x01", b"\1", b"\x10\1\x10\1"]))
        with trace_of(events) as trace:
            root = of_trace(trace, module, None, {0, 1})
        below = [[(it.func, it.calls, it.cost) for it in (child, *child.below.values())] for child in root.below.values()]
        self.assertEqual(below[0][0], (0, 1, 2))
        self.assertEqual(sum(calls for func, calls, _ in below[0] if func == 1), 2)
        self.assertEqual(below[1], [(1, 1, 1)])

    def test_a_call_that_traps_before_it_enters(self) -> None:
        # (the callee that was told does not begin, so the host calls what begins)
        with trace_of([begin(0), call(0, 0, 1), begin(0), end(0, 2)]) as trace:
            root = of_trace(trace, Module(PAIR))
        self.assertEqual([(it.func, it.calls) for it in nodes(root)], [(0, 2)])

    def test_a_run_in_which_no_function_ends(self) -> None:
        info = Information([], [], ["begin", "end", "call"], [], 0, "b.json")
        with trace_of([begin(0), call(0, 0, 1), begin(1)]) as trace:
            self.assertEqual(len(list(nodes(of_trace(trace, Module(PAIR), info)))), 2)
            with self.assertRaisesRegex(Fault, "if the group end was selected and no function ended, give --info"):
                of_trace(trace, Module(PAIR))

    def test_a_trace_of_another_module(self) -> None:
        with trace_of([begin(5), end(5, 2)]) as trace, self.assertRaisesRegex(Fault, "is of another module: it has a function 5"):
            of_trace(trace, Module(PAIR))

    def test_branches_that_nothing_tells(self) -> None:
        module = Module(functions([b"\x41\1\x0D\0"]))
        with trace_of([begin(0), end(0, 2)]) as trace, self.assertRaisesRegex(Fault, "nothing was told of the group br_if"):
            of_trace(trace, module)

    def test_names_that_two_functions_have(self) -> None:
        module = Module(PAIR)
        module.names = {0: "f", 1: "f"}
        self.assertEqual([names_of(tree("tree 2\nnode 0 0 1\nnode 1 1 1\n"), module, False).of(it) for it in (0, 1)], ["f [0]", "f [1]"])


class Runs(unittest.TestCase):
    def test_instructions_behind_branches(self) -> None:
        # block; i32.const; br_if 0; nop; end; nop; end: entered 5 times, left by the br_if 2 times
        body = Module(functions([b"\x02\x40\x41\1\x0D\0\x01\x0B\x01"])).body(0)
        seen: Seen = Counter({(-1, None): 5, (0, None): 5, (2, 1): 2, (2, 0): 3})
        self.assertEqual(runs(body, seen), [5, 5, 5, 3, 3, 5, 5])


if __name__ == "__main__":
    unittest.main()
