"""Heat maps, caches and the checker of the heap, on events that are counted by hand."""
import unittest
from typing import List

from wasabi_tools.accesses import NAMES, Cache, HeatMap, access_of, width_of
from wasabi_tools.faults import Fault
from wasabi_tools.heap import Heap
from wasabi_tools.tests.making import call, load, returned, store, trace_of

MALLOC, FREE = 0, 1
ROLES = {MALLOC: "malloc", FREE: "free", 2: "calloc", 3: "realloc"}


def heap_of(events: List[bytes]) -> Heap:
    heap = Heap(ROLES)
    with trace_of(events) as trace:
        for event in trace.events():
            heap.hear(event)
    return heap


def malloc(position: int, size: int, address: int) -> List[bytes]:
    return [call(9, position, MALLOC, size), returned(9, position, address)]


def free(position: int, address: int) -> List[bytes]:
    return [call(9, position, FREE, address), returned(9, position)]


class Accesses(unittest.TestCase):
    def test_widths(self) -> None:
        self.assertEqual([width_of(it) for it in ("i32.load", "i64.store", "i64.load32_u", "i32.store8", "i64.load16_s")], [4, 8, 4, 1, 2])

    def test_lines_of_a_page(self) -> None:
        heat = HeatMap()
        with trace_of([load(0, 0, 62), load(0, 0, 0, 0x2D), store(0, 1, 65536)]) as trace:  # the first uses two lines
            for event in trace.events(NAMES):
                heat.hear(access_of(event))
        pages = heat.pages()
        self.assertEqual(sorted(pages), [0, 1])
        self.assertEqual(pages[0][:3], [(2, 0), (1, 0), (0, 0)])
        self.assertEqual(pages[1][0], (0, 1))

    def test_the_line_that_was_used_longest_ago_goes(self) -> None:
        cache = Cache(128, 2, 64)  # one set of two lines
        with trace_of(load(0, at, line * 64) for at, line in enumerate([0, 1, 0, 2, 0, 1])) as trace:
            for event in trace.events():
                cache.hear(access_of(event))
        self.assertEqual((cache.hits, cache.misses), (2, 4))  # 0 and 1 miss, 0 hits, 2 takes the place of 1, 0 hits, 1 misses
        self.assertEqual([place[:2] for place in cache.worst()], [(0, 0), (0, 1), (0, 3), (0, 5)])

    def test_words_of_a_cache(self) -> None:
        cache = Cache.parse("32K,8,64")
        self.assertEqual((cache.size, cache.ways, cache.line), (32768, 8, 64))
        for wrong in ("32K", "a,b,c", "100,3,64", "0,1,1", "1K,,64"):
            self.assertRaises(Fault, Cache.parse, wrong)


class Heaps(unittest.TestCase):
    def test_each_mistake(self) -> None:
        heap = heap_of(malloc(1, 16, 1000) + malloc(2, 40, 1016) + free(3, 1000) + [load(9, 4, 1012), load(9, 4, 1012), store(9, 5, 1016)]
                       + free(6, 1000) + free(7, 5))
        self.assertEqual([(it.what, it.place, it.address) for it in heap.findings], [
            ("read after it was freed", (9, 4), 1000), ("freed twice", (9, 6), 1000), ("free of what malloc did not give", (9, 7), 5)])
        self.assertEqual([(it.size, it.made) for it in heap.leaks()], [(40, (9, 2))])

    def test_bytes_that_are_given_again(self) -> None:
        heap = heap_of(malloc(1, 16, 1000) + free(2, 1000) + malloc(3, 8, 1004) + [load(9, 4, 1004)] + free(5, 1004))
        self.assertEqual(heap.findings + heap.leaks(), [])

    def test_what_the_allocator_does_itself(self) -> None:
        heap = heap_of(malloc(1, 16, 1000) + [call(9, 2, FREE, 1000), store(1, 3, 1000), call(1, 4, FREE, 1000), returned(1, 4), returned(9, 2)])
        self.assertEqual(heap.findings, [])

    def test_calloc_and_realloc(self) -> None:
        heap = heap_of([call(9, 1, 2, 4, 10), returned(9, 1, 2000), call(9, 2, 3, 2000, 80), returned(9, 2, 3000), load(9, 3, 2000)])
        self.assertEqual([(it.what, it.made, it.freed) for it in heap.findings], [("read after it was freed", (9, 1), (9, 2))])
        self.assertEqual([(it.address, it.size) for it in heap.leaks()], [(3000, 80)])

    def test_a_call_that_traps_is_closed(self) -> None:
        heap = heap_of([call(9, 1, MALLOC, 16), call(8, 5, 7)] + [returned(8, 5)] + malloc(2, 16, 1000) + [returned(9, 1, 0), load(9, 4, 1000)])
        self.assertEqual(heap.findings, [])

    def test_null_is_no_block(self) -> None:
        heap = heap_of(malloc(1, 16, 0) + free(2, 0))
        self.assertEqual(heap.findings + heap.leaks(), [])


if __name__ == "__main__":
    unittest.main()
