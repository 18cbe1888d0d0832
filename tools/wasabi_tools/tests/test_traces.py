"""Traces as streams."""
import tracemalloc
import unittest
from collections import Counter
from typing import Dict

from wasabi_tools.faults import Fault
from wasabi_tools.tests.making import EXAMPLES, begin, call, end, event, load, returned, trace_bytes, trace_of
from wasabi_tools.traces import TABLE, Event, Trace, Value


class Traces(unittest.TestCase):
    def test_events_of_each_kind(self) -> None:
        fields = {"u": b"\x81\1", "s": b"\x7f", "k": b"\2", "v": b"\x7e\x80\1", "w": b"\2\x7f\1\x7f\2", "o": b"\x6a", "a": b"\1", "f": b"\1\5"}
        values: Dict[str, Value] = {"u": 129, "s": -1, "k": "loop", "v": 128, "w": [1, 2], "o": "i32.add", "a": "set", "f": 5}
        for name, *listed in TABLE[:-1]:
            letters = [it.split(":") for it in listed]
            with self.subTest(name=name), trace_of([event(name, 300, 70, *(fields[letter] for _, letter in letters))]) as trace:
                expected: Dict[str, Value] = {field: values[letter] for field, letter in letters}
                if name in ("local", "global"):
                    expected["op"] = f"{name}.set"
                self.assertEqual(list(trace.events()), [Event(name, 300, 70, expected)])

    def test_strays_have_no_place(self) -> None:
        with trace_of([b"\x19\7", begin(1)]) as trace:
            self.assertEqual([(it.name, it.func) for it in trace.events()], [("stray", None), ("begin", 1)])

    def test_a_trace_that_the_program_wrote(self) -> None:
        trace = Trace(EXAMPLES / "weekday.trace")
        self.assertEqual(sum(trace.names().values()), 410)  # as README of examples says
        self.assertEqual(sum(1 for _ in trace.events()), 410)
        self.assertEqual(Counter(it.name for it in trace.events()), trace.names())
        self.assertEqual(sum(count for _, count in trace.counted({"br_if"})), trace.names()["br_if"])

    def test_long_lists(self) -> None:
        for length in (0, 8, 9, 127, 128, 400, 900):
            with self.subTest(length=length), trace_of([call(1, 2, 3, *range(length)), begin(3), returned(1, 2, *range(length))]) as trace:
                events = list(trace.events())
                self.assertEqual(events[0].fields, {"callee": 3, "args": list(range(length))})
                self.assertEqual([it.name for it in events], ["call_pre", "begin", "call_post"])

    def test_what_is_changed_is_refused(self) -> None:
        data = trace_bytes([call(1, 2, 3, 4, 5), load(3, 4, 70000), end(1, 300)])
        for length in range(4, len(data)):
            with self.subTest(length=length), trace_of([]) as trace:
                trace.path.write_bytes(data[:length])
                with self.assertRaisesRegex(Fault, "cut off or changed|is no trace"):
                    list(trace.events())
        for wrong in (data + b"\0", data[:-1] + b"\4", data[:6] + b"\0" + data[6:], b"\0asm\1\0\0\0"):
            with trace_of([]) as trace:
                trace.path.write_bytes(wrong)
                self.assertRaises(Fault, lambda: list(trace.events()))

    def test_memory_does_not_grow_with_the_events(self) -> None:
        peaks = []
        for count in (60_000, 180_000):
            with trace_of(load(at % 7, at % 90, at) for at in range(count)) as trace:
                tracemalloc.start()
                self.assertEqual(sum(trace.names().values()), count)
                peaks.append(tracemalloc.get_traced_memory()[1])
                tracemalloc.stop()
        self.assertLess(peaks[1], peaks[0] * 1.2)
        self.assertLess(peaks[1], 20_000_000)


if __name__ == "__main__":
    unittest.main()
