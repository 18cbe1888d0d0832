"""Coverage: sources of one name, functions on one line, copies of lines, functions that were left out."""
import contextlib
import io
import tempfile
import unittest
from pathlib import Path
from typing import Dict, Optional, Set

from wasabi_tools.counts import Counts
from wasabi_tools.coverage import Coverage, Measurer, path_of, sources_of
from wasabi_tools.coverage_page import page, table
from wasabi_tools.faults import Fault
from wasabi_tools.lcov import tracefile
from wasabi_tools.module import Module
from wasabi_tools.tests.making import EXAMPLES, MADE


def covered(name: str, entered: Dict[int, int], hooked: Optional[Set[int]] = None) -> Coverage:
    """The coverage of a module whose functions were entered so often, and in which nothing branched."""
    counts = Counts()
    for func, count in entered.items():
        counts.add(func, -1, "function", None, count)
    return Measurer(Module.read(MADE / name), counts, hooked).measured()


class Sources(unittest.TestCase):
    def test_two_sources_of_one_name(self) -> None:
        for version in (4, 5):
            module = Module.read(MADE / f"folders{version}.wasm")
            func, = (it for it, name in module.names.items() if name == "f")
            found = covered(f"folders{version}.wasm", {func: 1})
            # by hand: lines 1 and 2 of f ran; behind the br_if of line 2, of which nothing was told, nothing did
            x, y = (found.sources[f"/src/{it}/util.c"] for it in "xy")
            self.assertEqual(set(x.lines), {1, 2, 3, 4})
            self.assertEqual(set(y.lines), {3, 4, 5, 6})
            self.assertEqual([x.lines[it].count for it in (1, 2)], [1, 1])
            self.assertEqual({it.count for it in y.lines.values()}, {0})
            self.assertEqual([(it.name, it.count) for it in x.functions + y.functions], [("f", 1), ("g", 0)])
            lcov = "\n".join(tracefile(sources_of(found, [str(MADE / "x/util.c"), str(MADE / "y/util.c")], MADE)))
            first, second = lcov.split("end_of_record")[:2]
            self.assertIn("x/util.c\nFN:1,f\nFNDA:1,f\nFNF:1\nFNH:1", first)
            self.assertIn("y/util.c\nFN:3,g\nFNDA:0,g\nFNF:1\nFNH:0", second)

    def test_a_name_that_may_be_two(self) -> None:
        found = covered("folders4.wasm", {})
        with self.assertRaisesRegex(Fault, "util.c may be /src/x/util.c or /src/y/util.c: name it with its folder"):
            path_of(found, "util.c", Path("none"))
        self.assertEqual(path_of(found, "y/util.c", Path("none")), "/src/y/util.c")
        self.assertIsNone(path_of(found, "other.c", Path("none")))

    def test_a_source_without_code_is_passed_over(self) -> None:
        found = covered("folders4.wasm", {})
        with contextlib.redirect_stderr(io.StringIO()) as told:
            chosen = sources_of(found, [str(MADE / "copies.c"), str(MADE / "x/util.c")], MADE)
        self.assertEqual([it.path for it, _ in chosen], ["/src/x/util.c"])
        self.assertIn("copies.c has no code in the module", told.getvalue())

    def test_a_source_that_is_there_is_no_other_of_its_name(self) -> None:
        with tempfile.TemporaryDirectory() as folder:
            other = Path(folder) / "weekday.c"
            other.write_text("int f;\n")
            found = Measurer(Module.read(EXAMPLES / "weekday.wasm"), Counts(), None).measured()
            self.assertIsNone(path_of(found, str(other), EXAMPLES))
            self.assertEqual(path_of(found, str(EXAMPLES / "weekday.c"), EXAMPLES), "weekday.c")


class Copies(unittest.TestCase):
    def test_functions_on_one_line(self) -> None:
        for version in (4, 5):
            source = covered(f"copies{version}.wasm", {1: 7, 3: 2}).sources["/src/copies.c"]
            self.assertEqual([(it.name, it.line, it.count) for it in source.functions if it.line == 2], [
                ("four", 2, 0), ("one", 2, 7), ("three", 2, 2), ("two", 2, 0)])
            self.assertEqual(source.lines[2].count, 9)
            self.assertEqual(source.lines[2].state, "ran")
            lcov = "\n".join(tracefile([(source, MADE / "copies.c")]))
            self.assertIn("FN:2,four\nFN:2,one\nFN:2,three\nFN:2,two\n", lcov)
            self.assertIn("FNF:7\nFNH:2\n", lcov)

    def test_inlined_functions(self) -> None:
        for version in (4, 5):
            # twice has two copies of cube, other has one: 3 + 3 + 10
            source = covered(f"copies{version}.wasm", {5: 3, 6: 10}).sources["/src/copies.c"]
            self.assertEqual([(it.count, it.copies) for it in source.functions if it.name == "cube"], [(16, 3)])
            self.assertEqual(source.lines[5].count, 16)
            self.assertEqual(source.lines[14].count, 10)

    def test_copies_that_never_ran(self) -> None:
        source = covered("copies4.wasm", {}).sources["/src/copies.c"]
        self.assertEqual({it.state for it in source.lines.values()}, {"never"})


class LeftOut(unittest.TestCase):
    def test_a_function_without_hooks_is_not_missed(self) -> None:
        # only other has hooks: the lines of all functions but it and its copy of cube are not counted
        found = covered("copies4.wasm", {6: 10}, {6})
        source = found.sources["/src/copies.c"]
        self.assertEqual({line: it.count for line, it in source.lines.items()}, {5: 10, 14: 10, 15: 10} if 15 in source.lines else {5: 10, 14: 10})
        self.assertEqual({it.name for it in source.functions}, {"cube", "other"})
        self.assertIn(2, source.left_out)
        self.assertNotIn(5, source.left_out)
        text = "\n".join(table(found, [(source, MADE / "copies.c")]))
        self.assertIn("6 functions have no hooks and are not counted", text)
        shown = "\n".join(page(found, [(source, MADE / "copies.c")]))
        self.assertIn('<tr class="out"><td>2</td>', shown)
        self.assertIn('<tr class="ran"><td>5</td><td>10</td>', shown)
        self.assertNotIn('class="never"><td>', shown)


if __name__ == "__main__":
    unittest.main()
