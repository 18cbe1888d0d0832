"""Lines and functions of DWARF. The expected values are those that llvm-dwarfdump --debug-line and --debug-info print."""
import unittest

from wasabi_tools.dwarf import units
from wasabi_tools.faults import Fault
from wasabi_tools.lines import Lines, Place
from wasabi_tools.module import Module
from wasabi_tools.tests.making import EXAMPLES, MADE, functions


class LinesOfModules(unittest.TestCase):
    def test_files_have_their_folders(self) -> None:
        for version in (4, 5):
            with self.subTest(version=version):
                module = Module.read(MADE / f"folders{version}.wasm")
                lines = Lines(module)
                self.assertEqual(lines.paths, ["/src/x/util.c", "/src/y/util.c"])
                self.assertEqual([lines.shown(it) for it in lines.paths], ["x/util.c", "y/util.c"])
                expected = [(0x05, "x", 1), (0x22, "x", 2), (0x4A, "x", 4), (0x56, "y", 3), (0x81, "y", 5), (0xA2, "y", 6)]
                for lookup in (Lines(module), Lines(module).all()):  # unit by unit, and all units at once
                    for offset, folder, line in expected:
                        self.assertEqual(lookup.at(module.code + offset), Place(f"/src/{folder}/util.c", line))
                    for offset in (0x04, 0x49, 0x55, 0xA6, 0x1000):  # no row, or one of the line 0
                        self.assertIsNone(lookup.at(module.code + offset))

    def test_functions_and_copies(self) -> None:
        for version in (4, 5):
            with self.subTest(version=version):
                unit, = units(Module.read(MADE / f"copies{version}.wasm"))
                found = unit.functions()
                self.assertEqual(unit.folder, "/src")
                self.assertEqual([(it.name, it.line, it.begin, it.end) for it in found], [
                    ("one", 2, 0x05, 0x0C), ("two", 2, 0x0D, 0x14), ("three", 2, 0x15, 0x1C), ("four", 2, 0x1D, 0x24),
                    ("twice", 8, 0x25, 0x38), ("other", 13, 0x39, 0x46)])
                twice, other = found[4:]
                self.assertEqual([(it.name, it.line, it.ranges) for it in twice.inlined], [
                    ("cube", 4, ((0x25, 0x2E),)), ("cube", 4, ((0x2E, 0x36),))])
                self.assertEqual([it.name for it in other.inlined], ["cube"])

    def test_every_cut_module_ends(self) -> None:
        data = (MADE / "copies5.wasm").read_bytes()
        for length in range(8, len(data), 3):
            try:
                lines = Lines(Module(data[:length])).all()
                for unit in units(lines.module):
                    unit.functions()
            except Fault:
                pass

    def test_no_lines(self) -> None:
        with self.assertRaisesRegex(Fault, "n.wasm has no lines: compile it with -gdwarf-4"):
            Lines(Module(functions([b""]), "n.wasm")).need()
        self.assertIsNone(Lines(Module.read(EXAMPLES / "queens.wasm")).at(100))


if __name__ == "__main__":
    unittest.main()
