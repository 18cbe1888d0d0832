"""What reasons say of files, and of modules as far as they are sound."""
from __future__ import annotations

import os
import sys
import tempfile
import unittest
from pathlib import Path

sys.path.append(str(Path(__file__).resolve().parents[2] / "why"))

import files  # noqa: E402
import search  # noqa: E402
from front.words import Line  # noqa: E402
from wasabi_tools.tests.making import functions  # noqa: E402


class LongFiles(unittest.TestCase):
    def setUp(self) -> None:
        folder = tempfile.TemporaryDirectory()
        self.addCleanup(folder.cleanup)
        self.huge = os.path.join(folder.name, "huge")
        Path(self.huge).touch()
        os.truncate(self.huge, 314572800)  # the file takes no room

    def test_the_whole_length_of_a_file_is_told(self) -> None:
        # the program stops behind the most that it reads, and prints how much that was
        for words, most in (("check", 268435456), ("replay", 268435456), ("instrument", 16777216), ("taint", 16777216)):
            found = list(files.wrong_files(Line([words, self.huge])))
            self.assertEqual(found, [f"{self.huge} has 314572800 bytes, and at most {most} are read"], words)

    def test_the_whole_length_of_a_script_is_told(self) -> None:
        found = list(files.wrong_files(Line(["run", __file__, "--script", self.huge])))
        self.assertEqual(found, [f"{self.huge} has 314572800 bytes, and at most 16777216 are read"])

    def test_a_device_has_no_length(self) -> None:
        self.assertEqual(list(files.wrong_files(Line(["check", "/dev/zero"]))), [
            "/dev/zero is not an ordinary file, and gave more than 268435456 bytes or could not be read"])


class FirstThing(unittest.TestCase):
    def found(self, data: bytes) -> str:
        looked = search.Search(data)
        first = looked.first("broken", "later")
        return f"{looked.place(first)}: {first.what}" if first else ""

    def test_a_sound_module_has_none(self) -> None:
        self.assertEqual(self.found(functions([b"\x41\0\x1a", b"\1"])), "")

    def test_a_body_that_is_cut_off(self) -> None:
        # 8 bytes, a type section of 6, one of functions of 4, the id, the size and the number of bodies, the size of the one; no locals
        data = functions([b"\1"])
        for body, sentence in (
            (b"\x41\x80", "function 0 at position 0, byte 0x18 of the file: bytes that end where more must follow"),
            (b"\x06\x40", "function 0 at position 0, byte 0x17 of the file: try"), (b"\xff", "function 0 at position 0, byte 0x18"),
        ):
            inner = b"\0" + body
            cut = data[:18] + bytes([10, len(inner) + 2, 1, len(inner)]) + inner
            self.assertTrue(self.found(cut).startswith(sentence), self.found(cut))

    def test_a_float_is_found_in_a_module_that_is_long(self) -> None:
        bodies = [b"\1" * 3000] * 30 + [b"\x43\0\0\0\0\x1a"]
        looked = search.Search(functions(bodies), is_for_floats=True)
        first = looked.first("float")
        assert first
        self.assertEqual((first.func, first.position, first.what), (30, 0, "f32.const"))


if __name__ == "__main__":
    unittest.main()
