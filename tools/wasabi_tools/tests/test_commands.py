"""Commands on files that are not what they take: each says a sentence, and ends with a status."""
import json
import os
import tempfile
import unittest
from pathlib import Path

from wasabi_tools.reports import Report
from wasabi_tools.tests.making import EXAMPLES, begin, functions, load, ran, trace_bytes

WEEKDAY, TRACE = str(EXAMPLES / "weekday.wasm"), str(EXAMPLES / "weekday.trace")
HOOKED = functions([b"\x41\0\x41\x7f\x10\0"], [("__wasabi_hooks", "begin_function")])


class WrongInput(unittest.TestCase):
    def setUp(self) -> None:
        folder = tempfile.TemporaryDirectory()
        self.addCleanup(folder.cleanup)
        self.folder = Path(folder.name)
        for name, data in (("b.wasm", HOOKED), ("text", b"hello\n"), ("t", trace_bytes([load(0, 0, 7)])), ("cut", HOOKED[:20]),
                           ("u", trace_bytes([begin(9)]))):
            (self.folder / name).write_bytes(data)

    def path(self, name: str) -> str:
        return str(self.folder / name)

    def says(self, status: int, sentence: str, *words: str) -> None:
        found, out, err = ran(*words)
        self.assertIn(sentence, err)
        self.assertEqual((found, out), (status, ""))
        self.assertTrue(err.startswith("wasabi: ") and err.count("\n") == 1, err)

    def test_arguments(self) -> None:
        self.says(2, "the command must be one of coverage, profile", "cover")
        self.says(2, "exactly one of --script, --report and --trace must be given", "coverage", WEEKDAY)
        self.says(2, "exactly one of --script, --trace and --tree must be given", "profile", WEEKDAY, "--trace", TRACE, "--tree", "-")
        self.says(2, "--functions and --except go with --script", "profile", WEEKDAY, "--trace", TRACE, "--functions", "f")
        self.says(2, "a tree has no events", "profile", WEEKDAY, "--tree", TRACE, "--as", "chrome")
        self.says(2, "--report and --trace need --output and --info", "coverage", WEEKDAY, "--trace", TRACE)
        self.says(2, "x is no place; a place is a function", "positions", WEEKDAY, "x")
        self.says(2, "invalid choice: 'svg'", "profile", WEEKDAY, "--trace", TRACE, "--as", "svg")

    def test_files(self) -> None:
        self.says(1, "none can't be read: no such file or directory", "positions", "none")
        self.says(1, "text is no WebAssembly module of version 1", "positions", self.path("text"))
        self.says(1, "cut is cut off or changed", "positions", self.path("cut"))
        self.says(1, "b.wasm has hooks: the original is needed", "positions", self.path("b.wasm"))
        self.says(1, "b.wasm has hooks: the original is needed", "coverage", self.path("b.wasm"), "--script", "s.json")
        self.says(1, "text is no trace: it must be what wasabi record writes", "profile", WEEKDAY, "--trace", self.path("text"))
        self.says(1, "text is not what wasabi instrument writes under --info", "coverage", WEEKDAY, "--output", self.path("b.wasm"),
                  "--info", self.path("text"), "--trace", TRACE)
        self.says(1, "is no report: it must be what wasabi report", "json", self.path("text"))
        self.says(1, "queens.wasm has no lines: compile it with -gdwarf-4", "coverage", str(EXAMPLES / "queens.wasm"), "--script", "s.json")

    def test_traces_of_another_module(self) -> None:
        self.says(1, "t is of another module: it has i32.load at 0:0, where", "memory", WEEKDAY, "--trace", self.path("t"))
        self.says(1, "u is of another module: it has function at 9:-1", "profile", WEEKDAY, "--as", "operations", "--trace", self.path("u"))
        self.says(1, "u is of another module", "positions", WEEKDAY, "--trace", self.path("u"))
        queens = str(EXAMPLES / "queens.wasm")
        self.says(1, "weekday.trace is of another module", "profile", queens, "--trace", TRACE, "--as", "operations")

    def test_the_output_is_no_input(self) -> None:
        self.says(2, "is the same file as", "profile", WEEKDAY, "--trace", self.path("t"), "--out", self.path("t"))

    def test_a_file_is_written_whole_or_not(self) -> None:
        out = self.folder / "out"
        out.write_text("old")
        self.says(1, "u is of another module", "positions", WEEKDAY, "--trace", self.path("u"), "--out", str(out))
        self.assertEqual(out.read_text(), "old")
        self.assertEqual(sorted(it.name for it in self.folder.iterdir()), ["b.wasm", "cut", "out", "t", "text", "u"])

    def test_links(self) -> None:
        (self.folder / "link").symlink_to("trace")
        (self.folder / "trace").write_bytes(Path(TRACE).read_bytes())
        os.link(self.path("trace"), self.path("hard"))
        words = ("positions", WEEKDAY, "--trace", self.path("trace"), "1:38", "--out")
        self.says(2, "is the same file as", *words, self.path("link"))
        self.assertEqual(ran(*words, self.path("hard"))[0], 0)  # a new file takes this name alone
        self.assertEqual((self.folder / "trace").read_bytes(), Path(TRACE).read_bytes())
        (self.folder / "link").unlink()
        (self.folder / "link").symlink_to("text")
        (self.folder / "text").chmod(0o640)
        self.assertEqual(ran(*words, self.path("link"))[0], 0)
        self.assertTrue((self.folder / "text").read_text().startswith("1:38 (0x289 is_date weekday.c:26 block) begin kind"))
        self.assertEqual((self.folder / "text").stat().st_mode & 0o777, 0o640)
        self.assertTrue((self.folder / "link").is_symlink())


class Positions(unittest.TestCase):
    def test_places_as_json_in_either_order(self) -> None:
        for words in (["--json", "1:38"], ["1:38", "--json"]):
            status, out, _ = ran("positions", WEEKDAY, *words)
            self.assertEqual(status, 0)
            self.assertEqual(json.loads(out), [{"function": 1, "name": "is_date", "position": 38, "offset": 0x289, "file": "weekday.c",
                                                "line": 26, "instruction": "block"}])

    def test_places_of_a_trace(self) -> None:
        _, out, _ = ran("positions", WEEKDAY, "--trace", TRACE, "1:38")
        self.assertEqual(set(out.splitlines()), {'1:38 (0x289 is_date weekday.c:26 block) begin kind "block"'})


class Reports(unittest.TestCase):
    def test_taint_and_trial(self) -> None:
        told = Report.parse("call 0 sum: ok\npages 2\nhost 6\nwarnings 1\nwarning 3:27 env.show 1\n", "r").plain()
        self.assertEqual(told["reports"]["warnings"], [{"function": 3, "position": 27, "import": "env.show", "argument": 1}])
        trial = Report.parse("trial 7\nmodule 60 bytes, 3 functions\noutput 90 bytes, 5 hooks\noriginal:\ncall 0 main: ok i32:1\npages 1\nhost 0\n"
                             "output:\ncall 0 main: ok i32:1\npages 1\nhost 0\nevents 9 stray 0\n", "r").plain()
        self.assertEqual((trial["trial"], trial["hooks"], trial["events"], trial["stray"]), (7, 5, 9, 0))
        self.assertEqual(trial["original"], trial["output"])
        self.assertEqual(trial["output"]["answers"][0]["results"], [{"type": "i32", "value": "1"}])


if __name__ == "__main__":
    unittest.main()
