"""The words of a command, pages, completion, and files that are one."""
from __future__ import annotations

import os
import tempfile
import unittest
from pathlib import Path

from front import clash, complete, pages, table
from front.words import Line, shown, wrong_words
from wasabi_tools.same_file import is_one_file


def wrong(*words: str) -> list[str]:
    return list(wrong_words(Line(words)))


class Words(unittest.TestCase):
    def test_what_is_right(self) -> None:
        for words in (
            "check a", "check -- -a", "check a --jobs +64", "check a --jobs 064", "instrument a --out b --hooks none --in-place",
            "--out=-b instrument a", "instrument a --out -", "run a --script s --out b --hooks begin,br_if --reports calls", "trial 007",
            "report a --info i --script s --names=keep", "trial 18446744073709551615", "check a --jobs " + "0" * 5000 + "1",
        ):
            self.assertEqual(wrong(*words.split()), [], words)

    def test_what_is_wrong(self) -> None:
        for words, sentence in (
            ("check a --jobs 0", "--jobs takes a number from 1 to 64 in digits, and not 0"),
            ("check a --jobs 65", "--jobs takes a number from 1 to 64 in digits, and not 65"),
            ("check a --jobs=-1", "--jobs takes a number from 1 to 64 in digits, and not -1"),
            ("check a --max-output 268435457", "--max-output takes a number from 1 to 268435456 in digits, and not 268435457"),
            ("check a --in-place=yes", "--in-place takes no value"),
            ("check a --names", "--names has no value; write a value that begins with a hyphen as --names=VALUE"),
            ("trial 18446744073709551616", "trial takes a number below 2^64 in digits alone, and not 18446744073709551616"),
            ("trial +1", "trial takes a number below 2^64 in digits alone, and not +1"),
            ("instrument a --out b --info b", "--out and --info have the same name, b"),
            ("check a -v", "there is no option -v; there is --version"),
        ):
            self.assertEqual(wrong(*words.split()), [sentence], words)

    def test_a_list_of_functions(self) -> None:
        option = table.Option("--functions", "FUNCTIONS", "", "instrument", "")
        from front.words import wrong_value

        for value, sentences in (
            ("1,3-5,main,ma*,a::b", []), ("1,,2", ["the list of --functions has nothing before or behind a comma"]),
            ("", ["the list of --functions is empty"]), ("a*b", []),
        ):
            self.assertEqual(list(wrong_value(option, value)), sentences)

    def test_few_and_short_sentences(self) -> None:
        found = wrong("instrument", "a", "--out", "b", "--hooks", ",".join(f"x{it}" for it in range(5000)))
        self.assertEqual((len(found), found[-1]), (9, "and 4992 more are wrong"))
        self.assertLess(len(shown("a" * 5000)), 400)
        self.assertEqual(shown("a\nb\udcff"), "a?b?")


class Pages(unittest.TestCase):
    def test_width(self) -> None:
        for lines in [pages.main_page(), *map(pages.page, table.MODES)]:
            self.assertLessEqual(max(map(len, lines)), 80)

    def test_each_mode_has_its_options(self) -> None:
        for mode in table.MODES:
            page = pages.printed(pages.page(mode))
            for option in table.OPTIONS:
                self.assertEqual(f"\n  {option.name}" in page, option in table.taken(mode.name), (mode.name, option.name))

    def test_each_mode_of_an_option_is_one(self) -> None:
        names = {it.name for it in table.MODES}
        for option in table.OPTIONS:
            self.assertLessEqual(set(option.needed.split()) | set(option.taken.split()), names)


class Completion(unittest.TestCase):
    def test_candidates(self) -> None:
        for words, found in (
            (["in"], ["instrument"]), (["help", "tr"], ["tree", "trial"]), (["check", "a", "--"], ["--jobs", "--help"]),
            (["instrument", "a", "--hooks", "begin,br"], ["begin,br", "begin,br_if", "begin,br_table"]),
            (["report", "a", "--reports", "b"], ["blocks", "branches"]), (["instrument", "--names", ""], ["keep", "drop"]),
            (["instrument", "a", "--out", ""], []), (["check", "a"], []), (["--pr"], ["--prove"]), (["ch"], ["check"]),
        ):
            self.assertEqual(complete.candidates(words), found, words)


class Clashes(unittest.TestCase):
    def setUp(self) -> None:
        self.old = os.getcwd()
        self.room = tempfile.TemporaryDirectory()
        os.chdir(self.room.name)
        Path("a").write_text("module")
        Path("d").mkdir()
        os.symlink("d", "e")
        os.symlink("a", "l")
        os.symlink("new", "m")
        os.link("a", "hard")

    def tearDown(self) -> None:
        os.chdir(self.old)
        self.room.cleanup()

    def test_one_file(self) -> None:
        for one, other, is_one in (
            ("a", "./a", True), ("a", "l", True), ("d/x", "e/x", True), ("m", "new", True), ("d/../b", "b", True), ("a", "hard", False),
            ("b", "c", False), ("/dev/null", "/dev/null", False), ("no/b", "no/../no/b", True), ("d", "e", False),
        ):
            self.assertEqual(is_one_file(one, other), is_one, (one, other))

    def test_what_is_refused(self) -> None:
        for words, begin in (
            ("instrument a --out l", "--out l is the same file as the module a, which would be lost; --in-place allows it"),
            ("instrument a --out l --in-place", None), ("instrument a --out hard", None), ("check a --out a", None),
            ("instrument a --out b --info d/../a", "--info d/../a is the same file as the module a, which would be lost"),
            ("record a --info b --script s --out ./s", "--out ./s is the same file as --script s, which would be lost"),
        ):
            self.assertEqual(next(clash.clashes(Line(words.split())), None), begin, words)

    def test_words_without_an_output(self) -> None:
        for words, others in (
            ("instrument a --out b --in-place --info c", "instrument a --out /dev/null --info c"),
            ("--out=b instrument -- --in-place", "--out=/dev/null instrument -- --in-place"),
        ):
            self.assertEqual(clash.without_output(words.split()), others.split())


if __name__ == "__main__":
    unittest.main()
