"""Commands that run a module whose hooks are in some functions only. They need the program, which tests/run has built or names."""
import unittest
from pathlib import Path

from wasabi_tools.tests.making import EXAMPLES, ran

MODULE, SCRIPT = str(EXAMPLES / "weekday.wasm"), str(EXAMPLES / "weekday.json")
RUN = [MODULE, "--script", SCRIPT]


class SomeFunctions(unittest.TestCase):
    def says(self, *words: str) -> str:
        """What a command prints, which says on standard error that functions were left out."""
        status, out, err = ran(*words)
        self.assertEqual((status, err.count("\n")), (0, 1), err)
        self.assertIn("only the functions that --functions and --except choose have hooks", err)
        return out

    def test_a_profile_keeps_the_counts_of_what_has_hooks(self) -> None:
        # as without lists; is_date, which is left out, calls days_of and is_leap
        text = self.says("profile", *RUN, "--except", "is_date", "--as", "folded")
        folded = dict(line.rsplit(" ", 1) for line in text.splitlines())
        self.assertEqual(folded["weekday"], "3175")
        own = {name: sum(int(count) for path, count in folded.items() if path.split(";")[-1] == name) for name in ("is_leap", "days_of")}
        self.assertEqual(own, {"is_leap": 1829, "days_of": 430})
        self.assertTrue(all(path.split(";")[0] == "weekday" for path in folded), folded)

    def test_a_profile_of_calls(self) -> None:
        text = self.says("profile", *RUN, "--functions", "is_leap", "--weight", "calls")
        self.assertIn("45 calls\n", text)

    def test_a_memory_of_some_functions(self) -> None:
        text = self.says("memory", *RUN, "--functions", "is_leap,days_of")
        self.assertIn("is_leap weekday.c", text)
        self.assertNotIn("is_date", text)

    def test_a_coverage_says_how_many_are_left_out(self) -> None:
        status, out, err = ran("coverage", *RUN, "--source", str(Path(EXAMPLES) / "weekday.c"), "--functions", "is_leap,days_of")
        self.assertEqual((status, err), (0, ""))
        self.assertIn("2 functions have no hooks and are not counted\n", out)
        self.assertIn("      2 of 2 100.0 %", out)  # the functions


if __name__ == "__main__":
    unittest.main()
