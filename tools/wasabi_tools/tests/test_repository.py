"""What the files of the repository say of each other, where no other test reads both."""
import os
import re
import shutil
import subprocess
import tempfile
import unittest
from pathlib import Path

TOP = Path(__file__).resolve().parents[3]


def text_of(name: str) -> str:
    return (TOP / name).read_text(encoding="utf-8")


class Files(unittest.TestCase):
    @unittest.skipUnless(shutil.which("mypy"), "mypy is not installed")
    def test_the_python_is_typed(self) -> None:
        files = [path for folder in ("bench", "docs", "tests", "tools", "tools/why") for path in sorted((TOP / folder).iterdir())
                 if path.is_file() and (path.suffix == ".py" or path.read_bytes().startswith(b"#!/usr/bin/env python3\n"))]
        modules = [str(it) for it in files if it.suffix == ".py"]
        scripts = [it for it in files if it.suffix != ".py"]
        self.assertIn(TOP / "tests/run", scripts)
        with tempfile.TemporaryDirectory() as folder:
            # a script is the module of a link to it, since mypy takes one file without an ending in a run, and two have one name
            for it in scripts:
                (Path(folder) / f"{it.parent.name}_{it.name}.py").symlink_to(it)
            modules += sorted(map(str, Path(folder).iterdir()))
            words = ["mypy", "--strict", "--cache-dir", os.devnull, "wasabi_tools", "front", *modules]
            paths = {**os.environ, "MYPYPATH": os.pathsep.join(("why", "../docs", "../tests"))}
            done = subprocess.run(words, cwd=TOP / "tools", env=paths, capture_output=True, text=True, check=False)
        self.assertEqual(done.returncode, 0, done.stdout)

    def test_the_page_that_a_refused_kit_is_sent_to_names_kits(self) -> None:
        page = re.search(r"those of the kits that (\S+) names", text_of("tools/kit.py"))
        assert page
        self.assertRegex(text_of(page[1]), r"Rattle kit \(`rt version`; kits \w+")

    def test_the_page_on_tools_in_rattle_has_no_program_of_its_own(self) -> None:
        # its example is a crate, which the gate proves and tests
        text = text_of("docs/TOOLS.md")
        self.assertNotIn("```", text)
        self.assertEqual(re.findall(r"^    .*\b(?:fn|impl|let|use)\b.*$", text, re.M), [])
        for crate in re.findall(r"\]: \.\./(crates/\S+)", text):
            self.assertTrue((TOP / crate).exists(), crate)

    def test_scripts_run_in_a_folder_with_a_space(self) -> None:
        # the path of a URL has %20 for a space; fileURLToPath gives the name of the file
        found = [str(path.relative_to(TOP)) for folder in ("bench", "examples", "js", "tests") for path in (TOP / folder).glob("**/*.*js")
                 if "node_modules" not in path.parts and re.search(r"import\.meta\.url\)\.pathname", path.read_text(encoding="utf-8"))]
        self.assertEqual(found, [])


if __name__ == "__main__":
    unittest.main()
