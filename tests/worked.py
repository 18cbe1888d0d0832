"""The worked rows of rows/: what their keys mean, how a row is run as a user would, with real files, and what of it does not hold.

tests/run is this module as a command; tests/fuzz, tests/starve and bench/run take rows, words and the program from it.
"""
from __future__ import annotations

import argparse
import json
import os
import re
import subprocess
import sys
import tempfile
from concurrent.futures import Executor, Future, ProcessPoolExecutor
from pathlib import Path
from typing import Any, Callable, Dict, Iterator, List, Optional, Tuple, Union

from expected import (
    HAS_NODE, HERE, TOP, Files, Row, object_of, wrong_events, wrong_hook_calls, wrong_information, wrong_output, wrong_text)
from setting import Setting

SCRIPT = TOP / "wasabi"
BUILT = TOP / "crates" / "wasabi_cli" / "out" / "wasabi_cli"
EXAMPLES, ROWS, DOCS, TOOLS, RUNTIME = TOP / "examples", HERE / "rows", TOP / "docs", TOP / "tools", TOP / "js" / "test"
# The scripts that compare the documents with the sources and with the program, and look for unused lemmas; those that are there are
# run.
CHECKS_OF_DOCS = [[f"{name}.py", "--check"] for name in ("crates", "proved", "definitions", "links", "pages", "unused")]

STAGES = [
    "first path", "binary format", "validation", "straight-line hooks", "branches", "calls", "interpreter", "scripts",
    "information", "reports", "command line and generator", "parallel", "hostile use",
    "sign extension", "several values", "trace files", "taint", "calling-context tree", "names", "front", "viewers", "functions",
]

# What the keys of a row mean; tests/run --keys prints this. A row may have no others.
KEYS = {
    "name, topic, note": "A unique name, a subject, and one sentence on the point of the row.",
    "from": "The first stage with which the row passes; its file has the name of this stage.",
    "files": "The input files, by name.",
    "words": "The words of the command: first wasabi, for the script at the top; or program, for the built program without the script; or node "
             "and a script of examples/; or tools and a command of tools/wasabi_tools.",
    "links": "Links by name, each with what it leads to: another name, or elsewhere:, a new folder of another file system. After the run they "
             "must still be links.",
    "permissions": "The permissions of files, in octal digits, before the run and after it.",
    "limit": "How many bytes a file that the command writes may have.",
    "before, ready": "Commands to run first, each of which must end with 0; files as they are then, whole.",
    "input": "A command whose printed text the command reads on standard input.",
    "jobs, same_each_time": "The row is run once for each of these numbers, with --jobs and the number added; files that are the same after each "
                            "run.",
    "added, variants": "The row is run once for each of several lists of words that are added to the command; for each of several contents of a "
                       "file.",
    "cut, cuts": "The row is run with this file (a.wasm if none is named) cut to each of these lengths (ranges, with their ends), each with its "
                 "own status and text.",
    "status, stdout": "The status; the exact text, or null if the whole text is not stated.",
    "stdout_starts_with, stdout_contains, stdout_ends_with, stdout_lines_end":
        "Parts of the text. stdout_contains has whole lines, stdout_lines_end numbers of lines, from 1, with the ends of these lines.",
    "trial_parts_equal": "The lines under original: are the same as those under output:, and another run prints the same text.",
    "ends_text_of": "Another command, whose printed text ends with the text of this one.",
    "stderr, stderr_contains": "All lines on standard error, or some of them, without the wasabi: in front.",
    "left": "The names that are in the folder after the run.",
    "written, written_contains, absent": "Contents of names after the run, whole or in part; names that are not there.",
    "hooks, hook_types, hook_count": "The hook imports of b.wasm in order; a letter for each of their parameters; their number.",
    "bodies, bodies_start, bodies_contain": "Bodies of b.wasm by their place in the code section: whole, their first bytes, parts of them.",
    "elements, exports": "The functions of each element segment of b.wasm; the function that each name is exported for.",
    "info": "Keys of b.json.",
    "hook_calls, hook_calls_of": "All hook calls of the run of b.wasm in order; the words of all calls of one hook. Node runs them, by hooks.js.",
    "events, events_of": "All events of the run in order; all events of one variant. Only the stated fields are given.",
}
KNOWN = {it for keys in KEYS for it in keys.split(", ")}


def read_rows() -> List[Row]:
    """The rows of all stages, in the order of the stages: those of a stage stand in the file of its name."""
    files = {stage.replace(" ", "-") + ".json": stage for stage in STAGES}
    others = {it.name for it in ROWS.iterdir()} ^ set(files)
    if others:
        sys.exit(f"rows/ has no file for a stage, or one that is for none: {', '.join(sorted(others))}")
    found: Dict[str, Row] = {}
    for name, stage in files.items():
        for row in json.loads((ROWS / name).read_text("utf-8")):
            if row["from"] != stage or row["name"] in found:
                sys.exit(f"rows/{name}: a row of another stage, or a name that came before: {row['name']}")
            if not (set(row) <= KNOWN and row["topic"] and row["note"]):
                sys.exit(f"rows/{name}: a key that nothing reads, or no topic or note: {row['name']}")
            found[row["name"]] = row
    return list(found.values())


def content(form: Any, files: Files) -> bytes:
    """The bytes of a form; files: the files known by now, by name."""
    if isinstance(form, dict):
        return b"".join(content(part, files) * times for part, times in form["repeat"])
    assert isinstance(form, str)
    if form.startswith("text:"):
        return form[5:].encode("utf-8")
    if form.startswith("file:"):
        return files[form[5:]]
    if form.startswith("example:"):
        return (EXAMPLES / form[8:]).read_bytes()
    return bytes.fromhex(form)


def spoken(words: List[str]) -> List[Union[str, bytes]]:
    """The words behind the program's name; one may be given by its bytes."""
    return [bytes.fromhex(word[4:]) if word.startswith("hex:") else word for word in words[1:]]


# The scripts' python3 is this one.
ENVIRONMENT = dict(os.environ, PATH=os.pathsep.join([os.path.dirname(sys.executable), os.environ.get("PATH", os.defpath)]))


def command_of(words: List[str]) -> List[Any]:
    if words[0] == "node":
        return ["node", str(EXAMPLES / words[1]), *words[2:]]
    if words[0] == "tools":
        return [sys.executable, "-ISB", str(TOOLS / "wasabi_tools"), *words[1:]]
    return [ENVIRONMENT.get("WASABI_PROGRAM", str(BUILT)) if words[0] == "program" else str(SCRIPT), *spoken(words)]


def run(folder: Path, words: List[str], text: Optional[bytes] = None,
        begin: Optional[Callable[[], None]] = None) -> subprocess.CompletedProcess[bytes]:
    """Runs a command on what is given on standard input; begin: what is called in its process first."""
    return subprocess.run(command_of(words), cwd=folder, input=text, capture_output=True, timeout=600, env=ENVIRONMENT, preexec_fn=begin)


def files_of(folder: Path) -> Files:
    """The bytes of the files in a folder, and in folders that links of it lead to, by their names."""
    found: Files = {}
    for path in folder.iterdir():
        if path.is_dir():
            found.update((f"{path.name}/{inner}", data) for inner, data in files_of(path).items())
        elif path.is_file():
            found[path.name] = path.read_bytes()
    return found


def faults(row: Row, folder: Path, words: List[str], place: Setting) -> Iterator[str]:
    """What is wrong after a command, as lines."""
    before = files_of(folder)
    done = run(folder, words, run(folder, row["input"]).stdout if "input" in row else None, place.started())
    files = files_of(folder)
    yield from place.wrong(done.stderr.decode("utf-8", "replace"))
    text = done.stdout.decode("utf-8")
    if done.returncode != row["status"]:
        yield f"status {done.returncode}, not {row['status']}"
    elif row["status"] == 0:
        yield from wrong_information(words, before, files)
    yield from wrong_text(row, text)
    if words[0] == "wasabi":
        yield from wrong_meaning(done, words)
    if "ends_text_of" in row and not (text and run(folder, row["ends_text_of"]).stdout.endswith(done.stdout)):
        yield f"printed {text!r}, with which another command does not end"
    if row.get("trial_parts_equal") and run(folder, words).stdout != done.stdout:
        yield "another run prints otherwise"
    if words[1:2] == ["report"]:
        yield from wrong_events(row, text)
    yield from wrong_hook_calls(row, folder)
    yield from wrong_files(row, files)


def wrong_files(row: Row, files: Files) -> Iterator[str]:
    """Which files are not as a row says."""
    info = object_of(files.get("b.json", b""))
    for key, value in row.get("info", {}).items():
        if info.get(key) != value:
            yield f"b.json has {key} {info.get(key)}, not {value}"
    yield from (f"{name} is not as it should be" for name, form in row.get("written", {}).items() if files.get(name) != content(form, files))
    yield from (f"{name} is there" for name in row.get("absent", []) if name in files)
    for name, forms in row.get("written_contains", {}).items():
        yield from (f"{name} lacks {form}" for form in forms if bytes.fromhex(form) not in files.get(name, b""))
    if "b.wasm" in files and "b.wasm" not in row["files"]:
        yield from wrong_output(row, files["b.wasm"])


def wrong_meaning(done: subprocess.CompletedProcess[bytes], words: List[str]) -> Iterator[str]:
    """What the script fails to say on standard error: what a status means, and where the usage page is."""
    if done.returncode == 2 and b"--help" not in done.stderr:
        yield "the page on the usage is not named"
    if done.returncode != 0 and words[1:] and b"wasabi: status %d: " % done.returncode not in done.stderr:
        yield "the status is not told on standard error"


def begun(row: Row, folder: Path, inputs: Files) -> List[str]:
    """Writes the input files and runs the first commands; what is wrong with them."""
    for name, data in inputs.items():
        (folder / name).write_bytes(data)
    for words in row.get("before", []):
        before = files_of(folder)
        if run(folder, words).returncode != 0:
            return ["a first command failed"]
        wrong = list(wrong_information(words, before, files_of(folder)))
        if wrong:
            return wrong
    files = files_of(folder)
    return [f"the first commands left another {name}" for name, form in row.get("ready", {}).items() if files.get(name) != content(form, files)]


def try_once(row: Row, inputs: Files, first: Dict[str, Optional[bytes]]) -> List[str]:
    """What is wrong when a row is run once on input files, given as bytes by their names; first: what an earlier run of the row left."""
    with tempfile.TemporaryDirectory() as name:
        folder = Path(name)
        wrong = begun(row, folder, inputs)
        if wrong:
            return wrong
        with Setting(row, str(folder)) as place:
            wrong = list(faults(row, folder, row["words"], place))
            files = files_of(folder)
        others = [it for it in row.get("same_each_time", []) if first.setdefault(it, files.get(it)) != files.get(it)]
        return wrong + [f"{it} is not that of the first run" for it in others]


def runs_of(row: Row) -> Iterator[Tuple[str, Row, Files]]:
    """The runs of a row: what is printed of a run if it fails, the row as it is for that run, the input files."""
    inputs = {name: content(form, {}) for name, form in row["files"].items()}
    if not any(key in row for key in ("added", "variants", "cuts", "jobs")):
        yield "", row, inputs
    for jobs in row.get("jobs", []):
        yield f", {jobs} jobs", dict(row, words=row["words"] + ["--jobs", str(jobs)]), inputs
    for what, words in row.get("added", {}).items():
        yield f", {what}", dict(row, words=row["words"] + words), inputs
    for name, forms in row.get("variants", {}).items():
        for what, form in forms.items():
            yield f", {what}", row, {**inputs, name: content(form, {})}
    name = row.get("cut", "a.wasm")
    for case in row.get("cuts", []):
        for low, high in case["lengths"]:
            for length in range(low, high + 1):
                cut = dict(row, status=case["status"], stdout=case.get("stdout"))
                yield f", {length} bytes", cut, {**inputs, name: inputs[name][:length]}


def try_row(row: Row) -> List[str]:
    first: Dict[str, Optional[bytes]] = {}
    return [what + ": " + line for what, stated, inputs in runs_of(row) for line in try_once(stated, inputs, first)]


def is_tried(row: Row) -> bool:
    """A script for Node is tried if there is Node."""
    return HAS_NODE or row["words"][0] != "node"


def program_of(is_quick: bool) -> Optional[str]:
    """Returns the name of the program, or None if it can't be made: the proved one or, if a quick one will do, that which WASABI_PROGRAM names
    or which is compiled without proofs. It is made if need be, however long that takes, and from then on the script runs it."""
    named = os.environ.get("WASABI_PROGRAM") if is_quick else None
    if named is None:
        done = subprocess.run([str(SCRIPT), "--compile" if is_quick else "--prove"], stdout=subprocess.PIPE)
        if done.returncode != 0:
            return None
        named = os.fsdecode(done.stdout).rstrip("\n")
    ENVIRONMENT["WASABI_PROGRAM"] = os.environ["WASABI_PROGRAM"] = named
    return named


# Of the tests that are no rows: how many passed, how many failed, and what is printed of these.
Tested = Tuple[int, int, str]


def test_package(name: str) -> Tested:
    words = [sys.executable, "-B", "-m", "unittest", "discover", "-s", str(TOOLS / name / "tests"), "-t", str(TOOLS)]
    done = subprocess.run(words, capture_output=True, text=True)
    ran = re.search(r"^Ran (\d+) tests?", done.stderr, re.M)
    failed = sum(map(int, re.findall(r"(?:failures|errors)=(\d+)", done.stderr))) or int(done.returncode != 0)
    return max(0, int(ran[1] if ran else 0) - failed), failed, done.stderr if failed else ""


def test_runtime() -> Tested:
    if not HAS_NODE or not RUNTIME.is_dir():
        return 0, 0, ""
    files = sorted(map(str, RUNTIME.glob("*.test.mjs")))
    done = subprocess.run(["node", "--test", "--test-reporter=tap", *files], capture_output=True, text=True, env=ENVIRONMENT)
    counts = {word: int(number) for word, number in re.findall(r"^# (pass|fail) (\d+)$", done.stdout, re.M)}
    failed = counts.get("fail", 0) or int(done.returncode != 0)
    return counts.get("pass", 0), failed, done.stdout + done.stderr if failed else ""


def wrong_documents() -> bool:
    """Whether a document is not as the sources and the program say."""
    checks = [[sys.executable, str(DOCS / words[0]), *words[1:]] for words in CHECKS_OF_DOCS if (DOCS / words[0]).exists()]
    return any([subprocess.run(it).returncode != 0 for it in checks])


def told(futures: List[Tuple[str, Future[Any]]]) -> Iterator[Tuple[str, Any]]:
    for name, future in futures:
        yield name, future.result()


def run_all(rows: List[Row], is_whole: bool, pool: Executor) -> Tuple[int, int]:
    """Runs rows side by side, and prints what is wrong in their order; how many passed and failed."""
    tests = [pool.submit(test_runtime), *(pool.submit(test_package, it) for it in ("wasabi_tools", "front"))] if is_whole else []
    tried = [(row["name"], pool.submit(try_row, row)) for row in rows]
    passed = failed = 0
    for name, wrong in told(tried):
        passed, failed = passed + (not wrong), failed + bool(wrong)
        for line in wrong:
            print(name + line, flush=True)
    for test in tests:
        good, bad, text = test.result()
        passed, failed = passed + good, failed + bad
        print(text, end="")
    return passed, failed


def main(about: str) -> int:
    parser = argparse.ArgumentParser(description=about, formatter_class=argparse.RawDescriptionHelpFormatter, add_help=True)
    parser.add_argument("name", metavar="NAME", nargs="?", default="", help="only the rows whose name has this in it")
    parser.add_argument("--quick", action="store_true", help="on the program that is compiled without proofs, in place of the proved one")
    parser.add_argument("--jobs", metavar="N", type=int, default=os.cpu_count() or 1, help="how many rows are run at once")
    parser.add_argument("--keys", action="store_true", help="prints what the keys of a row mean")
    given = parser.parse_args()
    if given.keys:
        print("\n".join(f"{keys}\n    {meaning}" for keys, meaning in KEYS.items()))
        return 0
    rows = [row for row in read_rows() if is_tried(row) and given.name in row["name"]]
    if not rows:
        sys.exit(f"no row has this in its name: {given.name}")
    if not HAS_NODE:
        print("hook calls, the runtime and the scripts of examples/ are not tried, since there is no Node")
    is_wrong = not given.name and wrong_documents()
    if program_of(given.quick) is None:
        return 1
    with ProcessPoolExecutor(max(1, given.jobs)) as pool:
        passed, failed = run_all(rows, not given.name, pool)
    print(f"{passed} passed, {failed} failed")
    return 1 if failed or is_wrong else 0
