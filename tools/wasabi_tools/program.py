"""Runs of the program that the commands of this package need, in a folder of their own."""
from __future__ import annotations

import shlex
import subprocess
import tempfile
from pathlib import Path
from typing import Iterable, List, Optional

from wasabi_tools.faults import Fault
from wasabi_tools.information import Information
from wasabi_tools.inputs import note
from wasabi_tools.module import Module
from wasabi_tools.reports import Report
from wasabi_tools.traces import Trace

SCRIPT = Path(__file__).resolve().parents[2] / "wasabi"
RAN = {0, 12, 13}


class Runner:
    """Instruments a module and runs it by a script; use it in a with statement, behind which its files are gone."""

    def __init__(self, module: str, script: str, selection: List[str], verbose: bool = False) -> None:
        self.module, self.script, self.selection, self.verbose = module, script, selection, verbose
        self._folder = tempfile.TemporaryDirectory(prefix="wasabi-")
        self.folder = Path(self._folder.name)
        self.output, self.information = self.folder / "b.wasm", self.folder / "b.json"

    def __enter__(self) -> Runner:
        return self

    def __exit__(self, *_: object) -> None:
        self._folder.cleanup()

    def run(self, mode: str, *words: str) -> str:
        """What a command of the program prints."""
        command = [str(SCRIPT), mode, *words]
        if self.verbose:
            note("runs " + shlex.join(["wasabi", mode, *words]))
        try:
            done = subprocess.run(command, stdout=subprocess.PIPE, check=False)
        except OSError as fault:
            raise Fault(f"{SCRIPT} can't be run: {fault.strerror}") from None
        text = done.stdout.decode("utf-8", "replace")
        if done.returncode not in RAN:
            raise Fault(f"wasabi {mode} was refused: {text.strip() or f'status {done.returncode}'}", done.returncode)
        return text

    def tell_selection(self) -> None:
        """Says that only some functions have hooks, if that is so, where the result does not say it."""
        if self.selection:
            note("only the functions that --functions and --except choose have hooks; the others are not counted")

    def instrument(self, groups: Iterable[str]) -> None:
        self.run("instrument", "--out", str(self.output), "--info", str(self.information), "--hooks", ",".join(sorted(groups)),
                 *self.selection, "--", self.module)

    def _words(self) -> List[str]:
        return [str(self.output), "--info", str(self.information), "--script", self.script]

    def report(self, kinds: str) -> Report:
        return Report.parse(self.run("report", *self._words(), "--reports", kinds), "the report")

    def tree(self) -> Report:
        return Report.parse(self.run("tree", *self._words()), "the tree")

    def record(self) -> Trace:
        trace = self.folder / "b.trace"
        self.run("record", *self._words(), "--out", str(trace))
        return Trace(trace)

    def informed(self) -> Information:
        return Information.read(self.information)

    def made(self) -> Module:
        return Module.read(self.output)


def selection(functions: Optional[str], left_out: Optional[str]) -> List[str]:
    """The options of instrument that say which functions get hooks."""
    found = [] if functions is None else ["--functions", functions]
    return found + ([] if left_out is None else ["--except", left_out])
