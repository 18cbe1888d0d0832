"""What the commands of this package have in common: their arguments, and where their output goes."""
from __future__ import annotations

import argparse
import contextlib
import os
import shutil
import sys
from pathlib import Path
from typing import Iterable, List, NoReturn, Optional, Union

from wasabi_tools.faults import WRONG_ARGUMENTS, Fault
from wasabi_tools.program import Runner, selection
from wasabi_tools.same_file import is_file_or_new, is_one_file


class Parser(argparse.ArgumentParser):
    """A parser whose faults are those of this package."""

    def error(self, message: str) -> NoReturn:
        raise Fault(f"{message}; {self.prog} --help says more", WRONG_ARGUMENTS)


def parser(word: str, about: str) -> Parser:
    return Parser(prog=f"wasabi {word}", description=about, formatter_class=argparse.RawDescriptionHelpFormatter, allow_abbrev=False)


def add_run(found: Parser) -> None:
    """Adds the arguments of a command that runs a module by a script."""
    found.add_argument("module", metavar="MODULE", help="the original, not an output: positions, names and lines are its own")
    found.add_argument("--script", metavar="FILE", help="runs the module by this script")
    found.add_argument("--functions", metavar="LIST", help="only these functions get hooks, as in instrument")
    found.add_argument("--except", metavar="LIST", dest="left_out", help="these functions get no hooks, as in instrument")
    found.add_argument("--verbose", action="store_true", help="says on standard error which commands are run")


def add_out(found: Parser, forms: Iterable[str], default: str) -> None:
    found.add_argument("--as", dest="form", metavar="FORM", choices=list(forms),
                       help=f"{', '.join(forms)}; by default that of the name behind --out, or {default}")
    found.add_argument("--out", metavar="FILE", help="the file that is written; by default standard output")


def form_of(given: argparse.Namespace, ends: List[tuple[str, str]], default: str) -> str:
    """The form that is asked for by its name, or by the end of the name of the output."""
    if given.form:
        return str(given.form)
    name = Path(given.out).name if given.out else ""
    return next((form for end, form in ends if name.endswith(end) or name.startswith(end)), default)


def one_input(given: argparse.Namespace, names: List[str]) -> str:
    """Which of some options names where the events come from; exactly one must."""
    found = [it for it in names if getattr(given, it)]
    if len(found) != 1:
        options = ", ".join(f"--{it}" for it in names[:-1]) + f" and --{names[-1]}"
        raise Fault(f"exactly one of {options} must be given", WRONG_ARGUMENTS)
    if found != ["script"] and (given.functions is not None or given.left_out is not None):
        raise Fault("--functions and --except go with --script: a run that is over has its hooks", WRONG_ARGUMENTS)
    return found[0]


def runner(given: argparse.Namespace) -> Runner:
    return Runner(given.module, given.script, selection(given.functions, given.left_out), given.verbose)


def keep_inputs(out: Optional[str], inputs: Iterable[Union[str, None]]) -> None:
    """Raises a Fault if the file that is written is one that is read."""
    for name in inputs:
        if out and name and os.path.exists(name) and is_one_file(out, name):
            raise Fault(f"--out {out} is the same file as {name}, which would be lost", WRONG_ARGUMENTS)


def write(out: Optional[str], content: Union[bytes, Iterable[str]]) -> None:
    """Writes bytes, or lines, to standard output, or to a file as a whole: if a Fault comes in between, the file is as it was."""
    if out is None:
        for part in parts_of(content):
            sys.stdout.buffer.write(part)
        sys.stdout.flush()
        return
    target = os.path.realpath(out)
    new = f"{target}.{os.getpid()}.new" if is_file_or_new(target) else target
    try:
        with open(new, "wb") as file:
            file.writelines(parts_of(content))
        if new != target:
            with contextlib.suppress(FileNotFoundError):
                shutil.copymode(target, new)
            os.replace(new, target)
    except OSError as fault:
        raise Fault(f"{out} can't be written: {(fault.strerror or str(fault)).lower()}") from None
    finally:
        if new != target and os.path.exists(new):
            os.remove(new)


def parts_of(content: Union[bytes, Iterable[str]]) -> Iterable[bytes]:
    if isinstance(content, bytes):
        return [content]
    return (f"{line}\n".encode("utf-8", "surrogateescape") for line in content)
