"""What the script wasabi leaves to Python.

tools/front asked WORD..                   does what the words ask of the script; status 200: they ask nothing of it
tools/front program WORD..                 finds or makes the program of a command, and prints what the script keeps of it
tools/front before PROGRAM WORD..          refuses a command that would lose a file; status 200: it may go on
tools/front after STATUS START PROGRAM WORD..   says what a command came to, why, and what of it had no effect
"""
from __future__ import annotations

import os
import signal
import subprocess
import sys
import time
from pathlib import Path
from types import FrameType
from typing import Callable, Iterable, Sequence

TOOLS = Path(__file__).resolve().parents[1]
# all that is imported is beside this package, and nothing is left there
sys.path[:1] = [str(TOOLS), str(TOOLS / "why")]

from front import clash, complete, making, notes, pages, programs, table  # noqa: E402
from front.words import Line, shown, wrong_words  # noqa: E402

GOES_ON, UNMADE, BAD_WORDS, MISSING = 200, 70, 2, 3
TOP = programs.TOP
# A reason takes at most this many seconds of a processor; one that would take more is not told.
SECONDS = 0.9


class TooLong(Exception):
    """A reason would take too long."""


def say(sentence: str) -> None:
    """Says a sentence on standard error; a name in it may be no UTF-8, and may be long."""
    sys.stderr.buffer.write(f"wasabi: {shown(sentence)}\n".encode("utf-8", "surrogateescape"))
    sys.stderr.flush()


def say_all(sentences: Iterable[str]) -> None:
    for it in sentences:
        say(it)


def version() -> list[str]:
    """The lines on the version, and on the program that runs."""
    number = (TOP / "VERSION").read_text("utf-8").strip()
    commit = ""
    if (TOP / ".git").exists():
        words = ["git", "-C", str(TOP), "log", "-1", "--format= at commit %h of %cs"]
        try:
            commit = subprocess.run(words, capture_output=True, check=False).stdout.decode("utf-8", "replace").rstrip("\n")
        except OSError:
            pass
    return [f"wasabi {number}{commit}, for WebAssembly 1.0", f"program: {which_program()}"]


def which_program() -> str:
    named = os.environ.get("WASABI_PROGRAM")
    if named:
        return f"{named}, by WASABI_PROGRAM"
    found = programs.look()[0]
    if found is None:
        return "none yet; the first command compiles it"
    by = f", by the Rattle kit {found.kit}" if found.kit else ""
    other = f", from other sources than these ({found.changed})" if found.changed else ""
    return f"{programs.HOW[found.how]}{by}, in {os.path.relpath(found.path, TOP)}{other}"


def made_by(make: Callable[[], Path]) -> Path | None:
    """Makes a program; if none can be made, says why."""
    try:
        return make()
    except making.Failed as fault:
        say(str(fault))
    except OSError as fault:
        say(f"no program could be made: {fault}")
    return None


def made(make: str) -> int:
    """Makes the program as a word asks it, and prints where it is."""
    path = made_by(making.compile_program if make == "--compile" else making.prove_program)
    if path is None:
        return UNMADE
    found, when = programs.look()
    if found:
        programs.keep(found, when)
    if make != "--build":
        print(path)
    return 0


def help_for(words: Sequence[str]) -> list[str]:
    """The page that a request for help means: that of the first word that is a mode, or the usage page."""
    mode = table.mode(next((it for it in words if not it.startswith("-")), None))
    return pages.page(mode) if mode else pages.main_page()


def asked(words: list[str]) -> int:
    """Does what the words ask of the script."""
    before = words[:words.index("--")] if "--" in words else words
    first = words[0] if words else ""
    if not words:
        sys.stderr.write(pages.printed(pages.main_page()))
        return BAD_WORDS
    if first == "--complete":
        print(*complete.candidates(words[1:] or [""]), sep="\n")
    elif "--help" in before or (first == "-h" and len(words) < 3) or (table.mode(first) and words[1:2] == ["-h"]):
        sys.stdout.write(pages.printed(help_for(before)))
    elif first == "help" and (len(words) == 1 or (len(words) == 2 and table.mode(words[1]))):
        sys.stdout.write(pages.printed(help_for(words[1:])))
    elif "--version" in before or words == ["-V"]:
        print(*version(), sep="\n")
    elif first in ("--compile", "--prove", "--build") and len(words) == 1:
        return made(first)
    else:
        return GOES_ON
    return 0


def meaning(status: int) -> str:
    known = table.status(status)
    if known:
        return known.says
    return f"ended by the signal {status - 128}" if status > 128 else "told in docs/CLI.md"


def help_hint(line: Line) -> str:
    """Which page lists the words."""
    script = os.environ.get("WASABI_SCRIPT", "wasabi")
    if table.mode(line.mode):
        return f"{script} {line.mode} --help says what {line.mode} takes"
    return f"{script} --help lists modes, options and groups"


def say_reasons(status: int, start: float, program: str, line: Line) -> None:
    """Says why a status came, if that is found in time."""
    def stop(_number: int, _frame: FrameType | None) -> None:
        raise TooLong

    import reasons

    signal.signal(signal.SIGPROF, stop)
    signal.setitimer(signal.ITIMER_PROF, SECONDS)
    try:
        say_all(reasons.reasons(status, start, program, line))
    except TooLong:
        pass
    except Exception as fault:  # a reason that fails is none, and hides no other line
        if os.environ.get("WASABI_DEBUG"):
            raise fault
    finally:
        signal.setitimer(signal.ITIMER_PROF, 0)


def refuse(status: int, text: str, sentences: Iterable[str], line: Line) -> int:
    """Refuses a command as the program does, and says why."""
    sys.stdout.buffer.write(text.encode("utf-8", "surrogateescape"))
    sys.stdout.flush()
    say(f"status {status}: {meaning(status)}")
    say_all(sentences)
    if status == BAD_WORDS:
        say(help_hint(line))
    return status


def missing(line: Line) -> str | None:
    """The first file that a command reads and that is missing."""
    mode = table.mode(line.mode)
    inputs = [line.subject] if mode and mode.subject != "NUMBER" else []
    if mode and mode.name != "instrument":
        inputs += [line.value(it.name) for it in table.needed(mode.name) if it.name in ("--info", "--script")]
    for name in inputs:
        try:
            os.stat(name or "")
        except FileNotFoundError:
            return name
        except (OSError, ValueError):
            return None
    return None


def early(line: Line) -> int:
    """Refuses a command for which no program is needed to do so; 0: it is not refused."""
    import files

    wrong = list(wrong_words(line))
    if wrong:
        unread = "is not UTF-8" in wrong[0]
        return refuse(BAD_WORDS, "" if unread else "error 2: bad words\n", wrong, line)
    name = missing(line)
    if name is not None:
        return refuse(MISSING, f"error 3: {name} is missing\n", files.why_missing(name), line)
    return 0


def program(words: Sequence[str]) -> int:
    """Finds the program for a command, and makes one if there is none."""
    found, when = programs.look()
    if found is None:
        status = early(Line(words))
        if status:
            return status
        if made_by(making.first_program) is None:
            return UNMADE
        found, when = programs.look()
    if found is None:
        say("there is no program")
        return UNMADE
    sys.stdout.write(programs.keep(found, when))
    return 0


def before(path: str, line: Line) -> int:
    """Refuses a command that would lose a file."""
    lost = list(clash.clashes(line))
    if lost:
        return refuse(BAD_WORDS, "error 2: bad words\n", lost[:1], line)
    start = time.time()
    status = clash.unwritten(path, line)
    return GOES_ON if status is None else after(status, start, path, line) or status


def after(status: int, start: float, path: str, line: Line) -> int:
    """Says what a command came to."""
    if status:
        say(f"status {status}: {meaning(status)}")
        say_reasons(status, start, path, line)
    if status == BAD_WORDS:
        say(help_hint(line))
    mode = table.mode(line.mode)
    if mode and status in (0, 12, 13):
        say_all(notes.notes(line, mode))
    return 0


def main(do: str, *words: str) -> int:
    if do == "asked":
        return asked(list(words))
    if do == "program":
        return program(list(words))
    if do == "before":
        return before(words[0], Line(words[1:]))
    return after(int(words[0]), float(words[1]), words[2], Line(words[3:]))


if __name__ == "__main__":
    sys.exit(main(*sys.argv[1:]))
