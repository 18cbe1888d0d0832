"""Files that a command names twice, or that it can't write: what is refused before the program runs, so that nothing is lost."""
from __future__ import annotations

import os
import subprocess
from typing import Iterator, Sequence

from front.words import Line
from wasabi_tools.same_file import is_file_or_new, is_one_file


def is_standard_output(name: str) -> bool:
    """Whether a name leads to standard output, and that is not /dev/null."""
    try:
        there, output = os.stat(name), os.fstat(1)
        return os.path.samestat(there, output) and not os.path.samestat(there, os.stat(os.devnull))
    except OSError:
        return False


def clashes(line: Line) -> Iterator[str]:
    """What would be lost by a command that writes files, a sentence each."""
    pairs = {
        "instrument": [("--out", "--info"), ("--info", "subject")] + [("--out", "subject")] * (not line.has("--in-place")),
        "record": [("--out", "subject"), ("--out", "--info"), ("--out", "--script")],
    }.get(line.mode, [])
    names = {"subject": line.subject, **dict(line.options)}
    for option in ("--out", "--info") if line.mode == "instrument" else ("--out",) if pairs else ():
        name = names.get(option)
        if name and is_standard_output(name):
            yield (f"{option} {name} is standard output, into which the answer is printed too; a pipe or a file can be another one: "
                   f"{option} /dev/fd/3 3>FILE")
    for option, other in pairs:
        name, lost = names.get(option), names.get(other)
        if name and lost and is_one_file(name, lost):
            what = f"the module {lost}" if other == "subject" else f"{other} {lost}"
            allowed = "; --in-place allows it" if (option, other, line.mode) == ("--out", "subject", "instrument") else ""
            yield f"{option} {name} is the same file as {what}, which would be lost{allowed}"


def is_shut(name: str) -> bool:
    """Whether a file surely can't be written: it is a folder or protected, or its folder is not there or takes no new file."""
    real = os.path.realpath(name)
    folder = os.path.dirname(real)
    if not name or not is_file_or_new(real):
        return os.path.isdir(real)
    return not os.access(folder, os.W_OK | os.X_OK) or (os.path.exists(real) and not os.access(real, os.W_OK))


def without_output(words: Sequence[str]) -> list[str]:
    """The words of a command for the program, with the device that takes everything as the output."""
    found, is_value, ended = [], False, False
    for at, word in enumerate(words):
        ended = ended or word == "--"
        if is_value:
            word, is_value = os.devnull, False
        elif not ended and word == "--out":
            is_value = True
        elif not ended and word.startswith("--out="):
            word = f"--out={os.devnull}"
        if ended or word != "--in-place":
            found.append(word)
    return found


def unwritten(program: str, line: Line) -> int | None:
    """Runs a command whose information can't be written without writing its output, where that would replace an older one: it would be
    of no use, and worse beside the information on the older one. Returns the status, or None if the command is to run as it is."""
    out, info = line.value("--out"), line.value("--info")
    if line.mode != "instrument" or not out or not info or not is_shut(info) or not os.path.isfile(out) or is_shut(out):
        return None
    ran = subprocess.run([program, *without_output(line.words)], stdout=subprocess.PIPE, check=False)
    if ran.returncode == 0:
        return None
    os.write(1, ran.stdout)
    return ran.returncode
