"""What stands under a name, and why it can't be read or written."""
from __future__ import annotations

import difflib
import errno
import os
import resource
import stat
from typing import Iterator

from front import table
from front.words import Line

# Of a folder with more names, only so many are looked at for one that is near.
MOST_NAMES = 2000
# Whether a file is text is told by so many bytes.
BEGINNING = 1 << 16

BEGINNINGS = [
    (b"\x1f\x8b", "compressed by gzip: gunzip it"), (b"PK\x03\x04", "a zip archive"), (b"\x7fELF", "an ELF file, of native code"),
    (b"BC\xc0\xde", "bitcode of LLVM"), (b"!<arch>\n", "an archive of object files, as a library is"), (b"\x28\xb5\x2f\xfd", "compressed by zstd"),
    (b"BZh", "compressed by bzip2"), (b"\xfd7zXZ", "compressed by xz"), (b"WTR1", "a trace, as wasabi record writes it"),
]


def read(name: str | None) -> bytes | None:
    """The bytes of an ordinary file, or None."""
    try:
        if name is not None and os.path.isfile(name):
            with open(name, "rb") as file:
                return file.read()
    except OSError:
        pass
    return None


def text_of(data: bytes) -> str | None:
    """The text that the bytes are, or None if they are no text."""
    try:
        text = data[:BEGINNING].decode("utf-8-sig")
    except UnicodeDecodeError as fault:
        if fault.end < BEGINNING:
            return None
        text = data[:fault.start].decode("utf-8-sig")
    return text if all(it.isprintable() or it in "\t\r\n\f" for it in text[:4096]) else None


def kind_of(data: bytes) -> str | None:
    """In words what bytes are that begin no module, or None if they begin one."""
    if not data:
        return "empty"
    for beginning, kind in BEGINNINGS:
        if data.startswith(beginning):
            return kind
    if data.startswith(b"\0asm"):
        version = data[4:8]
        if version == b"\1\0\0\0":
            return None
        if len(version) == 4 and version[2:] != b"\0\0":
            return "a component, not a module; wasm-tools component unbundle takes the modules out of it"
        return "a module of another version, or cut off in its first eight bytes"
    text = text_of(data)
    if text is None:
        return "not WebAssembly: a module begins with the bytes 00 61 73 6D"
    if text.lstrip().startswith("(") or text.lstrip().startswith(";;"):
        return "the text of a module: wat2wasm of wabt makes the module from it"
    if text.lstrip().startswith(("{", "[")):
        return "text, perhaps JSON: is it the information or the script?"
    return "text, perhaps a source: a compiler makes a module from it"


def folder_of(name: str) -> str:
    return os.path.dirname(name) or "."


def why_not_named(name: str) -> str | None:
    """Why a name is none that a file can have, or leads nowhere; None if it is not so."""
    try:
        os.stat(name)
    except OSError as fault:
        if fault.errno == errno.ELOOP:
            return f"{name} is a link that leads back to itself"
        if fault.errno == errno.ENAMETOOLONG:
            return f"{name} is too long: a name has at most 255 bytes between two slashes, and 4095 in all"
    return None


def no_folder(name: str) -> str:
    """Why the folder in which a name leads to a file is not there."""
    folder = os.path.dirname(os.path.realpath(name))
    which = folder_of(os.readlink(name)) if os.path.islink(name) else folder_of(name)
    begin = f"{name} is a link to {os.readlink(name)}, and " if os.path.islink(name) else ""
    return f"{begin}{which} is not a folder" if os.path.exists(folder) else f"{begin}there is no folder {which}"


def why_missing(name: str) -> Iterator[str]:
    """Yields why nothing stands under a name."""
    folder, last = folder_of(name), os.path.basename(name)
    unnamed = why_not_named(name)
    if not name:
        yield "the name is empty"
    elif unnamed:
        yield unnamed
    elif os.path.islink(name):
        yield f"{name} is a link to {os.readlink(name)}, which is not there"
    elif not os.path.isdir(folder):
        yield no_folder(name)
    elif not os.access(folder, os.R_OK | os.X_OK):
        yield f"you may not look into the folder {folder}"
    elif name == "-":
        yield "- is an ordinary name; /dev/stdin is standard input"
    else:
        others = [it for it in os.listdir(folder) if os.path.isfile(os.path.join(folder, it))]
        near = difflib.get_close_matches(last, others[:MOST_NAMES], 3, 0.6)
        if near:
            yield f"{'the folder' if folder == '.' else folder} has {', '.join(near)}"


def why_unread(name: str, most: int) -> Iterator[str]:
    """Yields why a file can't be read, or not in full; most: how many bytes are read."""
    if not os.path.exists(name):
        yield from why_missing(name)
    elif os.path.isdir(name):
        yield f"{name} is a folder"
    elif not os.access(name, os.R_OK):
        yield f"you may not read {name}"
    elif os.path.isfile(name) and os.path.getsize(name) > most:
        yield f"{name} has {os.path.getsize(name)} bytes, and at most {most} are read"
    elif not os.path.isfile(name):
        yield f"{name} is not an ordinary file, and gave more than {most} bytes or could not be read"


def surely_unwritten(name: str) -> str | None:
    """Why a file can't be written, whatever its disk has left. A new file of its folder takes its place, so the folder must take one."""
    real = os.path.realpath(name)
    folder = os.path.dirname(real)
    is_there = os.path.exists(real)
    if not name:
        return "the name is empty"
    if os.path.isdir(real):
        return f"{name} is a folder"
    if why_not_named(name):
        return why_not_named(name)
    if not os.path.isdir(folder):
        return no_folder(name)
    if is_there and not os.access(real, os.W_OK):
        return f"{name} is protected: you may not write it"
    if is_there and not stat.S_ISREG(os.stat(real).st_mode):
        return None
    if not os.access(folder, os.W_OK | os.X_OK):
        behind = ", and a new one takes the place of the one that is there when it is whole" if is_there else ""
        return f"no file can be made in {folder_of(name)}{behind}"
    return None


def why_unwritten(name: str) -> Iterator[str]:
    """Yields why a file can't be written."""
    real = os.path.realpath(name)
    sure = surely_unwritten(name)
    if sure:
        yield sure
    elif os.path.exists(real) and not os.path.isfile(real):
        yield f"{name} is not an ordinary file, and takes no more bytes"
    else:
        yield room(os.path.dirname(real), folder_of(name))
    if name and os.path.isfile(real):
        yield f"{name} is as it was"


def room(folder: str, name: str) -> str:
    """How much may be written in a folder, in words."""
    space, limit = os.statvfs(folder), resource.getrlimit(resource.RLIMIT_FSIZE)[0]
    if not space.f_blocks:
        return f"no file can be made in {name}"
    if limit != resource.RLIM_INFINITY:
        return f"a file may have {limit} bytes, by a limit of the shell (ulimit -f)"
    if not space.f_favail:
        return f"the disk of {name} has no room for another file"
    return f"the disk of {name} has {space.f_bavail * space.f_frsize} bytes left"


def is_newer(name: str, start: float) -> bool:
    """Whether a file was written since a time; times of files are those of the last tick."""
    try:
        return os.path.isfile(name) and os.stat(name).st_mtime >= start - 0.02
    except OSError:
        return False


def wrong_writes(line: Line, start: float) -> Iterator[str]:
    """Yields why an output, an information or a trace can't be written by a command that began at a time."""
    out, info = line.value("--out") or "", line.value("--info") if line.mode == "instrument" else None
    if info is not None and is_newer(out, start):
        yield from why_unwritten(info)
        yield f"{out} was written, but its information was not"
    elif info is not None and surely_unwritten(info) and not surely_unwritten(out):
        yield from why_unwritten(info)
        if os.path.isfile(out):
            yield f"{out} is as it was"
    else:
        yield from why_unwritten(out)


def wrong_files(line: Line) -> Iterator[str]:
    """Yields why files of a command are missing or can't be read."""
    few = 16777216 if line.mode in ("instrument", "taint") else 268435456
    read = {"--info": 268435456, "--script": 16777216} if line.mode != "instrument" else {}
    taken = [it.name for it in table.taken(line.mode)]
    inputs = [(line.subject, few)] + [(line.value(it), most) for it, most in read.items() if it in taken]
    for name, most in inputs:
        found = [] if name is None else list(why_unread(name, most))
        if found or (name is not None and not os.path.exists(name)):
            yield from found
            return
