"""Which names lead to one file, so that one of them can't be written without the other's content being lost."""
from __future__ import annotations

import os
import stat


def is_file_or_new(name: str) -> bool:
    """Whether a name leads to an ordinary file, or to nothing."""
    try:
        return stat.S_ISREG(os.stat(name).st_mode)
    except OSError:
        return True


def is_one_file(one: str, other: str) -> bool:
    """Whether two names lead to one name in one folder, behind all links. Hard links of a file are several files, since a new file takes
    the place of one name alone; and a device is none."""
    if not (is_file_or_new(one) and is_file_or_new(other)):
        return False
    paths = [os.path.realpath(it) for it in (one, other)]
    if paths[0] == paths[1]:
        return True
    try:
        is_one_name = os.path.basename(paths[0]) == os.path.basename(paths[1])
        return is_one_name and os.path.samefile(os.path.dirname(paths[0]), os.path.dirname(paths[1]))
    except OSError:
        return False
