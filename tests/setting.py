"""What a row sets up beside its files, and what must be so behind its command: links, permissions, a limit on the size of files, and
which names there are. worked.KEYS says what the keys mean.
"""
from __future__ import annotations

import os
import resource
import shutil
import tempfile
from pathlib import Path
from typing import Any, Callable, Dict, Iterator, Optional

# The folder at which another file system is mounted nearly everywhere.
ELSEWHERE = "/dev/shm"


class Setting:
    """The setting of one run of a row in a folder."""

    def __init__(self, row: Dict[str, Any], folder: str) -> None:
        self.row, self.folder = row, Path(folder)
        self.outside: Optional[str] = None

    def __enter__(self) -> Setting:
        for name, target in self.row.get("links", {}).items():
            if target == "elsewhere:":
                self.outside = target = tempfile.mkdtemp(dir=ELSEWHERE if os.path.isdir(ELSEWHERE) else None)
            os.symlink(target, self.folder / name)
        for name, mode in self.row.get("permissions", {}).items():
            (self.folder / name).chmod(int(mode, 8))
        return self

    def __exit__(self, *_: object) -> None:
        if self.outside:
            shutil.rmtree(self.outside)

    def begin(self) -> None:
        """Called in the process of the command: no file gets longer than the limit, as by ulimit -f."""
        resource.setrlimit(resource.RLIMIT_FSIZE, (self.row["limit"],) * 2)

    def started(self) -> Optional[Callable[[], None]]:
        """Returns what is called in the process of the command, or None."""
        return self.begin if "limit" in self.row else None

    def wrong(self, stderr: str) -> Iterator[str]:
        """Yields what is wrong behind the command, with what it printed on standard error."""
        for name in self.row.get("links", {}):
            if not (self.folder / name).is_symlink():
                yield f"{name} is no link"
        for name, mode in self.row.get("permissions", {}).items():
            if (self.folder / name).stat().st_mode & 0o7777 != int(mode, 8):
                yield f"{name} has other permissions"
        left = sorted(os.listdir(self.folder))
        if "left" in self.row and sorted(self.row["left"]) != left:
            yield f"the folder has {' '.join(left)}"
        if self.outside and any(it.startswith(".wasabi") for it in os.listdir(self.outside)):
            yield f"the other folder has {' '.join(os.listdir(self.outside))}"
        yield from self.wrong_errors(stderr)

    def wrong_errors(self, stderr: str) -> Iterator[str]:
        """Yields what is wrong with standard error, whose lines begin with wasabi: and are given without that."""
        said = [it[len("wasabi: "):] if it.startswith("wasabi: ") else it for it in stderr.splitlines()]
        if "stderr" in self.row and said != self.row["stderr"]:
            yield f"said {said}"
        for line in self.row.get("stderr_contains", []):
            if line not in said:
                yield f"said {said}, without {line!r}"
        if "Traceback" in stderr:
            yield f"said {said}"
