"""The one kind of error of this package: what is wrong with a file or with arguments, in a sentence."""
from __future__ import annotations

WRONG_ARGUMENTS = 2


class Fault(Exception):
    """What is wrong, as a sentence that names the cause and the place; status: that with which a command ends."""

    def __init__(self, sentence: str, status: int = 1) -> None:
        super().__init__(sentence)
        self.status = status
