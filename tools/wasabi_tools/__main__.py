"""Runs a command of this package: python3 tools/wasabi_tools WORD ARGUMENT.. , or as the script wasabi starts it: wasabi WORD .."""
from __future__ import annotations

import importlib
import signal
import sys
from pathlib import Path
from typing import List

if not __package__:
    sys.path[0] = str(Path(__file__).resolve().parents[1])

from wasabi_tools.faults import WRONG_ARGUMENTS, Fault  # noqa: E402
from wasabi_tools.inputs import note  # noqa: E402

COMMANDS = {
    "coverage": "which lines, functions and branches ran",
    "profile": "where instructions are spent, and paths of calls",
    "memory": "which memory is used, cache misses, errors of malloc and free",
    "positions": "what stands at positions of a module",
    "json": "reports as JSON",
    "marks": "where results of imports go, by a policy of your own",
}


def main(words: List[str]) -> int:
    # what reads the output may end first, as head does
    signal.signal(signal.SIGPIPE, signal.SIG_DFL)
    try:
        if not words or words[0] not in COMMANDS:
            listed = "\n".join(f"  wasabi {name:<12}{about}" for name, about in COMMANDS.items())
            if words[:1] == ["--help"]:
                print(f"Commands that show what hooks report, each with a page of its own (--help):\n{listed}")
                return 0
            raise Fault(f"the command must be one of {', '.join(COMMANDS)}", WRONG_ARGUMENTS)
        importlib.import_module(f"wasabi_tools.command_{words[0]}").main(words[1:])
    except Fault as fault:
        note(str(fault))
        return fault.status
    except KeyboardInterrupt:
        return 128 + signal.SIGINT
    return 0


if __name__ == "__main__":
    sys.exit(main(sys.argv[1:]))
