"""Information, as instrument writes it under --info (docs/FORMATS.md): the functions of the original, their parts and their tables."""
from __future__ import annotations

import json
from dataclasses import dataclass
from pathlib import Path
from typing import Any, List, NamedTuple, Optional, Set, Tuple, Union

from wasabi_tools.faults import Fault
from wasabi_tools.inputs import read_text
from wasabi_tools.module import HOOKS, Module
from wasabi_tools.opcodes import BLOCK, ELSE, IF, LOOP

KINDS = ("function", "block", "loop", "if", "else")
PARTS = {"block": BLOCK, "loop": LOOP, "if": IF, "else": ELSE}
KEYS = {"dropped", "functions", "groups", "hooks", "imports", "version"}


class Part(NamedTuple):
    """A part of a body: its kind, the positions where it begins and ends, and the one that a branch to its label leads to."""

    kind: str
    begin: int
    end: int
    target: int


@dataclass(frozen=True)
class FunctionFacts:
    params: str
    results: str
    parts: Optional[List[Part]]  # None: it is imported
    tables: List[Tuple[int, List[int]]]


@dataclass(frozen=True)
class Information:
    dropped: List[str]
    functions: List[FunctionFacts]
    groups: List[str]
    hooks: List[str]
    imports: int
    what: str

    @classmethod
    def read(cls, path: Union[str, Path]) -> Information:
        return cls.parse(read_text(path), str(path))

    @classmethod
    def parse(cls, text: str, what: str) -> Information:
        try:
            value = json.loads(text)
            if set(value) != KEYS:
                raise ValueError
            return cls(value["dropped"], [facts_of(it) for it in value["functions"]], value["groups"], value["hooks"],
                       int(value["imports"]), what)
        except (ValueError, KeyError, TypeError, IndexError, RecursionError):
            raise Fault(f"{what} is not what wasabi instrument writes under --info") from None

    def need_groups(self, groups: Set[str]) -> None:
        """Raises a Fault if the output lacks hooks of some groups."""
        if not groups <= set(self.groups):
            raise Fault("the output lacks hooks of some groups: instrument the module with --hooks " + ",".join(sorted(groups)))

    def check_original(self, module: Module) -> None:
        """Raises a Fault if a module is not that on which this informs."""
        if not self._is_of(module):
            raise Fault(f"{self.what}, the information, is not of {module.what}, which must be the original")

    def _is_of(self, module: Module) -> bool:
        if module.has_hooks() or len(module.imports) != self.imports or len(self.functions) != len(module.functions):
            return False
        for func, facts in enumerate(self.functions):
            if module.functions[func] != (facts.params, facts.results):
                return False
            if facts.parts is not None:
                body = module.body(func)
                if any(it.kind != "function" and not (it.begin < len(body) and body[it.begin].opcode == PARTS[it.kind]) for it in facts.parts):
                    return False
        return True

    def check_output(self, output: Module) -> None:
        """Raises a Fault if a module is not an output of this information, as far as its imports and types tell."""
        own = [it for it in output.imports if it.module != HOOKS]
        types = [(it.params, it.results) for it in self.functions]
        hooks = len(output.hooks)
        kept = output.functions[:len(own)] + output.functions[len(own) + hooks:]
        if len(own) != self.imports or output.hooks != self.hooks or kept != types:
            raise Fault(f"{self.what}, the information, is not of {output.what}, which must be the output of the same command")


def facts_of(value: List[Any]) -> FunctionFacts:
    """One function of the list functions."""
    params, results, *rest = value
    if not rest:
        return FunctionFacts(params, results, None, [])
    parts, tables = rest
    return FunctionFacts(params, results, [Part(KINDS[kind], begin, end, target) for kind, begin, end, target in parts],
                         [(position, list(labels)) for position, labels in tables])
