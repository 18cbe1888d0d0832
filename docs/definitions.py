#!/usr/bin/env python3
"""Writes the lists of docs/DEFINITIONS.md again: the definitions that the clause `written` of `run_app` reaches, by file, the types
of the code that they speak of, and the names of std and the kit's crates. The texts, the groups, the order of files and the sections
of the standard stay as they are. A new file goes after the last one of its crate; its first comment says what it has.

    docs/definitions.py            writes the lists
    docs/definitions.py --check    ends with 1 if the page is not what it would write
    docs/definitions.py --modes    prints what the plan of each mode reaches in addition, and then all that `run_app` does
    docs/definitions.py --others   prints the definitions that no clause of `run_app` reaches

A definition counts if it is in specs/ and public. What is private there, and what std and the kit's crates define further below, is
not counted.
"""
from __future__ import annotations

import pathlib
import re
import sys
import textwrap
from collections.abc import Iterable, Iterator
from dataclasses import dataclass, field

TOP = pathlib.Path(__file__).resolve().parent.parent
PAGE = TOP / "docs" / "DEFINITIONS.md"
MODES = ["instrument", "check", "run", "report", "record", "replay", "tree", "trial", "taint"]
START = re.compile(
    r"^(?:(?:abbrev|unfoldable|syntax) )?pub (?:(?:record|data|abbrev) )?([^\s:({]+)|^(?:abbrev|unfoldable) (?:pub )?([^\s:({]+)"
)
# An entry of the page: a file and where it is, its sections of the standard, what it has, and beneath that its definitions.
ENTRY = re.compile(
    r"^- \[`(\w+)/([\w/]+)`\]\([^)]*\)(?: \(([^()]*)\))?: (.*(?:\n  (?!- ).*)*)\n  - .*(?:\n    .*)*", re.M
)
KEY = re.compile(r"- (\w+)/([\w/]+)$")
TOKEN = re.compile(r"[^\s(){};,.λ\[\]∷]+")
IMPORT = re.compile(r"^\s*(?:ghost |(?:unfoldable )?pub )?use Rattle\.(\w+)\.specs\.([\w.]+?)\.\{([^}]*)\}", re.M)
ALIAS = re.compile(r"^\s*(?:ghost )?use Rattle\.(\w+)\.specs\.([\w.]+) as (\w+)", re.M)
DECLARED = re.compile(r"declared\.(?:[\w.]*\.)?(\w+)$")
CODE, KIT = "## Types of the code", "## Names of the kit"

# A crate, a file below its specs/, and a name there.
Key = tuple[str, str, str]


@dataclass
class Scope:
    """What a file imports: names, by what they are called there, and files by their other names."""

    names: dict[str, Key] = field(default_factory=dict)
    aliases: dict[str, tuple[str, str]] = field(default_factory=dict)


def file_of(crate: str, file: str) -> pathlib.Path:
    return TOP / "crates" / crate / "specs" / (file.replace(".", "/") + ".antt")


def scope_of(text: str) -> Scope:
    scope = Scope()
    for crate, file, items in IMPORT.findall(text):
        for item in filter(None, map(str.strip, items.split(","))):
            parts = item.split()
            place, name = file, parts[0]
            is_own = (TOP / "crates" / crate).exists()
            if is_own and not file_of(crate, file).exists() and not DECLARED.search(file):  # a constructor stands for its type
                place, _, name = file.rpartition(".")
            scope.names[parts[-1]] = (crate, place, name)
    scope.aliases = {name: (crate, file) for crate, file, name in ALIAS.findall(text)}
    return scope


def parse(text: str) -> dict[str, str]:
    """The definitions of a file, each with its text."""
    found: dict[str, list[str]] = {}
    current = ""
    for line in text.split("\n"):
        match = START.match(line)
        if match and not re.match(r"(unfoldable )?pub (mod|use) ", line):
            current = match[1] or match[2]
            found.setdefault(current, [])
        elif re.match(r"^(((unfoldable )?pub )?use |--)", line):
            continue
        if current:
            found[current].append(re.split(r"(?:^|\s)-- ", line)[0])
    return {name: "\n".join(lines) for name, lines in found.items()}


class Sources:
    """The definitions of all crates, and what each of them reaches."""

    def __init__(self) -> None:
        self.texts: dict[Key, str] = {}
        self.scopes: dict[tuple[str, str], Scope] = {}
        self.heads: dict[tuple[str, str], str] = {}
        self.private: set[Key] = set()
        self.crates = {path.name for path in (TOP / "crates").iterdir()}
        for crate in sorted(self.crates):
            folder = TOP / "crates" / crate / "specs"
            for path in sorted(folder.rglob("*.antt"), key=lambda it: (str(it.parent), it.name)):
                if path.name != "Lib.antt":
                    self.add(crate, ".".join(path.relative_to(folder).with_suffix("").parts), path.read_text("utf-8"))

    def add(self, crate: str, file: str, text: str) -> None:
        self.scopes[crate, file] = scope_of(text)
        head = re.match(r"((?:--.*\n)+)", text)
        self.heads[crate, file] = head[1] if head else ""
        for name, body in parse(text).items():
            self.texts[crate, file, name] = body
            if not re.match(r"(\w+ )?pub ", body):
                self.private.add((crate, file, name))

    def defined(self, key: Key) -> Key:
        """The place of the definition of a name that a file has, or passes on."""
        while key not in self.texts and key[2] in self.scopes.get(key[:2], Scope()).names:
            key = self.scopes[key[:2]].names[key[2]]
        return key

    def named_in(self, crate: str, file: str, body: str, scope: Scope) -> Iterator[Key]:
        """The definitions, types and outside names that a text names."""
        tokens = set(TOKEN.findall(body))
        for token in tokens:
            if (crate, file, token) in self.texts:
                yield crate, file, token
            elif token in scope.names:
                yield self.defined(scope.names[token])
        for name, key in scope.names.items():
            if "◌" in name and all(part in tokens for part in name.split("◌") if part):  # an operator
                yield self.defined(key)
        for alias, name in re.findall(r"\b(\w+)\.(\w+)", body):
            if alias in scope.aliases:
                yield self.defined((*scope.aliases[alias], name))

    def closure(self, start: Iterable[Key]) -> set[Key]:
        """What these reach, and they: definitions, and where the way ends at types of the code and names of the kit."""
        todo, reached = list(start), set()
        while todo:
            key = todo.pop()
            if key not in reached:
                reached.add(key)
                if key in self.texts:
                    todo += self.named_in(*key[:2], self.texts[key], self.scopes[key[:2]])
        return reached - self.private

    def shown(self, keys: set[Key]) -> list[Key]:
        return [key for key in self.texts if key in keys and key not in self.private]

    def types(self, keys: set[Key]) -> dict[str, list[str]]:
        """The types of the code among these, by crate."""
        found = {(crate, match[1]) for crate, file, _ in keys - self.texts.keys() if crate in self.crates
                 for match in [DECLARED.search(file.removesuffix(".TheVariants"))] if match}
        return by_first(found)

    def kit(self, keys: set[Key]) -> dict[str, list[str]]:
        """The names of std and of the kit's crates among these, by library. A variant stands for its type."""
        found = set()
        for crate, file, name in keys:
            if crate not in self.crates:
                match = DECLARED.search(file.removesuffix(".TheVariants"))
                found.add((crate, match[1] if match else name))
        return by_first(found)

    def clauses(self) -> tuple[str, str, Scope]:
        """The clause `written` of `run_app`, all of its clauses, and what they import."""
        app = (TOP / "crates/wasabi_app/src/app.rt").read_text("utf-8")
        clauses = app[app.index("pub fn run_app"):]
        clauses = clauses[:clauses.index("\n{")]
        written = next(it for it in re.split(r"\n    (?=ensures|requires)", clauses) if it.startswith("ensures written"))
        return written, clauses, scope_of(app)

    def headline(self) -> set[Key]:
        written, _, scope = self.clauses()
        return self.closure(self.named_in("", "", written, scope))

    def whole(self) -> set[Key]:
        _, clauses, scope = self.clauses()
        return self.closure(self.named_in("", "", clauses, scope))

    def parts(self) -> Iterator[tuple[str, set[Key]]]:
        """What the plan of each mode reaches beside the headline and the modes before it, and then the rest that `run_app` reaches."""
        whole, seen = self.whole(), self.headline()
        for mode in MODES:
            keys = self.closure(key for key in self.texts if key[:2] == ("wasabi_app", "Modes." + mode.capitalize()))
            yield f"`{mode}`", keys & whole - seen
            seen |= keys
        yield "How a command ends, whatever its mode", whole - seen


def by_first(pairs: Iterable[tuple[str, str]]) -> dict[str, list[str]]:
    found: dict[str, list[str]] = {}
    for first, second in sorted(pairs, key=lambda it: (it[0] != "std", it[0], it[1].lower(), it[1])):
        found.setdefault(first, []).append(second)
    return found


def filled(text: str, indent: str) -> str:
    return textwrap.fill(text, 126, subsequent_indent=indent, break_on_hyphens=False, break_long_words=False)


def quoted(names: Iterable[str]) -> str:
    return ", ".join(f"`{name}`" for name in names)


class Page:
    """The page: what it says of each file, and in which order the files are."""

    def __init__(self, sources: Sources) -> None:
        self.sources = sources
        self.text = PAGE.read_text("utf-8")
        self.said: dict[tuple[str, str], tuple[str, str]] = {}
        for crate, file, section, what, in ENTRY.findall(self.text):
            self.said.setdefault((crate, file.replace("/", ".")), (" ".join(what.split()), section))

    def head(self, crate: str, file: str) -> str:
        words = re.sub(r"\s*\n?-- ?", " ", self.sources.heads[crate, file]).strip()
        words = re.split(r"(?<=[a-z0-9])\. ", words)[0].rstrip(".")
        return words[:1].lower() + words[1:]

    def entry(self, crate: str, file: str, keys: set[Key], is_link: bool = True) -> str | None:
        names = [name for c, f, name in self.sources.shown(keys) if (c, f) == (crate, file)]
        what, section = self.said.get((crate, file)) or (self.head(crate, file), "")
        path = file.replace(".", "/")
        head = f"`{crate}/{path}`"
        if is_link:
            head = f"[{head}](../crates/{crate}/specs/{path}.antt)"
        text = filled(f"- {head}{section and f' ({section})'}: {what}", "  ")
        return f"{text}\n{filled('  - ' + quoted(names), '    ')}" if names else None

    def lists(self, keys: set[Key]) -> list[str]:
        files = dict.fromkeys(key[:2] for key in self.sources.shown(keys))
        return [it for it in (self.entry(*file, keys, False) for file in files) if it]

    def written(self) -> str:
        """The page with its lists written again."""
        keys = self.sources.headline()
        own, types, kit = self.sources.shown(keys), self.sources.types(keys), self.sources.kit(keys)
        text = re.sub(r"(?<=\n)- \[`(\w+)/([\w/]+)`\]\(.*(?:\n  .*)*", r"- \1/\2", self.text)
        before, _, behind = text.partition(f"\n{CODE}\n")
        lines = before.split("\n")
        stand = [KEY.match(line) for line in lines]
        listed = {(match[1], match[2].replace("/", ".")) for match in stand if match}
        for crate, file in dict.fromkeys(key[:2] for key in own):
            if (crate, file) not in listed:
                last = max((at for at, match in enumerate(stand) if match and match[1] == crate), default=None)
                last = last or max(at for at, match in enumerate(stand) if match)
                lines[last] += f"\n- {crate}/{file.replace('.', '/')}"
        lines = "\n".join(lines).split("\n")
        entries = [(line, KEY.match(line)) for line in lines]
        whole = [self.entry(m[1], m[2].replace("/", "."), keys) if m else line for line, m in entries]
        text = "\n".join(it for it in whole if it is not None)
        counts = {"definitions": len(own), "types": sum(map(len, types.values())), "names": sum(map(len, kit.values()))}
        sections = [listing(CODE, behind_heading(CODE, self.text), types, "../crates/"), listing(KIT, behind_heading(KIT, self.text), kit, "")]
        text = "\n".join([text, *sections])
        for what, count in counts.items():
            text = re.sub(rf"\*\*\d+ {what}\*\*", f"**{count} {what}**", text)
        return text


def behind_heading(heading: str, text: str) -> str:
    """What a section says in front of its list."""
    return text.partition(f"\n{heading}\n\n")[2].partition("\n\n- ")[0]


def listing(heading: str, words: str, names: dict[str, list[str]], folder: str) -> str:
    heads = {it: f"[`{it}`]({folder}{it})" if folder else f"`{it}`" for it in names}
    return f"{heading}\n\n{words}\n\n" + "".join(filled(f"- {heads[it]}: {quoted(of)}", "  ") + "\n" for it, of in names.items())


def main() -> int:
    sources = Sources()
    page = Page(sources)
    words = sys.argv[1:]
    if words == ["--modes"]:
        for title, keys in sources.parts():
            print(f"{title}: {len(sources.shown(keys))} definitions\n")
            print("\n".join(page.lists(keys)) + "\n")
        print(f"run_app: {len(sources.shown(sources.whole()))} definitions")
    elif words == ["--others"]:
        print("\n".join(page.lists(set(sources.texts) - sources.whole() - sources.private)))
    elif words == ["--check"]:
        if page.written() != page.text:
            print("docs/DEFINITIONS.md: the lists are not those of the sources; docs/definitions.py writes them")
            return 1
    else:
        text = page.written()
        PAGE.write_text(text, "utf-8")
        print(", ".join(re.findall(r"\*\*(\d+ \w+)\*\*", text)) + " by the headline")
    return 0


if __name__ == "__main__":
    sys.exit(main())
