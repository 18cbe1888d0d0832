"""The words of a command as the program reads them, and what is wrong with them.

Whatever is told here of words, the program refuses them too: so a command can be refused before there is a program.
"""
from __future__ import annotations

import difflib
import re
from typing import Callable, Iterable, Iterator, Sequence

from front import table

LONGEST, MOST_SENTENCES = 300, 8
MODES = [it.name for it in table.MODES]
SCRIPT_WORDS = ("--help", "--version", "--compile", "--prove", "--build", "--complete")
# Words that are meant as a request of the script.
MEANT = {"version": "--version", "-v": "--version", "-version": "--version", "-help": "--help", "-?": "--help", "/?": "--help"}


class Line:
    """The words of a command: names, and options with the values that they were given."""

    def __init__(self, words: Sequence[str]) -> None:
        self.words = list(words)
        self.names: list[str] = []
        self.options: list[tuple[str, str | None]] = []
        self.short: list[str] = []
        left = list(words)
        while left:
            word = left.pop(0)
            if word == "--":
                self.names += left
                break
            if word == "--in-place":
                self.options.append((word, None))
            elif word.startswith("--") and "=" in word:
                name, _, value = word.partition("=")
                self.options.append((name, value))
            elif word.startswith("--"):
                has_value = bool(left) and (left[0] == "-" or not left[0].startswith("-"))
                self.options.append((word, left.pop(0) if has_value else None))
            elif word.startswith("-") and word != "-":
                self.short.append(word)
            else:
                self.names.append(word)
        self.mode = self.names[0] if self.names else ""
        self.subject = self.names[1] if len(self.names) > 1 else None

    def value(self, option: str) -> str | None:
        return dict(self.options).get(option)

    def has(self, option: str) -> bool:
        return any(it == option for it, _ in self.options)


def nearest(word: str, known: Iterable[str], what: str = "") -> str:
    """What is known and nearest to a word, or all that is known, as the end of a sentence."""
    known = list(known)
    by_case = [it for it in known if it.lower() == word.lower()]
    found = by_case or difflib.get_close_matches(word, known, 1, 0.6) or [it for it in known if word and it.startswith(word)]
    if found:
        return f"; the nearest is {what}{found[0]}"
    return "; there are " + ", ".join(known) if len(known) < 30 else ""


def misspelt(option: str, value: str, item: str, known: Iterable[str]) -> list[str]:
    """What is wrong with how a list is written, if an item of the list is not known: one sentence, or none."""
    if not value:
        return [f"the list of {option} is empty"]
    if not item:
        return [f"the list of {option} has nothing before or behind a comma"]
    if item.strip() in known:
        return [f"the list of {option} has a space beside {item.strip()}; commas alone stand between"]
    return []


def wrong_items(option: str, value: str, known: Sequence[str], what: str) -> Iterator[str]:
    for item in dict.fromkeys(value.split(",")):
        if item not in known:
            yield from misspelt(option, value, item, known) or [f"there is no {what} {item}{nearest(item, known)}"]
        elif item in ("all", "none") and "," in value:
            yield f"{item} must be alone in a list"


def wrong_groups(option: table.Option, value: str) -> Iterator[str]:
    return wrong_items(option.name, value, ["all", "none", *(it.name for it in table.GROUPS)], "group of hooks")


def wrong_kinds(option: table.Option, value: str) -> Iterator[str]:
    return wrong_items(option.name, value, ["all", *(it.name for it in table.KINDS)], "kind of report")


def wrong_choice(option: table.Option, value: str) -> Iterator[str]:
    choices = option.value.split("|")
    if value not in choices:
        yield f"{option.name} takes {' or '.join(choices)}, and not {value or 'an empty text'}"


def wrong_number(option: table.Option, value: str) -> Iterator[str]:
    if not (re.fullmatch(r"\+?[0-9]+", value) and 1 <= int(value[-20:]) <= option.most and not value[:-20].strip("+0")):
        yield f"{option.name} takes a number from 1 to {option.most} in digits, and not {value or 'an empty text'}"


def wrong_pieces(option: table.Option, value: str) -> Iterator[str]:
    """What is wrong with a list of functions, whose pieces are indices, ranges of them, and names, perhaps with a * at the end."""
    for item in dict.fromkeys(value.split(",")):
        bounds = re.fullmatch(r"([0-9]+)(?:-([0-9]+))?", item)
        if not item:
            yield from misspelt(option.name, value, item, ())
        elif bounds and max(int(it) for it in bounds.groups("0")) >= 1 << 32:
            yield f"{item}: an index is below 2^32"
        elif bounds and int(bounds[1]) > int(bounds[2] or bounds[1]):
            yield f"{item}: a range begins with its lower index"


# What an option takes: what is wrong with a value of this form. A form with | is a choice of words; another that is not here is any text.
FORMS: dict[str, Callable[[table.Option, str], Iterator[str]]] = {
    "GROUPS": wrong_groups, "KINDS": wrong_kinds, "BYTES": wrong_number, "NUMBER": wrong_number, "FUNCTIONS": wrong_pieces,
}


def wrong_value(option: table.Option, value: str) -> Iterator[str]:
    check = wrong_choice if "|" in option.value else FORMS.get(option.value)
    if check:
        yield from check(option, value)


def wrong_short(line: Line, word: str) -> str:
    """What is wrong with a word that begins with one hyphen."""
    options = [it.name for it in table.OPTIONS]
    if word in ("-h", "-V"):
        return f"{word} must be alone, or -h after a mode"
    if word in MEANT:
        return f"there is no option {word}; there is {MEANT[word]}"
    if re.fullmatch(r"-[0-9]+", word):
        before = line.words[line.words.index(word) - 1] if line.words.index(word) else ""
        taker = table.option(before)
        if taker and taker.most:
            return f"{before} takes a number from 1 to {taker.most} in digits, and not {word}"
        if before == "trial":
            return f"trial takes a number below 2^64 in digits alone, and not {word}"
    if "-" + word.partition("=")[0] in options:
        return f"options begin with two hyphens: -{word}"
    near = [it for it in options if it.startswith("-" + word)]
    which = "there is " + " and ".join(near) if near else "write -- before a name that begins with a hyphen"
    return f"there are no short options such as {word}; {which}"


def wrong_option(name: str, value: str | None) -> Iterator[str]:
    """What is wrong with an option that is given for the first time."""
    known = table.option(name)
    if name in SCRIPT_WORDS:
        yield f"{name} must be alone" + (", or --help after a mode" if name == "--help" else "")
    elif known is None:
        yield f"there is no option {name}{nearest(name, [it.name for it in table.OPTIONS])}"
    elif not known.value:
        if value is not None:
            yield f"{name} takes no value"
    elif value is None:
        yield f"{name} has no value; write a value that begins with a hyphen as {name}=VALUE"
    else:
        yield from wrong_value(known, value)


def wrong_options(line: Line) -> Iterator[str]:
    numbers = set()
    for word in line.short:
        numbers.add(word)
        yield wrong_short(line, word)
    seen: set[str] = set()
    for name, value in line.options:
        if name in seen:
            yield f"{name} is given twice"
        elif not (value is None and any(it in numbers for it in behind(line.words, name))):
            yield from wrong_option(name, value)
        seen.add(name)


def behind(words: Sequence[str], name: str) -> Sequence[str]:
    """The word behind an option, if that is told of as its value: a number with a minus."""
    at = words.index(name) if name in words else len(words)
    option = table.option(name)
    return [it for it in words[at + 1:at + 2] if option and option.most and re.fullmatch("-[0-9]+", it)]


def wrong_mode(line: Line) -> Iterator[str]:
    """What is wrong with the first word that is no option; nothing if it is a mode."""
    if not line.names:
        yield "the mode is missing; there are " + ", ".join(MODES)
    elif line.mode == "help" and len(line.names) == 2 and line.subject not in MODES:
        yield f"there is no mode {line.subject}{nearest(str(line.subject), MODES)}"
    elif line.mode in MEANT:
        yield f"there is no mode {line.mode}; there is {MEANT[line.mode]}"
    elif line.mode not in MODES:
        yield f"there is no mode {line.mode or 'of an empty name'}{nearest(line.mode, MODES)}"


def is_trial_number(text: str) -> bool:
    """Whether it is what trial takes: digits alone, below 2^64."""
    return bool(re.fullmatch("[0-9]+", text)) and len(text.lstrip("0")) < 21 and int(text) < 1 << 64


def wrong_names(line: Line, mode: table.Mode) -> Iterator[str]:
    """What is wrong with the words behind a mode, and with its options as a whole."""
    subject = mode.subject.lower()
    if line.subject is None:
        if not (mode.name == "trial" and line.short):
            yield f"the {subject} of {mode.name} is missing"
    elif len(line.names) > 2:
        yield f"a mode takes one {subject}, and there are {len(line.names) - 1}: {' '.join(line.names[1:])}"
    elif mode.name == "trial" and not is_trial_number(line.subject):
        yield f"trial takes a number below 2^64 in digits alone, and not {line.subject or 'an empty text'}"
    missing = [it.name for it in table.needed(mode.name) if not line.has(it.name)]
    if missing:
        yield f"{mode.name} needs {' and '.join(missing)}"
    out = line.value("--out")
    if mode.name == "instrument" and out is not None and out == line.value("--info"):
        yield f"--out and --info have the same name, {out}"


def unread_words(line: Line) -> Iterator[str]:
    """Which words are not UTF-8."""
    for at, word in enumerate(line.words, 1):
        try:
            word.encode("utf-8")
        except UnicodeEncodeError:
            yield f"the word {at} of the command is not UTF-8: {shown(word)}"


def wrong_words(line: Line) -> Iterator[str]:
    """What is wrong with the words of a command, a sentence each; of very many the first."""
    sentences = list(unread_words(line)) or list(all_wrong(line))
    yield from sentences[:MOST_SENTENCES]
    if len(sentences) > MOST_SENTENCES:
        yield f"and {len(sentences) - MOST_SENTENCES} more are wrong"


def all_wrong(line: Line) -> Iterator[str]:
    yield from wrong_options(line)
    mode = table.mode(line.mode)
    yield from wrong_names(line, mode) if mode else wrong_mode(line)


def shown(text: str) -> str:
    """A text on one line of a terminal: what can't be printed is left out, and so is the middle of a long one."""
    text = "".join(it if it.isprintable() else "?" for it in text)
    half = LONGEST // 2
    return text if len(text) <= 2 * LONGEST else f"{text[:half]} .. {text[-half:]}"
