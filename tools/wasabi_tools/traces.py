"""Traces, as record and the recorder of js/ write them (docs/FORMATS.md), read as a stream: memory does not grow with their events.

    for event in Trace("b.trace").events():
        event.name, event.func, event.position, event.fields

An event's bytes are found by one pattern, made from the table below, and each distinct event is decoded once as long as it is kept.
"""
from __future__ import annotations

import os
import re
from collections import Counter
from functools import lru_cache
from pathlib import Path
from typing import BinaryIO, Counter as CounterOf, Dict, FrozenSet, Iterator, List, NamedTuple, Optional, Pattern, Set, Tuple, Union

from wasabi_tools.binary import leb, unsigned
from wasabi_tools.faults import Fault
from wasabi_tools.information import KINDS
from wasabi_tools.inputs import Progress
from wasabi_tools.opcodes import NAMES

MAGIC = b"WTR1"
CHUNK = 1 << 18
LONGEST = 1 << 15  # more bytes than an event has
MOST_KEPT = 1 << 16  # distinct events that are kept decoded
SHORT_LISTS = frozenset(range(9))  # how many values the lists have that the pattern knows from the begin

Value = Union[int, str, None, List[int]]

# By its tag from 1 on, the name of an event, and its fields, each with the letter that says how it is read: u an unsigned number, s a
# signed one, k a kind, v a value, w a list of values, o an operation, a an access, f a function or none.
TABLE = [line.split() for line in """
start
nop
unreachable
if condition:u
br label:u target:s
br_if label:u target:s condition:u
br_table index:u label:u target:s
begin kind:k
end kind:k begin:s
const value:v
unary op:o operand:v result:v
binary op:o first:v second:v result:v
drop value:v
select first:v second:v condition:u
local op:a index:u value:v
global op:a index:u value:v
load op:o offset:u address:u value:v
store op:o offset:u address:u value:v
memory_size pages:u
memory_grow pages:u answer:u
call_pre callee:u args:w
call_indirect_pre type:u slot:u callee:f args:w
call_post results:w
return results:w
stray hook:u
""".strip().splitlines()]
TAGS = {name: tag for tag, (name, *_) in enumerate(TABLE, 1)}
NO_FIELDS: List[List[str]] = []
FIELDS = [NO_FIELDS] + [[it.split(":") for it in fields] for _, *fields in TABLE]
ACCESSES = ("get", "set", "tee")
CALLS = {"call_pre", "call_indirect_pre"}
LISTING = {TAGS[it] for it in (*CALLS, "call_post", "return")}

NUMBER = rb"[\x80-\xff]*[\x00-\x7f]"
VALUE = rb"[\x7e\x7f]" + NUMBER
PATTERNS = {
    "u": NUMBER, "s": NUMBER, "k": rb"[\x00-\x04]", "v": VALUE, "o": rb"[\x00-\xff]", "a": rb"[\x00-\x02]",
    "f": rb"(?:\x00|\x01" + NUMBER + rb")",
}


def head(tag: int, name: str, fields: List[str]) -> bytes:
    """What matches an event up to its list, if it has one."""
    place = b"" if name == "stray" else NUMBER * 2
    return re.escape(bytes([tag])) + place + b"".join(PATTERNS[it[-1]] for it in fields if it[-1] != "w")


@lru_cache(maxsize=None)
def pattern(lengths: FrozenSet[int]) -> Pattern[bytes]:
    """What matches the bytes of one event, whose list has one of some lengths; or else one byte."""
    heads = {name: (head(tag, name, fields), fields[-1:] and fields[-1][-1] == "w") for tag, (name, *fields) in enumerate(TABLE, 1)}
    commonest = "local const binary load store br_if begin end".split()
    plain = [heads[name][0] for name in commonest] + [it for name, (it, is_list) in heads.items() if not is_list and name not in commonest]
    listing = b"|".join(it for it, is_list in heads.values() if is_list)
    lists = b"|".join(re.escape(unsigned(count)) + VALUE * count for count in sorted(lengths))
    return re.compile(b"|".join(plain) + b"|(?:" + listing + b")(?:" + lists + b")|.", re.S)


class Event(NamedTuple):
    name: str
    func: Optional[int]  # None: a stray call of a hook, which has no place
    position: Optional[int]
    fields: Dict[str, Value]

    @property
    def is_function(self) -> bool:
        """Whether it is the begin or the end of a whole function."""
        return self.fields.get("kind") == "function"


def read_field(letter: str, data: bytes, at: int) -> Tuple[Value, int]:
    """A field at a place, and the place behind it."""
    if letter == "u" or letter == "s":
        return leb(data, at, letter == "s")
    if letter == "v":
        return leb(data, at + 1, True)  # behind 7F or 7E, which the value shows by itself
    if letter == "w":
        count, at = leb(data, at)
        values = []
        for _ in range(count):
            value, at = leb(data, at + 1, True)
            values.append(value)
        return values, at
    byte = data[at]
    if letter == "f":
        return leb(data, at + 1) if byte else (None, at + 1)
    return KINDS[byte] if letter == "k" else ACCESSES[byte] if letter == "a" else NAMES[byte], at + 1


def read_event(data: bytes) -> Event:
    """The event at the front of some bytes; LookupError if none stands there as a whole."""
    tag, at = data[0], 1
    name, func, position = TABLE[tag - 1][0] if tag else "", None, None
    if name != "stray":
        func, at = leb(data, at)
        position, at = leb(data, at, True)
    fields: Dict[str, Value] = {}
    for field, letter in FIELDS[tag]:
        fields[field], at = read_field(letter, data, at)
    if name in ("local", "global"):
        fields["op"] = f"{name}.{fields['op']}"
    return Event(name, func, position, fields)


def list_lengths(data: bytes) -> Set[int]:
    """The length of the list of the event at the front of some bytes, if a whole event with a list stands there."""
    if data[:1] and data[0] in LISTING:
        try:
            event = read_event(data)
        except LookupError:
            return set()
        listed = event.fields["args" if event.name in CALLS else "results"]
        return {len(listed)} if isinstance(listed, list) else set()
    return set()


class Trace:
    """The events of the trace under a name, from the front; it may be gone through several times."""

    def __init__(self, path: Union[str, Path]) -> None:
        self.path = Path(path)
        self._kept: Dict[bytes, Event] = {}
        self._lengths = SHORT_LISTS

    def fault(self, sentence: str) -> Fault:
        return Fault(f"{self.path} {sentence}")

    def open(self) -> BinaryIO:
        try:
            file = open(self.path, "rb")
        except OSError as fault:
            raise self.fault(f"can't be read: {(fault.strerror or str(fault)).lower()}") from None
        if file.read(len(MAGIC)) != MAGIC:
            file.close()
            raise self.fault("is no trace: it must be what wasabi record writes")
        return file

    def batches(self) -> Iterator[List[bytes]]:
        """The bytes of the events, some thousands at once."""
        count, left, is_last = 0, b"", False
        progress = Progress(f"reading {self.path}")
        with self.open() as file:
            size = os.fstat(file.fileno()).st_size
            while not is_last:
                chunk = file.read(CHUNK)
                is_last = len(chunk) < CHUNK
                found, left = self._found(left + chunk)
                count += len(found)
                if len(left) > LONGEST and not is_last:
                    break
                progress.tell(file.tell(), size)
                yield found
        progress.end()
        self._check_end(left, count)

    def _found(self, data: bytes) -> Tuple[List[bytes], bytes]:
        """The events at the front of some bytes, and what is left of these."""
        found: List[bytes] = []
        while True:
            new = pattern(self._lengths).findall(data)
            if new and min(map(len, new)) == 1:
                new = new[:next(at for at, it in enumerate(new) if len(it) == 1)]
            found += new
            data = data[sum(map(len, new)):]
            lengths = self._lengths | list_lengths(data)
            if lengths == self._lengths:
                return found, data
            self._lengths = lengths

    def _check_end(self, left: bytes, count: int) -> None:
        """Raises a Fault if what is left behind the events is not their number."""
        try:
            told, at = leb(left, 1)
        except IndexError:
            told, at = -1, 0
        if left[:1] != b"\0" or at != len(left):
            raise self.fault(f"was cut off or changed: after {count} events nothing follows that a trace has there")
        if told != count:
            raise self.fault(f"was changed: it has {count} events, and says that it has {told}")

    def _read(self, data: bytes) -> Event:
        try:
            return read_event(data)
        except LookupError:
            raise self.fault("was changed: it has an event of an operation that is none") from None

    def event_of(self, data: bytes) -> Event:
        """The event of some bytes."""
        event = self._kept.get(data)
        if event is None:
            if len(self._kept) >= MOST_KEPT:
                self._kept.clear()
            event = self._kept[data] = self._read(data)
        return event

    def events(self, names: Optional[set[str]] = None) -> Iterator[Event]:
        """The events in order, or those of some names."""
        tags = None if names is None else {TAGS[it] for it in names}
        for batch in self.batches():
            yield from map(self.event_of, batch if tags is None else [it for it in batch if it[0] in tags])

    def counted(self, names: set[str]) -> Iterator[Tuple[Event, int]]:
        """How often each distinct event of some names came, without their order: this is many times faster than events()."""
        tags = {TAGS[it] for it in names}
        counts: CounterOf[bytes] = Counter()
        for batch in self.batches():
            counts.update([it for it in batch if it[0] in tags])
        for data, count in counts.items():
            yield self._read(data), count

    def names(self) -> CounterOf[str]:
        """How often each kind of event came."""
        tags: CounterOf[int] = Counter()
        for batch in self.batches():
            tags.update([it[0] for it in batch])
        return Counter({TABLE[tag - 1][0]: count for tag, count in tags.items()})

