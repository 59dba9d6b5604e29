"""Calls of the program `calls`, its answers, and the lines of sixteen hex digits that carry both; README.md has the form."""

import re
import struct
from typing import NamedTuple

BYTES = ("text", "items", "out")
BUFFERS = BYTES + ("rules", "levels", "marks", "kept")
CAPACITY = {"text": 40000, "items": 5000, "out": 33000, "rules": 14000, "levels": 300, "marks": 300, "kept": 300}
NUMBERS = 6

# The routines in the order of their numbers, each with a word for each of its successes.
SUCCESSES = {
    "read": ["book"],
    "write": ["text"],
    "write_labels": ["text"],
    "find": ["at", "absent"],
    "items_ok": ["says"],
    "rules_ok": ["says"],
    "solve": ["labelled"],
    "check": ["met", "unmet"],
    "check_array": ["met", "unmet"],
    "answer": ["text"],
    "assign": ["labelled"],
    "has_room": ["says"],
    "first_bad": ["item"],
    "label_at": ["class"],
    "rule_at": ["rule"],
    "left_join": ["class"],
    "rule_ok": ["says"],
    "strip": ["text"],
    "reader_class": ["class"],
    "kept_columns": ["kept", "more"],
    "read_name": ["name", "bad"],
    "read_count": ["count", "bad"],
    "read_class": ["class", "bad"],
    "read_key": ["key", "bad"],
    "read_field": ["comma", "line", "end", "cr", "open", "bad"],
    "put": ["next"],
    "put_count": ["next"],
    "put_class": ["next"],
    "read_row": ["whole", "more", "bad"],
    "nth_field": ["next"],
}
NUMBER = {name: number for number, name in enumerate(SUCCESSES)}

# What an item takes in an item table and a rule in a rule table.
NAME_ROOM, RULE_WORDS, LEFT_PLACES = 16, 13, 8
KINDS = ("cap", "floor", "follow")


def item_bytes(names):
    """An item table with these names."""
    return b"".join(name.ljust(NAME_ROOM, b"\0") for name in names)


def rule_words(kind, left, right=0, level=0, marks=0):
    """The words of a rule."""
    return [KINDS.index(kind), len(left), *left, *[0] * (LEFT_PLACES - len(left)), right, level, marks]


class Call:
    """A call of a routine: up to six numbers, and what is lent as attributes, `text`, `items` and `out` as bytes, the others as tuples."""

    def __init__(self, routine, *numbers, **lent):
        self.routine = routine
        self.numbers = numbers + (0,) * (NUMBERS - len(numbers))
        for name in BUFFERS:
            content = lent.pop(name, ())
            assert len(content) <= CAPACITY[name], f"{name} is longer than the program can lend"
            setattr(self, name, bytes(content) if name in BYTES else tuple(content))
        assert not lent, lent

    def words(self):
        """The words of the call. Zeros at the end of a buffer are left to its room."""
        words = [NUMBER[self.routine], *self.numbers]
        for name in BUFFERS:
            content = getattr(self, name)
            given = len(content)
            while given and not content[given - 1]:
                given -= 1
            words += [len(content), given, *content[:given]]
        return words


class Answer(NamedTuple):
    """A refusal's number and place, or 0, which success it is, and its values; and the seven buffers after the call."""

    refusal: int
    which: int
    values: tuple
    buffers: tuple

    def buffer(self, name):
        return self.buffers[BUFFERS.index(name)]

    def words(self):
        """The words of the answer."""
        words = [self.refusal, self.which, len(self.values), *self.values]
        for content in self.buffers:
            words += [len(content), *content]
        return words


def lines(words):
    """The lines of some words."""
    return (struct.pack(f">{len(words)}Q", *words).hex("\n", 8) + "\n").encode() if words else b""


WORD_LINES = re.compile(rb"(?:[0-9a-f]{16}\n)*")


def answers(output):
    """The whole answers at the front of an output, and the text behind them."""
    front = WORD_LINES.match(output)[0]
    words = struct.unpack(f">{len(front) // 17}Q", bytes.fromhex(front.decode().replace("\n", "")))
    found, at = [], 0
    while at < len(words):
        ends = behind(words, at)
        if ends is None:
            break
        values = words[at + 3 : ends[0]]
        buffers = tuple(words[one + 1 : next_one] for one, next_one in zip(ends, ends[1:]))
        found.append(Answer(words[at], words[at + 1], values, buffers))
        at = ends[-1]
    return found, output[17 * at :]


def behind(words, at):
    """The places behind the values and behind each buffer of the answer at a place; None where it is cut short."""
    if at + 2 >= len(words):
        return None
    ends = [at + 3 + words[at + 2]]
    for _ in BUFFERS:
        if ends[-1] >= len(words):
            return None
        ends.append(ends[-1] + 1 + words[ends[-1]])
    return ends if ends[-1] <= len(words) else None
