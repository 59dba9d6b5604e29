"""What the languages of the case files have in common: numbers, classes, rules and made texts, as README.md describes them."""

import re

import wire

# What lent buffers hold at first.
OLD_BYTE, OLD_LEVEL, OLD_MARKS, OLD_WORD = 0x77, 77, 0x77, 77

TERM = re.compile(r"([+%-]?)(#|\d+)")
PIECE = re.compile(r"%([0-9a-f]{2})|\{(\d+) ([^}]*)\}|(.)", re.DOTALL)


def number(word, turn=0):
    """The number that a word gives in a turn: `#+1%256` from left to right, below 2^64."""
    assert re.fullmatch(r"(#|\d+)([+%-](#|\d+))*", word), word
    value = 0
    for sign, term in TERM.findall(word):
        operand = turn if term == "#" else int(term)
        value = value % operand if sign == "%" else value - operand if sign == "-" else value + operand
        value %= 2**64
    return value


def class_words(word, turn=0):
    """The level and the marks of a class."""
    level, marks = word.split("/")
    return number(level, turn), 2 ** number(marks[1:], turn) if marks[0] == "m" else int(marks, 16)


def rule_words(kind, left, right, turn=0):
    """The words of a rule: `floor 0,1 5/1`, `follow 0,1 2`."""
    items = [number(word, turn) for word in left.split(",")]
    if kind == "follow":
        return wire.rule_words(kind, items, number(right, turn))
    return wire.rule_words(kind, items, 0, *class_words(right, turn))


def made(description, turn=0):
    """The bytes that a description gives."""
    parts = []
    for code, times, piece, plain in PIECE.findall(description):
        if code:
            parts.append(bytes([int(code, 16)]))
        elif times:
            parts += [made(piece, turn) for turn in range(int(times))]
        else:
            parts.append({"|": b"\n", "#": b"%d" % turn, "@": b"%c" % (97 + turn % 26)}.get(plain, plain.encode()))
    return b"".join(parts)
