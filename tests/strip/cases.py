"""Reads cases.txt, whose head says how it is written."""

import os
import re

from program import FOLDER, PIPE, TERMINAL

PATH = os.path.join(os.path.dirname(os.path.abspath(__file__)), "cases.txt")
ESCAPES = {"r": b"\r", "n": b"\n", "t": b"\t", "\\": b"\\"}
PIECE = re.compile(r"\\x([0-9a-f]{2})|\\(.)|\{(?:(\d+)\.\.)?(\d+)\*|(\})|([^\\{}]+)")


def bytes_of(text):
    """The bytes of a text."""
    made, end = taken(text, 0, "#")
    assert end == len(text), text
    return made


def taken(text, at, turn):
    """The bytes from a place up to a closing brace or to the end, and the place behind them."""
    made = []
    while at < len(text):
        piece = PIECE.match(text, at)
        assert piece, text[at:]
        code, escape, first, last, closing, plain = piece.groups()
        at = piece.end()
        if closing:
            return b"".join(made), at
        if last:
            for number in range(int(first or 1), int(last) + 1):
                inner, end = taken(text, at, str(number))
                made.append(inner)
            at = end
        else:
            made.append(bytes([int(code, 16)]) if code else ESCAPES[escape] if escape else plain.replace("#", turn).encode())
    return b"".join(made), at


# What standard input is by the words of an `input` line.
KINDS = {"folder": FOLDER, "fails": TERMINAL}


class Case:
    def __init__(self, name, default):
        self.name, self.words, self.input = name, "BOOK CLASS", []
        self.text = dict(default, export="", output="", later="", error="")

    def take(self, key, value):
        if key == "words":
            self.words = value
        elif key == "input":
            self.input = value.split()
            assert all(word.isdigit() or word in ("folder", "fails", "open", "waits") for word in self.input), value
        elif key in ("book", "class"):
            self.text[key] = value
        else:
            assert key in ("export", "output", "later", "error"), key
            self.text[key] += value

    def bytes(self, key):
        return bytes_of(self.text[key])

    def kind(self):
        """What standard input is."""
        return next((KINDS[word] for word in self.input if word in KINDS), PIPE)

    def pieces(self):
        """The export as it arrives."""
        export = self.bytes("export")
        size = next((int(word) for word in self.input if word.isdigit()), len(export) or 1)
        return [export[at : at + size] for at in range(0, len(export), size)]

    def open_until(self):
        """How many bytes stand on standard output before the input ends; None where it does not end before the program."""
        if "open" in self.input:
            return None
        return len(self.bytes("output")) if "waits" in self.input else 0

    def is_judged(self):
        """Whether the answer is a matter of the book, the class and the export alone."""
        return self.words == "BOOK CLASS" and "folder" not in self.input and self.text["error"] != "*"


def key_and_value(line):
    key, _, value = line.partition(" ")
    return key, value


def read_cases():
    """The books by name, and the cases."""
    books, cases, default, where = {}, [], {}, None
    with open(PATH, encoding="ascii", newline="\n") as file:
        lines = file.read().split("\n")
    for line in lines:
        mark = line[:3]
        if mark == "@@ ":
            where = line[3:].split(":")[0]
            books[where] = b""
        elif mark == "== ":
            where = Case(line[3:], default)
            cases.append(where)
        elif mark == "## ":
            where = default = {}
        elif line and line != "#" and not line.startswith("# "):
            if isinstance(where, str):
                books[where] += bytes_of(line) + b"\n"
            elif isinstance(where, Case):
                where.take(*key_and_value(line))
            else:
                where.update([key_and_value(line)])
    assert len({case.name for case in cases}) == len(cases), "two cases have one name"
    return books, cases
