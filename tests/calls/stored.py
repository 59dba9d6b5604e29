"""Cases, and the stored lines that are right."""

import os
from typing import Callable, NamedTuple

import model

HERE = os.path.dirname(os.path.abspath(__file__))


class Case(NamedTuple):
    """A case: its name, its calls, what the model answers to them, how answers are shown as readable lines, those of the model's, and the right ones."""

    name: str
    calls: list
    right: list
    shown: Callable
    modelled: str
    stored: str


def case(name, calls, stored, shown):
    """A case of these calls. `stored` gives the readable lines that are right; it is told those that the model has."""
    right = [model.answer(call) for call in calls]
    modelled = shown(right)
    return Case(name, calls, right, shown, modelled, stored(modelled))


def lines_of(name):
    """The lines of a file beside this one, without their LF."""
    with open(os.path.join(HERE, name), encoding="ascii", newline="\n") as file:
        return [line.rstrip("\n") for line in file]


class Stored:
    """Readable lines that are right, taken off one after the other."""

    def __init__(self, name):
        self.rest = lines_of(name)

    def take(self, shown):
        """The next lines, as many as are shown."""
        count = shown.count("\n")
        taken, self.rest = self.rest[:count], self.rest[count:]
        return "".join(line + "\n" for line in taken)
