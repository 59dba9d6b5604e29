"""The cases of tables.txt: from its commands to calls, and from answers to the lines of tables.expected."""

import model
from book import Book
from script import OLD_BYTE, class_words
from shown import class_text, labels_text, printable, told
from stored import Stored, case, lines_of

HIGHEST = 15, 2**64 - 1


def cases():
    """The cases in the order of the file."""
    tables = Tables()
    for line in lines_of("tables.txt"):
        if line and not line.startswith("//"):
            name, colon, rest = line.partition(": ")
            if colon:
                tables.name = name
            for command in (rest if colon else line).split(";"):
                yield from tables.do(command) or []
    assert not tables.stored.rest, "tables.expected has more lines"


class Tables(Book):
    """A book with the commands that are cases."""

    def __init__(self):
        super().__init__()
        self.name, self.stored = "", Stored("tables.expected")

    def cases(self, calls, shown):
        return [case(self.name, calls, self.stored.take, shown)]

    def do_solve(self):
        name = self.name
        return self.cases([self.solving()], lambda answers: solved_line(name, *answers))

    def do_book(self):
        return self.do_solve() + self.do_check(0)

    def do_check(self, item, *classes):
        return self.checked(f"{self.name} check", int(item), classes)

    def do_with(self, item, changed):
        return self.checked(f"{self.name} check with item {item} at {class_text(*class_words(changed))}", int(item), [changed])

    def checked(self, what, item, classes):
        """Checks the labels that solving finds, with these classes from an item on, the rules being a table and a list."""
        found = model.answer(self.solving())
        labels = relabelled({name: found.buffer(name) for name in ("levels", "marks")}, item, classes)
        calls = [self.checking(routine, labels) for routine in ("check", "check_array")]
        return self.cases(calls, lambda answers: checked_line(what, *answers))

    def do_write(self):
        return self.written(self.writing())

    def do_label(self, item, *classes):
        return self.written(self.labelling(relabelled(self.labels(*HIGHEST), int(item), classes)))

    def written(self, call):
        name, shown = self.name, self.shown
        return self.cases([call], lambda answers: written_lines(name, *answers, shown))


def relabelled(labels, item, classes):
    """Labels with these classes from an item on, as far as there is room."""
    changed = {name: list(words) for name, words in labels.items()}
    for at, words in enumerate(map(class_words, classes), item):
        for name, word in zip(("levels", "marks"), words):
            if at < len(changed[name]):
                changed[name][at] = word
    return changed


# ---- The readable lines ------------------------------------------------------------------------------------------------------------


def solved_line(name, answer):
    """The labels or the refusal; behind a bar what stands in the lent buffers behind the labels. A word that one buffer lacks is shown as zero."""
    levels, marks = answer.buffer("levels"), answer.buffer("marks")
    longer = max(len(levels), len(marks))
    labels = list(zip((*levels, *[0] * (longer - len(levels))), (*marks, *[0] * (longer - len(marks)))))
    count = first_value(answer)
    found = "" if answer.refusal else ":" + labels_text(labels[:count])
    return f"{name} solve: {told('solve', answer)}{found} |{labels_text(labels[count:])}\n"


def checked_line(name, of_table, of_list):
    return f"{name}: {told('check', of_table)}, as a list: {told('check_array', of_list)}\n"


def written_lines(name, answer, shown):
    """The length and a sum of the text, or the refusal, and whether the buffer behind it is as it was; then so many of its first bytes."""
    out, length = answer.buffer("out"), first_value(answer)
    said = f"refused={answer.refusal} at={answer.which}" if answer.refusal else f"bytes={length} sum={byte_sum(out[:length])}"
    kept = "kept" if set(out[length:]) <= {OLD_BYTE} else "CHANGED"
    return f"{name}: {said}, {kept}\n{printable(out[:shown])}"


def first_value(answer):
    return answer.values[0] if answer.values else 0


def byte_sum(words):
    """A sum in which the order counts too."""
    total = 0
    for word in words:
        total = total % 65521 * 31 + word
    return total
