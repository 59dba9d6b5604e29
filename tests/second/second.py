#!/usr/bin/env python3
"""A second labelling program, for small books: it reads a rulebook and tries every labelling.

second.py             reads a rulebook from standard input and writes what the labelling program has to write
second.py --examples  checks itself on the twelve small books and on texts with a known answer

Nothing here settles, lowers or repeats until nothing changes. All labellings are listed, those that meet every rule are kept, and the
wanted one is found by holding each one left against all others.
"""

import itertools
import re
import sys

# ---- Reading -----------------------------------------------------------------------------------------------------------------------

TOO_LONG, SYNTAX, ORDER, TOO_MANY, NAME_TWICE, NO_SUCH_ITEM, LEFT_ORDER, END_COUNT, NO_LABELLING = range(1, 10)

MOST_BYTES, MOST_ITEMS, MOST_RULES, MOST_LEFT = 32768, 256, 1024, 8

NAME = rb"[a-z0-9-]{1,16}"
CLASS = rb"(?:[0-9]|1[0-5])/[0-9a-f]{16}"
COUNT = rb"(?:0|[1-9][0-9]{0,4})"
LEFT = NAME + rb"(?:\+" + NAME + rb")*"

# The six forms of a line. Any number of left names has the form; a ninth one is TOO_MANY.
FORMS = {
    "form": re.compile(rb"form=1"),
    "item": re.compile(rb"item=(" + NAME + rb")"),
    "cap": re.compile(rb"cap=(" + NAME + rb"):(" + CLASS + rb")"),
    "floor": re.compile(rb"floor=(" + LEFT + rb"):(" + CLASS + rb")"),
    "follow": re.compile(rb"follow=(" + LEFT + rb"):(" + NAME + rb")"),
    "end": re.compile(rb"end=(" + COUNT + rb")"),
}

# Which key may come after which.
MAY_FOLLOW = {
    "start": {"form"},
    "form": {"item", "cap", "floor", "follow", "end"},
    "item": {"item", "cap", "floor", "follow", "end"},
    "cap": {"cap", "floor", "follow", "end"},
    "floor": {"floor", "follow", "end"},
    "follow": {"follow", "end"},
}


class Refused(Exception):
    """A refusal: its number and its place."""

    def __init__(self, number, place):
        super().__init__(number, place)
        self.number, self.place = number, place


class Book:
    """The item names in book order, and the rules (kind, left item numbers, right).

    The right side is a class for a cap and a floor, and an item number for a follow. A class is a level and a frozenset of marks.
    """

    def __init__(self):
        self.items = []
        self.rules = []


def read_class(text):
    level, digits = text.split(b"/")
    word = int(digits, 16)
    return int(level), frozenset(k for k in range(64) if word // 2**k % 2 == 1)


def lines_of(text):
    """The lines, each with its LF; the last piece is a line too if it is not empty."""
    lines = [piece + b"\n" for piece in text.split(b"\n")]
    last = lines.pop()[:-1]
    return lines + [last] if last else lines


def read(text):
    """The book in the text; raises Refused with 1 to 8."""
    if len(text) > MOST_BYTES:
        raise Refused(TOO_LONG, 0)
    book = Book()
    after = "start"
    lines = lines_of(text)
    for at, line in enumerate(lines, 1):
        # Text after the end line: before anything else in that line.
        if after == "end":
            raise Refused(END_COUNT, at)

        # 2: no LF, or none of the six forms.
        if not line.endswith(b"\n"):
            raise Refused(SYNTAX, at)
        key, match = next(((k, m) for k, m in ((k, f.fullmatch(line[:-1])) for k, f in FORMS.items()) if m), (None, None))
        if key is None:
            raise Refused(SYNTAX, at)
        is_rule = key in ("cap", "floor", "follow")
        left = match[1].split(b"+") if is_rule else []

        # 3: the key table says no.
        if key not in MAY_FOLLOW[after]:
            raise Refused(ORDER, at)

        # 4: one item, one rule or one left name too many.
        if key == "item" and len(book.items) + 1 > MOST_ITEMS:
            raise Refused(TOO_MANY, at)
        if is_rule and len(book.rules) + 1 > MOST_RULES:
            raise Refused(TOO_MANY, at)
        if len(left) > MOST_LEFT:
            raise Refused(TOO_MANY, at)

        # 5: the item name was given before.
        if key == "item" and match[1] in book.items:
            raise Refused(NAME_TWICE, at)

        # 6: a rule uses a name that is no item; the right one counts too.
        used = left + [match[2]] if key == "follow" else left
        if any(name not in book.items for name in used):
            raise Refused(NO_SUCH_ITEM, at)

        # 7: left names not strictly rising.
        numbers = [book.items.index(name) for name in left]
        if any(one >= next_one for one, next_one in zip(numbers, numbers[1:])):
            raise Refused(LEFT_ORDER, at)

        # 8: the end line has the wrong number of lines before it.
        if key == "end" and int(match[1]) != at - 1:
            raise Refused(END_COUNT, at)

        if key == "item":
            book.items.append(match[1])
        elif key == "follow":
            book.rules.append((key, numbers, book.items.index(match[2])))
        elif is_rule:
            book.rules.append((key, numbers, read_class(match[2])))
        after = key
    if after != "end":
        raise Refused(END_COUNT, len(lines) + 1)
    return book


# ---- What rules mean ---------------------------------------------------------------------------------------------------------------


class TooBig(Exception):
    """Too many labellings to try them all."""


MOST_TRIED = 40000
MOST_WHOLE = 1800
FEW_ITEMS = 6


def first_difference(ours, other):
    return next(i for i in range(len(ours)) if ours[i] != other[i])


def wanted(labellings, strictly_below):
    """The one that, against any other, is strictly below at the first item at which the two differ. There must be just one."""

    def beats(ours, other):
        at = first_difference(ours, other)
        return strictly_below(ours[at], other[at])

    found = [ours for ours in labellings if all(other == ours or beats(ours, other) for other in labellings)]
    assert len(found) == 1, found
    return found[0]


# ---- One part alone ----------------------------------------------------------------------------------------------------------------


def seen_in(part, a_class):
    """What a class is in one part alone: part 0 is the level, part k+1 is 1 with mark k and 0 without it."""
    level, marks = a_class
    return level if part == 0 else int(part - 1 in marks)


def met_in_part(rule, values):
    kind, left, right = rule
    if kind == "cap":
        return right >= values[left[0]]
    join = max(values[item] for item in left)
    return join >= (right if kind == "floor" else values[right])


def label_part(book, part):
    """The wanted labelling seen in one part alone, or None if none meets the rules there.

    Which values are tried: 0 and those that the floors ask for. Call them V. Round every label of a labelling down to the nearest
    number in V. Caps still hold, as labels only fall. Rounding keeps order, so it passes through a join and follows still hold; a
    floor's own value is in V and stays, so floors still hold. So if any labelling meets the rules, one over V does. Let w be the
    wanted one among those over V, and m any other at all, m' the rounded m. If m' is w, then w is nowhere above m. If not, w is
    strictly below m' where they first differ, so below m there, and nowhere above m before. In both cases w is strictly below m at
    the first item where these two differ. For a mark, V is 0 and 1, or 0 alone.

    If V is 0 alone (no floor asks for anything in this part, whatever the caps say), labels of 0 everywhere meet every rule, and are
    strictly below any other labelling wherever they first differ: nothing has to be tried. Most of the 64 marks are of this kind.

    In a book with many items, one that stands in no floor and no follow is tried with 0 alone: only caps speak of it, and 0 meets them.
    """
    rules = [(kind, left, right if kind == "follow" else seen_in(part, right)) for kind, left, right in book.rules]
    tried = sorted({0} | {right for kind, _, right in rules if kind == "floor"})
    if tried == [0]:
        return (0,) * len(book.items)
    choices = [tried] * len(book.items)
    if len(book.items) > FEW_ITEMS:
        bound = {item for kind, left, right in rules if kind != "cap" for item in left + [right] * (kind == "follow")}
        choices = [tried if item in bound else [0] for item in range(len(book.items))]
    number = 1
    for choice in choices:
        number *= len(choice)
    if number > MOST_TRIED:
        raise TooBig
    meeting = [values for values in itertools.product(*choices) if all(met_in_part(rule, values) for rule in rules)]
    return wanted(meeting, lambda x, y: x < y) if meeting else None


# ---- Whole classes -----------------------------------------------------------------------------------------------------------------


def covers(x, y):
    return x[0] >= y[0] and x[1] >= y[1]


def join_of(classes):
    return max(level for level, _ in classes), frozenset().union(*(marks for _, marks in classes))


def met(rule, labels):
    kind, left, right = rule
    if kind == "cap":
        return covers(right, labels[left[0]])
    join = join_of([labels[item] for item in left])
    return covers(join, right if kind == "floor" else labels[right])


def whole_classes(book):
    """The classes tried whole: every level up to the greatest in a floor, with every set of the marks in floors."""
    floors = [right for kind, _, right in book.rules if kind == "floor"]
    marks = sorted(frozenset().union(*(marks for _, marks in floors)))
    sets = [frozenset(some) for size in range(len(marks) + 1) for some in itertools.combinations(marks, size)] if len(marks) < 8 else []
    return [(level, some) for level in range(max([0] + [level for level, _ in floors]) + 1) for some in sets]


def label_whole(book):
    """The wanted labelling found among whole classes, or None if none meets the rules; only for very small books."""
    meeting = [
        labels
        for labels in itertools.product(whole_classes(book), repeat=len(book.items))
        if all(met(rule, labels) for rule in book.rules)
    ]
    return wanted(meeting, lambda x, y: covers(y, x) and x != y) if meeting else None


def small_enough_whole(book):
    classes = whole_classes(book)
    return len(classes) > 0 and len(classes) ** len(book.items) <= MOST_WHOLE


# ---- The answer --------------------------------------------------------------------------------------------------------------------


def label(book):
    """The wanted labels. Raises Refused with 9 and the lowest part in which no labelling meets the rules."""
    parts = [label_part(book, part) for part in range(65)]
    failing = [part for part in range(65) if parts[part] is None]
    labels = None
    if not failing:
        labels = tuple(
            (parts[0][item], frozenset(k for k in range(64) if parts[k + 1][item])) for item in range(len(book.items))
        )
    if small_enough_whole(book):
        assert label_whole(book) == labels, "the parts and the whole classes disagree"
    if failing:
        raise Refused(NO_LABELLING, failing[0])
    return labels


def class_text(a_class):
    level, marks = a_class
    return b"%d/%016x" % (level, sum(2**k for k in marks))


def answer(text):
    """What the labelling program prints for this text. Raises TooBig for a book that cannot be tried whole."""
    try:
        book = read(text)
        labels = label(book)
    except Refused as refused:
        return b"form=1\nrefused=%d\nat=%d\nend=3\n" % (refused.number, refused.place)
    lines = [b"form=1\n"]
    for name, a_class in zip(book.items, labels):
        lines.append(b"label=" + name + b":" + class_text(a_class) + b"\n")
    return b"".join(lines) + b"end=%d\n" % len(lines)


# ---- Texts with a known answer -----------------------------------------------------------------------------------------------------


def long_class(short):
    """2/4 for 2/0000000000000004."""
    level, marks = short.split("/")
    return level + "/" + marks.rjust(16, "0")


def text_of(lines):
    """A whole book of these lines; classes may be short."""
    full = ["form=1"]
    for line in lines.split():
        key, value = line.split("=")
        if key in ("cap", "floor"):
            names, short = value.split(":")
            value = names + ":" + long_class(short)
        full.append(key + "=" + value)
    return ("\n".join(full) + "\nend=%d\n" % len(full)).encode()


def labelled(names, shorts):
    """The output for these labels."""
    lines = ["form=1"] + ["label=%s:%s" % pair for pair in zip(names.split(), map(long_class, shorts.split()))]
    return ("\n".join(lines) + "\nend=%d\n" % len(lines)).encode()


def refused(number, place):
    return b"form=1\nrefused=%d\nat=%d\nend=3\n" % (number, place)


WORKED_INPUT = b"""form=1
item=cow-name
item=yield
item=demo-yield
cap=cow-name:3/0000000000000000
floor=demo-yield:2/0000000000000004
floor=cow-name+yield:5/0000000000000001
follow=demo-yield:yield
follow=yield:demo-yield
end=9
"""

WORKED_OUTPUT = b"""form=1
label=cow-name:0/0000000000000000
label=yield:5/0000000000000005
label=demo-yield:5/0000000000000005
end=4
"""

AB = "item=a item=b "


def many_items(count):
    return " ".join("item=i%d" % i for i in range(count)) + " "


def examples():
    """Texts with the output they must have: (what it is, text, output)."""
    low = b"0/0000000000000000"
    made = [
        ("the worked example", WORKED_INPUT, WORKED_OUTPUT),
        (
            "P1",
            text_of(
                "item=cow-name item=yield item=demo-yield cap=cow-name:3/0 floor=demo-yield:2/4 floor=cow-name+yield:5/1"
                " follow=demo-yield:yield follow=yield:demo-yield"
            ),
            labelled("cow-name yield demo-yield", "0/0 5/5 5/5"),
        ),
        (
            "P2",
            text_of(
                "item=yield item=demo-yield item=cow-name floor=demo-yield:2/4 floor=yield+cow-name:5/1"
                " follow=demo-yield:yield follow=yield:demo-yield"
            ),
            labelled("yield demo-yield cow-name", "2/4 2/4 5/1"),
        ),
        ("P3", text_of(AB + "floor=a+b:1/0"), labelled("a b", "0/0 1/0")),
        ("P4", text_of(AB + "floor=a:1/0 floor=a+b:2/0"), labelled("a b", "1/0 2/0")),
        ("P5", text_of("item=a cap=a:0/0 floor=a:1/0"), refused(9, 0)),
        ("P6", text_of("item=a cap=a:15/0 floor=a:0/8"), refused(9, 4)),
        ("P7", text_of(AB + "cap=a:15/1 cap=b:15/2 floor=a+b:0/3"), labelled("a b", "0/1 0/2")),
        ("P8", text_of(""), b"form=1\nend=1\n"),
        ("P9", text_of(AB + "follow=a+b:a"), labelled("a b", "0/0 0/0")),
        ("P10", text_of("item=a item=b item=c floor=c:2/0 follow=a:b follow=b:c follow=c:a"), labelled("a b c", "2/0 2/0 2/0")),
        ("P11, floor 3/1", text_of("item=a cap=a:3/3 cap=a:5/1 floor=a:3/1"), labelled("a", "3/1")),
        ("P11, floor 4/1", text_of("item=a cap=a:3/3 cap=a:5/1 floor=a:4/1"), refused(9, 0)),
        ("P12", text_of(AB + "cap=a:1/0 floor=b:2/0 follow=a:b"), refused(9, 0)),
        ("level before marks", text_of(AB + "cap=a:1/0 floor=a:0/1 floor=a:2/0"), refused(9, 0)),
        ("lowest mark over all rules", text_of(AB + "cap=a:1/0 cap=b:1/0 floor=b:0/8000000000000000 floor=a:0/20"), refused(9, 6)),
        ("the highest mark", text_of(AB + "cap=a:1/0 floor=a:0/8000000000000000"), refused(9, 64)),
        # sizes of the whole text
        ("32,769 bytes of anything", b"\n" * 32769, refused(1, 0)),
        ("32,769 bytes, a right book first", WORKED_INPUT.ljust(32769, b"x"), refused(1, 0)),
        ("32,768 bytes, a right book first", WORKED_INPUT.ljust(32768, b"x"), refused(8, 11)),
        ("32,768 empty lines", b"\n" * 32768, refused(2, 1)),
        # ends of text
        ("empty text", b"", refused(8, 1)),
        ("one LF", b"\n", refused(2, 1)),
        ("form alone", b"form=1\n", refused(8, 2)),
        ("form without LF", b"form=1", refused(2, 1)),
        ("last piece without LF", b"form=1\nitem=a\nit", refused(2, 3)),
        ("last line well formed but without LF", b"form=1\nitem=a\nitem=b", refused(2, 3)),
        ("no end line", b"form=1\nitem=a\n", refused(8, 3)),
        ("end line without LF", b"form=1\nitem=a\nend=2", refused(2, 3)),
        ("end line without LF, wrong COUNT", b"form=1\nitem=a\nend=7", refused(2, 3)),
        ("a byte after the end", b"form=1\nend=1\nx", refused(8, 3)),
        ("a NUL after the end", b"form=1\nend=1\n\0", refused(8, 3)),
        ("an LF after the end", b"form=1\nend=1\n\n", refused(8, 3)),
        ("an end line after the end", b"form=1\nend=1\nend=2\n", refused(8, 3)),
        ("a second book", b"form=1\nend=1\nform=1\nend=1\n", refused(8, 3)),
        ("wrong COUNT and text after it", b"form=1\nend=2\nend=2\n", refused(8, 2)),
        ("wrong COUNT", b"form=1\nitem=a\nend=3\n", refused(8, 3)),
        ("COUNT of five digits", b"form=1\nitem=a\nend=99999\n", refused(8, 3)),
        ("end=0 as line 2", b"form=1\nend=0\n", refused(8, 2)),
        ("end=0 as line 1", b"end=0\n", refused(3, 1)),
        # left names
        ("nine left names", text_of(many_items(9) + "floor=i0+i1+i2+i3+i4+i5+i6+i7+i8:1/0"), refused(4, 11)),
        ("nine left names, all unknown", text_of("item=a follow=b+b+b+b+b+b+b+b+b:c"), refused(4, 3)),
        ("nine left names before their time", text_of("floor=b+b+b+b+b+b+b+b+b:1/0 item=a"), refused(4, 2)),
        ("nine left names after the follows", text_of("item=a follow=a:a floor=a+a+a+a+a+a+a+a+a:1/0"), refused(3, 4)),
        ("nine left names, one empty", text_of("item=a floor=a+a+a+a+a+a+a+a+:1/0"), refused(2, 3)),
        ("nine left names, one of 17 bytes", text_of("item=a floor=a+a+a+a+a+a+a+a+aaaaaaaaaaaaaaaaa:1/0"), refused(2, 3)),
        ("nine left names and level 16", text_of("item=a floor=a+a+a+a+a+a+a+a+a:16/0"), refused(2, 3)),
        (
            "eight left names",
            text_of(many_items(8) + "floor=i0+i1+i2+i3+i4+i5+i6+i7:1/0"),
            labelled("i0 i1 i2 i3 i4 i5 i6 i7", "0/0 0/0 0/0 0/0 0/0 0/0 0/0 1/0"),
        ),
        ("two names in a cap", text_of(AB + "cap=a+b:1/0"), refused(2, 4)),
        ("unsorted", text_of(AB + "floor=b+a:1/0"), refused(7, 4)),
        ("equal left names", text_of(AB + "floor=a+a:1/0"), refused(7, 4)),
        ("unsorted, one unknown", text_of(AB + "floor=b+a+c:1/0"), refused(6, 4)),
        ("unsorted, the right one unknown", text_of(AB + "follow=b+a:c"), refused(6, 4)),
        ("unknown right name", text_of(AB + "follow=a+b:c"), refused(6, 4)),
        ("unknown name in a cap", text_of(AB + "cap=c:1/0"), refused(6, 4)),
        # order
        ("line 1 is an item", b"item=a\nend=1\n", refused(3, 1)),
        ("line 1 is a cap of an unknown item", b"cap=a:" + low + b"\nend=1\n", refused(3, 1)),
        ("form twice", b"form=1\nform=1\nend=2\n", refused(3, 2)),
        ("repeated item", text_of("item=a item=b item=a"), refused(5, 4)),
        ("repeated item after a cap", text_of("item=a cap=a:1/0 item=a"), refused(3, 4)),
        ("a cap after a floor", text_of("item=a floor=a:1/0 cap=a:1/0"), refused(3, 4)),
        ("a floor after a follow", text_of("item=a follow=a:a floor=a:1/0"), refused(3, 4)),
        ("a first fault before a worse one", text_of("item=a cap=b:1/0 item=A"), refused(6, 3)),
        # counts
        ("256 items", text_of(many_items(256)), labelled(many_items(256).replace("item=", ""), "0/0 " * 256)),
        ("257 items", text_of(many_items(257)), refused(4, 258)),
        ("257th item repeated", text_of(many_items(256) + "item=i0"), refused(4, 258)),
        ("1,024 rules", text_of("item=a " + "cap=a:1/0 " * 1000 + "floor=a:1/0 " * 20 + "follow=a:a " * 4), labelled("a", "1/0")),
        ("1,025 rules", text_of("item=a " + "cap=a:1/0 " * 1000 + "floor=a:1/0 " * 20 + "follow=a:a " * 5), refused(4, 1027)),
        ("1,025th rule with an unknown name", text_of("item=a " + "follow=a:a " * 1024 + "follow=a:b"), refused(4, 1027)),
        ("1,025th rule, key out of order", text_of("item=a " + "follow=a:a " * 1024 + "cap=a:1/0"), refused(3, 1027)),
        # names and classes
        ("names of all shapes", text_of("item=- item=-- item=7 floor=-+--+7:15/1"), labelled("- -- 7", "0/0 0/0 15/1")),
        ("a name of 16 bytes", text_of("item=abcdefgh-1234567 floor=abcdefgh-1234567:1/0"), labelled("abcdefgh-1234567", "1/0")),
        ("a name of 17 bytes", text_of("item=abcdefgh-12345678"), refused(2, 2)),
        ("equal rules twice", text_of("item=a cap=a:1/0 cap=a:1/0 floor=a:1/0 floor=a:1/0 follow=a:a follow=a:a"), labelled("a", "1/0")),
        ("level 15", text_of("item=a floor=a:15/0"), labelled("a", "15/0")),
        ("level 16", text_of("item=a floor=a:16/0"), refused(2, 3)),
        ("all marks", text_of("item=a floor=a:0/" + "f" * 16), labelled("a", "0/" + "f" * 16)),
    ]
    for line in (
        b"floor=a:07/0000000000000000",
        b"floor=a:00/0000000000000000",
        b"floor=a:/0000000000000000",
        b"floor=a:100/0000000000000000",
        b"floor=a:1/000000000000000A",
        b"floor=a:1/000000000000000",
        b"floor=a:1/00000000000000000",
        b"floor=a:1",
        b"floor=a",
        b"floor=:1/0000000000000000",
        b"floor=+a:1/0000000000000000",
        b"floor=a+:1/0000000000000000",
        b"floor=a++a:1/0000000000000000",
        b"floor=a:a",
        b"follow=a:" + low,
        b"follow=a:",
        b"follow=a:a+a",
        b"follow=a:a:a",
        b"item=",
        b"item=A",
        b"item=b_c",
        b"item=b c",
        b"item=b\r",
        b"item=b\t",
        b"item=b\0",
        b"item=\x00",
        b"item=\xe9",
        b"item=\xff",
        b"item=b=c",
        b" item=b",
        b"item =b",
        b"item",
        b"Item=b",
        b"label=b",
        b"# b",
        b"",
        b"form=2",
        b"form=11",
        b"form=",
        b"form=01",
        b"end=01",
        b"end=00",
        b"end=",
        b"end=100000",
        b"end=+2",
        b"end=2 ",
        b"end=2\r",
        b"end=-2",
        b"cap=a:16/0000000000000000",
    ):
        made.append(("not one of the six forms: %r" % line, b"form=1\nitem=a\n" + line + b"\nend=3\n", refused(2, 3)))
    return made


def check_examples():
    passed = failed = 0
    for what, text, output in examples():
        got = answer(text)
        if got == output:
            passed += 1
        else:
            failed += 1
            print("%s: %r, not %r" % (what, got, output))
    print("%d passed, %d failed" % (passed, failed))
    return 1 if failed else 0


def main():
    if sys.argv[1:] == ["--examples"]:
        return check_examples()
    if sys.argv[1:]:
        print("usage: tests/second/second.py [--examples]", file=sys.stderr)
        return 2
    try:
        sys.stdout.buffer.write(answer(sys.stdin.buffer.read()))
    except TooBig:
        print("second.py: too many labellings to try them all", file=sys.stderr)
        return 2
    return 0


if __name__ == "__main__":
    sys.exit(main())
