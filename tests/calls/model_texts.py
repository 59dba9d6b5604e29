"""The model's routines over text: tokens, item tables, reading and writing rulebooks and labellings."""

import re

import search
import second
from model_tables import MOST_ITEMS, class_of, enough, first_over, meanings, table_is_right, word_of
from said import BAD_LABEL, BAD_TABLE, NO_ROOM, TOO_LONG, demand, success
from wire import NAME_ROOM, item_bytes, rule_words

KEYS = (b"form=", b"item=", b"cap=", b"floor=", b"follow=", b"end=")

# ---- Tokens: each is the whole run of its bytes ------------------------------------------------------------------------------------

NAME_AT = re.compile(second.NAME + rb"(?![a-z0-9-])")
COUNT_AT = re.compile(second.COUNT + rb"(?![0-9])")
CLASS_AT = re.compile(second.CLASS + rb"(?![0-9a-f])")
BAD = success(which=1)


def read_name(text, at):
    found = NAME_AT.match(text[at:])
    return success(len(found[0])) if found else BAD


def read_count(text, at):
    found = COUNT_AT.match(text[at:])
    return success(int(found[0]), len(found[0])) if found else BAD


def read_class(text, at):
    found = CLASS_AT.match(text[at:])
    return success(*class_words(found[0]), len(found[0])) if found else BAD


def read_key(text, at):
    found = [number for number, key in enumerate(KEYS) if text[at:].startswith(key)]
    return success(found[0], len(KEYS[found[0]])) if found else BAD


def class_words(text):
    """The level and the marks of a class."""
    level, marks = second.read_class(text)
    return level, word_of(marks)


# ---- Putting -----------------------------------------------------------------------------------------------------------------------


def put(content, out, at):
    """The bytes at a place, and the next place; where they have no room nothing, and one more than the buffer's length."""
    if at + len(content) > len(out):
        return success(len(out) + 1)
    return success(at + len(content), out=out[:at] + content)


def count_text(number):
    """A number as a COUNT; of one over 99,999 the last five digits."""
    return b"%d" % number if number <= 99999 else b"%05d" % (number % 100000)


def put_count(number, out, at):
    return put(count_text(number), out, at)


def put_class(level, marks, out, at):
    return put(count_text(level) + b"/%016x" % marks, out, at)


# ---- Item tables -------------------------------------------------------------------------------------------------------------------


def has_size(items, count):
    return count <= MOST_ITEMS and len(items) >= NAME_ROOM * count


def entries(items, count):
    """The sixteen bytes of each item."""
    return [items[NAME_ROOM * item : NAME_ROOM * (item + 1)] for item in range(count)]


def names(items, count):
    return [entry.rstrip(b"\0") for entry in entries(items, count)]


def items_are_right(items, count):
    """Whether an item table has its size, and each name is a NAME with zeros behind it that no other item has."""
    if not has_size(items, count):
        return False
    found = names(items, count)
    return all(re.fullmatch(second.NAME, name) for name in found) and len(set(found)) == count


def items_ok(items, count):
    return success(int(items_are_right(items, count)))


def find(items, count, name):
    """10 for the table's size alone; the first item whose sixteen bytes are the name and zeros, or that it is absent."""
    demand(has_size(items, count), BAD_TABLE)
    table = entries(items, count)
    if not re.fullmatch(second.NAME, name) or item_bytes([name]) not in table:
        return success(which=1)
    return success(table.index(item_bytes([name])))


# ---- Reading -----------------------------------------------------------------------------------------------------------------------


def rule_table(book):
    """The words of a book's rules."""
    words = []
    for kind, left, right in book.rules:
        item, level, marks = (right, 0, ()) if kind == "follow" else (0, *right)
        words += rule_words(kind, left, item, level, word_of(marks))
    return words


def read(text, items, rules):
    """1, the faults of lines, 11; the tables of the book."""
    book = second.read(text)
    names, words = item_bytes(book.items), rule_table(book)
    demand(len(items) >= len(names) and len(rules) >= len(words), NO_ROOM)
    return success(len(book.items), len(book.rules), items=names, rules=words)


def wanted(book):
    """The wanted labels of a book that was read, as levels and as words of marks."""
    labels = search.labels(len(book.items), tuple((kind, tuple(left), right) for kind, left, right in book.rules))
    return [level for level, _ in labels], [word_of(marks) for _, marks in labels]


def assign(text, items, levels, marks):
    """1, the faults of lines, 11, 9; the item table and the labels of the book."""
    book = second.read(text)
    names = item_bytes(book.items)
    demand(len(items) >= len(names) and enough(levels, marks, len(book.items)), NO_ROOM)
    new_levels, new_marks = wanted(book)
    return success(len(book.items), len(book.rules), items=names, levels=new_levels, marks=new_marks)


# ---- Writing -----------------------------------------------------------------------------------------------------------------------


def closed(lines):
    """A text of these lines between its form and its end line."""
    return b"".join(line + b"\n" for line in [b"form=1", *lines, b"end=%d" % (len(lines) + 1)])


def book_text(names, rules):
    lines = [b"item=" + name for name in names]
    for kind, left, right in rules:
        shown = names[right] if kind == "follow" else second.class_text(right)
        lines.append(kind.encode() + b"=" + b"+".join(names[item] for item in left) + b":" + shown)
    return closed(lines)


def labels_text(names, levels, marks):
    return closed([b"label=" + name + b":" + second.class_text(class_of(*label)) for name, *label in zip(names, levels, marks)])


def written(text, out):
    """1 and 11 for a text that is to be written; the text."""
    demand(len(text) <= second.MOST_BYTES, TOO_LONG)
    demand(len(text) <= len(out), NO_ROOM)
    return success(len(text), out=text)


def write(items, rules, count, rule_count, out):
    """10, 1, 11; the text of the rulebook."""
    demand(items_are_right(items, count) and table_is_right(rules, count, rule_count), BAD_TABLE)
    return written(book_text(names(items, count), meanings(rules, rule_count)), out)


def write_labels(items, count, levels, marks, out):
    """10 for the names, 11 for the labels, 12, 11 for the text; the text of the labelling."""
    demand(items_are_right(items, count), BAD_TABLE)
    demand(enough(levels, marks, count), NO_ROOM)
    demand(first_over(levels, count) == count, BAD_LABEL, first_over(levels, count))
    return written(labels_text(names(items, count), levels, marks), out)


def answer(text, out):
    """11; what the labelling program prints for a text, its refusal among it."""
    try:
        book = second.read(text)
        made = labels_text(book.items, *wanted(book))
    except second.Refused as refused:
        made = b"form=1\nrefused=%d\nat=%d\nend=3\n" % (refused.number, refused.place)
    return written(made, out)
