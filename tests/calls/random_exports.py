"""Calls over exports, made at random: right ones, broken ones, and ones of which more is to come."""

import books
import exports
import model
from random_tables import ODD, any_label, labels, room
from random_texts import item_table, with_out
from wire import CAPACITY, Call, item_bytes


def export(rng, names):
    """An export for items with these names, its bytes to come cut off or not, and about how many columns it has."""
    shape = rng.choice([exports.right] * 6 + [exports.broken] * 4 + [exports.soup] * 3 + [exports.tiny] + [exports.sized] * (rng.random() < 0.2))
    whole = shape(rng, names)
    if not isinstance(whole, bytes):
        whole = exports.text_of(whole)
    if rng.random() < 0.3:
        whole = whole[: rng.randint(0, len(whole))]
    columns = whole.split(b"\r\n")[0].count(b",") + 1
    return whole, min(max(columns + rng.choice([0] * 12 + [1, -1]), 0), CAPACITY["kept"])


def strip(rng):
    made, columns = export(rng, rng.sample(books.NAMES, 4))
    columns = rng.choice([0, 256, 257]) if rng.random() < 0.03 else columns
    made = made.ljust(rng.choice([32768, 32769]), b"x") if rng.random() < 0.02 else made
    number = rng.choice(ODD) if rng.random() < 0.1 else rng.randint(1, 9)
    yield with_out(rng, "strip", rng.randint(0, 1), number, text=made, kept=[rng.randint(0, 1) for _ in range(columns)])


def record_fields(rng):
    """The record at the front of an export or behind a line end, its fields by the ends that reading it leaves, and one by other ends."""
    made, columns = export(rng, rng.sample(books.NAMES, 4))
    at = rng.choice([0, 0, rng.randint(0, len(made)), made.find(b"\n") + 1, rng.choice(ODD)])
    ends = [rng.choice(ODD) for _ in range(rng.choice([columns, columns, columns + 2, 0, 1, 256, 300]))]
    most = rng.choice([columns, columns, 256, rng.randint(0, 5), rng.choice(ODD)])
    row = Call("read_row", at, rng.randint(0, 1), most, text=made, levels=ends)
    yield row
    left = model.answer(row).buffer("levels")
    for c in range(min(columns, 3)):
        yield with_out(rng, "nth_field", at, c, text=made, levels=left)
    some = [rng.choice([rng.randint(0, len(made) + 2), rng.choice(ODD)]) for _ in range(rng.randint(0, 3))]
    yield with_out(rng, "nth_field", rng.choice([at, 0]), rng.choice([0, 1, 2, 3, rng.choice(ODD)]), text=made, levels=some)


def kept_columns(rng):
    """A header for items of a table that is mostly right, with labels and a reader's class near one of them."""
    names = rng.sample(books.NAMES, rng.randint(1, 5))
    items, count = item_table(rng, names) if rng.random() < 0.3 else (item_bytes(names), len(names))
    lent = labels(rng, count)
    made, columns = export(rng, names)
    level, marks = rng.choice([any_label(rng), (15, 2**64 - 1), (rng.choice(ODD), 3)])
    kept = [rng.randint(0, 1) for _ in range(room(rng, columns))]
    yield Call("kept_columns", count, rng.choice(ODD), level, marks, rng.randint(0, 1), text=made, items=items, kept=kept, **lent)


def reader_class(rng):
    yield Call("reader_class", text=rng.choice(exports.BAD_CLASSES) if rng.random() < 0.4 else exports.class_text(*any_label(rng)))
