"""Calls over text and item tables, made at random: right ones, and ones that are broken or lent too little."""

import books
import exports
import model
from random_tables import ODD, Table, labels, old_labels
from wire import CAPACITY, NAME_ROOM, RULE_WORDS, Call, item_bytes

# ---- What is lent ------------------------------------------------------------------------------------------------------------------


def old_bytes(rng, length):
    return [rng.choice([0, 0x77, 255]) for _ in range(length)]


def with_out(rng, routine, *numbers, **lent):
    """A call with a buffer for its text: of just the length that the model has, of more or of less."""
    answer = model.answer(Call(routine, *numbers, out=[0] * CAPACITY["out"], **lent))
    length = 0 if answer.refusal else answer.values[1 if routine == "strip" else 0]
    chosen = rng.choice([length, length, length + 1, length + 40, max(length - 1, 0), rng.randint(0, length), 0])
    return Call(routine, *numbers, out=old_bytes(rng, min(chosen, CAPACITY["out"])), **lent)


def item_table(rng, names):
    """The bytes and the count of an item table, often broken."""
    table = bytearray(item_bytes(names))
    count = len(names)
    if table and rng.random() < 0.3:
        table[rng.randrange(len(table))] = rng.choice(b"\0\0azAZ09-_ \x7f\x80\xff")
    if count > 1 and rng.random() < 0.1:
        table[-NAME_ROOM:] = table[:NAME_ROOM]
    if rng.random() < 0.1:
        del table[max(len(table) - rng.choice([1, NAME_ROOM]), 0) :]
    if rng.random() < 0.1:
        table.extend(old_bytes(rng, rng.choice([1, 15, NAME_ROOM])))
    if rng.random() < 0.1:
        count = rng.choice([count + 1, max(count - 1, 0), 256, 257, rng.choice(ODD)])
    return bytes(table), count


def mixed_names(rng):
    return rng.sample(books.NAMES, rng.randint(0, 5))


# ---- Rulebooks ---------------------------------------------------------------------------------------------------------------------

WHOLE = {"items": [0] * CAPACITY["items"], "rules": [0] * CAPACITY["rules"]}
LARGE = [text for text in books.edges() if len(text) <= 33000]


def text(rng):
    return books.small_book(rng).text() if rng.random() < 0.5 else books.broken_text(rng)


def counts(text):
    """The items and rules of a text; two and two where it is refused."""
    return model.answer(Call("read", text=text, **WHOLE)).values or (2, 2)


def short_or_long(rng, length):
    return max(length + rng.choice([0, 0, 0, 0, 1, 13, 16, 40, -1, -13]), 0)


def read(rng):
    """A small text, now and then a large one, into tables of about the right length."""
    made = rng.choice(LARGE) if rng.random() < 0.03 else text(rng)
    items, rules = counts(made)
    item_room, rule_room = short_or_long(rng, NAME_ROOM * items), short_or_long(rng, RULE_WORDS * rules)
    yield Call("read", text=made, items=old_bytes(rng, item_room), rules=[rng.choice(ODD)] * rule_room)


def assign(rng):
    made = text(rng)
    items, _ = counts(made)
    yield Call("assign", text=made, items=old_bytes(rng, short_or_long(rng, NAME_ROOM * items)), **old_labels(rng, items))


def answer(rng):
    yield with_out(rng, "answer", text=text(rng))


def write(rng):
    draft = books.small_book(rng)
    table = Table(rng, draft)
    items, count = item_table(rng, draft.names) if rng.random() < 0.3 else (item_bytes(draft.names), table.items)
    yield with_out(rng, "write", count, table.rules, items=items, rules=table.words)


def write_labels(rng):
    items, count = item_table(rng, mixed_names(rng))
    yield with_out(rng, "write_labels", count, items=items, **labels(rng, count))


def find(rng):
    names = mixed_names(rng)
    items, count = item_table(rng, names)
    name = rng.choice(names + [rng.choice(books.NAMES)])
    yield Call("find", count, items=items, text=rng.choice([name] * 9 + [name[:-1], name + b"a", name.upper(), name + b"\0", b""]))
    yield Call("items_ok", count, items=items)


# ---- Tokens ------------------------------------------------------------------------------------------------------------------------

NAMES = [b"-", b"7", b"cow-name", b"abcdefghijklmnop", b"abcdefghijklmnopq", b"Cow"]
COUNTS = [b"0", b"7", b"10", b"99999", b"100000", b"00", b"01", b"+1"]
CLASSES = [b"0/0123456789abcdef", b"9/ffffffffffffffff", b"15/0000000000000000", b"16/0000000000000000", b"01/0000000000000000", b"/0000000000000000"]
CLASSES += [b"1/000000000000000", b"1/00000000000000000", b"1/000000000000000A", b"1:0000000000000000", b"1"]
KEYS = [b"form=", b"item=", b"cap=", b"floor=", b"follow=", b"end=", b"end", b"label=", b"Form=", b"=", b"flo"]
TOKENS = {"read_name": NAMES, "read_count": COUNTS, "read_class": CLASSES, "read_key": KEYS}


def tokens(rng):
    """Each kind of token in a text, at its place or elsewhere."""
    for routine, some in TOKENS.items():
        front = rng.choice([b"", b"", b"item=", b"a+", b"\n"])
        at = len(front) if rng.random() < 0.8 else rng.choice([rng.randint(0, 30), rng.choice(ODD)])
        yield Call(routine, at, text=front + rng.choice(some) + rng.choice([b"", b"\n", b":", b"+b", b"a", b"0", b"/", b"A", b"\0"]))
    yield Call("read_field", rng.randint(0, 3), text=exports.soup(rng, [b"a", b"b"]))


def puts(rng):
    """Bytes, a number and a class at one place of a buffer."""
    out = old_bytes(rng, rng.randint(0, 24))
    at = rng.choice([rng.randint(0, len(out)), rng.randint(0, len(out)), len(out) + 1, rng.choice(ODD)])
    count = rng.choice([rng.randrange(120), 9999, 10000, 99999, 100000, rng.choice(ODD)])
    yield Call("put", at, items=old_bytes(rng, rng.randint(0, 6)), out=out)
    yield Call("put_count", count, at, out=out)
    yield Call("put_class", rng.choice([rng.randrange(16), rng.choice(ODD)]), rng.getrandbits(64), at, out=out)
