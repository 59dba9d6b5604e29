"""Exports made from a seed, for books with known items: right ones of many shapes, broken ones, some larger than any buffer; readers' classes;
and the places at which an export is cut. What the right answer is, this file does not know.

An export that is being made is a list of records. A record is a list of fields as they stand in the text, and last the record's line end.
"""

import random

CRLF = b"\r\n"
MOST_BYTES, MOST_FIELDS = 4096, 256
A_BUFFER = 32768

# ---- Right exports -----------------------------------------------------------------------------------------------------------------

PLAIN = [b"a", b"7", b"0", b" ", b"Bramble", b"31.5", b"-", b"'", b";", b"\t", b"\0", b"\x0b", b"\x0c", b"\x7f", b"\x80", b"\xff", b"\xc3\xa9"]
QUOTED = PLAIN + 3 * [b",", b'""', CRLF] + [b"\r", b"\n", b'"""",', b',""\r\n', b"\n\r"]


def quoted(content):
    return b'"' + content + b'"'


def pieces(rng, pool, most):
    return b"".join(rng.choice(pool) for _ in range(rng.randint(0, most)))


def field(rng, most=4):
    if rng.random() < 0.15:
        return b""
    return quoted(pieces(rng, QUOTED, most)) if rng.random() < 0.45 else pieces(rng, PLAIN, most)


def record(rng, columns, most=4):
    return [field(rng, most) for _ in range(columns)] + [CRLF]


def header(rng, names, columns=None):
    """Some of the names, in any order, some of them quoted."""
    columns = columns or rng.randint(1, len(names))
    return [quoted(name) if rng.random() < 0.3 else name for name in rng.sample(names, columns)] + [CRLF]


def columns_of(export):
    return len(export[0]) - 1


def text_of_record(one):
    return b",".join(one[:-1]) + one[-1]


def text_of(export):
    return b"".join(text_of_record(one) for one in export)


def right(rng, names):
    """A header and some records, the last with a line end or without."""
    export = [header(rng, names)]
    for _ in range(rng.choice([0, 1, 2, 3, 5, 9])):
        export.append(record(rng, columns_of(export)))
    if rng.random() < 0.4 and text_of_record(export[-1]) != CRLF:
        export[-1][-1] = b""
    return export


def long_record(rng, columns, size):
    """A record of about so many bytes before its line end, and of just so many where its last field can make up for the others."""
    fields = [field(rng, 3) for _ in range(columns - 1)]
    room = size - sum(len(one) + 1 for one in fields)
    if room < 2:
        return fields + [b"", CRLF]
    if rng.random() < 0.3:
        return fields + [b"x" * room, CRLF]
    filling = rng.choice([b'""', CRLF, b",", b"x", b'"",""', b"\r\n\r\n,"])
    content = filling * ((room - 2) // len(filling))
    return fields + [quoted(content + b"y" * (room - 2 - len(content))), CRLF]


# ---- Broken ones -------------------------------------------------------------------------------------------------------------------
# A breaker changes an export in place, at a record that it may break; some leave it right.


def some_field(rng, one):
    return rng.randrange(len(one) - 1)


def quote_inside(rng, export, at):
    c = some_field(rng, export[at])
    content = export[at][c] or b"a"
    i = rng.randint(0, len(content))
    export[at][c] = content[:i] + b'"' + content[i:]


def behind_quote(rng, export, at):
    export[at][some_field(rng, export[at])] = quoted(pieces(rng, QUOTED, 2)) + rng.choice([b"x", b" ", b"\0", b'"x"', b'x""', b"\r", b"\n"])


def before_quote(rng, export, at):
    export[at][some_field(rng, export[at])] = rng.choice([b" ", b"x", b"\t", b"\xef\xbb\xbf", b"\r", b"\n"]) + quoted(pieces(rng, QUOTED, 2))


def unclosed(rng, export, at):
    c = some_field(rng, export[at])
    export[at][c] = b'"' + pieces(rng, QUOTED, 3) + rng.choice([b"", b"", b'""', b'"""'])


def odd_quotes(rng, export, at):
    export[at][some_field(rng, export[at])] = b'"' * rng.randint(1, 9)


def other_end(rng, export, at):
    export[at][-1] = rng.choice([b"\n", b"\r", b"\r\r\n", b"\n\r", b"", b"\r\n\n", b"\r\n\r", b" \r\n", b"\0\r\n", b",\r\n"])


def all_ends(rng, export, at):
    end = rng.choice([b"\n", b"\r", b"\n\r"])
    for one in export:
        one[-1] = end


def last_end(rng, export, at):
    export[-1][-1] = rng.choice([b"\r", b"\n", b"\r\n\r\n", b"\r\n\r", b"\r\n\n", b'\r\n"', b"\r\n,", b'"', b","])


def break_inside(rng, export, at):
    c = some_field(rng, export[at])
    i = rng.randint(0, len(export[at][c]))
    export[at][c] = export[at][c][:i] + rng.choice([b"\r", b"\n", CRLF]) + export[at][c][i:]


def fewer_fields(rng, export, at):
    if len(export[at]) > 2:
        del export[at][some_field(rng, export[at])]
    else:
        export[at][0] = b""


def more_fields(rng, export, at):
    export[at].insert(some_field(rng, export[at]), field(rng))


def empty_line(rng, export, at):
    export.insert(rng.randint(0, len(export)), [b"", CRLF])


def around_the_size(rng, export, at):
    """A record of 4,096 bytes before its line end, or of some more or less."""
    size = MOST_BYTES + rng.choice([-1, 0, 0, 0, 1, 1, 1, 2, 3, 500])
    place = max(at, 1)
    export.insert(place, long_record(rng, columns_of(export), size))
    if place == len(export) - 1:
        export[place][-1] = rng.choice([CRLF, b"", b"\r"])


def other_name(rng, export, at):
    """A header name that is no item, or hardly is."""
    c = some_field(rng, export[0])
    name = export[0][c].strip(b'"')
    near = [name.upper(), name + b" ", b" " + name, name + b"\0", name[:-1], name + b"a", b"\xef\xbb\xbf" + name, b"", b'""', b"zzzz"]
    between = [quoted(name + b'""'), quoted(b'""' + name), quoted(b'""' + name + b'""'), quoted(name + CRLF), quoted(name + b" "), quoted(name)]
    export[0][c] = rng.choice(near + between)


def repeated_name(rng, export, at):
    name = rng.choice(export[0][:-1]).strip(b'"')
    twin = quoted(name) if rng.random() < 0.5 else name
    for place, one in enumerate(export):
        one.insert(len(one) - 1, twin if place == 0 else b"")


def insert_byte(rng, export, at):
    c = some_field(rng, export[at])
    i = rng.randint(0, len(export[at][c]))
    export[at][c] = export[at][c][:i] + rng.choice([b'"', b",", b"\r", b"\n", b"\0", b"a", b'""']) + export[at][c][i:]


def drop_byte(rng, export, at):
    c = rng.randrange(len(export[at]))
    i = rng.randint(0, len(export[at][c]))
    export[at][c] = export[at][c][:i] + export[at][c][i + 1 :]


BREAKERS = [
    quote_inside, behind_quote, before_quote, unclosed, odd_quotes, odd_quotes, other_end, other_end, all_ends, last_end, last_end, break_inside,
    fewer_fields, more_fields, empty_line, empty_line, around_the_size, other_name, other_name, repeated_name, insert_byte, insert_byte, drop_byte,
]  # fmt: skip


def broken(rng, names):
    export = right(rng, names)
    for breaker in rng.sample(BREAKERS, rng.choice([1, 1, 1, 2])):
        at = rng.randrange(len(export))
        breaker(rng, export, at if at or rng.random() < 0.3 else len(export) - 1)
    return export


SOUP = [b'"', b'"', b",", b"\r", b"\n", CRLF, CRLF, b"a"]


def soup(rng, names):
    """Quotes, commas, line ends and a letter in any order, mostly behind a header."""
    front = b"" if rng.random() < 0.1 else text_of_record(header(rng, names, min(len(names), rng.choice([1, 1, 1, 2, 2, 3]))))
    return front + pieces(rng, SOUP, rng.choice([2, 4, 8, 16]))


def tiny(rng, names):
    return rng.choice([b"", CRLF, b"\r", b"\n", b'"', b'""', b",", b'"\r\n"', b"\0", CRLF + CRLF, b'""\r\n', b",\r\n", rng.choice(names)])


def sized(rng, names):
    """Records about as long as a record may be."""
    export = [header(rng, names, rng.randint(1, min(len(names), 6)))]
    for _ in range(rng.randint(0, 2)):
        export.append(record(rng, columns_of(export)))
    around_the_size(rng, export, rng.randint(1, len(export)))
    return export


def wide(rng, names):
    """About as many fields as a record may have."""
    if len(names) < MOST_FIELDS:
        return right(rng, names)
    export = [header(rng, names, rng.choice([MOST_FIELDS, MOST_FIELDS, MOST_FIELDS, 255]))]
    for _ in range(rng.randint(0, 3)):
        export.append(record(rng, columns_of(export), 1))
    chance = rng.random()
    if chance < 0.2:
        export[0].insert(0, rng.choice([b"zzzz", b"", export[0][0]]))
    elif chance < 0.5:
        rng.choice([more_fields, fewer_fields, quote_inside, last_end])(rng, export, len(export) - 1)
    return export


# ---- Large ones --------------------------------------------------------------------------------------------------------------------


def large(rng, names):
    """33,000 to 120,000 bytes, often with a fault far behind."""
    export = [header(rng, names, rng.randint(1, min(len(names), 6)))]
    size, wanted = 0, rng.randint(33000, 120000)
    while size < wanted:
        if rng.random() < 0.5:
            export.append(long_record(rng, columns_of(export), rng.choice([rng.randint(1, MOST_BYTES), rng.randint(1, 300), MOST_BYTES])))
        else:
            export.append(record(rng, columns_of(export), rng.choice([2, 6, 20])))
        size += len(text_of_record(export[-1]))
    if rng.random() < 0.5:
        rng.choice(BREAKERS)(rng, export, rng.randrange(len(export) * 2 // 3, len(export)))
    return export


def straddling(rng, names):
    """Records up to near the end of a buffer, then others, right or broken, that begin or end just before its end, at it or just behind."""
    export = [header(rng, names, rng.randint(1, min(len(names), 4)))]
    columns = columns_of(export)
    size = len(text_of(export))
    start = A_BUFFER - rng.choice([rng.randint(-3, 24), rng.randint(MOST_BYTES - 2, MOST_BYTES + 4)])
    while start - size > MOST_BYTES + 4000:
        export.append(long_record(rng, columns, rng.randint(3000, MOST_BYTES - 100)))
        size += len(text_of_record(export[-1]))
    while size < start:
        export.append([b""] * (columns - 1) + [b"x" * (min(start - size, MOST_BYTES) - columns - 1), CRLF])
        size += len(text_of_record(export[-1]))
    if rng.random() < 0.3:
        return text_of(export) + pieces(rng, SOUP, 12)
    for _ in range(rng.randint(1, 4)):
        export.append(rng.choice([record(rng, columns), record(rng, columns, 12), long_record(rng, columns, MOST_BYTES + rng.randint(-2, 1))]))
    if rng.random() < 0.4:
        rng.choice(BREAKERS)(rng, export, rng.randrange(len(export) - 3, len(export)))
    return export


SPIKES = [b"a,b\r\n", b'"a""b","",\r\n"\r\n', b'"\r\n",""""\r\n', b'a,"b""\r\n', b"a,b\rc,d\r\n", b",\r\n\r\n", b'"a"b,\r\n']


def up_to(front, size):
    """Records of two columns behind this front, up to a size."""
    made = [front]
    room = size - len(front)
    while room:
        length = room if room <= MOST_BYTES else min(room - 3, 4000)
        made.append(b"," + b"x" * (length - 3) + CRLF)
        room -= length
    return b"".join(made)


def edges(front):
    """Exports of two columns behind this header, in which the end of a buffer falls on each place of some records, and about the end of
    records as long as they may be."""
    for spike in SPIKES:
        for place in range(len(spike) + 1):
            yield up_to(front, A_BUFFER - place) + spike
            yield up_to(front, A_BUFFER - place) + spike + b"c,d\r\n"
    for size in (MOST_BYTES, MOST_BYTES + 1):
        for place in range(size - 1, size + 4):
            for end in (CRLF, b"", b"\r", b"\r\nc,d"):
                yield up_to(front, A_BUFFER - place) + b"," + b"y" * (size - 1) + end
                yield up_to(front, A_BUFFER - place) + b',"' + b'""' * ((size - 3) // 2) + b"\r" * ((size - 3) % 2) + b'"' + end


# ---- Readers, cuts, and all of it --------------------------------------------------------------------------------------------------

BAD_CLASSES = (
    b"|0|0/|/0000000000000000|16/0000000000000000|00/0000000000000000|01/0000000000000000|1/000000000000000|1/00000000000000000|-1/0000000000000000"
    b"|1/000000000000000A|1/000000000000000g| 1/0000000000000000|1/0000000000000000 |1/0000000000000000\n|1:0000000000000000|x|99/ffffffffffffffff"
).split(b"|")


def class_text(level, marks):
    return b"%d/%016x" % (level, marks)


def reader(rng, labels):
    """A reader's class, often near one of these labels, of which each is a level and a word of marks."""
    if rng.random() < 0.03:
        return rng.choice(BAD_CLASSES)
    level, marks = rng.choice(labels) if labels else (0, 0)
    if rng.random() < 0.5:
        other_level, other_marks = rng.choice(labels) if labels else (15, 1)
        level, marks = max(level, other_level), marks | other_marks
    chance = rng.random()
    if chance < 0.1:
        return class_text(rng.choice([0, 15]), rng.choice([0, 2**64 - 1]))
    if chance < 0.25:
        level = max(level - 1, 0)
    elif chance < 0.4:
        marks &= rng.getrandbits(64)
    return class_text(level, marks)


SHAPES = 5 * [right] + 7 * [broken] + 4 * [soup] + [tiny] + 2 * [sized] + 2 * [wide] + 2 * [large] + 4 * [straddling]


def made(rng, names):
    """An export, as bytes, for a book with these items."""
    if not names:
        names = [b"a", b"b"]
    export = rng.choice(SHAPES)(rng, names)
    return export if isinstance(export, bytes) else text_of(export)


def cut(rng, export):
    """The export in pieces, of which none is empty: large ones in few, short ones now and then byte by byte, often between the bytes of a
    line end or behind a quote."""
    if not export:
        return []
    if len(export) < 40 and rng.random() < 0.3:
        places = range(1, len(export))
    else:
        most = 8 if len(export) < 2000 else 4
        odd = [i + 1 for i, byte in enumerate(export[:-1]) if byte in b'\r",'] or [len(export)]
        places = [rng.choice(odd) if rng.random() < 0.5 else rng.randint(1, len(export)) for _ in range(rng.randint(0, most))]
    places = sorted({0, len(export), *places})
    return [export[one:next_one] for one, next_one in zip(places, places[1:])]
