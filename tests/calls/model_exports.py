"""The model's routines over exports: fields, records, columns and stripping, by RFC 4180's grammar as tests/second/strip.py has it."""

import re

import second
import strip as grammar
from model_tables import class_of, enough, first_over, label
from model_texts import class_words, items_are_right, names
from said import BAD_LABEL, BAD_TABLE, CSV_HEADER, CSV_SYNTAX, NO_ROOM, TOO_LONG, demand, success

CRLF = b"\r\n"
QUOTED = re.compile(grammar.ESCAPED + rb'(?!")')
PLAIN = re.compile(grammar.NON_ESCAPED)
CLOSED = re.compile(rb"(" + grammar.FIELD + rb"(?:," + grammar.FIELD + rb")*)" + CRLF)
BEGUN = re.compile(rb"((?:" + grammar.FIELD + rb",)*)(?:(" + grammar.FIELD + rb')\r?|"(?:[^"]|"")*)\Z')

COMMA, LINE, END, CR, OPEN, BAD_FIELD = range(6)
MORE, BAD = "more", "bad"


def read_field(text, at):
    """The field at a place with what stands behind it; open where the text ends between quotes."""
    text = text[at:]
    found = (QUOTED if text[:1] == b'"' else PLAIN).match(text)
    if not found:
        return success(which=OPEN)
    size = found.end()
    behind = text[size:]
    for which, holds in ((END, not behind), (COMMA, behind[:1] == b","), (LINE, behind[:2] == CRLF), (CR, behind == b"\r")):
        if holds:
            return success(size, which=which)
    return success(which=BAD_FIELD)


def record(text, last, most_fields):
    """The fields of the record at the front of a text, and its bytes with its line end; MORE where it may end in bytes to come, else BAD.

    Nothing comes if the text is the last. A record is at most 4,096 bytes before its CRLF, and between quotes a closing quote is still to come.
    """
    found = (grammar.RECORD if last else CLOSED).match(text)
    if found:
        fields = grammar.fields_of(found[1])
        return (fields, found.end()) if len(found[1]) <= grammar.MOST_BYTES and len(fields) <= most_fields else BAD
    begun = None if last else BEGUN.match(text)
    if not begun or len(grammar.fields_of(begun[1])) > most_fields:
        return BAD
    least = len(text) + 1 if begun[2] is None else begun.end(2)
    return MORE if least <= grammar.MOST_BYTES else BAD


def read_row(text, at, last, most, ends):
    """The record at a place: its fields and bytes, more or bad; and where each field ends that is read, one with no comma behind it being the last."""
    most = min(most, len(ends))
    found = record(text[at:], last, most)
    places, comma = [], True
    while comma and len(places) < most:
        start = places[-1] + 1 if places else at
        which, values, _ = read_field(text, start)
        places.append(start + sum(values))
        comma = which == COMMA
    if found in (MORE, BAD):
        return success(which=1 if found == MORE else 2, levels=places)
    return success(len(found[0]), found[1], levels=places)


def nth_field(text, at, ends, c):
    """The bytes of field c: from the record's place, or from behind the comma of the field before it, up to its end."""
    known = dict(enumerate(ends))
    start = known.get(c - 1, 0) + 1 if c else at
    return text[start : known.get(c, 0)]


def strip(text, last, kept, number, out):
    """1, 10 for over 256 columns, 16 at the first record's number, 11; the kept columns of the whole records up to a bad one."""
    demand(len(text) <= second.MOST_BYTES, TOO_LONG)
    demand(len(kept) <= grammar.MOST_FIELDS, BAD_TABLE)
    made, used = [], 0
    while used < len(text):
        found = record(text[used:], last, len(kept))
        if found == BAD or found != MORE and len(found[0]) != len(kept):
            demand(made, CSV_SYNTAX, number)
            break
        if found == MORE:
            break
        fields, size = found
        made.append(b",".join(field for field, keeps in zip(fields, kept) if keeps) + CRLF)
        used += size
    whole = b"".join(made)
    demand(len(whole) <= len(out), NO_ROOM)
    return success(used, len(whole), len(made), out=whole)


def reader_class(text):
    """12; the class that the text is."""
    demand(re.fullmatch(second.CLASS, text), BAD_LABEL)
    return success(*class_words(text))


def kept_columns(items, count, levels, marks, reader, export, last, kept):
    """10 for the item table, 11 for the labels, 12, 16, 17, 11 for `kept`; of each column of the header whether the reader's class covers it."""
    demand(items_are_right(items, count), BAD_TABLE)
    demand(enough(levels, marks, count), NO_ROOM)
    demand(first_over(levels, count) == count, BAD_LABEL, first_over(levels, count))
    found = record(export, last, grammar.MOST_FIELDS) if export or not last else BAD
    demand(found != BAD, CSV_SYNTAX, 1)
    if found == MORE:
        return success(which=1)
    columns = [grammar.name_in(field) for field in found[0]]
    known = names(items, count)
    demand(set(columns) <= set(known) and len(set(columns)) == len(columns), CSV_HEADER, 1)
    demand(len(kept) >= len(columns), NO_ROOM)
    covered = [second.covers(class_of(*reader), label(levels, marks, known.index(name))) for name in columns]
    return success(len(columns), kept=[int(covers) for covers in covered])
