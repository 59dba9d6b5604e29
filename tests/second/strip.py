#!/usr/bin/env python3
"""A second stripping program, for small books, and the comparison of the stripping program with it.

strip.py [COUNT] [SEED]  gives COUNT exports, most of them made from SEED, to both, once `tests/build strip` has built the program, and holds what
                         they write on standard output and on standard error to be equal byte for byte. The program reads each export through a
                         pipe, in pieces cut at random places, each piece by itself; every second pipe stays open until all whole records
                         are written
strip.py --cases         checks the second program on the cases of tests/strip/cases.txt
strip.py BOOK CLASS      is the second program: an export from standard input

Here an export is taken apart by the grammar of RFC 4180, as a regular expression over all of its bytes, and labels are found by trying every
labelling.
"""

import functools
import os
import random
import re
import sys
from concurrent.futures import ProcessPoolExecutor

sys.dont_write_bytecode = True
HERE = os.path.dirname(os.path.abspath(__file__))
TESTS = os.path.dirname(HERE)
sys.path += [TESTS, os.path.join(TESTS, "strip")]
import books  # noqa: E402
import cases  # noqa: E402
import exports  # noqa: E402
import program  # noqa: E402
import second  # noqa: E402
from second import Refused  # noqa: E402

# ---- The second program ------------------------------------------------------------------------------------------------------------

BAD_CLASS, CSV_SYNTAX, CSV_HEADER = 12, 16, 17
MOST_BYTES, MOST_FIELDS = 4096, 256

# RFC 4180, section 2: escaped, non-escaped, field, record. TEXTDATA is any byte but the comma, the quote, CR and LF.
ESCAPED = rb'"(?:[^"]|"")*"'
NON_ESCAPED = rb'[^,"\r\n]*'
FIELD = rb"(?:" + ESCAPED + rb"|" + NON_ESCAPED + rb")"
RECORD = re.compile(rb"(" + FIELD + rb"(?:," + FIELD + rb")*)(?:\r\n|\Z)")
COMMA_AND_FIELD = re.compile(rb",(" + FIELD + rb")")


def fields_of(record):
    """The fields of a record, quotes and all."""
    fields = COMMA_AND_FIELD.findall(b"," + record)
    assert b",".join(fields) == record
    return fields


def name_in(field):
    return field[1:-1].replace(b'""', b'"') if field[:1] == b'"' else field


@functools.lru_cache(None)
def labelled(text):
    """The item names and the labels of a book; or its refusal."""
    try:
        book = second.read(text)
        return book.items, second.label(book)
    except Refused as refused:
        return refused


def kept_columns(items, labels, reader, names):
    """Which columns of a header the reader's class covers."""
    if len(set(names)) < len(names) or not set(names) <= set(items):
        raise Refused(CSV_HEADER, 1)
    return [second.covers(reader, labels[items.index(name)]) for name in names]


def rows(text, class_text, export):
    """What is written of each record, one after the other; raises Refused where the run stops."""
    known = labelled(text)
    if isinstance(known, Refused):
        raise known
    if not re.fullmatch(second.CLASS, class_text):
        raise Refused(BAD_CLASS, 0)
    if not export:
        raise Refused(CSV_SYNTAX, 1)
    number, at, kept = 1, 0, None
    while at < len(export):
        found = RECORD.match(export, at)
        if not found or len(found[1]) > MOST_BYTES:
            raise Refused(CSV_SYNTAX, number)
        fields = fields_of(found[1])
        if len(fields) > MOST_FIELDS or kept is not None and len(fields) != len(kept):
            raise Refused(CSV_SYNTAX, number)
        if kept is None:
            kept = kept_columns(*known, second.read_class(class_text), [name_in(field) for field in fields])
        yield b",".join(field for field, is_kept in zip(fields, kept) if is_kept) + b"\r\n"
        number, at = number + 1, found.end()


def written(text, class_text, export):
    """What the stripping program has to write of each record on standard output, and what on standard error."""
    output = []
    try:
        for row in rows(text, class_text, export):
            output.append(row)
    except Refused as refused:
        return output, b"form=1\nrefused=%d\nat=%d\nend=3\n" % (refused.number, refused.place)
    return output, b""


def answer(text, class_text, export):
    """What it has to write on standard output and on standard error."""
    output, error = written(text, class_text, export)
    return b"".join(output), error


def check_cases():
    texts, all_cases = cases.read_cases()
    passed = failed = 0
    for case in all_cases:
        if not case.is_judged():
            continue
        wrote = answer(texts[case.text["book"]], case.bytes("class"), case.bytes("export"))
        if wrote == (case.bytes("output") + case.bytes("later"), case.bytes("error")):
            passed += 1
        else:
            failed += 1
            print("%s: %.300r" % (case.name, wrote))
    print("%d passed, %d failed" % (passed, failed))
    return 1 if failed else 0


# ---- The comparison ----------------------------------------------------------------------------------------------------------------

MOST_SHOWN = 10


def wide_book(rng):
    """256 items, of which five have a label above the lowest."""
    lines = [b"item=c%d" % i for i in range(1, 257)]
    floors = [b"floor=c%d:%d/%016x" % (i, rng.choice([1, 7]), rng.choice([0, 4])) for i in sorted(rng.sample(range(1, 257), 5))]
    return books.closed(lines + floors)


@functools.lru_cache(None)
def shelf(seed):
    """Books whose labelling is known: small ones and some wide ones that can be labelled, and some for each refusal."""
    rng = random.Random(seed)
    accepted = [second.WORKED_INPUT] + [wide_book(rng) for _ in range(6)]
    refused = {second.TOO_LONG: [b"x" * 32769]}
    while len(accepted) < 60 or len(refused) < second.NO_LABELLING:
        text = rng.choice([books.small_book(rng).text(), books.broken_text(rng)])
        try:
            known = labelled(text)
        except second.TooBig:
            continue
        if isinstance(known, Refused):
            refused.setdefault(known.number, []).append(text)
        elif known[0]:
            accepted.append(text)
    return accepted[:60], [text for number in sorted(refused) for text in refused[number][:2]]


@functools.lru_cache(None)
def edges():
    return list(exports.edges(b"cow-name,yield\r\n"))


def task(seed, number):
    """The book, the reader's class and the export of this number, and how it is cut: first the edges, then what is made from the seed."""
    rng = random.Random("%d %d" % (seed, number))
    if number <= len(edges()):
        export = edges()[number - 1]
        halves = export[: exports.A_BUFFER], export[exports.A_BUFFER :]
        return second.WORKED_INPUT, rng.choice([b"5/0000000000000005", b"3/0000000000000000"]), export, [half for half in halves if half]
    accepted, refused = shelf(seed)
    text = rng.choice(refused if rng.random() < 0.04 else accepted)
    known = labelled(text)
    names, labels = ([], []) if isinstance(known, Refused) else known
    reader = exports.reader(rng, [(level, sum(2**k for k in marks)) for level, marks in labels])
    export = exports.made(rng, names)
    return text, reader, export, exports.cut(rng, export)


built = None


def start(room):
    """Makes ready the program in each of the processes that run it."""
    global built
    built = program.Program("strip", room)


def shown(text):
    return "%r of %d bytes" % (text[:200] + b".." + text[-200:] if len(text) > 400 else text, len(text))


def known_early(output, error, export):
    """How many bytes of the output are known before the export ends: those of all records but a last one that has no line end."""
    last_is_open = not error and not export.endswith(exports.CRLF)
    return sum(map(len, output[:-1] if last_is_open else output))


def compare(seed, number):
    """What is refused (0 for nothing), how large the export is and in how many pieces; and how the programs differ, if they do."""
    text, reader, export, pieces = task(seed, number)
    wrote, error = written(text, reader, export)
    output = b"".join(wrote)
    open_until = known_early(wrote, error, export) if number % 2 else 0
    ran = built.run([built.lay("book", text), reader], pieces, open_until=open_until)
    verdict = int(error.split(b"\n")[1][8:]) if error else 0
    if ran == (0, output, error):
        return verdict, len(export), len(pieces), ""
    said = "export %d of seed %d, for %r by %r:\n%s, cut into %r\n" % (number, seed, reader, text, shown(export), [len(one) for one in pieces])
    said += "the second program:\n%s\n%s\nthe stripping program, status %d:\n%s\n%s" % (shown(output), error, ran[0], shown(ran[1]), ran[2])
    return verdict, len(export), len(pieces), said


def compare_all(count, seed):
    seen, failed, large, cuts = {}, 0, 0, 0
    with program.Program("strip") as whole, ProcessPoolExecutor(2, initializer=start, initargs=[whole.room]) as pool:
        for verdict, size, pieces, said in pool.map(compare, [seed] * count, range(1, count + 1), chunksize=20):
            seen[verdict] = seen.get(verdict, 0) + 1
            large += size > exports.A_BUFFER
            cuts += pieces
            failed += bool(said)
            if said and failed <= MOST_SHOWN:
                print(said)
    refusals = ", ".join("%d by %d" % (seen[number], number) for number in sorted(seen) if number)
    print("%d exports accepted, refused %s; %d larger than a buffer; %d pieces" % (seen.get(0, 0), refusals, large, cuts))
    print("%d passed, %d failed" % (count - failed, failed))
    return 1 if failed else 0


def main():
    words = sys.argv[1:]
    if words == ["--cases"]:
        return check_cases()
    if len(words) == 2 and not words[0].isdigit():
        with open(words[0], "rb") as file:
            output, error = answer(file.read(), os.fsencode(words[1]), sys.stdin.buffer.read())
        sys.stdout.buffer.write(output)
        sys.stderr.buffer.write(error)
        return 0
    if len(words) > 2 or not all(word.isdigit() for word in words):
        print("usage: tests/second/strip.py [COUNT] [SEED], --cases, or BOOK CLASS", file=sys.stderr)
        return 2
    count, seed = [int(word) for word in words] + [2000, 1][len(words) :]
    return compare_all(count, seed)


if __name__ == "__main__":
    sys.exit(main())
