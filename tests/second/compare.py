#!/usr/bin/env python3
"""Holds the labelling program to the second program: `tests/second/compare.py [COUNT] [SEED]`, once `tests/build label` has built it.

COUNT texts are given to both, and what they write must be equal byte for byte: first the texts of `second.py --examples`, then the large
texts, then books and broken texts made from SEED. Where a book is too big to try every labelling, only what the reader says is held.
"""

import os
import subprocess
import sys
import tempfile
from concurrent.futures import ThreadPoolExecutor

sys.dont_write_bytecode = True
import books  # noqa: E402
import second  # noqa: E402

ROOT = os.path.dirname(os.path.dirname(os.path.dirname(os.path.abspath(__file__))))
PROGRAM = os.path.join(ROOT, "crates", "label", "out", "label")
MOST_SHOWN = 10
REFUSALS = "TOO_LONG SYNTAX ORDER TOO_MANY NAME_TWICE NO_SUCH_ITEM LEFT_ORDER END_COUNT NO_LABELLING".split()


def texts(seed):
    for _, text, _ in second.examples():
        yield text
    yield from books.edges()
    yield from books.made(seed)


def verdict(output):
    """The number that an output refuses with, or 0."""
    lines = output.split(b"\n")
    return int(lines[1][8:]) if lines[1].startswith(b"refused=") else 0


def expected(text):
    """The output that is right, or None if only the reader's verdict is known."""
    try:
        return second.answer(text)
    except second.TooBig:
        return None


def shown(output):
    return output.decode("ascii", "backslashreplace") if output is not None else "a labelling or refusal 9\n"


def main():
    if len(sys.argv) > 3 or not all(word.isdigit() for word in sys.argv[1:]):
        print("usage: tests/second/compare.py [COUNT] [SEED]", file=sys.stderr)
        return 2
    count, seed = [int(word) for word in sys.argv[1:]] + [2000, 1][len(sys.argv) - 1 :]
    if not os.path.isfile(PROGRAM):
        print("no program to compare with: run 'tests/build label' first")
        print("0 passed, 1 failed")
        return 1
    prefix = subprocess.run([os.path.join(ROOT, "tests", "run-program"), "--prefix"], check=True, stdout=subprocess.PIPE, text=True)
    seen = [0] * 10
    unknown = passed = failed = 0
    with tempfile.TemporaryDirectory() as room, ThreadPoolExecutor(2) as pool:
        os.chmod(room, 0o755)
        program = os.path.join(room, "program")
        with open(PROGRAM, "rb") as built, open(program, "wb") as copy:
            copy.write(built.read())
        os.chmod(program, 0o755)
        command = prefix.stdout.splitlines() + [program]

        def run(text):
            try:
                return subprocess.run(command, input=text, stdout=subprocess.PIPE, stderr=subprocess.PIPE, cwd=room, timeout=60)
            except subprocess.TimeoutExpired:
                return subprocess.CompletedProcess(command, -1, b"", b"no end within a minute\n")

        source = texts(seed)
        while passed + failed < count:
            batch = [text for _, text in zip(range(min(200, count - passed - failed)), source)]
            for text, ran in zip(batch, pool.map(run, batch)):
                right = expected(text)
                if right is None:
                    unknown += 1
                    same = ran.stdout.startswith(b"form=1\n") and verdict(ran.stdout) in (0, second.NO_LABELLING)
                else:
                    seen[verdict(right)] += 1
                    same = ran.stdout == right
                if same and ran.returncode == 0:
                    passed += 1
                    continue
                failed += 1
                if failed <= MOST_SHOWN:
                    print("text %d of seed %d, %d bytes: %r" % (passed + failed, seed, len(text), text))
                    print("the second program:\n" + shown(right) + "the labelling program, status %d:" % ran.returncode)
                    print(shown(ran.stdout) + shown(ran.stderr))
    broken = ", ".join("%s %d" % (REFUSALS[number - 1], seen[number]) for number in range(1, 9))
    books_seen = "%d books with labels, %d with no labelling, %d by the reader alone" % (seen[0], seen[9], unknown)
    print("%s, %d broken texts (%s)" % (books_seen, sum(seen[1:9]), broken))
    print("%d passed, %d failed" % (passed, failed))
    return 1 if failed else 0


if __name__ == "__main__":
    sys.exit(main())
