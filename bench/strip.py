#!/usr/bin/env python3
"""Times the stripping program against the same job in plain C: `bench/strip.py [RUNS]`, from the repository's root, once `tests/build strip` has
built the program.

Both programs strip the same exports of 100 MB and run in the same way, that of tests/run-program, in turn. First their outputs must be equal
byte for byte. A speed is the export's bytes over processor time, which other work on the machine changes little: the median of RUNS runs
(five, if not said), less the median of as many runs of the same program on a header alone. The ratio is the stripping program's speed over that
of C: at 0.5 it is half as fast. Then the most memory that each holds at once while it strips 1, 10 and 100 MB.

bench/strip.c is built as bench/label.py builds label.c. MLR_X86_64 in the environment may name an x86-64 `mlr`, which then strips one of the
exports, cut to 10 MB, in the same way; an `mlr` or `csvtool` that is installed is run too. Neither keeps the quoting nor looks at sizes."""
import filecmp
import os
import random
import shutil
import statistics
import subprocess
import sys
import tempfile
import time

sys.dont_write_bytecode = True
sys.path.insert(0, os.path.join(os.path.dirname(os.path.dirname(os.path.abspath(__file__))), "tests"))
from label import laid, spent_by_children  # noqa: E402
from program import unread  # noqa: E402

PROGRAM = os.path.join("crates", "strip", "out", "strip")
SOURCE = os.path.join("bench", "strip.c")
MEGABYTE = 10**6
MEGABYTES = 100
READER = "0/0000000000000000"

# ---- Exports -----------------------------------------------------------------------------------------------------------------------

COWS = "Bramble Cora Dot Elsie Fern Gilda Hazel Iris Juno Kitty Lotte Maud".split()
WORDS = "calm in the parlour; \"\"kicks\"\" at night, eats well\r\nand gave less than in spring, see the vet's note, then".split(" ")


def short(rng):
    return rng.choice([rng.choice(COWS), f"{rng.uniform(10, 40):.1f}", f"2024-{rng.randint(1, 12):02}-{rng.randint(1, 28):02}", str(rng.randrange(10**6))])


def quoted(rng):
    return rng.choice([f'"{rng.randint(10, 40)},{rng.randrange(10)}"', f'"{rng.choice(COWS)}, the elder"', f'"{rng.choice(COWS)}"', '"the ""old"" one"'])


def note(rng):
    return '"' + " ".join(rng.choice(WORDS) for _ in range(rng.randint(30, 50))) + '"'


def digit(rng):
    return str(rng.randrange(10))


HALF = [True, False]

# What each export has for columns, of which each is kept or not.
EXPORTS = [
    ("plain fields, all kept", [(short, True)] * 12),
    ("plain fields, every second kept", [(short, kept) for kept in HALF * 6]),
    ("plain and quoted fields, all kept", [(short, True), (quoted, True)] * 6),
    ("plain and quoted fields, half of each kept", [(kind, kept) for kept in HALF for kind in (short, quoted)] * 3),
    ("quoted fields, all kept", [(quoted, True)] * 12),
    ("plain fields kept, long quoted ones not", [(short, True), (short, True), (note, False)]),
    ("long quoted fields kept", [(short, False), (note, True)]),
    ("one byte in a field, every second kept", [(digit, kept) for kept in HALF * 50]),
    ("plain and quoted fields, none kept", [(short, False), (quoted, False)] * 6),
]
THE_MIXED_ONE = 3


def names(columns):
    return [f"c{c}" for c in range(len(columns))]


def book(columns):
    """A book in which the columns that are not kept have level 1."""
    lines = ["form=1"] + ["item=" + name for name in names(columns)]
    lines += [f"floor={name}:1/0000000000000000" for name, (_, kept) in zip(names(columns), columns) if not kept]
    return "".join(line + "\n" for line in lines + [f"end={len(lines)}"]).encode()


def header(columns):
    return ",".join(names(columns)).encode() + b"\r\n"


def block(columns):
    """Records of about a megabyte."""
    rng = random.Random(1)
    made, size = [], 0
    while size < MEGABYTE:
        made.append(",".join(make(rng) for make, _ in columns).encode() + b"\r\n")
        size += len(made[-1])
    return b"".join(made)


class Export:
    """An export in a file, of so many times a megabyte, with its book."""

    def __init__(self, room, columns, megabytes):
        self.columns = columns
        self.book, self.export = os.path.join(room, "book"), os.path.join(room, "export")
        records = block(columns)
        with open(self.book, "wb") as file:
            file.write(book(columns))
        with open(self.export, "wb") as file:
            file.write(header(columns))
            for _ in range(megabytes):
                file.write(records)
        os.chmod(self.book, 0o644)
        self.size = os.path.getsize(self.export)


# ---- Programs ----------------------------------------------------------------------------------------------------------------------


class Runner:
    """Runs programs as tests/run-program does."""

    def __init__(self, room):
        said = subprocess.run(["tests/run-program", "--prefix"], check=True, stdout=subprocess.PIPE, text=True)
        self.prefix = said.stdout.splitlines()
        self.env = dict(os.environ)
        self.room = room

    def start(self, command, **streams):
        return subprocess.Popen(command, cwd=self.room, env=self.env, **streams)

    def strip(self, program, book_path):
        return self.prefix + [program, book_path, READER]

    def seconds(self, command, path):
        """The processor's time of a run on the file."""
        before = spent_by_children()
        with open(path, "rb") as file:
            self.start(command, stdin=file, stdout=subprocess.DEVNULL).wait()
        return spent_by_children() - before

    def output(self, command, path, name):
        """The file with what is written on both outputs."""
        wrote = os.path.join(self.room, name)
        with open(path, "rb") as source, open(wrote, "wb") as file:
            self.start(command, stdin=source, stdout=file, stderr=file).wait()
        return wrote

    def most_memory(self, command, front, records, megabytes):
        """The most kilobytes that a run holds at once: asked when all is read and the input has not ended."""
        process = self.start(command, stdin=subprocess.PIPE, stdout=subprocess.DEVNULL)
        process.stdin.write(front)
        for _ in range(megabytes):
            process.stdin.write(records)
        process.stdin.flush()
        while unread(process.stdin.fileno()):
            time.sleep(0.01)
        time.sleep(0.2)
        with open(f"/proc/{process.pid}/status", encoding="ascii") as file:
            peak = next(int(line.split()[1]) for line in file if line.startswith("VmHWM:"))
        process.stdin.close()
        process.wait()
        return peak


def others(columns, path):
    """Other tools that cut columns: what they are, the command, and whether it takes the words before a program."""
    kept = ",".join(name for name, (_, is_kept) in zip(names(columns), columns) if is_kept)
    mlr, csvtool = ["--csv", "cut", "-f", kept, path], ["namedcol", kept, path]
    found = []
    if os.environ.get("MLR_X86_64"):
        found.append(("mlr, x86-64, run in the same way", [os.environ["MLR_X86_64"]] + mlr, True))
    for tool, words in (("mlr", mlr), ("csvtool", csvtool)):
        if shutil.which(tool):
            found.append((f"{tool}, as installed", [shutil.which(tool)] + words, False))
    return found


# ---- The figures -------------------------------------------------------------------------------------------------------------------


def speeds(runner, programs, export, runs):
    """The bytes a second of each program, in megabytes; or None where their outputs differ."""
    commands = [runner.strip(program, export.book) for program in programs]
    wrote = [runner.output(command, export.export, f"output-{k}") for k, command in enumerate(commands)]
    if not filecmp.cmp(wrote[0], wrote[-1], shallow=False):
        return None
    head = os.path.join(runner.room, "head")
    with open(head, "wb") as file:
        file.write(header(export.columns))
    times = [[] for _ in commands]
    nothing = [[] for _ in commands]
    for _ in range(runs):
        for k, command in enumerate(commands):
            times[k].append(runner.seconds(command, export.export))
            nothing[k].append(runner.seconds(command, head))
    return [export.size / MEGABYTE / (statistics.median(some) - statistics.median(none)) for some, none in zip(times, nothing)]


def row(name, columns, found):
    kept = sum(is_kept for _, is_kept in columns)
    c, ratio = (f"{found[1]:.0f}", f"{found[0] / found[1]:.2f}") if len(found) > 1 else ("-", "-")
    return f"| {name:42} | {len(columns):6} | {kept:4} | {found[0]:10.0f} | {c:>6} | {ratio:>5} |"


def print_speeds(runner, programs, runs):
    print(f"| {f'export of {MEGABYTES} MB':42} | fields | kept | strip MB/s | C MB/s | ratio |")
    print("|---|---|---|---|---|---|")
    for name, columns in EXPORTS:
        found = speeds(runner, programs, Export(runner.room, columns, MEGABYTES), runs)
        if found is None:
            print(f"{name}: the outputs differ")
            return False
        print(row(name, columns, found), flush=True)
    return True


def print_others(runner):
    name, columns = EXPORTS[THE_MIXED_ONE]
    export = Export(runner.room, columns, MEGABYTES // 10)
    for what, command, with_prefix in others(columns, export.export):
        spent = runner.seconds((runner.prefix if with_prefix else []) + command, export.export)
        print(f"{name}, 10 MB, by {what}: {export.size / MEGABYTE / spent:.1f} MB/s")


def print_memory(runner, programs):
    name, columns = EXPORTS[THE_MIXED_ONE]
    export = Export(runner.room, columns, 0)
    records = block(columns)
    print(f"\n| {name} | " + " | ".join(f"{what} KB" for what, _ in zip(("strip", "C"), programs)) + " |")
    print("|---|" + "---|" * len(programs))
    for megabytes in (1, 10, 100):
        peaks = [runner.most_memory(runner.strip(program, export.book), header(columns), records, megabytes) for program in programs]
        print(f"| {megabytes} MB | " + " | ".join(f"{peak:,}" for peak in peaks) + " |", flush=True)


def bench(runs):
    with tempfile.TemporaryDirectory() as room:
        programs = laid(room, PROGRAM, SOURCE)
        runner = Runner(room)
        if not print_speeds(runner, programs, runs):
            return 1
        print_others(runner)
        print_memory(runner, programs)
    return 0


def main():
    words = sys.argv[1:]
    if len(words) > 1 or not all(word.isdigit() and int(word) >= 1 for word in words):
        print("usage: bench/strip.py [RUNS]", file=sys.stderr)
        return 2
    if not os.path.isfile(PROGRAM):
        print("no program to time: run 'tests/build strip' first")
        return 1
    return bench(int(words[0]) if words else 5)


if __name__ == "__main__":
    sys.exit(main())
