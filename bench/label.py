#!/usr/bin/env python3
"""Times the labelling program against the same job in plain C: `bench/label.py [RUNS]`, from the repository's root, once `tests/build label`
has built the program. `bench/label.py --texts DIR` writes the texts into DIR instead.

Both programs read the same texts and run in the same way, that of tests/run-program, in turn. First their outputs must be equal byte for
byte. Each time is processor time, which other work on the machine changes little: the median of RUNS runs (seven, if not said), less the
median of as many runs of the same program on a book with no items. The ratio is the labelling program's time over that of C. Where the
time of C is within the spread of its runs on the book with no items, no ratio is given.

bench/label.c is built with -O2 by gcc, on an Arm machine by x86_64-linux-gnu-gcc. CC_X86_64 in the environment may name another compiler
for x86-64, with its options. Without a compiler only the labelling program is timed."""
import itertools
import os
import platform
import resource
import shlex
import shutil
import statistics
import subprocess
import sys
import tempfile

PROGRAM = os.path.join("crates", "label", "out", "label")
SOURCE = os.path.join("bench", "label.c")
MOST_BYTES, MOST_ITEMS, MOST_RULES = 32768, 256, 1024
EMPTY = b"form=1\nend=1\n"
ALL_MARKS = 2**64 - 1
RULES = (b"cap", b"floor", b"follow")

# ---- Texts -------------------------------------------------------------------------------------------------------------------------

LETTERS = "abcdefghijklmnopqrstuvwxyz0123456789-"
NAMES = (list(LETTERS) + [x + y for x in LETTERS for y in LETTERS])[:MOST_ITEMS]


def cap(item, level):
    return f"cap={NAMES[item]}:{level}/{ALL_MARKS:016x}"


def floor(left, level, marks):
    return f"floor={'+'.join(NAMES[i] for i in left)}:{level}/{marks:016x}"


def follow(left, right):
    return f"follow={'+'.join(NAMES[i] for i in left)}:{NAMES[right]}"


def text_of(rules, names=NAMES):
    lines = ["form=1"] + ["item=" + name for name in names] + rules
    return "".join(line + "\n" for line in lines + [f"end={len(lines)}"]).encode()


def fitting(rules):
    """As many of the rules, from the front, as a text can hold."""
    room = MOST_BYTES - len(text_of([])) - len("1000") + len("257")
    kept = []
    for rule in rules[:MOST_RULES]:
        room -= len(rule) + 1
        if room < 0:
            break
        kept.append(rule)
    return kept


def eight_from(i):
    return range(i % 248, i % 248 + 8)


def shape(follows, cap_level=15):
    """A hard book of crates/tables: its caps and its floors, on the last item, and these follows."""
    caps = [cap(i, cap_level) for i in range(256)]
    floors = [floor([255], r % 10, 1 << r % 32 * 2) for r in range(256, 768)]
    return text_of(fitting(caps + floors + follows))


def eight_left():
    """Floors on each run of eight items and follows from each: all with their caps do not fit, so that each floor is there once."""
    caps = [cap(i, 15) for i in range(256)]
    floors = [floor(eight_from(i), 9, 0x5555555555555555) for i in range(248)]
    follows = [follow(eight_from(i), i % 248 + 8) for i in range(MOST_RULES)]
    return text_of(fitting(caps + floors + follows))


def names_only():
    """Follows with eight left names from the whole book. What is left of the bytes goes into the names of items that stand in no rule."""
    used = 250
    rules = [follow([r % 31 + 31 * k for k in range(8)], r * 7 % used) for r in range(MOST_RULES)]
    rules = fitting(rules)
    names = list(NAMES)
    spare = MOST_BYTES - len(text_of(rules))
    for i in range(used, MOST_ITEMS):
        more = min(spare, 16 - len(names[i]))
        names[i] += "-" * more
        spare -= more
    return text_of(rules, names)


def miscounted(text):
    """The same text with a wrong end line, so that all of it is read and nothing is solved."""
    head, count = text[:-1].rsplit(b"=", 1)
    return head + b"=%d\n" % (int(count) - 1)


def texts():
    return [
        ("chain of follows in file order", shape([follow([i % 255], i % 255 + 1) for i in range(256)])),
        ("the same chain in reverse order", shape([follow([254 - i % 255], 255 - i % 255) for i in range(256)])),
        ("one circle through all items", shape([follow([i], (i + 1) % 256) for i in range(256)])),
        ("eight left names everywhere", eight_left()),
        ("no labelling", shape([follow([i % 255], i % 255 + 1) for i in range(256)], cap_level=8)),
        ("names, all labels lowest", names_only()),
        ("the same, refused at its end line", miscounted(names_only())),
    ]


def lines_with(text, *keys):
    return sum(line.split(b"=")[0] in keys for line in text.split(b"\n"))


# ---- Programs ----------------------------------------------------------------------------------------------------------------------


def compiler():
    """The command that compiles C for x86-64, or None."""
    if os.environ.get("CC_X86_64"):
        return shlex.split(os.environ["CC_X86_64"])
    name = "gcc" if platform.machine() == "x86_64" else "x86_64-linux-gnu-gcc"
    return [name] if shutil.which(name) else None


def build(room, source):
    """The C program, built into a directory, or None."""
    command = compiler()
    if command is None:
        print("no C compiler for x86-64 (on Arm: x86_64-linux-gnu-gcc), so no times of C and no ratios")
        return None
    print(f"C is built by {command[0]} -O2; this machine is {platform.machine()}")
    program = os.path.join(room, "c")
    subprocess.run(command + ["-O2", "-o", program, source], check=True)
    return program


def spent_by_children():
    used = resource.getrusage(resource.RUSAGE_CHILDREN)
    return used.ru_utime + used.ru_stime


class Runner:
    """Runs programs as tests/run-program does."""

    def __init__(self, room):
        said = subprocess.run(["tests/run-program", "--prefix"], check=True, stdout=subprocess.PIPE, text=True)
        self.prefix = said.stdout.splitlines()
        self.env = dict(os.environ)
        self.room = room

    def run(self, program, text):
        ran = subprocess.run(self.prefix + [program], input=text, stdout=subprocess.PIPE, cwd=self.room, env=self.env, check=True)
        return ran.stdout

    def seconds(self, program, text):
        before = spent_by_children()
        self.run(program, text)
        return spent_by_children() - before


def first_difference(ours, theirs):
    pairs = itertools.zip_longest(ours.split(b"\n"), theirs.split(b"\n"))
    return next((at, x, y) for at, (x, y) in enumerate(pairs, 1) if x != y)


def equal_outputs(runner, programs, all_texts):
    """Whether all programs write the same on every text; says where they do not."""
    same = True
    for name, text in all_texts:
        outputs = [runner.run(program, text) for program in programs]
        if outputs[0] != outputs[-1]:
            at, ours, theirs = first_difference(*outputs)
            print(f"{name}: the outputs differ at line {at}: label has {ours!r}, C has {theirs!r}")
            same = False
    return same


# ---- Times -------------------------------------------------------------------------------------------------------------------------


def measure(runner, programs, all_texts, runs):
    """The seconds of each run, by program and text: in each round every program runs every text, the programs in turn."""
    times = {(program, text): [] for program in programs for _, text in all_texts}
    for _ in range(runs):
        for _, text in all_texts:
            for program in programs:
                times[program, text].append(runner.seconds(program, text))
    return times


def row(name, text, spent, c_spread):
    """A line of the table, from the milliseconds of each program on a text."""
    c = f"{spent[1]:8.1f}" if len(spent) > 1 else f"{'-':>8}"
    ratio = f"{spent[0] / spent[1]:6.1f}" if len(spent) > 1 and spent[1] > c_spread else f"{'-':>6}"
    return (
        f"| {name:34} | {len(text):6} | {lines_with(text, b'item'):5} | {lines_with(text, *RULES):5} "
        f"| {spent[0]:8.1f} | {c} | {ratio} |"
    )


def spread_of(seconds):
    """How far the middle half of the runs lies apart, in milliseconds."""
    quarters = statistics.quantiles(seconds, n=4)
    return 1000 * (quarters[2] - quarters[0])


def print_table(programs, all_texts, times):
    empty = [statistics.median(times[program, EMPTY]) for program in programs]
    spread = spread_of(times[programs[-1], EMPTY])
    print(f"| {'text':34} |  bytes | items | rules | label ms |     C ms |  ratio |")
    print("|---|---|---|---|---|---|---|")
    for name, text in all_texts:
        spent = [1000 * (statistics.median(times[program, text]) - none) for program, none in zip(programs, empty)]
        print(row(name, text, spent, spread))
    for program, none in zip(("label", "C"), empty):
        print(f"taken off for {program}, a book with no items: {1000 * none:.1f} ms")
    print(f"the middle half of the last one's runs lies within {spread:.1f} ms")
    for name, text in all_texts:
        if lines_with(text, *RULES) < MOST_RULES:
            print(f"{name}: {MOST_RULES} rules do not fit in {MOST_BYTES} bytes, {lines_with(text, *RULES)} do")


def write_texts(directory):
    for number, (name, text) in enumerate(texts(), 1):
        with open(os.path.join(directory, f"{number}.book"), "wb") as file:
            file.write(text)
        print(f"{number}.book: {name}")


def laid(room, program, source):
    """A copy of a built program and, where there is a compiler, the C program beside it, in a folder in which everybody can run them."""
    os.chmod(room, 0o755)
    programs = [shutil.copy(program, room), build(room, source)]
    programs = [path for path in programs if path]
    for path in programs:
        os.chmod(path, 0o755)
    return programs


def bench(runs):
    all_texts = texts()
    with tempfile.TemporaryDirectory() as room:
        programs = laid(room, PROGRAM, SOURCE)
        runner = Runner(room)
        if not equal_outputs(runner, programs, all_texts + [("a book with no items", EMPTY)]):
            return 1
        print_table(programs, all_texts, measure(runner, programs, all_texts + [("", EMPTY)], runs))
    return 0


def main():
    words = sys.argv[1:]
    if len(words) == 2 and words[0] == "--texts":
        write_texts(words[1])
        return 0
    if len(words) > 1 or not all(word.isdigit() and int(word) >= 2 for word in words):
        print("usage: bench/label.py [RUNS], RUNS at least 2, or bench/label.py --texts DIR", file=sys.stderr)
        return 2
    if not os.path.isfile(PROGRAM):
        print("no program to time: run 'tests/build label' first")
        return 1
    return bench(int(words[0]) if words else 7)


if __name__ == "__main__":
    sys.exit(main())
