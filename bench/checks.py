#!/usr/bin/env python3
"""Prints the seconds of each crate's check in the last `rt ci`: `bench/checks.py`, from the repository's root.

They stand in target/log, as `rt: NAME proved (N s)`. A crate that was unchanged, and so not proved again, has no seconds there and is
named below the table: for all of them, begin with no target."""
import glob
import os
import re
import sys

LOGS = os.path.join("target", "log", "*.out")
PROVED = re.compile(r"^rt: (\S+) proved \((\d+(?:\.\d+)?) s\)$", re.MULTILINE)


def crates():
    """The names of the crates, in the order of crates.txt."""
    with open("crates.txt", encoding="utf-8") as file:
        return [line.split(":")[0] for line in file if ":" in line and not line.startswith("#")]


def seconds():
    found = {}
    for path in glob.glob(LOGS):
        with open(path, encoding="utf-8", errors="replace") as file:
            found.update((name, float(number)) for name, number in PROVED.findall(file.read()))
    return found


def main():
    found = seconds()
    if not found:
        print("no seconds in target/log: run 'rt ci' first")
        return 1
    names = crates()
    print("| crate | seconds |")
    print("|---|---|")
    for name in [name for name in names if name in found] + sorted(set(found) - set(names)):
        print(f"| `{name}` | {found[name]:g} |")
    print(f"| sum | {sum(found.values()):g} |")
    missing = [name for name in names if name not in found]
    if missing:
        print("without seconds in target/log: " + ", ".join(missing))
    return 0


if __name__ == "__main__":
    sys.exit(main())
