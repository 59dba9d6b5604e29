#!/usr/bin/env python3
"""Writes the repository's own names of definitions, laws and fields in snake case, as the library's are.

usage: respell.py [FOLDER]

A word is parted from the next by one underscore: nameByte and name-byte become name_byte. A name that begins with a
capital (a type, a fact, a module) keeps its spelling, and so does what Rattle source, a library or a generated file names.
It rewrites the .antt files, the clauses and ghost lines of .rt files, the must-fail edits, and the names in backticks
of README.md and docs/, below FOLDER (this folder, if none is given). It is for files that port.py has just turned: in later ones it would take
the names of goals and steps, which Rattle makes, for names of the repository's own.
"""

import os
import re
import sys

WORD = r"[^\s(){}.;,@\"«»\[\]\\:]+"
TOKEN = re.compile(r"--[^\n]*|\"(?:[^\"\\]|\\.)*\"|" + WORD)
DECLARED = re.compile(
    r"^[ \t]*(?:let )?(?:(?:abbrev|unfoldable|pub|record|data|ruleset|module) )*((?:" + WORD + r" )*" + WORD + r")(?: ?[({@][^:=\n]*(?::[^=\n]*)?)? ?[:=](?= |$)", re.M
)
BOUND = re.compile(r"[({]((?:" + WORD + r" )*" + WORD + r") :(?= )")
BOUND_IN_A_FUNCTION = re.compile(r"λ ((?:" + WORD + r" )*" + WORD + r")\.(?=\s)")
OF_A_GOAL = re.compile(r"^(" + WORD + r") : tie\.", re.M)
USE = re.compile(r"^[ \t]*(?:ghost )?(?:pub )?use (\S+?)\.\{([^}]*)\}", re.M)
SMALL = re.compile(r"[a-z]")
# Names whose snake case stands for something else in the same file: laws of the library's own words, the outer call
# first, and fields and cases that would have the name of the function that they speak of.
APART = {
    "bit-and": "bit-bit_and",
    "bit-or": "bit-bit_or",
    "bit-xor": "bit-bit_xor",
    "items-after": "items_are",
    "rules-after": "rules_are",
    "out-after": "out_is",
    "no-labelling": "has_no_labelling",
    "noRoom": "without_room",
}
# Laws that would have the name of the function that they speak of.
LAWS = set()
# Those of them that a library's word had put in snake case before.
SNAKE_LAWS = {"end_line", "end_step", "first_below", "line_step", "numbers_of", "read_whole"}


def snake(name):
    if name in APART.values():
        return name
    if name in APART:
        return APART[name]
    if name in LAWS:
        return plain(name) + "_lem"
    return plain(name)


def plain(name):
    if not SMALL.match(name):
        return name
    parted = re.sub(r"(?<=[a-z0-9'])([A-Z])(?![A-Z])", lambda m: "_" + m[1].lower(), name)
    parted = re.sub(r"(?<=[a-z])([A-Z])\b", lambda m: "_" + m[1].lower(), parted)
    return parted.replace("-", "_")


def read(path):
    with open(path, encoding="utf-8", newline="") as f:
        return f.read()


def write(path, text):
    with open(path, "w", encoding="utf-8", newline="") as f:
        f.write(text)


def files(folder, ending):
    for above, folders, names in os.walk(os.path.join(folder, "crates")):
        folders[:] = sorted(it for it in folders if it not in ("out", ".git"))
        yield from (os.path.join(above, it) for it in sorted(names) if it.endswith(ending))


def no_comments(text):
    return re.sub(r"--[^\n]*", "", text)


def of_libraries(text, crates):
    """The names that a file brings in from a library."""
    found = set()
    for path, names in USE.findall(text):
        parts = path.split(".")
        if parts[0] == "Rattle" and parts[1] in crates:
            continue
        for it in names.split(","):
            found.update(it.split(" as "))
    return {it.strip() for it in found}


def declared(text):
    names = set()
    for pattern in (DECLARED, BOUND, BOUND_IN_A_FUNCTION):
        for found in pattern.findall(text):
            names.update(found.split())
    return names


def renamed(text, own, keep):
    def one(m):
        it = m[0]
        if it.startswith("--"):
            return re.sub(r"`([^`\s]+)`", lambda q: "`" + (snake(q[1]) if q[1] in own else q[1]) + "`", it)
        if it.startswith('"'):
            return it
        return snake(it) if it in own and it not in keep else it

    return TOKEN.sub(one, text)


def of_snake_laws(path, text):
    """The laws in snake case that a file of proofs declares, or brings in from such a file."""
    found = set(SNAKE_LAWS & declared(text)) if "/proofs/" in path and not path.endswith("/Proof.antt") else set()
    for module, names in USE.findall(text):
        if re.match(r"Rattle\.\w+\.proofs\.", module):
            found |= SNAKE_LAWS & {it.strip() for it in names.split(",")}
    return found


def in_source(text, own):
    """A .rt file or an edit: its clauses and ghost lines have such names, and Rust has none with a dash or a capital inside."""

    def one(m):
        return m[0] if m[0][0] in "\"'" or m[0].startswith(("//", "b'")) else snake(m[0]) if m[0] in own else m[0]

    return re.sub(r"//[^\n]*|\"(?:[^\"\\]|\\.)*\"|b?'(?:[^'\\\n]|\\.)'|" + WORD, one, text)


def in_page(text, own):
    return re.sub(r"`([^`\s]+)`", lambda q: "`" + ".".join(snake(it) if it in own else it for it in q[1].split(".")) + "`", text)


def main():
    top = sys.argv[1] if len(sys.argv) > 1 else "."
    crates = set(os.listdir(os.path.join(top, "crates")))
    texts = {it: read(it) for it in files(top, ".antt")}
    own, words, snake_laws = set(), {}, {}
    for path, text in texts.items():
        text = no_comments(text)
        words[path] = set(TOKEN.findall(text))
        snake_laws[path] = of_snake_laws(path, text)
        own.update(it for it in declared(text) - set(OF_A_GOAL.findall(text)) - of_libraries(text, crates) if snake(it) != it)
    # A dashed law and a function that fall together in one file.
    for it in own:
        if "-" in it and it not in APART:
            rivals = {other for other in own if other != it and plain(other) == plain(it)} | ({plain(it)} if it == "by-kind" else set())
            if any(it in found and found & rivals for found in words.values()):
                LAWS.add(it)
    for path, text in texts.items():
        keep = set(OF_A_GOAL.findall(no_comments(text))) | of_libraries(text, crates)
        for law in snake_laws[path]:
            text = re.sub(r"(?<![\w.\-'])" + law + r"(?![\w.\-'])", law + "_lem", text)
        write(path, renamed(text, own, keep))
    for ending in (".rt", ".edit"):
        for path in files(top, ending):
            write(path, in_source(read(path), own))
    pages = [os.path.join(top, "README.md")] + [os.path.join(a, n) for a, _, ns in os.walk(os.path.join(top, "docs")) for n in ns if n.endswith(".md")]
    for path in pages:
        if os.path.isfile(path):
            write(path, in_page(read(path), own))
    print(len(own), "names;", len(LAWS), "of them laws that end in _lem:", ", ".join(sorted(LAWS)))


if __name__ == "__main__":
    main()
