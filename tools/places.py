#!/usr/bin/env python3
"""Lists the places of src/ that have an older form, by the points of docs/DESIGN-PASS.md, and how many they are.

    tools/places.py [--count] [COMMIT]

Without a commit it reads the files as they stand. What it finds is found by the text alone; docs/DESIGN-PASS.md says which of these places have the form and which do not."""

import os
import re
import subprocess
import sys

ROOT = os.path.dirname(os.path.dirname(os.path.abspath(__file__)))
FUNCTION = re.compile(r"^( *)(?:pub(?:\(crate\))? )?fn (\w+)", re.M)


def read_all(commit, folder, ending):
    """The texts of all files of crates/*/FOLDER/ with this ending, by their paths."""
    pattern = re.compile(r"crates/\w+/%s/.*%s$" % (folder, re.escape(ending)))
    if commit:
        names = subprocess.run(["git", "ls-tree", "-r", "--name-only", commit, "crates"], cwd=ROOT, capture_output=True, text=True, check=True).stdout.split("\n")
        return {name: subprocess.run(["git", "show", f"{commit}:{name}"], cwd=ROOT, capture_output=True, text=True, check=True).stdout for name in names if pattern.match(name)}
    texts = {}
    for place, folders, names in os.walk(os.path.join(ROOT, "crates")):
        folders[:] = [name for name in folders if name not in ("out", "target")]
        for name in names:
            path = os.path.relpath(os.path.join(place, name), ROOT)
            if pattern.match(path):
                with open(path if os.path.isabs(path) else os.path.join(ROOT, path), encoding="utf-8") as file:
                    texts[path] = file.read()
    return texts


def line_of(text, at):
    return text.count("\n", 0, at) + 1


def functions(texts):
    """Each function: its path, line, name, parameters, clauses and body."""
    for path, text in sorted(texts.items()):
        for start in FUNCTION.finditer(text):
            indent = start.group(1)
            end = re.compile(r"^%s\}$" % indent, re.M).search(text, start.end())
            if not end:
                continue
            whole = text[start.start():end.end()]
            opened = re.search(r"(?:^%s\{$|\{$)" % indent, whole, re.M)
            head = whole[:opened.start()] if opened else whole
            body = whole[opened.end():] if opened else ""
            depth, at = 0, head.find("(", start.end() - start.start())
            last = at
            for last in range(at, len(head)):
                depth += {"(": 1, ")": -1}.get(head[last], 0)
                if depth == 0:
                    break
            yield path, line_of(text, start.start()), start.group(2), head[at + 1:last], head[last + 1:], body


def by_lines(texts, pattern):
    found = []
    for path, text in sorted(texts.items()):
        for number, line in enumerate(text.split("\n"), 1):
            code = line.split("//")[0]
            if re.search(pattern, code):
                found.append((path, number, line.strip()))
    return found


def by_comments(texts, pattern):
    """Comments that say so, by the function or the type that they stand above."""
    found = []
    for path, text in sorted(texts.items()):
        for match in re.finditer(r"(?:^ *//.*\n)+", text, re.M):
            said = " ".join(line.strip().lstrip("/ ") for line in match.group(0).split("\n"))
            if re.search(pattern, said):
                below = text[match.end():].split("\n")[0].strip()
                found.append((path, line_of(text, match.end()), below or said.strip()))
    return found


def enums(texts):
    """Enums of up to three variants, one of which says that there is nothing, that it failed or that it was refused."""
    found = []
    for path, text in sorted(texts.items()):
        for match in re.finditer(r"^ *(?:pub(?:\(crate\))? )?enum (\w+)[^{]*\{(.*?)^ *\}$", text, re.M | re.S):
            variants = re.findall(r"^ *(\w+)(?:\(.*\)| \{.*\})?,$", match.group(2), re.M)
            if len(variants) <= 3 and set(variants) & {"Bad", "Absent", "Refused", "No", "Without", "Stop", "More", "Missing", "Failed", "Nothing"}:
                found.append((path, line_of(text, match.start()), match.group(1) + ": " + ", ".join(variants)))
    return found


def twins(texts):
    """Functions whose bodies are the same but for names, types and numbers; bodies of under three lines are left out."""
    groups = {}
    for path, line, name, parameters, _, body in functions(texts):
        lines = [piece.split("//")[0].strip() for piece in body.split("\n")]
        lines = [piece for piece in lines if piece and piece != "}"]
        if len(lines) < 3:
            continue
        names = {}
        shape = re.sub(r"[A-Za-z_]\w*|\d\w*", lambda m: names.setdefault(m.group(0), f"x{len(names)}"), " ".join(lines))
        groups.setdefault((shape, parameters.count(":")), []).append((path, line, name))
    return [(path, line, f"{name} (of {len(group)})") for group in groups.values() if len(group) > 1 for path, line, name in group]


PAIRS = [("levels", "marks"), ("rules", "head"), ("items", "n"), ("items", "head"), ("names", "n"), ("text", "at"), ("s", "at"), ("out", "at"), ("out", "to"), ("buf", "have"), ("table", "at"), ("text", "items", "out", "rules"), ("names", "words")]


def pairs(texts):
    """Parameters that three or more functions take together."""
    found = []
    for pair in PAIRS:
        places = [(path, line, f"{name}: {', '.join(pair)}") for path, line, name, parameters, _, _ in functions(texts) if all(re.search(r"\b%s:" % each, parameters) for each in pair)]
        if len(places) >= 3:
            found += places
    return found


def facts(texts):
    """Facts that the `requires` of three or more functions name."""
    groups = {}
    for path, line, name, _, clauses, _ in functions(texts):
        for clause in re.findall(r"requires[^{]*\{ (.*?) \}$", clauses, re.M):
            for word in re.findall(r"\b[A-Z]\w+", clause):
                groups.setdefault(word, []).append((path, line, f"{name}: {word}"))
    return [place for group in groups.values() if len(group) >= 3 for place in group]


def matched_numbers(texts):
    """Functions whose body is one `match` or `if` chain that turns one value into another."""
    found = []
    for path, line, name, parameters, clauses, body in functions(texts):
        inner = [piece.strip() for piece in body.split("\n") if piece.strip() and piece.strip() != "}"]
        if inner and re.match(r"match \w+ \{$", inner[0]) and all(re.match(r"[\w:|()., _='.-]+ => [\w:\"-]+,?$", piece) for piece in inner[1:]):
            found.append((path, line, name))
        elif inner and re.match(r"if \w+ <=? \w+ \{ \w+ \} else \{ \w+( - \w+)? \}$", inner[0]):
            found.append((path, line, name))
        elif len(inner) == 1 and re.match(r"(\w+ as \w+|if \w+ \{ 1 \} else \{ 0 \})$", inner[0]):
            found.append((path, line, name))
    return found


def uncited(laws, all_texts):
    """Laws of proofs/*.antt that no other line of any file names; those of `wrong` are theorems on answers, and nothing cites them."""
    words = {}
    for text in all_texts.values():
        for word in re.findall(r"[^\s(){},.;]+", text):
            words[word] = words.get(word, 0) + 1
    found = []
    for path, text in sorted(laws.items()):
        if re.search(r"proofs/\w+\.antt$", path) and "/wrong/" not in path:
            for match in re.finditer(r"^ *(?:abbrev |unfoldable )?(?:pub )?([^\s:(){}]+) : ", text, re.M):
                name = match.group(1)
                uses = len(re.findall(r"(?<![^\s(){},.;])%s(?![^\s(){},.;])" % re.escape(name), text))
                if uses <= 2 and words.get(name, 0) <= uses:
                    found.append((path, line_of(text, match.start()), name))
    return found


def main():
    words = sys.argv[1:]
    only_count = "--count" in words
    words = [word for word in words if word != "--count"]
    commit = words[0] if words else None
    texts = read_all(commit, "src", ".rt")
    proofs = read_all(commit, "proofs", ".antt")
    specs = read_all(commit, "specs", ".antt")
    pages = {}
    for page in ("README.md", "docs/PROMISES.md", "docs/DECISIONS.md"):
        pages[page] = subprocess.run(["git", "show", f"{commit}:{page}"], cwd=ROOT, capture_output=True, text=True, check=True).stdout.replace("`", " ") if commit else open(os.path.join(ROOT, page), encoding="utf-8").read().replace("`", " ")
    answers = {path: text for path, text in proofs.items() if path.endswith(("Answers.antt", "Invariants.antt", "Proof.antt"))}
    points = [
        ("1 enums of the shape of Option or Result", enums(texts)),
        ("1 flags in structs", by_lines(texts, r"^\s*(?:pub(?:\(crate\))? )?\w+: bool,$")),
        ("1 numbers that stand for 'none' or 'no room'", by_comments(texts, r"(?:and|answers) (?:n|m|64|16|0|a place past|the most rules) (?:where|the buffer)|, 64 where|length plus one|or the most rules where|; 0 where")),
        ("1 numbers for kinds and refusals", by_lines(texts, r"\b(?:kind|refusal|which|after|routine): u64\b|^pub const (?:CAP|FLOOR|FOLLOW): u64")),
        ("2 functions alike but for names, types and numbers", twins(texts)),
        ("3 while and loop", by_lines(texts, r"\bwhile\b|\bloop \{")),
        ("4 one value turned into another by hand", matched_numbers(texts)),
        ("4 types that derive only Clone and Copy", by_lines(texts, r"#\[derive\(Clone, Copy\)\]")),
        ("5 parameters that travel together", pairs(texts)),
        ("5 facts that three or more functions require", facts(texts)),
        ("6 arrays of levels and marks, side by side", by_lines(texts, r"let mut \w*(?:levels|marks) = \[")),
        ("7 switches on a number", by_lines(texts, r"match (?:routine|kind)\b|\.kind [!=]= ")),
        ("8 answers and invariants", [(path, line_of(text, match.start()), match.group(1)) for path, text in sorted(answers.items()) for match in re.finditer(r"^(?:abbrev )?pub (\S+) :", text, re.M)]),
        ("8 laws that nobody cites", uncited(proofs, {**texts, **proofs, **specs, **pages})),
    ]
    for name, places in points:
        print(f"{len(places):5} {name}")
        if not only_count:
            for path, line, said in places:
                print(f"      {path}:{line}: {said}")
    lines = sum(text.count("\n") for text in proofs.values())
    print(f"{lines:5} lines of proofs/, {sum(text.count(chr(10)) for text in answers.values())} of them answers and invariants; {sum(text.count(chr(10)) for text in texts.values())} lines of src/, {len(list(functions(texts)))} functions")


main()
