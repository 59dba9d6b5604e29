"""The cases of more.txt: one call each, with its answer and what it leaves in the buffers behind an arrow."""

from script import OLD_BYTE, OLD_LEVEL, OLD_MARKS, OLD_WORD, class_words, made, number, rule_words
from shown import told
from stored import case, lines_of
from wire import BUFFERS, BYTES, KINDS, Call, item_bytes

OLD = {"text": OLD_BYTE, "items": OLD_BYTE, "out": OLD_BYTE, "rules": OLD_WORD, "levels": OLD_LEVEL, "marks": OLD_MARKS, "kept": 0}


def cases():
    """The cases in the order of the file."""
    for line in lines_of("more.txt"):
        if line and not line.startswith("//"):
            name, _, rest = line.partition(": ")
            given, _, right = rest.partition(" -> ")
            yield made_case(name, given.split("; "), right.split("; "))


def made_case(name, given, right):
    """A case from the pieces of its line before and behind the arrow."""
    routine, *numbers = given[0].split()
    call = Call(routine, *numbers_of(numbers), **contents(given[1:]))
    before = {buffer: tuple(getattr(call, buffer)) for buffer in BUFFERS}
    fronts = contents(right[1:])
    after = {buffer: (*fronts.get(buffer, ()), *words[len(fronts.get(buffer, ())) :]) for buffer, words in before.items()}
    stored = line_of(name, right[0], before, after)

    def shown(answers):
        return line_of(name, told(routine, answers[0]), before, dict(zip(BUFFERS, answers[0].buffers)))

    return case(name, [call], lambda _: stored, shown)


def numbers_of(words):
    """The numbers of a call; a class is two."""
    return [value for word in words for value in (class_words(word) if "/" in word else [number(word)])]


def contents(commands):
    """What buffers hold after some commands."""
    held = {}
    for command in commands:
        word, _, rest = command.partition(" ")
        if word in BYTES:
            held[word] = list(made(rest))
        elif word == "names":
            held["items"] = list(item_bytes(rest.encode().split()))
        elif word == "labels":
            held["levels"], held["marks"] = (list(words) for words in zip(*map(class_words, rest.split())))
        elif word == "ends":
            held["levels"] = [number(word) for word in rest.split()]
        elif word == "kept":
            held["kept"] = [{"no": 0, "yes": 1}[keeps] for keeps in rest.split()]
        elif word in KINDS:
            held["rules"] = held.get("rules", []) + rule_words(word, *rest.split())
        else:
            assert word == "lend", command
            buffer, length = rest.split()
            content = held.get(buffer, [])[: int(length)]
            held[buffer] = content + [OLD[buffer]] * (int(length) - len(content))
    return held


def line_of(name, answer, before, after):
    """The answer, and each buffer that is not as it was."""
    changed = [buffer for buffer in BUFFERS if after[buffer] != before[buffer]]
    return f"{name}: " + "; ".join([answer] + [f"{buffer} {content(buffer, after[buffer])}" for buffer in changed]) + "\n"


def content(buffer, words):
    return repr(bytes(word % 256 for word in words)) if buffer in BYTES else str(list(words))
