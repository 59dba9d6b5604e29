"""The cases of readings.txt: from its texts to calls, and from answers to the lines of readings.expected."""

import model
from model_tables import MOST_ITEMS, MOST_RULES
from script import OLD_BYTE, OLD_WORD, made
from stored import Stored, case, lines_of
from wire import NAME_ROOM, RULE_WORDS, Call


def cases():
    """The cases in the order of the file."""
    stored, lent = Stored("readings.expected"), None
    for line in lines_of("readings.txt"):
        name, colon, description = line.partition(":")
        if not line or line.startswith("//"):
            continue
        if line.split()[0] == "lend":
            lent = [int(word) for word in line.split()[1:]] or None
        elif not colon:
            assert stored.take(line + "\n") == line + "\n", f"{line}: readings.expected has no such heading here"
        else:
            yield reading(name, made(description.lstrip(" ")), lent, stored)
    assert not stored.rest, "readings.expected has more lines"


def reading(name, text, lent, stored):
    """A text is read, and what was read is written again."""
    item_bytes, rule_words = lent or enough(text)
    read = Call("read", text=text, items=[OLD_BYTE] * item_bytes, rules=[OLD_WORD] * rule_words)
    right = model.answer(read)
    calls = [read]
    if not right.refusal:
        out = [OLD_BYTE] * (len(text) + 1)
        calls.append(Call("write", *right.values, items=right.buffer("items"), rules=right.buffer("rules"), out=out))
    return case(name, calls, stored.take, lambda answers: read_line(name, text, *answers))


def enough(text):
    """The bytes and words of tables that any book in this text has room in: an item or a rule for each line."""
    lines = text.count(b"\n") + 1
    return NAME_ROOM * min(lines, MOST_ITEMS), RULE_WORDS * min(lines, MOST_RULES)


def read_line(name, text, answer, again=None):
    """The numbers of a book and whether it is written as the same bytes, or the refusal; whether the tables behind the answer are as they were."""
    items, rules = (*answer.values, 0, 0)[:2]
    item_rest, rule_rest = answer.buffer("items")[NAME_ROOM * items :], answer.buffer("rules")[RULE_WORDS * rules :]
    kept = set(item_rest) <= {OLD_BYTE} and set(rule_rest) <= {OLD_WORD}
    if answer.refusal:
        said = f"refused={answer.refusal} at={answer.which}"
    else:
        said = f"book n={items} m={rules}, {'same bytes' if writes(again, text) else 'OTHER BYTES'}"
    return f"{name}: {said}, {'kept' if kept else 'CHANGED'}\n"


def writes(answer, text):
    """Whether an answer of writing is this text."""
    return answer is not None and answer[:3] == (0, 0, (len(text),)) and bytes(answer.buffer("out")[: len(text)]) == text
