"""Answers in readable form."""

import itertools

from wire import BUFFERS, SUCCESSES


def told(routine, answer):
    """A refusal with its place, or a success by its word, with its values."""
    if answer.refusal:
        return f"refused {answer.refusal} at {answer.which}"
    words = SUCCESSES[routine]
    word = words[answer.which] if answer.which < len(words) else f"success {answer.which}"
    return " ".join([word, *map(str, answer.values)])


def class_text(level, marks):
    return "%d/%016x" % (level, marks)


def labels_text(labels):
    """Labels, each behind a blank; more than eight equal ones in a row once, with their number."""
    texts = []
    for label, group in itertools.groupby(labels):
        count = len(list(group))
        texts += [class_text(*label)] * count if count <= 8 else [f"{class_text(*label)} x{count}"]
    return "".join(" " + text for text in texts)


def printable(words):
    """The text of some bytes."""
    return bytes(word % 256 for word in words).decode("ascii", "backslashreplace")


def differences(call, right, got):
    """How an answer differs from the right one, and what the call is; nothing if it does not."""
    if got == right:
        return []
    said = [f"called {described(call)}"]
    if got is None or got[:3] != right[:3]:
        said.append(f"answered {told(call.routine, got) if got else 'nothing'}, not {told(call.routine, right)}")
    for name in BUFFERS if got else ():
        one, other = got.buffer(name), right.buffer(name)
        if one != other:
            at = next(i for i, (x, y) in enumerate(itertools.zip_longest(one, other)) if x != y)
            said.append(f"{name} from {at} on is {excerpt(one[at:])}, not {excerpt(other[at:])}")
    return said


def described(call):
    """The routine, its numbers and what is lent to it, as far as it fits in a few lines."""
    lent = [(name, getattr(call, name)) for name in BUFFERS]
    return "; ".join([f"{call.routine} {' '.join(map(str, call.numbers))}"] + [f"{name} {excerpt(content)}" for name, content in lent if content])


def excerpt(content, most=80):
    """The front of a buffer, and how many elements are left out."""
    front = content[:most]
    rest = f" and {len(content) - most} more" if len(content) > most else ""
    return (repr(front) if isinstance(front, bytes) else " ".join(map(str, front))) + rest
