"""Inputs in which a call is none: the calls before it are answered, then the program says `bad call` and stops."""

import model
from wire import BUFFERS, CAPACITY, SUCCESSES, Call, item_bytes, lines

RIGHT = Call("find", 1, text=b"a", items=item_bytes([b"a"]))
FULL = Call("has_room", 300, **{name: [0] * CAPACITY[name] for name in BUFFERS})


def texts():
    """What each is, the input, and the output that is right."""
    whole = lines(RIGHT.words())
    answered = lines(model.answer(RIGHT).words())
    yield "no calls", b"", b""
    yield "buffers as long as they may be", lines(FULL.words()) + whole, lines(model.answer(FULL).words()) + answered
    for what, text in faulty():
        yield what, whole + text + whole, answered + b"bad call\n"
    for what, text in cut():
        yield what, whole + text, answered + b"bad call\n"


def faulty():
    """Calls with a word or a line that may not be there."""
    for number, name in enumerate(BUFFERS):
        words = Call("has_room").words()
        words[7 + 2 * number] = CAPACITY[name] + 1
        yield f"{name} longer than it may be", lines(words)
    yield "a routine that is none", lines([len(SUCCESSES)] + RIGHT.words()[1:])
    yield "a byte over 255", lines(Call("find", 1).words()[:7] + [1, 1, 256] + [0, 0] * 6)
    yield "more content than room", lines(Call("find", 1).words()[:7] + [1, 2, 97, 97] + [0, 0] * 6)
    yield "an upper-case digit", b"000000000000000A\n"
    yield "fifteen digits", b"000000000000003\n"
    yield "an empty line", b"\n"


def cut():
    """Calls that the input ends in."""
    whole = lines(RIGHT.words())
    yield "a routine alone", whole[:17]
    yield "a word too few", whole[:-17]
    yield "no LF at the end", whole[:-1]
