"""Rulebook texts made from a seed: small books of many shapes, broken texts, and texts about as large as a text may be.

`made(seed)` gives small books and broken texts without end; `edges()` gives the large texts. What the right answer is, this file does
not know.
"""

import random

# ---- Small books -------------------------------------------------------------------------------------------------------------------

NAMES = (
    b"- -- --- 7 0 00 9- -9 a b c d aa ab a- -a a-b ba z z9 form item cap floor follow end label cow-name yield demo-yield milk-fat"
    b" abcdefghijklmno abcdefghijklmnop abcdefghijklmnoq bbcdefghijklmnop ---------------- 0000000000000000 000000000000000 zzzzzzzzzzzzzzzz"
).split()

ALL_MARKS = 2**64 - 1


def class_text(a_class):
    return b"%d/%016x" % a_class


class Draft:
    """A book being made: its rules are (left item numbers, right side), and a class is a level and a word of marks."""

    def __init__(self, rng, most_items=5):
        self.rng = rng
        self.names = rng.sample(NAMES, min(most_items, rng.choice([1, 2, 2, 3, 3, 4, 4, 5])))
        self.caps, self.floors, self.follows = [], [], []
        self.levels = rng.choice([[1], [1, 2], [2, 5], [15], [1, 15], [3, 4, 9], sorted(rng.sample(range(1, 16), 3))])
        self.marks = [2**k for k in rng.sample(rng.choice([range(2), range(4), (0, 31, 32, 63), range(64)]), rng.randint(1, 2))]
        if rng.random() < 0.2:
            self.marks.append(2 ** rng.randrange(64))

    def size(self):
        return len(self.names)

    def item(self):
        return self.rng.randrange(self.size())

    def left(self, most=3):
        return sorted(self.rng.sample(range(self.size()), min(self.size(), self.rng.randint(1, most))))

    def some_marks(self, likely):
        word = 0
        for mark in self.marks:
            word |= mark if self.rng.random() < likely else 0
        return word

    def asked(self):
        """A class for a floor."""
        marks = ALL_MARKS if self.rng.random() < 0.02 else self.some_marks(0.5)
        return self.rng.choice([0] + 2 * self.levels), marks

    def allowed(self):
        """A class for a cap: often one that lets most through."""
        level = self.rng.choice([15, 15, self.rng.choice(self.levels), self.rng.choice(self.levels) - 1])
        marks = self.some_marks(self.rng.choice([1, 0.7, 0.4]))
        others = ALL_MARKS & ~sum(set(self.marks))
        return level, marks | self.rng.choice([0, others, others & self.rng.getrandbits(64)])

    def cap(self, item=None, a_class=None):
        self.caps.append(([self.item() if item is None else item], a_class or self.allowed()))

    def floor(self, left=None, a_class=None):
        self.floors.append((left or self.left(), a_class or self.asked()))

    def follow(self, left=None, right=None):
        self.follows.append((left or self.left(), self.item() if right is None else right))

    def lines(self):
        lines = [b"form=1"] + [b"item=" + name for name in self.names]
        for key, rules in ((b"cap", self.caps), (b"floor", self.floors), (b"follow", self.follows)):
            for left, right in rules:
                shown = self.names[right] if key == b"follow" else class_text(right)
                lines.append(key + b"=" + b"+".join(self.names[item] for item in left) + b":" + shown)
        return lines + [b"end=%d" % len(lines)]

    def text(self):
        return b"\n".join(self.lines()) + b"\n"


def fill(draft, caps, floors, follows):
    """Adds up to so many rules of each kind, and never more than 8 in all."""
    for add, most in ((draft.cap, caps), (draft.floor, floors), (draft.follow, follows)):
        for _ in range(draft.rng.randint(0, most)):
            if len(draft.caps) + len(draft.floors) + len(draft.follows) < 8:
                add()


def mixed(rng):
    draft = Draft(rng)
    fill(draft, 3, 3, 3)
    return draft


def follow_along(draft, rng, links, alone):
    """A follow for each link, from one item to the next; with the chance `alone` the item is the whole left side, else one more may stand there."""
    for one, next_one in links:
        draft.follow([one] if alone == 1 or rng.random() < alone else sorted({one, draft.item()}), next_one)


def chain(rng):
    """Each item follows the next, in book order, against it or in any order; a floor at the far end."""
    draft = Draft(rng)
    order = list(range(draft.size()))
    rng.choice([order.sort, order.reverse, lambda: rng.shuffle(order)])()
    follow_along(draft, rng, zip(order, order[1:]), 0.7)
    draft.floor([order[-1]] if rng.random() < 0.7 else None)
    fill(draft, 2, 1, 1)
    return draft


def circle(rng):
    """Items that follow each other all round, some of them with a way out to another item."""
    draft = Draft(rng)
    order = list(range(draft.size()))
    rng.shuffle(order)
    follow_along(draft, rng, zip(order, order[1:] + order[:1]), 0.6)
    draft.floor()
    fill(draft, 2, 1, 0)
    return draft


def shared_left(rng):
    """Left sides of several names that share names."""
    draft = Draft(rng)
    common = draft.left(2)
    for _ in range(rng.randint(1, 3)):
        draft.floor(sorted(set(common + draft.left(2))))
    for _ in range(rng.randint(0, 2)):
        draft.follow(sorted(set(common + draft.left(2))))
    fill(draft, 3, 1, 1)
    return draft


def capped(rng):
    """Several caps, two or more on one item, and floors that have to get past them."""
    draft = Draft(rng)
    item = draft.item()
    for _ in range(rng.randint(2, 3)):
        draft.cap(item)
    draft.floor(sorted(set([item] + draft.left(2))))
    fill(draft, 2, 2, 2)
    return draft


def split_floor(rng):
    """A floor that no one left item may carry whole: each mark and the level may be barred on some items."""
    draft = Draft(rng)
    left = draft.left(4)
    level, marks = max(draft.levels), sum(set(draft.marks))
    for item in left:
        if rng.random() < 0.7:
            draft.cap(item, (rng.choice([level, level - 1, 15]), ALL_MARKS & ~rng.choice(draft.marks + [0])))
    draft.floor(left, (level, marks))
    fill(draft, 0, 2, 2)
    return draft


def pinched(rng):
    """A cap at one end of a chain and a floor at the other, often with no labelling, by level or by mark."""
    draft = Draft(rng)
    order = list(range(draft.size()))
    rng.shuffle(order)
    follow_along(draft, rng, zip(order, order[1:]), 1)
    level, marks = max(draft.levels), sum(set(draft.marks))
    draft.floor([order[-1]], (level, marks))
    draft.cap(order[0], rng.choice([(level - 1, ALL_MARKS), (level, marks & ~rng.choice(draft.marks)), (level, marks), (level - 1, 0)]))
    fill(draft, 1, 1, 0)
    return draft


def within_itself(rng):
    """Follows whose right name stands on their left."""
    draft = Draft(rng)
    for _ in range(rng.randint(1, 3)):
        left = draft.left()
        draft.follow(left, rng.choice(left))
    fill(draft, 1, 2, 1)
    return draft


def tiny(rng):
    """At most two items, two marks and levels 0 to 2, so that whole classes are tried too."""
    draft = Draft(rng, 2)
    draft.levels, draft.marks = [1, 2], [1, 2]
    fill(draft, 3, 3, 2)
    return draft


def bare(rng):
    """No rules, or nothing at all."""
    draft = Draft(rng)
    if rng.random() < 0.3:
        draft.names = []
    elif rng.random() < 0.3:
        fill(draft, 3, 0, 3)
    return draft


SHAPES = [mixed, mixed, chain, circle, shared_left, capped, split_floor, pinched, within_itself, tiny, tiny]


def small_book(rng):
    shape = bare if rng.random() < 0.03 else rng.choice(SHAPES)
    return shape(rng)


# ---- Broken texts ------------------------------------------------------------------------------------------------------------------
# A breaker takes the lines of a book, without LF, and the number of a line that it may break. It changes the lines in place.

ODD_BYTES = [bytes([b]) for b in b"\n\n\r\t\0 +:=/-_.0129afgzAFZ\x7f\x80\xc3\xff"]


def rules_in(lines):
    return [i for i, line in enumerate(lines) if line.startswith((b"cap=", b"floor=", b"follow="))]


def names_in(lines):
    return [line[5:] for line in lines if line.startswith(b"item=")]


def pick(rng, lines, at, suits):
    """The line given if it suits, else any that does, else None."""
    fit = [i for i, line in enumerate(lines) if suits(line)]
    return at if at in fit else rng.choice(fit) if fit else None


def with_left(line):
    return line.startswith((b"floor=", b"follow=")) and b":" in line


def with_class(line):
    return line.startswith((b"cap=", b"floor=")) and b":" in line and b"/" in line


def change_left(rng, lines, at, change):
    at = pick(rng, lines, at, with_left)
    if at is not None:
        key, rest = lines[at].split(b"=", 1)
        names, right = rest.split(b":", 1)
        lines[at] = key + b"=" + b"+".join(change(names.split(b"+"))) + b":" + right


def change_class(rng, lines, at, change):
    at = pick(rng, lines, at, with_class)
    if at is not None:
        names, rest = lines[at].split(b":", 1)
        lines[at] = names + b":" + change(*rest.split(b"/", 1))


def drop_byte(rng, lines, at):
    if lines[at]:
        i = rng.randrange(len(lines[at]))
        lines[at] = lines[at][:i] + lines[at][i + 1 :]


def insert_byte(rng, lines, at):
    i = rng.randint(0, len(lines[at]))
    lines[at] = lines[at][:i] + rng.choice(ODD_BYTES) + lines[at][i:]


def change_byte(rng, lines, at):
    if lines[at]:
        i = rng.randrange(len(lines[at]))
        lines[at] = lines[at][:i] + rng.choice(ODD_BYTES + [bytes([rng.randrange(256)])]) + lines[at][i + 1 :]


def delete_line(rng, lines, at):
    del lines[at]


def repeat_line(rng, lines, at):
    lines.insert(rng.choice([at, rng.randint(0, len(lines))]), lines[at])


def swap_lines(rng, lines, at):
    other = rng.choice([max(at - 1, 0), rng.randrange(len(lines))])
    lines[at], lines[other] = lines[other], lines[at]


def move_line(rng, lines, at):
    line = lines.pop(at)
    lines.insert(rng.randint(0, len(lines)), line)


def empty_line(rng, lines, at):
    lines.insert(at, rng.choice([b"", b"", b" ", b"\r", b"# note"]))


def carriage_return(rng, lines, at):
    if rng.random() < 0.3:
        lines[:] = [line + b"\r" for line in lines]
    else:
        lines[at] += b"\r"


def wrong_count(rng, lines, at):
    right = len(lines) - 1
    near = [b"%d" % (right + 1), b"%d" % max(right - 1, 0), b"%d0" % right, b"0", b"99999"]
    misshapen = [b"0%d" % right, b"+%d" % right, b"%d " % right, b"100000", b"", b"-1", b"00"]
    lines[-1] = b"end=" + rng.choice(near + misshapen)


def text_after(rng, lines, at):
    more = [[b""], [b"x"], [b"\0"], [b"form=1"], [b"end=%d" % len(lines)], [lines[-1]], lines[:], [b"item=a", b"end=9"]]
    lines += rng.choice(more)


def unknown_name(rng, lines, at):
    at = pick(rng, lines, at, lambda line: line.startswith((b"cap=", b"floor=", b"follow=")) and b":" in line)
    if at is not None:
        stranger = rng.choice([name for name in NAMES if name not in names_in(lines)])
        key, rest = lines[at].split(b"=", 1)
        names, right = rest.split(b":", 1)
        left = names.split(b"+")
        if key == b"follow" and rng.random() < 0.5:
            right = stranger
        elif rng.random() < 0.5 or key == b"cap":
            left[rng.randrange(len(left))] = stranger
        else:
            left.insert(rng.randint(0, len(left)), stranger)
        lines[at] = key + b"=" + b"+".join(left) + b":" + right


def drop_item(rng, lines, at):
    at = pick(rng, lines, at, lambda line: line.startswith(b"item="))
    if at is not None:
        del lines[at]


def unsorted_left(rng, lines, at):
    def change(names):
        names = names + [name for name in names_in(lines) if name not in names and rng.random() < 0.7]
        rng.shuffle(names)
        return names

    change_left(rng, lines, at, change)


def equal_left(rng, lines, at):
    change_left(rng, lines, at, lambda names: sorted(names + [rng.choice(names)], key=names.index))


def many_left(rng, lines, at):
    """Eight, nine or ten left names, of the book or not."""
    pool = names_in(lines) + rng.sample(NAMES, 2)
    change_left(rng, lines, at, lambda names: (names + [rng.choice(pool) for _ in range(10)])[: rng.choice([8, 9, 9, 9, 10])])


def repeated_item(rng, lines, at):
    items = [i for i, line in enumerate(lines) if line.startswith(b"item=")]
    if items:
        lines.insert(rng.choice([items[-1] + 1, rng.randint(items[0], len(lines))]), lines[rng.choice(items)])


def bad_level(rng, lines, at):
    level = rng.choice(b"16|16|17|20|99|100|256|65536|00|01|07|015||-1|+1|a|1 ".split(b"|"))
    change_class(rng, lines, at, lambda _, marks: level + b"/" + marks)


def bad_marks(rng, lines, at):
    def change(level, marks):
        length = [marks[:15], marks + b"0", b"0" + marks, b"", b"0", marks + b"/", b"/" + marks, marks + b" "]
        digit = [marks[:-1] + b"A", b"F" + marks[1:], marks[:7] + b"g" + marks[8:], b"0x" + marks[2:]]
        return level + b"/" + rng.choice(length + digit)

    change_class(rng, lines, at, change)


def other_class(rng, lines, at):
    """Another class of the right form, so that the book stays well formed."""
    change_class(rng, lines, at, lambda level, marks: class_text((rng.randrange(16), rng.choice([hex_value(marks), 0, 1]))))


def hex_value(digits):
    """The value of hex digits, and 0 where something else stands among them."""
    try:
        return int(b"0" + digits, 16)
    except ValueError:
        return 0


def long_name(rng, lines, at):
    """A name of 17 bytes, of 16 or of none, in one line or wherever it stands."""
    names = names_in(lines)
    if names:
        old = rng.choice(names)
        new = rng.choice([(old + b"abcdefghijklmnopq")[:17], (old + b"abcdefghijklmnopq")[:16], b"", old + b"_", old.upper(), old + b" "])
        for i in range(len(lines)) if rng.random() < 0.5 else [at]:
            key, mark, value = lines[i].partition(b"=")
            names, colon, right = value.partition(b":")
            left = [new if name == old else name for name in names.split(b"+")]
            lines[i] = key + mark + b"+".join(left) + colon + (new if right == old else right)


def other_key(rng, lines, at):
    key, mark, value = lines[at].partition(b"=")
    new = rng.choice([b"form", b"item", b"cap", b"floor", b"follow", b"end", b"label", b"", key.upper(), key + b" ", key[:-1], key + b"s"])
    lines[at] = new + mark + value


def wrong_mark(rng, lines, at):
    one, other = rng.sample([b"=", b":", b"+", b"/", b""], 2)
    if one:
        lines[at] = lines[at].replace(one, other, 1)


def whole_new_line(rng, lines, at):
    """A well-formed line of any key at any place."""
    pool = names_in(lines) + [rng.choice(NAMES)]
    name, other = rng.choice(pool), rng.choice(pool)
    low = b"0/0000000000000000"
    rules = [b"cap=" + name + b":" + low, b"floor=" + name + b"+" + other + b":" + low, b"follow=" + name + b":" + other]
    lines.insert(at, rng.choice(rules + [b"form=1", b"item=" + name, b"end=%d" % at, b"end=0"]))


def no_end(rng, lines, at):
    """No end line, or nothing from some line on."""
    del lines[rng.choice([len(lines) - 1, at]) :]


def two_in_cap(rng, lines, at):
    at = pick(rng, lines, at, lambda line: line.startswith(b"cap=") and b":" in line)
    if at is not None:
        lines[at] = lines[at].replace(b":", b"+" + rng.choice(names_in(lines) + [b"a"]) + b":", 1)


def form_line(rng, lines, at):
    value = [b"form=2", b"form=0", b"form=", b"form=11", b"form=01", b"form=1 ", b"form=1=1"]
    lines[0] = rng.choice(value + [b"form", b"Form=1", b"\xef\xbb\xbfform=1", b"form:1"])


BREAKERS = [
    drop_byte, drop_byte, insert_byte, insert_byte, change_byte, change_byte, delete_line, repeat_line, swap_lines, move_line, empty_line,
    carriage_return, wrong_count, wrong_count, text_after, text_after, unknown_name, unknown_name, drop_item, unsorted_left, unsorted_left,
    equal_left, many_left, many_left, repeated_item, repeated_item, bad_level, bad_marks, other_class, long_name, other_key, wrong_mark,
    whole_new_line, whole_new_line, whole_new_line, swap_lines, move_line, no_end, two_in_cap, form_line,
]  # fmt: skip


def recount(lines):
    """Gives the end line, if it is the last, its right number again."""
    if lines and lines[-1].startswith(b"end="):
        lines[-1] = b"end=%d" % (len(lines) - 1)


def random_bytes(rng):
    size = rng.choice([1, 2, 7, 30, 200])
    pool = rng.choice([bytes(range(256)), b"form=1\nitem=a\nend", b"=\n:+/"])
    return b"".join(bytes([rng.choice(pool)]) for _ in range(size))


def broken_text(rng):
    if rng.random() < 0.02:
        return random_bytes(rng)
    lines = small_book(rng).lines()
    at = rng.randrange(len(lines))
    for breaker in rng.sample(BREAKERS, rng.choice([1, 1, 1, 2, 2])):
        if not lines:
            break
        at = min(at, len(lines) - 1) if rng.random() < 0.6 else rng.randrange(len(lines))
        breaker(rng, lines, at)
        if breaker is not wrong_count and rng.random() < 0.5:
            recount(lines)
    text = b"".join(line + b"\n" for line in lines)
    chance = rng.random()
    if chance < 0.05:
        return text[: rng.randint(0, len(text))]
    if chance < 0.09:
        return text[:-1]
    return text


def made(seed):
    """Small books and broken texts, without end."""
    rng = random.Random(seed)
    while True:
        yield small_book(rng).text() if rng.random() < 0.6 else broken_text(rng)


# ---- Large texts -------------------------------------------------------------------------------------------------------------------

LOW = b"0/0000000000000000"
TOP = b"15/ffffffffffffffff"


def closed(lines):
    """A text of these lines between its form and its end line."""
    return b"".join(line + b"\n" for line in [b"form=1", *lines, b"end=%d" % (len(lines) + 1)])


def item_lines(count, width=0):
    return [b"item=" + (b"%d" % i).rjust(width, b"-") for i in range(count)]


def book_of_size(size, more=(), key=b"cap"):
    """A well-formed book of exactly so many bytes, filled with caps, or with follows of an item by itself."""
    names = [b"abcdefghijklmnop"[:width] for width in range(1, 17)]
    lines = [b"item=" + name for name in names] + list(more)

    def rule(name):
        return key + b"=" + name + b":" + (LOW if key == b"cap" else names[-1])

    shortest, longest = len(rule(names[0])) + 1, len(rule(names[-1])) + 1
    place = len(lines) if key == b"follow" else len(lines) - len(more)
    filled = []
    room = size - len(closed(lines + [b""] * 200)) + 200  # the end line has a number of three digits in all these
    while room > 3 * longest:
        filled.append(rule(names[-1]))
        room -= longest
    for length in (room // 3, (room + 1) // 3, (room + 2) // 3):
        filled.append(rule(names[length - shortest]))
    text = closed(lines[:place] + filled + lines[place:])
    assert len(text) == size
    return text


def edges():
    """Texts about as large as a text, its items, its rules and its names may be."""
    some = [b"item=a", b"item=b", b"item=c"]
    cap, self_follow = b"cap=b:" + TOP, b"follow=a:a"
    floors = [b"floor=a+b:3/0000000000000005", b"floor=c:1/8000000000000000"]
    circle = [b"follow=a:b", b"follow=b:c", b"follow=c:a", b"follow=a+b:c"]
    nines = item_lines(9)
    lefts = [b"+".join(line[5:] for line in nines[:count]) for count in (7, 8, 9)]
    texts = []

    for count in (255, 256, 257):
        texts.append(closed(item_lines(count)))
        texts.append(closed(item_lines(count, 16) + [b"cap=---------------0:" + LOW] * 3))
        texts.append(closed(item_lines(count, 16) + [b"cap=-------------100:" + LOW]))
    texts.append(closed(item_lines(256) + [b"floor=0+255:2/0000000000000003", b"follow=17+255:0"]))
    texts.append(closed(item_lines(256) + [b"cap=255:1/0000000000000000", b"floor=255:1/0000000000000001"]))
    texts.append(closed(item_lines(256) + [b"floor=255+0:" + LOW]))
    texts.append(closed(item_lines(256) + [b"follow=%d:%d" % (i, (i + 1) % 256) for i in range(256)]))
    texts.append(closed(item_lines(256) + [b"follow=%d:256" % i for i in range(256)]))
    texts.append(closed(item_lines(256) + [b"item=0"]))
    texts.append(closed(item_lines(256) + [b"item=A"]))
    texts.append(closed(item_lines(256) + [b"cap=0:" + TOP, b"item=0"]))

    for count in (1023, 1024, 1025):
        texts.append(closed(some + [cap] * count))
        texts.append(closed(some + [b"follow=a+b+c:b"] * count))
        texts.append(closed(some + [b"floor=a+b+c:" + LOW] * count))
        texts.append(closed(some + [cap] * 500 + floors * 12 + (circle * 200)[: count - 524]))
    texts.append(closed(some + [self_follow] * 1024 + [b"follow=a:z"]))
    texts.append(closed(some + [self_follow] * 1024 + [b"follow=b+a:a"]))
    texts.append(closed(some + [self_follow] * 1024 + [cap]))
    texts.append(closed(some + [self_follow] * 1024 + [b"follow=a"]))
    texts.append(closed(some + [self_follow] * 1024)[:-1])
    texts.append(closed(some + [self_follow] * 1023 + [b"follow=a:z"]))

    for size in (32767, 32768, 32769):
        texts.append(book_of_size(size))
        texts.append(book_of_size(size, key=b"follow"))
        texts.append(book_of_size(size, [b"floor=abc+abcd:7/00000000000000f0"], key=b"follow"))
        texts.append(book_of_size(size, [b"floor=a+abcd:7/00000000000000f0", b"follow=ab:abcd"]))
        texts.append(book_of_size(size)[:-1])
        texts.append(book_of_size(size - 1) + b"\n")
        texts.append(book_of_size(size)[:-2] + b"0\n")
        texts.append(b"\n" * size)
        texts.append(b"a" * size)
        texts.append(b"form=1\n" + b"\0" * (size - 7))
        texts.append(b"form=1\nend=1\n".ljust(size, b"\n"))
        texts.append(b"form=1\nfloor=" + b"+".join([b"a"] * ((size - 33) // 2)) + b":" + LOW + b"\n")
        texts.append(random.Random(size).randbytes(size))
    texts.append(b"form=1\nend=1\n".ljust(40000, b"x"))
    texts.append(b"x" * 65536)
    texts.append(b"form=1\nend=1\n" * 6000)

    for left in lefts:
        texts.append(closed(nines + [b"floor=" + left + b":4/0000000000000001"]))
        texts.append(closed(nines + [b"follow=" + left + b":8"]))
        texts.append(closed(nines + [b"floor=8:4/0000000000000001", b"follow=" + left + b":8"]))
        texts.append(closed(nines + [b"follow=" + left + b":x"]))
        texts.append(closed(nines + [b"floor=" + left + b":16/0000000000000001"]))
    return texts
