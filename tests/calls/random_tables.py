"""Calls over rule tables and labels, made at random: right ones, and ones with a size, a range, an order or a length that is not."""

import books
import model
from wire import CAPACITY, RULE_WORDS, Call, rule_words

ODD = [0, 1, 2, 3, 8, 9, 15, 16, 17, 255, 256, 257, 1023, 1024, 1025, 65536, 2**32, 2**63, 2**64 - 16, 2**64 - 1]

# ---- Rules -------------------------------------------------------------------------------------------------------------------------


def rule_lists(draft):
    """The rules of a draft of a book, thirteen words each."""
    caps = [rule_words("cap", left, 0, *right) for left, right in draft.caps]
    floors = [rule_words("floor", left, 0, *right) for left, right in draft.floors]
    return caps + floors + [rule_words("follow", left, right) for left, right in draft.follows]


# A breaker changes the rules of a book of so many items in place; some leave them right.


def any_word(rng, rules, items):
    rng.choice(rules)[rng.randrange(RULE_WORDS)] = rng.choice(ODD + [items - 1, items, items + 1])


def any_level(rng, rules, items):
    rng.choice(rules)[11] = rng.choice([15, 16, 17, 2**64 - 1])


def unused_room(rng, rules, items):
    rule = rng.choice(rules)
    unused = list(range(2 + rule[1], 10)) + ([11, 12] if rule[0] == 2 else [10])
    rule[rng.choice(unused)] = rng.choice([1, items - 1, 2**64 - 1])


def left_order(rng, rules, items):
    rng.choice(rules)[1:10] = rule_words("floor", [rng.randrange(items) for _ in range(rng.randint(2, 3))])[1:10]


def left_count(rng, rules, items):
    rng.choice(rules)[1] = rng.choice([0, 1, 2, 8, 9, 2**64 - 1])


def item_past(rng, rules, items):
    rule = rng.choice(rules)
    rule[10 if rule[0] == 2 and rng.random() < 0.5 else 1 + min(rule[1], 8)] = rng.choice([items - 1, items, items + 1, 2**64 - 1])


def kind_order(rng, rules, items):
    rng.shuffle(rules)


def other_kind(rng, rules, items):
    rng.choice(rules)[0] = rng.choice([0, 1, 2, 3, 2**64 - 1])


BREAKERS = [any_word, any_word, any_level, unused_room, unused_room, left_order, left_count, item_past, kind_order, kind_order, other_kind]


def broken(rng, rules, items):
    """Breaks the rules of a book in one way or two; a book without items or rules stays as it is."""
    for breaker in rng.sample(BREAKERS, rng.choice([1, 1, 2])) if rules and items else []:
        breaker(rng, rules, items)


class Table:
    """A flat table with its counts of items and rules."""

    def __init__(self, rng, draft):
        rules = rule_lists(draft)
        if rng.random() < 0.3:
            broken(rng, rules, draft.size())
        if rules and rng.random() < 0.015:
            many = rng.choice([1024, 1025])
            rules = [rule for rule in rules for _ in range(many // len(rules) + 1)][:many]
        self.items, self.rules = draft.size(), len(rules)
        self.words = [word for rule in rules for word in rule]
        chance = rng.random()
        if chance < 0.04:
            self.items = rng.choice([self.items + 1, max(self.items - 1, 0), 255, 256, 257, rng.choice(ODD)])
        elif chance < 0.08:
            self.rules = rng.choice([self.rules + 1, max(self.rules - 1, 0), rng.choice(ODD)])
        elif chance < 0.16:
            self.words += [rng.choice(ODD) for _ in range(rng.choice([1, 12, 13, 14]))]
        elif chance < 0.2:
            del self.words[max(len(self.words) - rng.choice([1, 2, 13]), 0) :]

    def counts(self):
        return self.items, self.rules


def table(rng):
    return Table(rng, books.small_book(rng))


# ---- Labels ------------------------------------------------------------------------------------------------------------------------


def room(rng, length):
    """About this length: mostly that or more, now and then less."""
    return max(min(length, 290) + rng.choice([0] * 12 + [1, 2, 7, -1]), 0)


def any_label(rng):
    return rng.choice([0, 1, 2, 5, 14, 15]), rng.choice([0, 1, 2, 3, 2**63, 2**64 - 1, rng.getrandbits(64)])


def labels(rng, items, known=()):
    """Lent labels for about so many items: the known ones, or any; some with a level over 15."""
    some = list(known) or [any_label(rng) for _ in range(min(items, 290))]
    if some and rng.random() < 0.5:
        some[rng.randrange(len(some))] = any_label(rng)
    if some and rng.random() < 0.12:
        some[rng.randrange(len(some))] = rng.choice([15, 16, 2**64 - 1]), 0
    some += [(rng.choice([0, 16, 2**64 - 1]), 3) for _ in range(8)]
    return {"levels": [level for level, _ in some[: room(rng, items)]], "marks": [marks for _, marks in some[: room(rng, items)]]}


def old_labels(rng, items):
    """Room for about so many labels, with old words in it."""
    return {name: [rng.choice(ODD) for _ in range(room(rng, items))] for name in ("levels", "marks")}


# ---- Calls -------------------------------------------------------------------------------------------------------------------------


def solve(rng):
    made = table(rng)
    yield Call("solve", *made.counts(), rules=made.words, **old_labels(rng, made.items))


def check(rng):
    """The same check twice, of a table and of a list."""
    made = table(rng)
    whole = {name: [0] * CAPACITY[name] for name in ("levels", "marks")}
    solved = model.answer(Call("solve", *made.counts(), rules=made.words, **whole))
    known = [] if solved.refusal else list(zip(solved.buffer("levels"), solved.buffer("marks")))[: made.items]
    lent = {"rules": made.words, **labels(rng, made.items, known)}
    yield Call("check", *made.counts(), **lent)
    yield Call("check_array", *made.counts(), **lent)


def rules_ok(rng):
    made = table(rng)
    yield Call("rules_ok", *made.counts(), rules=made.words)


def one_rule(rng):
    """A rule of a table: whether it is right, its words, and the join of its left labels."""
    made = table(rng)
    at = rng.choice(ODD) if rng.random() < 0.1 else rng.randrange(len(made.words) // RULE_WORDS + 2)
    yield Call("rule_ok", at, made.items, rules=made.words)
    yield Call("rule_at", at, rules=made.words)
    yield Call("left_join", at, rules=made.words, **labels(rng, made.items))


def label_tests(rng):
    items = rng.randint(0, 6)
    lent = labels(rng, items)
    yield Call("has_room", rng.choice([items, items + 1, rng.choice(ODD)]), **lent)
    yield Call("first_bad", rng.choice([items, items + 9, 65536]), **lent)
    yield Call("label_at", rng.choice([rng.randint(0, items + 2), rng.choice(ODD)]), **lent)
