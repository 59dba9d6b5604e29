"""The model's routines over rule tables and labels: what is accepted, solving and checking."""

import functools

import search
import second
from said import BAD_LABEL, BAD_TABLE, NO_ROOM, demand, success
from wire import KINDS, RULE_WORDS

MOST_ITEMS, MOST_RULES, MOST_LEFT, TOP_LEVEL = 256, 1024, 8, 15


def words_at(rules, at):
    """The words of a rule; zero past the table's end."""
    words = list(rules[RULE_WORDS * at : RULE_WORDS * (at + 1)])
    return words + [0] * (RULE_WORDS - len(words))


def taken_apart(words):
    """Kind, number of left items, left items, right item, level and marks of a rule."""
    return words[0], words[1], words[2:10], words[10], words[11], words[12]


def rule_is_right(words, items):
    """Whether a rule breaks no size, range or order in a book of so many items."""
    kind, count, left, right, level, marks = taken_apart(words)
    used = left[:count]
    if not 1 <= count <= MOST_LEFT or any(left[count:]) or used != sorted(set(used)) or used[-1] >= items:
        return False
    if kind == 2:
        return right < items and level == marks == 0
    return (kind == 1 or kind == 0 and count == 1) and right == 0 and level <= TOP_LEVEL


def table_is_right(rules, items, count):
    """Whether a table of so many rules is one of a book of so many items: all caps, then floors, then follows."""
    if items > MOST_ITEMS or count > MOST_RULES or len(rules) < RULE_WORDS * count:
        return False
    table = [words_at(rules, at) for at in range(count)]
    kinds = [words[0] for words in table]
    return all(rule_is_right(words, items) for words in table) and kinds == sorted(kinds)


@functools.lru_cache(None)
def class_of(level, marks):
    """A class as second.py has it."""
    return level, frozenset(k for k in range(64) if marks >> k & 1)


def word_of(marks):
    return sum(2**k for k in marks)


def meaning(words):
    """A rule as second.py has it: kind, left items, and its class or its right item."""
    kind, count, left, right, level, marks = taken_apart(words)
    return KINDS[kind], tuple(left[:count]), right if KINDS[kind] == "follow" else class_of(level, marks)


def meanings(rules, count):
    return tuple(meaning(words_at(rules, at)) for at in range(count))


def nth(values, at):
    """A word of a buffer; zero past its end."""
    return values[at] if at < len(values) else 0


def label(levels, marks, item):
    return class_of(nth(levels, item), nth(marks, item))


def enough(levels, marks, items):
    """Whether there is a label for each of so many items."""
    return min(len(levels), len(marks)) >= items


def first_over(levels, items):
    """The first of so many items whose level is over 15, or their number."""
    return next((item for item, level in enumerate(levels[:items]) if level > TOP_LEVEL), items)


# ---- The routines ------------------------------------------------------------------------------------------------------------------


def rules_ok(rules, items, count):
    return success(int(table_is_right(rules, items, count)))


def rule_ok(rules, at, items):
    return success(int(rule_is_right(words_at(rules, at), items)))


def rule_at(rules, at):
    return success(*words_at(rules, at))


def left_join(rules, at, levels, marks):
    """The join of a rule's left labels; the lowest class where it has none."""
    _, count, left, _, _, _ = taken_apart(words_at(rules, at))
    level, joined = second.join_of([class_of(0, 0)] + [label(levels, marks, item) for item in left[:count]])
    return success(level, word_of(joined))


def has_room(levels, marks, items):
    return success(int(enough(levels, marks, items)))


def first_bad(levels, items):
    return success(first_over(levels, items))


def label_at(levels, marks, item):
    return success(nth(levels, item), nth(marks, item))


def solve(rules, items, count, levels, marks):
    """10, 11, 9; the wanted labels."""
    demand(table_is_right(rules, items, count), BAD_TABLE)
    demand(enough(levels, marks, items), NO_ROOM)
    wanted = search.labels(items, meanings(rules, count))
    return success(items, levels=[level for level, _ in wanted], marks=[word_of(some) for _, some in wanted])


def check(rules, items, count, levels, marks):
    """10, 11, 12; met, or the first rule that is not."""
    demand(table_is_right(rules, items, count), BAD_TABLE)
    demand(enough(levels, marks, items), NO_ROOM)
    demand(first_over(levels, items) == items, BAD_LABEL, first_over(levels, items))
    labels = [label(levels, marks, item) for item in range(items)]
    unmet = next((at for at, rule in enumerate(meanings(rules, count)) if not second.met(rule, labels)), None)
    return success() if unmet is None else success(unmet, which=1)


def check_array(rules, items, count, levels, marks):
    """As `check`, of 1,024 records that are decoded from the table one by one."""
    records = [word for at in range(MOST_RULES) for word in words_at(rules, at)]
    return check(records, items, count, levels, marks)
