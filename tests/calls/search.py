"""The wanted labels of a book of any size.

A book is gone through in the order in which docs/RULES.md compares labellings: part by part, item by item in book order, the smallest value first.
The first labelling that is found is then the wanted one: any other differs first at an item where it has more. A value is left out only where no
labelling can have it: a rule asks for something that just one name on its left can still reach, so that this one must, or that none of them can.
Where second.py can try every labelling, it has to find the same.
"""

import functools

import second

PARTS = 65


@functools.lru_cache(None)
def labels(count, rules):
    """The labels, as levels and sets of marks, of a book of so many items and these rules, as second.py has them; raises its Refused with 9."""
    book = second.Book()
    book.items = range(count)
    book.rules = [(kind, list(left), right) for kind, left, right in dict.fromkeys(rules)]
    found, part = searched(book)
    try:
        assert second.label(book) == found, "the search and the second program disagree"
    except second.Refused as refused:
        assert refused.place == part, "the search and the second program disagree"
    except second.TooBig:
        pass
    if found is None:
        raise second.Refused(second.NO_LABELLING, part)
    return found


def searched(book):
    """The wanted labels; or None and the lowest part that has none."""
    count = len(book.items)
    parts = [in_part(count, *seen_rules(book, part)) for part in range(PARTS)]
    if None in parts:
        return None, parts.index(None)
    return tuple((parts[0][item], frozenset(k for k in range(64) if parts[k + 1][item])) for item in range(count)), None


def seen_rules(book, part):
    """The caps of a book seen in one part, as items and values, and what else is asked: left items, and a value or the item on the right."""
    caps = [(left[0], second.seen_in(part, right)) for kind, left, right in book.rules if kind == "cap"]
    floors = [(tuple(left), second.seen_in(part, right), None) for kind, left, right in book.rules if kind == "floor"]
    follows = [(tuple(left), None, right) for kind, left, right in book.rules if kind == "follow"]
    return frozenset(caps), tuple(dict.fromkeys(floors + follows))


@functools.lru_cache(None)
def in_part(count, caps, asked):
    """The wanted labels in one part, or None. second.py says why only 0 and the values in floors are tried."""
    tried = sorted({0} | {value for _, value, _ in asked if value is not None})
    high = [min([tried[-1]] + [value for capped, value in caps if capped == item]) for item in range(count)]
    return first(0, [0] * count, high, tried, asked)


def first(item, low, high, tried, asked):
    """The first labelling between these bounds in which the items before this one stand fixed; None where there is none."""
    low = raised(low, high, asked)
    if low is None or item == len(low):
        return low
    for value in tried:
        if low[item] <= value <= high[item]:
            fixed = [value]
            found = first(item + 1, low[:item] + fixed + low[item + 1 :], high[:item] + fixed + high[item + 1 :], tried, asked)
            if found is not None:
                return found
    return None


def raised(low, high, asked):
    """The lower bounds, raised as long as a rule has just one name on its left that can reach what is asked; None where a rule has none."""
    low = list(low)
    changed = True
    while changed:
        changed = False
        for left, value, right in asked:
            need = low[right] if value is None else value
            able = [item for item in left if high[item] >= need]
            if not able:
                return None
            if len(able) == 1 and low[able[0]] < need:
                low[able[0]] = need
                changed = True
    return low
