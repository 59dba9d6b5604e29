"""The book that the commands of tables.txt make, and what is lent of it."""

from script import OLD_BYTE, OLD_LEVEL, OLD_MARKS, made, number, rule_words
from wire import KINDS, NAME_ROOM, RULE_WORDS, Call

MANY_LABELS = 257


class Book:
    """Items, rules and what is lent, changed by commands: `book.do(COMMAND)` calls the method of its first word with the others."""

    def __init__(self):
        self.item_bytes, self.turns, self.length, self.shown = b"", 1, 0, 0
        self.do_items(0)

    def do(self, command):
        """Does a command, and answers what its method answers."""
        word, _, rest = command.strip().partition(" ")
        if word == "names":
            self.item_bytes = made(rest)
            return None
        if word in KINDS:
            return self.do_rule(word, *rest.split())
        return getattr(self, "do_" + word)(*rest.split())

    def do_items(self, count):
        self.items, self.rules, self.words = int(count), 0, []
        self.lent_bytes = self.lent_words = None
        self.do_room(MANY_LABELS, MANY_LABELS)

    def do_rule(self, kind, left, right):
        for turn in self.all_turns():
            self.store(RULE_WORDS * self.rules, rule_words(kind, left, right, turn))
            self.rules += 1

    def do_word(self, place, word):
        for turn in self.all_turns():
            self.store(int(place) + turn, [number(word, turn)])

    def do_times(self, turns):
        self.turns = int(turns)

    def do_counts(self, items, rules):
        self.items, self.rules = int(items), int(rules)

    def do_lend(self, item_bytes, rule_words):
        self.lent_bytes, self.lent_words = int(item_bytes), int(rule_words)

    def do_room(self, levels, marks):
        self.room = int(levels), int(marks)

    def do_out(self, length, shown):
        self.length, self.shown = int(length), int(shown)

    def all_turns(self):
        turns, self.turns = range(self.turns), 1
        return turns

    def store(self, at, words):
        self.words += [0] * (at + len(words) - len(self.words))
        self.words[at : at + len(words)] = words

    # ---- What is lent --------------------------------------------------------------------------------------------------------------

    def item_table(self):
        """As long as is said, else as the names and their count ask."""
        length = max(NAME_ROOM * self.items, len(self.item_bytes)) if self.lent_bytes is None else self.lent_bytes
        return self.item_bytes[:length].ljust(length, b"\0")

    def rule_table(self):
        """As long as is said, else as the rules and their count ask."""
        length = max(RULE_WORDS * self.rules, len(self.words)) if self.lent_words is None else self.lent_words
        return self.words[:length] + [0] * (length - len(self.words))

    def labels(self, level, marks):
        """Levels and marks with the room that is said, all of one class."""
        return {"levels": [level] * self.room[0], "marks": [marks] * self.room[1]}

    def solving(self):
        return Call("solve", self.items, self.rules, rules=self.rule_table(), **self.labels(OLD_LEVEL, OLD_MARKS))

    def checking(self, routine, labels):
        return Call(routine, self.items, self.rules, rules=self.rule_table(), **labels)

    def writing(self):
        return Call("write", self.items, self.rules, items=self.item_table(), rules=self.rule_table(), out=self.old_out())

    def labelling(self, labels):
        return Call("write_labels", self.items, items=self.item_table(), out=self.old_out(), **labels)

    def old_out(self):
        return [OLD_BYTE] * self.length
