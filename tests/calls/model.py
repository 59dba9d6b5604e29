"""The model: what each routine of README.md's table answers and leaves in its buffers, worked out from docs/RULES.md."""

import model_exports as exports
import model_tables as tables
import model_texts as texts
from second import Refused
from wire import BUFFERS, Answer

# Each takes the call and its numbers.
ROUTINES = {
    "read": lambda c, *_: texts.read(c.text, c.items, c.rules),
    "write": lambda c, a, b, *_: texts.write(c.items, c.rules, a, b, c.out),
    "write_labels": lambda c, a, *_: texts.write_labels(c.items, a, c.levels, c.marks, c.out),
    "find": lambda c, a, *_: texts.find(c.items, a, c.text),
    "items_ok": lambda c, a, *_: texts.items_ok(c.items, a),
    "rules_ok": lambda c, a, b, *_: tables.rules_ok(c.rules, a, b),
    "solve": lambda c, a, b, *_: tables.solve(c.rules, a, b, c.levels, c.marks),
    "check": lambda c, a, b, *_: tables.check(c.rules, a, b, c.levels, c.marks),
    "check_array": lambda c, a, b, *_: tables.check_array(c.rules, a, b, c.levels, c.marks),
    "answer": lambda c, *_: texts.answer(c.text, c.out),
    "assign": lambda c, *_: texts.assign(c.text, c.items, c.levels, c.marks),
    "has_room": lambda c, a, *_: tables.has_room(c.levels, c.marks, a),
    "first_bad": lambda c, a, *_: tables.first_bad(c.levels, a),
    "label_at": lambda c, a, *_: tables.label_at(c.levels, c.marks, a),
    "rule_at": lambda c, a, *_: tables.rule_at(c.rules, a),
    "left_join": lambda c, a, *_: tables.left_join(c.rules, a, c.levels, c.marks),
    "rule_ok": lambda c, a, b, *_: tables.rule_ok(c.rules, a, b),
    "strip": lambda c, a, b, *_: exports.strip(c.text, a != 0, c.kept, b, c.out),
    "reader_class": lambda c, *_: exports.reader_class(c.text),
    "kept_columns": lambda c, a, _b, level, marks, last, _f: exports.kept_columns(
        c.items, a, c.levels, c.marks, (level, marks), c.text, last != 0, c.kept
    ),
    "read_name": lambda c, a, *_: texts.read_name(c.text, a),
    "read_count": lambda c, a, *_: texts.read_count(c.text, a),
    "read_class": lambda c, a, *_: texts.read_class(c.text, a),
    "read_key": lambda c, a, *_: texts.read_key(c.text, a),
    "read_field": lambda c, a, *_: exports.read_field(c.text, a),
    "put": lambda c, a, *_: texts.put(c.items, c.out, a),
    "put_count": lambda c, a, b, *_: texts.put_count(a, c.out, b),
    "put_class": lambda c, a, b, at, *_: texts.put_class(a, b, c.out, at),
    "read_row": lambda c, a, b, most, *_: exports.read_row(c.text, a, b != 0, most, c.levels),
    "nth_field": lambda c, a, b, *_: texts.put(exports.nth_field(c.text, a, c.levels, b), c.out, 0),
}


def answer(call):
    """The answer to a call: a refusal leaves every buffer as it was, a success writes from the front of some."""
    try:
        which, values, fronts = ROUTINES[call.routine](call, *call.numbers)
        refusal = 0
    except Refused as refused:
        refusal, which, values, fronts = refused.number, refused.place, (), {}
    buffers = tuple(after(getattr(call, name), fronts.get(name, ())) for name in BUFFERS)
    return Answer(refusal, which, tuple(values), buffers)


def after(before, front):
    return (*front, *before[len(front) :])
