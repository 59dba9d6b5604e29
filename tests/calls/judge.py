"""Holds the built program to cases: its words to the model's, and what they show to the lines that are right."""

import itertools

import wire
from program import Program
from shown import differences

MOST_WORDS = 300000


def run(cases, texts=()):
    """Runs the cases, and the texts with their outputs; says of each that fails what is wrong; ends with 'N passed, M failed', and answers the
    status."""
    passed = failed = 0
    with Program("calls") as program:
        for name, said in itertools.chain(case_faults(program, cases), text_faults(program, texts)):
            if said:
                print("\n  ".join([name + ":", *said]))
            failed += bool(said)
            passed += not said
    print(f"{passed} passed, {failed} failed")
    return 1 if failed else 0


def case_faults(program, cases):
    """The name of each case, and what is wrong."""
    for batch in batches(cases):
        answers = iter(answered(program, [call for case in batch for call in case.calls]))
        for case in batch:
            yield case.name, faults(case, [next(answers) for _ in case.calls])


def text_faults(program, texts):
    """The name of each text, and what is wrong."""
    for name, text, right in texts:
        ran = program.run([], [text])
        yield name, [] if ran == (0, right, b"") else [f"expected {ended(right)}", f"got      {ended(ran[1])}, status {ran[0]}, {ran[2]!r}"]


def ended(output):
    return f"{len(output)} bytes that end in {output[-40:]!r}"


def batches(cases):
    """The cases in lists that make for runs of bearable length."""
    batch, size = [], 0
    for case in cases:
        batch.append(case)
        size += sum(len(words) for answer in case.right for words in answer.buffers)
        if size > MOST_WORDS:
            yield batch
            batch, size = [], 0
    yield batch


def answered(program, calls):
    """The program's answer to each call; None for those that it does not come to, and for the last where it writes anything else besides."""
    status, output, error = program.run([], [b"".join(wire.lines(call.words()) for call in calls)])
    answers, rest = wire.answers(output)
    if status or rest or error or len(answers) > len(calls):
        print(f"after {len(answers)} answers to {len(calls)} calls: status {status}, {rest[:200]!r}, standard error {error[:200]!r}")
        answers = answers[: len(calls) - 1]
    return answers + [None] * (len(calls) - len(answers))


def faults(case, answers):
    """What is wrong with the answers to the calls of a case."""
    said = []
    line = "no answer\n" if None in answers else case.shown(answers)
    if line != case.stored:
        said += ["expected " + case.stored.rstrip("\n"), "got      " + line.rstrip("\n")]
    if case.modelled != case.stored:
        said.append("where the model has " + case.modelled.rstrip("\n"))
    for call, right, answer in zip(case.calls, case.right, answers):
        said += differences(call, right, answer)
    return said
