"""Writes the named calls and drawn ones; each must come to what its case says, and the drawn ones to every number."""

from histories import Disagreement
from scanner import named
from scanner.calls import Sign, filled
from scanner.drawn import Drawn

NUMBERS = {"scanner_begin": (0, 1, 3, 4), "scanner_sign": (0, 1, 2, 3), "scanner_hear": (0, 1, 4)}  # that each call can answer
JUDGED = (0, 10, 13, 16)  # that the gate answers to drawn requests


def as_said(case, outcome, out):
    """Whether a named call came to what its case says, where this out stood before."""
    _, call, number, value, state = case
    return outcome == ((0, len(value), value + out[len(value):], state) if number == 0 else (number, 0, out, call.state))


def write(writer, seed, count):
    """Returns how many calls there are, and which numbers never came up among the drawn ones."""
    written = 0
    for case in named.cases():
        name, call, number, *_ = case
        out = filled(call.out) if isinstance(call, Sign) else writer.out
        outcome = writer.write(call, name)
        if not as_said(case, outcome, out):
            raise Disagreement(f"{name}: the model answers {outcome}, should be {number}: {call}")
        written += 1
    drawn = Drawn(seed, writer)
    drawn.generate(count)
    missing = [(call, number) for call, numbers in NUMBERS.items() for number in numbers if drawn.came_up[call, number] == 0]
    missing += [("judged request", number) for number in JUDGED if drawn.judged[number] == 0]
    return written + drawn.written, missing
