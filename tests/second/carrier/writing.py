"""Writes the named calls and drawn ones; each must get a number that its case names, and the drawn ones every number."""

import random
from collections import Counter

from carrier import drawn, named
from carrier.calls import kind, lent
from histories import Disagreement

NUMBERS = {"sign": range(6), "verify": range(7)}  # that each call can answer


def write(writer, seed, count):
    """Returns how many calls there are, and which numbers no drawn call was answered."""
    written = 0
    for name, call, number, left in named.cases():
        outcome = writer.write(call, name)
        if outcome.number not in named.possible(number) or outcome.left != (lent(call) if left is None else left):
            raise Disagreement(f"{name}: the model answers {outcome}, should be {number}: {call}")
        written += 1
    came_up, messages = Counter(), drawn.calls(random.Random(seed))
    for _ in range(count):
        name, call, possible = next(messages)
        outcome = writer.write(call, name)
        if outcome.number not in possible:
            raise Disagreement(f"{name} of seed {seed}: the model answers {outcome.number}, which is none of {possible}: {call}")
        came_up[kind(call), outcome.number] += 1
        written += 1
    return written, [(call, number) for call, numbers in NUMBERS.items() for number in numbers if came_up[call, number] == 0]
