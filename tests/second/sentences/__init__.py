"""Calls by document 01's sentences: each file lists, for one subject, the sentences and the cases that try them.

A string is a sentence. What follows it are its cases, each a function of placing.py and what that is given.
"""

from histories import Disagreement
from sentences import apart, arrival, codes, coverage, drawn, edges, index, lines, lists, methods, netstrings, numbers, orders, thin, trials, values

SUBJECTS = (orders, values, methods, lines, lists, coverage, netstrings, codes, numbers, index, thin, apart, arrival, trials, edges, drawn)


def write(writer):
    """Write the calls of every case, named by its sentence, and return how many there are."""
    written = 0
    for name, call, possible in placed():
        outcome = writer.write(call, name)
        if outcome.number not in possible:
            raise Disagreement(f"{name}: the model answers {outcome.number}, which is none of {possible}: {call}")
        written += 1
    return written


def placed():
    """Each call with its name and the numbers that it can get."""
    for subject in SUBJECTS:
        for item in subject.cases():
            if isinstance(item, str):
                sentence = item
                continue
            place, *case = item
            for note, call, possible in place(*case):
                yield f"{sentence}: {note}", call, possible
