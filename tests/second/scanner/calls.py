"""The scanner's lines of a call file, and the answers to them. tests/second/README.md describes both."""

from collections import namedtuple

import calls
from scanner import model

# The state that is lent goes with each call. Out is a count and a byte, or None for the one that stands.
Begin = namedtuple("Begin", [*calls.ARGUMENTS["scanner_begin"], "state"])
Sign = namedtuple("Sign", [*calls.ARGUMENTS["scanner_sign"], "state", "out"])
Hear = namedtuple("Hear", [*calls.ARGUMENTS["scanner_hear"], "state"])


def kind(call):
    return f"scanner_{type(call).__name__.lower()}"


def arguments(call):
    return call[:len(calls.ARGUMENTS[kind(call)])]


def filled(out):
    count, byte = out
    return bytes([byte]) * count


def answered(call, out):
    """What the model answers to this call, where this out stands."""
    if isinstance(call, Sign):
        return model.sign(*arguments(call), call.state, out)
    answer = model.begin if isinstance(call, Begin) else model.hear
    return answer(*arguments(call), call.state)._replace(out=out)


class Writer:
    """Writes calls, answers and names line by line, and keeps state and out from call to call."""

    def __init__(self, asked, answers, names):
        self.asked, self.answers, self.names = asked, answers, names
        self.state = self.out = b""

    def write(self, call, name):
        """Write one call with the answer to it, and return the outcome."""
        if call.state != self.state:
            self.asked.write(f"state {calls.run_text(call.state)}\n")
        if isinstance(call, Sign) and call.out is not None:
            self.out = filled(call.out)
            self.asked.write(f"out {call.out[0]} {call.out[1]}\n")
        outcome = answered(call, self.out)
        left = (outcome.out, self.out), (outcome.state, call.state)
        texts = ("=" if after == before else calls.run_text(after) for after, before in left)
        self.asked.write(" ".join([kind(call), *map(calls.field_text, arguments(call))]) + "\n")
        self.answers.write(" ".join([str(outcome.number), str(outcome.length), *texts]) + "\n")
        self.names.write(name + "\n")
        self.state, self.out = outcome.state, outcome.out
        return outcome
