"""The carrier's lines of a call file, and the answers to them. tests/second/README.md describes both."""

from collections import namedtuple

import calls
from carrier import model

Sign = namedtuple("Sign", calls.ARGUMENTS["sign"])
Verify = namedtuple("Verify", calls.ARGUMENTS["verify"])


def kind(call):
    return type(call).__name__.lower()


def lent(call):
    """What the call may write to, as it is before."""
    return bytes([call.out_byte]) * call.out_size if isinstance(call, Sign) else call.created


def answered(call):
    """What the model answers to this call."""
    message = model.Message(call.method, call.authority, call.path, call.lines)
    terms = model.Terms(call.names, call.label, call.key_id, call.key)
    if isinstance(call, Sign):
        return model.sign(message, terms, call.created, lent(call))
    return model.verify(message, terms, call.input, call.signature, call.created)


class Writer:
    """Writes calls, answers and names line by line."""

    def __init__(self, asked, answers, names):
        self.asked, self.answers, self.names = asked, answers, names

    def write(self, call, name):
        """Write one call with the answer to it, and return the outcome."""
        outcome = answered(call)
        left = "=" if outcome.left == lent(call) else calls.run_text(outcome.left)
        self.asked.write(" ".join([kind(call), *map(calls.field_text, call)]) + "\n")
        self.answers.write(f"{outcome.number} {outcome.length} {left}\n")
        self.names.write(name + "\n")
        return outcome
