"""Self-tests: a name, what the model gives, and what it should."""

from scanner import calls, model, named, writing
from scanner.placed import SESSION, ZEROS, state_of


def told():
    yield "scanner, the bytes of a state", (model.SIZE, model.NO_SESSION), (329, ZEROS)
    yield "scanner, the value that asks for a session", model.ASKS, b"r:AQE="
    yield "scanner, a state read and laid out again", model.to_bytes(model.from_bytes(state_of(SESSION))), state_of(SESSION)
    for subject in named.SUBJECTS:
        yield f"scanner, {subject.__name__}", differing(subject()), []


def differing(cases):
    """The names of those whose outcome is another than is said."""
    names, out = [], b""
    for case in cases:
        name, call, *_ = case
        out = calls.filled(call.out) if isinstance(call, calls.Sign) else out
        outcome = calls.answered(call, out)
        if not writing.as_said(case, outcome, out):
            names.append(f"{name}: {outcome.number}")
    return names
