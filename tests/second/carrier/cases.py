"""Self-tests: a name, what the model gives, and what it should."""

import random

import model as gate
from carrier import calls, client, drawn, fields, model, named
from carrier.placed import LINES


def told():
    yield from example()
    for subject in named.SUBJECTS:
        yield f"carrier, {subject.__name__}", differing(subject()), []
    yield "carrier, a block of lines is the gate's", [block for block in blocks() if model.lines_of(block) != gate.lines_of(block)], []
    yield from inputs_written_again()


def example():
    """RFC 9421, B.2.5, text by text."""
    call = named.EXAMPLE
    message = model.Message(call.method, call.authority, call.path, call.lines)
    params = b'("date" "@authority" "content-type");created=1618884473;keyid="test-shared-secret"'
    base = (
        b'"date": Tue, 20 Apr 2021 02:07:55 GMT\n'
        b'"@authority": example.com\n'
        b'"content-type": application/json\n'
        b'"@signature-params": ("date" "@authority" "content-type");created=1618884473;keyid="test-shared-secret"'
    )
    names = model.listed(call.names)
    yield "B.2.5, its params", model.params_text(names, call.created, call.key_id), params
    yield "B.2.5, its base", model.base(message, names, params), base
    yield "B.2.5, its signature", client.signature(call.label, call.key, base), named.EXAMPLE_SIGNATURE


def differing(cases):
    """The names of those whose outcome is another than is said."""
    names = []
    for name, call, number, left in cases:
        outcome = calls.answered(call)
        if outcome.number not in named.possible(number) or outcome.left != (calls.lent(call) if left is None else left):
            names.append(f"{name}: {outcome.number}")
    return names


def blocks():
    rng = random.Random(13)
    for _ in range(2_000):
        yield drawn.with_bytes_changed(rng, rng.choice((LINES, b"a:\r\n", drawn.message(rng).lines or b"a: b\r\n")))


def inputs_written_again():
    """What is read of an input makes that very input again: no two inputs say the same."""
    label, rest = named.EXAMPLE_INPUT.split(b"=", 1)
    texts = [text for *_, text in fields.changes(named.EXAMPLE_INPUT, {}, {}, {})] + [label + b"=" + rest]
    read = [(text, model.read_input(text)) for text in texts]
    again = [told.label + b"=" + model.params_text(told.names, told.created, told.key_id) for _, told in read if told]
    yield "carrier, inputs that are read", again, [text for text, told in read if told]
