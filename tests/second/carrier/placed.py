"""A booking, and how a case of messages.py, fields.py and named.py is placed in a call to sign, in one to verify, or in both.

Each function yields (name, call, number, what is left); the last is None where that is what was lent.
"""

from carrier import client
from carrier.calls import Sign, Verify

DIGEST = b"sha-256=:X48E9qOokqqrvdts8nOJRJN3OWDUoyWxBf7kbu9DBPE=:"
LINES = b"Date: Tue, 20 Apr 2021 02:07:55 GMT\r\nContent-Type: application/json\r\nContent-Digest: " + DIGEST + b"\r\n"
PAIRS = ((b"@method", b"POST"), (b"@authority", b"api.carrier.example"), (b"@path", b"/bookings"), (b"content-digest", DIGEST))
EIGHT = b"\xaa" * 8

TOKEN = b"!#$%&'*+-.^_`|~0123456789abcdefghijklmnopqrstuvwxyzABCDEFGHIJKLMNOPQRSTUVWXYZ"
LOWER_TOKEN = TOKEN[:-26]
KEY_FIRST = b"*abcdefghijklmnopqrstuvwxyz"
KEY = KEY_FIRST + b"0123456789_-."
PLACES = ((b"", b"yz"), (b"x", b"z"), (b"xy", b""))  # what stands before and after a first, a middle, a last byte


def listing(pairs):
    return b",".join(name for name, _ in pairs)


SIGN = Sign(b"POST", b"api.carrier.example", b"/bookings", LINES, listing(PAIRS), 1_618_884_473, b"sig1", b"portal-7", bytes(range(32)), 4_096, 0xAA)


def verify_of(call, input, signature):
    """The verifying of what stands in a call to sign."""
    return Verify(call.method, call.authority, call.path, call.lines, call.names, call.label, call.key_id, call.key, input, signature, EIGHT)


VERIFY = verify_of(SIGN, *client.made(SIGN.label, PAIRS, SIGN.created, SIGN.key_id, SIGN.key))
PARAMS = VERIFY.input.removeprefix(SIGN.label + b"=")


def signs(name, number, **changed):
    yield f"{name}, signed", SIGN._replace(**changed), number, None


def verifies(name, number, **changed):
    left = SIGN.created.to_bytes(8, "big") if number == 0 else None
    yield f"{name}, verified", VERIFY._replace(**changed), number, left


def both(name, number, **changed):
    """A refusal by what both calls are lent; verify gets the good input and signature."""
    yield from signs(name, number, **changed)
    yield from verifies(name, number, **changed)


def done(name, pairs=PAIRS, **changed):
    """Both calls, done: the values that are signed are said here."""
    call = SIGN._replace(**{"names": listing(pairs)} | changed)
    input, signature = client.made(call.label, pairs, call.created, call.key_id, call.key)
    text = client.lines(input, signature)
    yield f"{name}, signed", call, 0, text + bytes([call.out_byte]) * (call.out_size - len(text))
    yield f"{name}, verified", verify_of(call, input, signature), 0, call.created.to_bytes(8, "big")


def resigned(name, number, told, pairs, **changed):
    """An input of these params, and the right signature of them: nothing else is wrong."""
    signature = client.signature(SIGN.label, SIGN.key, client.base(pairs, told))
    yield from verifies(name, number, input=SIGN.label + b"=" + told, signature=signature, **changed)


def told_as(name, number, pairs, **changed):
    """An input of another list, and the right signature of it."""
    yield from resigned(name, number, client.params([known for known, _ in pairs], SIGN.created, SIGN.key_id), pairs, **changed)


def each_byte():
    return (bytes([byte]) for byte in range(256))
