"""The method: document 02, K3."""

import model
from sentences.placing import changed, method


def cases():
    yield "1 to 16 token characters: each length"
    for length in (*range(20), 255, 256, 257, 272, 65_537):
        yield method, b"M" * length, 0 if 1 <= length <= 16 else 1
    yield "a byte that no token has: each byte alone, inside, and as the last of 16"
    for byte in range(256):
        number = 0 if byte in model.TOKEN_CHARACTERS else 6
        yield method, b"%c" % byte, number
        yield method, b"G%cT" % byte, number
        yield method, b"M" * 15 + b"%c" % byte, number
    yield "token characters: all of them"
    for start in range(0, len(model.TOKEN_CHARACTERS), model.MOST_METHOD):
        yield method, model.TOKEN_CHARACTERS[start:start + model.MOST_METHOD], 0
    yield "a method changed on the way in"
    for signed, lent in ((b"POST", b"DELETE"), (b"GET", b"POST"), (b"GET", b"HEAD"), (b"POST", b"post"), (b"PUT", b"PUS"), (b"PUT", b"PUTT"), (b"PUT", b"PU")):
        yield changed, signed, lent
