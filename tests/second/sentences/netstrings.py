"""Netstrings: document 01, 'the published netstring layout', which a token and the signed text are made of."""

from encoding import first_netstring, netstring
from sentences.placing import KEY, read, written

SIZES = (0, 1, 2, 9, 10, 11, 99, 100, 101, 255, 256, 999, 1_000, 1_001, 1_024)
IN_A_TOKEN = (31, 32, 33, 63, 64, 65)


def cases():
    yield "netstring of nothing: 0:, and the published layout"
    for size in (*SIZES, *IN_A_TOKEN):
        yield written, b"v" * size
        yield written, b"\0" * size
    for part in (b"a", b",", b":", b"0:,", b"1:a,", b"\xff", b"12:"):
        yield written, part
        for place in (0, 1, 7):
            yield read, place, b"9" * place + netstring(part)
            yield read, place, b"\0" * place + netstring(part) + b"rest"
    for size in (*SIZES[:-3], *IN_A_TOKEN):
        yield read, 0, netstring(b"v" * size)
        yield read, 0, netstring(b"v" * size)[:-1]
        yield read, 3, b"1:," + netstring(b"," * size) + b"x"
    yield "a length in decimal without leading zeros"
    for text in (b"", b"0", b"0:", b"0,", b"00:,", b"01:a,", b"001:a,", b"1:a", b"1:,", b"1:a;", b"2:a,", b"1a,", b":,", b":a,", b",", b"a:a,"):
        yield read, 0, text
        yield read, 2, b"1:" + text
    for text in (b"-1:a,", b"+1:a,", b" 1:a,", b"1 :a,", b"1: a,", b"1:a ,", b"0x1:a,", b"1.0:a,", b"/:,", b";:,", b"1/:a,", b"1;:a,", b"\0:,", b"\xff:,"):
        yield read, 0, text
    yield "lengths near 2^32 and 2^64 do not wrap"
    for length in (1 << 31, (1 << 32) - 1, 1 << 32, (1 << 32) + 1, (1 << 63) - 1, 1 << 63, (1 << 64) - 1, 1 << 64, (1 << 64) + 1, 10 ** 30):
        yield read, 0, b"%d:a," % length
    yield "one more and one less than the bytes that follow"
    for length in (4, 5, 6, 7, 15, 50):
        yield read, 0, b"%d:hello," % length
        yield read, 0, b"%d:hello,," % length
    yield "the place at and before the end of the run"
    for place in range(10):
        yield read, place, b"0:,0:,0:,"
    yield "the token: three netstrings in a row"
    token = b"".join(netstring(part) for part in (KEY, b"session", b"1505773123"))
    rest = token
    while rest:
        yield read, len(token) - len(rest), token
        _, rest = first_netstring(rest)
