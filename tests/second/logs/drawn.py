"""Logs drawn from a seed: good lines, lines altered by a few bytes, and bytes at random, in any number and with or without their last line feed."""

from logs.lines import Line

TELLING = b' "\\[]-\n\r\t\x00059aZ\xff'


def word(rng):
    return rng.choice((b"-", b"brandt", b"10.2.0.7", b"host-%d.example" % rng.randrange(1000), b'"', b"[", b"\\", rng.randbytes(3).translate(None, b" \n") or b"-"))


def request(rng):
    pieces = (b"GET ", b"/orders", b'\\"', b"\\\\", b"\\x", b" HTTP/1.1", b"[]", b"", b"a" * rng.randrange(200))
    return b"".join(rng.choice(pieces) for _ in range(rng.randrange(6)))


def good(rng):
    return Line(
        word(rng), word(rng), word(rng),
        rng.choice((b"", b"16/Nov/2026:08:10:40 +0100", b"[", b'" "')),
        request(rng),
        b"%d" % rng.choice((rng.randrange(100, 600), 200, 403)),
        rng.choice((b"-", b"%d" % rng.randrange(10**rng.randrange(1, 12)))),
    ).text()


def altered(rng, line):
    for _ in range(rng.choice((1, 1, 1, 2, 5))):
        place = rng.randrange(len(line) + 1)
        gone = rng.choice((0, 1, 1, 3))
        put = bytes(rng.choice(TELLING) for _ in range(rng.choice((0, 1, 1, 2))))
        line = line[:place] + put + line[place + gone:]
    return line


def long(rng):
    """A good line but for its length, about the longest that is read or above it."""
    line = good(rng)
    more = rng.choice((*range(8_189, 8_197), 20_000, 70_000)) - len(line)
    return line.replace(b"[", b"[" + b"d" * more, 1)


def line(rng):
    kind = rng.randrange(20)
    if kind < 9:
        return good(rng)
    if kind < 17:
        return altered(rng, good(rng))
    if kind < 18:
        return bytes(rng.choice(TELLING) for _ in range(rng.randrange(40)))
    if kind < 19:
        return rng.randbytes(rng.randrange(200))
    return long(rng)


def log(rng):
    lines = [line(rng) for _ in range(rng.choice((0, 1, 2, 5, 20, 100, 1_000)))]
    return b"\n".join(lines) + rng.choice((b"", b"\n"))


def cut(rng, text):
    """The text in parts, none of them empty or longer than a read takes."""
    parts = []
    while text:
        size = rng.choice((1, 2, 7, 100, 8_191, 8_192, 8_193, 65_536))
        parts.append(text[:size])
        text = text[size:]
    return parts
