"""Calls to sign by the request: sizes, methods, lines, and the values that are covered."""

import hashing
from carrier.messages import BAD_LINES as NO_LINES
from client import line
from faults.lines import BAD_LINES
from faults.lists import JOINED, ended
from model import LIST_FIELDS, NAMES, TOKEN_CHARACTERS
from scanner.placed import FULL, HEAD, HIGHEST, NO_NONCES, SESSION, ZEROS, covered_by, refuses, signs, state_of

# 3: sizes


def sizes():
    for part, byte, most in (("method", b"M", 16), ("path", b"/", 2_048), ("body", b"\0", 65_536)):
        for size in (1, 9, 10, most - 1, most):
            yield from signs(f"a {part} of {size:,} bytes", **{part: byte * size})
        for size in (most + 1, most + 256, 2 * most):
            yield from refuses(f"a {part} of {size:,} bytes", 3, **{part: byte * size})
    for part in ("method", "path"):
        yield from refuses(f"a {part} of no bytes", 3, **{part: b""})
    yield from signs("no body", body=b"")
    yield from signs("no head", covered=covered_by(SESSION, {}), head=b"")
    for size in (16_383, 16_384):
        yield from signs(f"a head of {size:,} bytes", head=padded(size))
        value = b"v" * (size - 4)
        yield from signs(f"a head of {size:,} bytes, all covered", SESSION._replace(eah=b"a", mask=1), [value], head=b"A:" + value + b"\r\n")
    for size in (16_385, 20_000):
        yield from refuses(f"a head of {size:,} bytes", 3, head=padded(size))
    for size in (0, 1, 16, 1_024, 4_095):
        yield from refuses(f"an out of {size:,} bytes", 3, out=(size, 0))
    for size in (4_096, 4_097, 9_000, 65_536):
        yield from signs(f"an out of {size:,} bytes", out=(size, 0xFF))
    for size in (0, 1, 47, 48, 63, 64, 65, 111, 112, 127, 128, 129, 999, 1_000, 9_999, 10_000):
        body = bytes(place % 251 for place in range(size))
        for known in hashing.FUNCTIONS:
            yield from signs(f"a body of {size:,} bytes under {known}", SESSION._replace(hash=known), body=body)
    longest = {"method": b"M" * 16, "head": b"X-1:ab\r\n" * 2_048, "path": b"p" * 2_048, "body": b"b" * 65_536}
    yield from signs("everything at its longest", LONGEST, covered_by(LONGEST, {}), **longest)


LONGEST = SESSION._replace(mask=FULL, s=bytes(118), eah=b"n" * 128, last=HIGHEST, next=HIGHEST)


def padded(size):
    return HEAD + line(b"X-Pad", b"p" * (size - len(HEAD) - len(b"X-Pad:\r\n")))


# 3: methods and lines


def methods():
    for byte in range(256):
        for method in (b"%c" % byte, b"G%cT" % byte, b"M" * 15 + b"%c" % byte):
            if byte in TOKEN_CHARACTERS:
                yield from signs(f"method {method}", method=method)
            else:
                yield from refuses(f"method {method}", 3, method=method)


def lines():
    nothing_covered = state_of(NO_NONCES._replace(mask=0, eah=b""))
    for name, text in (*BAD_LINES.items(), *NO_LINES):
        for where, head in (("alone", text), ("after good ones", HEAD + text), ("before good ones", text + HEAD)):
            yield from refuses(f"a head with {name}, {where}", 3, head=head)
            yield from refuses(f"a head with {name}, {where}, where nothing is covered", 3, head=head, state=nothing_covered)
    for cut in (1, 2):
        yield from refuses(f"a head without its last {cut} bytes", 3, head=HEAD[:-cut])
    for byte in range(256):
        in_name = byte in TOKEN_CHARACTERS
        yield from with_line(f"a name of byte {byte}", in_name, b"%c: v\r\n" % byte)
        yield from with_line(f"a name that ends in byte {byte}", in_name or byte == ord(":"), b"x%c: v\r\n" % byte)
        yield from with_line(f"a value of byte {byte}", byte == 9 or 32 <= byte != 127, b"X: %c\r\n" % byte)


def with_line(name, good, text):
    if good:
        yield from signs(f"{name}, not covered", head=HEAD + text)
    else:
        yield from refuses(f"{name}, not covered", 3, head=HEAD + text)


# What is covered


def names():
    """Each name alone, absent, in other case, and twice; and with every other one covered."""
    for bit, name in enumerate(NAMES, 1):
        session, but = alone(name), SESSION._replace(mask=FULL ^ 1 << bit, eah=b"")
        yield from signs(f"{name} alone", session, [b"a"], head=line(name, b" a\t"))
        yield from signs(f"{name} in other case", session, [b"a"], head=b"X-A: b\r\n" + line(name.swapcase(), b"a"))
        yield from signs(f"{name}, absent", session, [b""], head=line(name + b"s", b"a") + line(name[:-1], b"a"))
        yield from signs(f"{name}, not covered, twice", but, [b""] * (len(NAMES) - 1), head=twice(name))
        if name in LIST_FIELDS:
            yield from signs(f"{name} twice", session, [b"a, b"], head=twice(name))
        else:
            yield from refuses(f"{name} twice", 3, state=state_of(session), head=twice(name))
            yield from refuses(f"{name} twice, with equal values", 3, state=state_of(session), head=line(name, b"a") * 2)
    values = [b"%d" % bit for bit, _ in enumerate(NAMES, 1)]
    every = [line(name, value) for name, value in zip(NAMES, values)]
    for head in (every, every[::-1]):
        yield from signs("all names", SESSION._replace(mask=FULL, eah=b""), values, head=b"".join(head))
    yield from signs("nothing covered", SESSION._replace(mask=1, eah=b""), [], head=HEAD * 2)
    yield from signs("X-S-Armor twice", head=HEAD + b"X-S-Armor: r:AQE=\r\nx-s-armor: c:AAAA\r\n")
    yield from signs("a name that is not covered, twice", head=HEAD + twice(b"X-Other"))


def alone(name):
    """A session that covers this name and the nonce."""
    return SESSION._replace(mask=1 | 2 << NAMES.index(name), eah=b"")


def twice(name):
    return line(name, b" a ") + b"X-Between: c\r\n" + line(name.lower(), b"b")


def extra_names():
    for session in (SESSION, NO_NONCES):
        plain = session._replace(mask=session.mask & 1)
        last_bit = plain._replace(mask=plain.mask | 1 << 55, eah=b"a")
        yield from signs("extra names in their order", plain._replace(eah=b"b,a"), [b"2", b"1"], head=b"a: 1\r\nb: 2\r\n")
        yield from signs("extra names in other case", plain._replace(eah=b"X-Farm,q"), [b"1", b"2"], head=b"x-FARM:1\r\nQ: 2\r\n")
        yield from signs("eight extra names", plain._replace(eah=b"a,b,c,d,e,f,g,q"), [b"", b"2", *[b""] * 5, b"8"], head=b"q:8\r\nb:2\r\n")
        yield from signs("an extra name after the others", last_bit, [b"1.0", b"x"], head=b"a:x\r\nMIME-Version:1.0\r\n")
        for head in (b"q: a\r\nq: a\r\n", b"q: a\r\nQ: b\r\n", b"q:\r\nx: y\r\nq:\r\n", b"q: a\r\n" * 3):
            yield from refuses(f"an extra name twice, {head}", 3, state=state_of(plain._replace(eah=b"a,q")), head=head)
            yield from signs(f"a name twice that is no extra one, {head}", plain._replace(eah=b"a,qq"), [b"", b""], head=head)
        like_accept = state_of(plain._replace(eah=b"Accept-Parts"))
        yield from refuses("an extra name twice that begins like a list field", 3, state=like_accept, head=b"Accept-Parts: a\r\n" * 2)


VALUES = (
    *(b"a", b" a", b"a ", b"\ta\t", b" \t a b\t \t", b"", b" ", b"\t \t", b"a \t b"),
    *(b"\xa0a\xa0", b"\x80", b"::", b" : ", b"1:a,", b'" a "', b"a, b,"),
)


def values():
    for text in VALUES:
        yield from signs(f"a covered value {text}", alone(b"Host"), [text.strip(b" \t")], head=b"X: y\r\n" + line(b"Host", text) + b"Z: y\r\n")
    for byte in (9, *range(32, 127), *range(128, 256)):
        value = b"a%cb" % byte
        yield from signs(f"a covered value {value}", alone(b"Host"), [value], head=line(b"Host", value))
    for name, (texts, value) in JOINED.items():
        yield from signs(f"Accept on several lines, {name}", alone(b"Accept"), [value], head=b"".join(ended(texts)))
    yield from signs("a list on 3,276 lines", alone(b"TE"), [b", " * 3_275 + b"last"], head=b"TE:\r\n" * 3_275 + b"TE:last\r\n")


# The first that holds


def at_once():
    bad_states = (b"", state_of(SESSION)[:-1], ZEROS, state_of(SESSION._replace(hash=5)))
    used_up = state_of(SESSION._replace(next=1 << 32))
    bad_parts = (
        {"method": b""}, {"method": b"M" * 17}, {"method": b"G T"}, {"head": b"\0" * 16_385}, {"head": b"Host"}, {"head": b"Host: a\r\nhost: a\r\n"},
        {"head": b"x-farm: a\r\n" * 2}, {"path": b""}, {"path": b"/" * 2_049}, {"body": bytes(65_537)}, {"out": (4_095, 1)},
    )
    for part in bad_parts:
        name = ", ".join(f"{key} of {value[0] if key == 'out' else len(value):,} bytes" for key, value in part.items())
        yield from refuses(f"3 alone, by a {name}", 3, **part)
        yield from refuses(f"2 and 3, by a {name}", 2, state=used_up, **part)
        for state in bad_states:
            yield from refuses(f"1 and 3, by a state of {len(state)} bytes and a {name}", 1, state=state, **part)
    every = {key: value for part in bad_parts for key, value in part.items()}
    yield from refuses("everything of 3", 3, **every)
    yield from refuses("2, and everything of 3", 2, state=used_up, **every)
    yield from refuses("1 by a nonce past the last, and everything of 3", 1, state=state_of(SESSION._replace(next=1 << 32 | 1)), **every)
