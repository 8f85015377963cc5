"""Header lines: document 01, 'Header lines and the signed text' and number 7."""

import model
from client import line
from faults.lines import BAD_LINES, ONCE_ONLY
from sentences.placing import block, covered, names, repeated

EIGHT = b"X-1:ab\r\n"
FULL = (1 << 56) - 1  # the mask of all names and nonces


def blocks():
    yield "lines name:value each ended by CR LF"
    for text in (b"", b"a:b\r\n", b"a:b\r\nc:d\r\n", b"a: b\r\na: b\r\n", b"a:\r\n", b"a: \r\n", b"a:\t\r\n", b"a::\r\n", b"a:b:c\r\n"):
        yield block, text
    for text in (b"a", b":", b"a:", b"a:b", b"a:b\r", b"a:b\n", b"a:b\n\r", b"\r\n", b"a:b\r\n\r\n", b"\r\na:b\r\n", b"a:b\r\nc:d", b"a:b\r\nc:d\r"):
        yield block, text
    for text in (b"a\r\n", b"a:b\r\nc\r\n", b":b\r\n", b"a:b\r\n:\r\n", b"\r", b"\n", b"a:b\r\n\n", b"a:b\r\n\r", b"a:b\r\n ", b"a:b\n\nc:d\r\n"):
        yield block, text
    yield "each malformed line by itself, after a good one and before one"
    for text in BAD_LINES.values():
        yield block, text
        yield block, b"Host: a\r\n" + text
        yield block, text + b"Host: a\r\n"
    yield "name a token: each byte as a name, and as a name's second byte"
    for byte in range(256):
        yield block, b"%c:b\r\n" % byte
        yield block, b"a%c:b\r\n" % byte
    yield block, model.TOKEN_CHARACTERS + b":\r\n"
    yield "value of tab, 32 to 126 and 128 to 255: each byte"
    for byte in range(256):
        yield block, b"a:%c\r\n" % byte
    yield "no folding"
    for text in (b"a:b\r\n c\r\n", b"a:b\r\n\tc\r\n", b"a:\r\n b\r\n", b" a:b\r\n", b"\ta:b\r\n", b"a:b\r\n \r\n", b"a:b\r\n c:d\r\n"):
        yield block, text
    yield "head and set-aside lines 16,384 each"
    yield block, EIGHT * 2_048
    yield block, EIGHT * 2_047 + EIGHT[:7]
    yield block, b"n" * 16_384
    yield block, b":" * 16_384


def doubled(name, other=None):
    return line(name, b"a") + b"X-Between: c\r\n" + line(other or name, b"b")


def doubled_names():
    yield "a name that the orders cover, twice in one of the two: each name but the list fields (lists.py), by its bit alone and by all bits but its own"
    for name in ONCE_ONLY:
        bit, once = 2 << model.NAMES.index(name), line(name, b"a")
        for head, aside in ((doubled(name, name.swapcase()), b""), (b"", doubled(name.lower(), name)), (doubled(name), once), (once, doubled(name))):
            yield repeated, 7, bit, b"", head, aside
        yield repeated, 0, FULL ^ bit, b"", doubled(name.lower(), name), doubled(name)
    yield "Mask bit 0 of ah orders nonces. It is no header"
    yield names, 1, b"", doubled(b"Host") + doubled(b"MIME-Version"), b""
    yield names, 3, b"", doubled(b"MIME-Version"), b""
    yield "extras too"
    for extra in (b"q", b"q,w", b"w,q", b"a,b,c,d,e,f,g,q", b"Q", b"w", b"qq", b""):
        yield names, 0, extra, doubled(b"q"), b""
        yield names, 0, extra, b"", doubled(b"q", b"Q")
        yield names, 0, extra, doubled(b"Q", b"q"), b"q: own\r\n"
    yield "twice in one of the two: head, set-aside lines, one in each, thrice"
    once, twice = b"Host: a\r\n", b"Host: a\r\nhOST: b\r\n"
    for head, aside in ((once, b""), (b"", once), (once, once), (twice, b""), (b"", twice), (twice, once), (once, twice), (twice + once, b""), (twice, twice)):
        yield names, 2, b"", head, aside
        yield names, 0, b"q", head.replace(b"Host", b"Q").replace(b"hOST", b"q"), aside.replace(b"Host", b"q").replace(b"hOST", b"Q")
    yield "equal values; a name that nobody covers; X-S-Armor"
    yield names, 2, b"", once + once, b""
    yield names, 2, b"", once + b"X-Other: a\r\nX-Other: b\r\n", b"X-Other: a\r\nX-Other: b\r\n"
    yield names, 2, b"q", b"X-S-Armor: r:AQQ=\r\nx-s-armor: c:AAAA\r\n", b""
    yield "matched without regard to ASCII case, and otherwise whole"
    for first, second in ((b"x^", b"x~"), (b"If", b"Iff"), (b"I", b"If"), (b"If", b"IF"), (b"if", b"iF"), (b"If-Match", b"If_Match")):
        yield names, FULL, b"x^", doubled(first, second), b""
    yield "first and last of many lines; a block of 16,384 bytes"
    yield names, 2, b"", once + EIGHT * 100 + once, b""
    yield names, 0, b"X-1", EIGHT * 2_048, b""
    yield names, 2, b"", EIGHT * 2_048, EIGHT * 2_048
    yield names, FULL, b"", b"".join(line(name, b" v ") for name in model.NAMES), b"".join(line(name, b"") for name in model.NAMES)
    yield "head or set-aside line malformed, in both blocks, also names that nobody covers"
    for text in (b"Host : a\r\n", b"X-A\r\n", b"X-A: b"):
        yield names, 2, b"", twice + text, b""
        yield names, 2, b"", b"", text + once
        yield names, 0, b"", text, text
    yield "orders bad come first"
    yield names, 1 << 56, b"", b"bad", b""
    yield names, 2, b"q,Q", twice, b""
    yield names, 2, b"Host", once, b""


def covered_values():
    yield "matched without regard to ASCII case"
    for name in (b"Host", b"host", b"HOST", b"hOsT"):
        yield covered, b"Host", b"Ho: 1\r\n", line(name, b"own")
    yield covered, b"Host", b"Hos: 1\r\nHOst: 2\r\nHostess: 3\r\n", b""
    for name in (b"X-Farm", b"x-farm", b"X-FARM", b"x-fARM"):
        yield covered, name, b"X-Far: 1\r\nX-FArm: 2\r\nX-Farmer: 3\r\n", b""
    for name in (b"x^", b"x~", b"X|", b"-", b"a", b"MIME-Version", b"n" * 128):
        yield covered, name, b"x^:1\r\nx~:2\r\nx|:3\r\n-:4\r\nA:5\r\nmime-version:6\r\n" + line(b"N" * 128, b"7"), b""
    yield "spaces and tabs trimmed at both ends"
    values = [b"a", b" a", b"a ", b" a ", b"\ta\t", b" \t a b\t \t", b"", b" ", b"\t", b" \t \t ", b"a \t b", b"\xa0a\xa0", b"\x80", b"::", b" : ", b"1:a,", b'" a "']
    for text in values:
        yield covered, b"Host", b"X: y\r\n" + line(b"Host", text) + b"Z: y\r\n", b""
        yield covered, b"Host", b"Host: head\r\n", line(b"Host", text)
    yield "value of tab, 32 to 126 and 128 to 255: each byte alone and inside"
    for byte in (9, *range(32, 127), *range(128, 256)):
        yield covered, b"a", b"a:%c\r\nb:x\r\n" % byte, b"b:c%cd\r\n" % byte
    yield covered, b"a", b"a:x" + bytes([9, *range(32, 127), *range(128, 256)]) + b"x\r\n", b""
    yield "from the set-aside lines where the name stands there, and otherwise from the head"
    for head in (b"", b"Host: head\r\n", b"X: 1\r\nHost: head\r\nY: 2\r\n"):
        for aside in (b"", b"Host: own\r\n", b"Host:\r\n", b"host: \t\r\n", b"X: 3\r\n", b"X: 3\r\nHOST:own \r\nY: 4\r\n"):
            yield covered, b"Host", head, aside
    yield "Absent is empty"
    for head, aside in ((b"", b""), (b"X: 1\r\n", b""), (b"", b"X: 1\r\n"), (b"Hos:t\r\n", b"Hostt:t\r\n"), (b"X: Host: a\r\n", b"")):
        yield covered, b"Host", head, aside
    yield "head and set-aside lines 16,384 each"
    yield covered, b"a", b"a:" + b"v" * 16_380 + b"\r\n", b""
    yield covered, b"X-2", EIGHT * 64 + b"X-2:cd\r\n", b""
    yield covered, b"X-2", EIGHT * 2_048, EIGHT * 2_048


def cases():
    yield from blocks()
    yield from doubled_names()
    yield from covered_values()
