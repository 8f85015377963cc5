"""Logs by document 02's sentences: a name, the log, and the statuses of its lines, None for unread.

The statuses are said here and not taken from the counter, so that counter and cases check each other.
"""

from typing import NamedTuple


class Line(NamedTuple):
    host: bytes = b"10.2.0.7"
    ident: bytes = b"-"
    user: bytes = b"brandt"
    date: bytes = b"16/Nov/2026:08:10:40 +0100"
    request: bytes = b"POST /orders HTTP/1.1"
    status: bytes = b"403"
    size: bytes = b"2326"

    def text(self):
        return b'%s %s %s [%s] "%s" %s %s' % self


GOOD = Line().text()

# One line, and its status.
READ = (
    ("as servers write it", Line(), 403),
    ("words of one byte", Line(host=b"h", ident=b"i", user=b"u"), 403),
    ("any bytes but a space in the words", Line(host=b'[::1]"', ident=b"\x00\xff\\", user=b"a\tb\r]["), 403),
    ("an empty date", Line(date=b""), 403),
    ("a date of brackets that open, quotes and spaces", Line(date=b'[[ "" '), 403),
    ("an empty request", Line(request=b""), 403),
    ("a shielded quote", Line(request=b'GET /\\" HTTP/1.1'), 403),
    ("a shielded quote alone", Line(request=b'\\"'), 403),
    ("a shielded backslash before the quote that ends", Line(request=b"\\\\"), 403),
    ("two shielded backslashes and a shielded quote", Line(request=b'\\\\\\\\\\"'), 403),
    ("a shielded letter", Line(request=b"\\n"), 403),
    ("what looks like the end of a line, shielded", Line(request=b'\\" 200 5'), 403),
    ("brackets and bytes of all kinds in the request", Line(request=b"[]\x00\x16\x03\xff\r\t"), 403),
    ("a dash for the size", Line(size=b"-"), 403),
    ("a size of 0", Line(size=b"0"), 403),
    ("a size of zeros", Line(size=b"0007"), 403),
    ("a size of 300 digits", Line(size=b"9" * 300), 403),
    ("the lowest status", Line(status=b"100"), 100),
    ("the highest status", Line(status=b"599"), 599),
)

BROKEN = (
    ("no host", Line(host=b"")),
    ("no ident", Line(ident=b"")),
    ("no user", Line(user=b"")),
    ("a space in the host", Line(host=b"10.2 0.7")),
    ("a space in the ident", Line(ident=b"- -")),
    ("a space in the user", Line(user=b"van brandt")),
    ("a bracket that closes in the date", Line(date=b"16/Nov]/2026")),
    ("a date that ends with one more bracket", Line(date=b"16/Nov/2026]")),
    ("a quote in the request", Line(request=b'GET /" HTTP/1.1')),
    ("a quote after a shielded backslash", Line(request=b'GET /\\\\" HTTP/1.1')),
    ("a request whose last quote is shielded", Line(request=b"GET /\\")),
    ("a request that goes on after an end", Line(request=b'" 200 5')),
    ("no status", Line(status=b"")),
    ("a status of one digit", Line(status=b"4")),
    ("of two", Line(status=b"40")),
    ("of four", Line(status=b"4030")),
    ("a status below 100", Line(status=b"099")),
    ("a status of 000", Line(status=b"000")),
    ("a status above 599", Line(status=b"600")),
    ("a status of 999", Line(status=b"999")),
    ("a status that is none", Line(status=b"-")),
    ("a status with a letter", Line(status=b"4o3")),
    ("a status with a sign", Line(status=b"+40")),
    ("a status with a space", Line(status=b"4 3")),
    ("no size", Line(size=b"")),
    ("a size with a letter", Line(size=b"23k")),
    ("a size with a sign", Line(size=b"+23")),
    ("a negative size", Line(size=b"-23")),
    ("two dashes", Line(size=b"--")),
    ("digits and a dash", Line(size=b"23-")),
    ("a size with a point", Line(size=b"2.3")),
    ("a space after the size", Line(size=b"2326 ")),
    ("a carriage return after the size", Line(size=b"2326\r")),
    ("a carriage return after a dash", Line(size=b"-\r")),
    ("a NUL after the size", Line(size=b"2326\x00")),
    ("a further field", Line(size=b'2326 "-"')),
)


def places(text, byte):
    return [index for index, known in enumerate(text) if known == byte[0]]


def spaces():
    """The spaces between the parts of the good line: not those within its date and its request."""
    length, found = 0, []
    for part in (b"%s", b"%s", b"%s", b"[%s]", b'"%s"', b"%s"):
        length += len(part % Line()[len(found)])
        found.append(length)
        length += 1
    return found


def marks():
    """The bytes between and around the parts of the good line: a place, and whether the line is good with that byte twice."""
    yield from ((place, False) for place in spaces())
    yield from ((place, byte == b"[") for byte in (b"[", b"]", b'"') for place in places(GOOD, byte))


def padded(part, length):
    """A line of so many bytes, by a longer part."""
    more = length - len(GOOD)
    return Line()._replace(**{part: getattr(Line(), part) + b"7" * more}).text()


def cases():
    example = (Line(status=b"200").text(), GOOD, Line(status=b"200", size=b"-").text(), b"broken")
    yield "document 02's example", b"\n".join(example) + b"\n", (200, 403, 200, None)

    for name, line, status in READ:
        yield name, line.text() + b"\n", (status,)
    for name, line in BROKEN:
        yield name, line.text() + b"\n", (None,)
    for place, twice in marks():
        byte = GOOD[place:place + 1]
        yield f"byte {place}, {byte}, left out", GOOD[:place] + GOOD[place + 1:], (None,)
        yield f"byte {place}, {byte}, twice", GOOD[:place] + byte + GOOD[place:], (403 if twice else None,)
        yield f"byte {place}, {byte}, a tab", GOOD[:place] + b"\t" + GOOD[place + 1:], (None,)
    yield "a space before all", b" " + GOOD, (None,)
    yield "each front of a line", b"\n".join(GOOD[:end] for end in range(len(GOOD))), (None,) * (len(GOOD) - 3) + (403,) * 3

    yield from each_byte()
    yield "each three digits", b"".join(Line(status=b"%03d" % n).text() + b"\n" for n in range(1_000)), [
        n if 100 <= n <= 599 else None for n in range(1_000)]
    many = [n for n in range(100, 600) for _ in range(n % 12)]
    yield "as many lines as a status says", b"".join(Line(status=b"%d" % n).text() + b"\n" for n in reversed(many)), many

    yield from lengths()
    yield from ends()


def each_byte():
    """Each byte but a line feed inside each part."""
    breaks = {"host": b" ", "ident": b" ", "user": b" ", "date": b"]", "request": b'"'}
    for part in Line._fields:
        log, statuses = b"", []
        for byte in (b"%c" % n for n in range(256) if n != 10):
            if part == "status":
                text, status = b"4" + byte + b"3", int(b"4" + byte + b"3") if byte in b"0123456789" else None
            elif part == "size":
                text, status = b"2" + byte + b"6", 403 if byte in b"0123456789" else None
            else:
                text, status = b"a" + byte + b"bc", None if byte == breaks[part] else 403
            log += Line()._replace(**{part: text}).text() + b"\n"
            statuses.append(status)
        yield f"each byte in the {part}", log, statuses


def lengths():
    for part in ("host", "ident", "user", "date", "request", "size"):
        for length in (8_191, 8_192, 8_193, 8_194):
            status = 403 if length <= 8_192 else None
            yield f"a line of {length:,} bytes, most of them its {part}", padded(part, length) + b"\n" + GOOD + b"\n", (status, 403)
            yield "the same, unended", GOOD + b"\n" + padded(part, length), (403, status)
    for length in (16_384, 65_535, 65_536, 65_537, 131_072, 1_000_000):
        yield f"a line of {length:,} bytes", padded("request", length) + b"\n" + GOOD + b"\n", (None, 403)
        yield "the same, unended", GOOD + b"\n" + padded("request", length), (403, None)
    yield "fifty lines of 8,192 bytes", (padded("date", 8_192) + b"\n") * 50, (403,) * 50
    yield "fifty lines of 8,193 bytes", (padded("date", 8_193) + b"\n") * 50, (None,) * 50


def ends():
    yield "no input", b"", ()
    yield "a line feed", b"\n", (None,)
    yield "three line feeds", b"\n\n\n", (None,) * 3
    yield "no last line feed", GOOD, (403,)
    yield "no last line feed after a broken line", GOOD + b"\nbroken", (403, None)
    yield "a byte after the last line feed", GOOD + b"\nx", (403, None)
    yield "empty lines between", b"\n" + GOOD + b"\n\n" + GOOD + b"\n\n", (None, 403, None, 403, None)
    yield "CR LF", GOOD + b"\r\n" + GOOD + b"\r\n", (None, None)
    yield "CR alone ends no line", GOOD + b"\r" + GOOD, (None,)
    yield "a NUL", b"\x00", (None,)
    yield "NULs between", GOOD + b"\n\x00\n\x00" + GOOD + b"\n" + GOOD + b"\x00\n", (403, None, 403, None)
