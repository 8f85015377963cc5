"""Calls by what both are lent: sizes, lines, what a message is made of, names, values, labels, key ids, keys; and by sign's time."""

from carrier.placed import (
    KEY, KEY_FIRST, LINES, LOWER_TOKEN, PAIRS, PLACES, SIGN, TOKEN, VERIFY, both, done, each_byte, signs, told_as, verifies,
)


# 1


def sizes():
    for part, byte, most in (("method", b"M", 16), ("authority", b"a", 255), ("path", b"/", 2_048)):
        component = b"@" + part.encode()
        for size in (1, most - 1, most):
            pairs = [(name, byte * size if name == component else value) for name, value in PAIRS]
            yield from done(f"a {part} of {size:,} bytes", pairs, **{part: byte * size})
        for size in (0, most + 1, 2 * most):
            yield from both(f"a {part} of {size:,} bytes", 1, **{part: byte * size})
    for part, most in (("label", 64), ("key_id", 255), ("key", 256)):
        for size in (1, most - 1, most):
            yield from done(f"a {part} of {size} bytes", **{part: b"k" * size})
        for size in (0, most + 1, 2 * most):
            yield from both(f"a {part} of {size} bytes", 1, **{part: b"k" * size})
    yield from sizes_of_lines()
    yield from sizes_of_names()
    for size in (0, 1, 4_095):
        yield from signs(f"an out of {size:,} bytes", 1, out_size=size)
    for size in (4_096, 4_097, 9_000):
        yield from done(f"an out of {size:,} bytes", out_size=size, out_byte=0)
    for size in (0, 1, 7, 9, 16):
        yield from verifies(f"a created of {size} bytes", 1, created=bytes(size))
    yield from verifies("a created that holds the time already", 0, created=SIGN.created.to_bytes(8, "big"))
    for part in ("input", "signature"):
        yield from sizes_of_a_field(part, getattr(VERIFY, part))


def sizes_of_lines():
    yield from done("no lines", PAIRS[:3], lines=b"")
    for size in (16_383, 16_384):
        yield from done(f"lines of {size:,} bytes, the longest not listed", lines=padded(LINES, size))
        value = b"v" * (size - 4)
        yield from done(f"lines of {size:,} bytes, listed", [(b"x", value)], lines=b"X:" + value + b"\r\n")
    for size in (16_385, 20_000):
        yield from both(f"lines of {size:,} bytes", 1, lines=padded(LINES, size))
    yield from done("16,384 bytes in the shortest lines", [(b"x", b", " * 4_095)], lines=b"x:\r\n" * 4_096)


def padded(block, size):
    return block + b"Pad: " + b"p" * (size - len(block) - 7) + b"\r\n"


def sizes_of_names():
    yield from done("no names", ())
    for size in (1_023, 1_024):
        name = b"n" * size
        yield from done(f"a name of {size:,} bytes", [(name, b"v")], lines=name + b": v\r\n")
    for size in (1_025, 2_000):
        yield from both(f"names of {size:,} bytes", 1, names=b"n" * size, lines=b"n" * size + b": v\r\n")
    chosen = most_names()
    yield from done(
        f"{len(chosen)} names and a key id of quotes", [(name, b"v") for name in chosen],
        lines=b"".join(name + b":v\r\n" for name in chosen), key_id=b'"' * 255, label=b"k" * 64, created=999_999_999_999_999,
    )
    yield from both(f"{len(chosen)} names that no line has", 5, names=b",".join(chosen))
    yield from both("512 times one name", 4, names=b",".join([b"n"] * 512), lines=b"n:\r\n")
    yield from both("1,024 commas", 2, names=b"," * 1_024)


def most_names():
    """As many names as fit 1,024 bytes, each once."""
    letters = [bytes([byte]) for byte in LOWER_TOKEN]
    chosen, size = [], 0
    for name in letters + [first + second for first in letters for second in letters]:
        if size + len(name) <= 1_024:
            chosen.append(name)
            size += len(name) + 1
    return chosen


def sizes_of_a_field(part, good):
    """Input and signature: what is longer than any that could be right is 1 only from 4,097 bytes on."""
    yield from verifies(f"an empty {part}", 2, **{part: b""})
    for size, blanks, other_label in ((4_096, 2, 3), (4_097, 1, 1), (5_000, 1, 1)):
        yield from verifies(f"{part} of {size:,} bytes, by blanks", blanks, **{part: good.ljust(size)})
        yield from verifies(f"{part} of {size:,} bytes, by its label", other_label, **{part: b"g" * (size - len(good)) + good})
        if part == "input":
            more = b"t" * (size - len(good))
            yield from verifies(f"input of {size:,} bytes, by its key id", other_label, input=good[:-1] + more + b'"')
            other_list = 6 if size == 4_096 else 1
            yield from verifies(f"input of {size:,} bytes, by a name", other_list, input=good.replace(b'-digest"', b"-diges" + more + b't"'))


# 2: lines, and what a message is made of


BAD_LINES = (
    ("no colon", b"Date\r\n"),
    ("no name", b": v\r\n"),
    ("a blank before the colon", b"Date : v\r\n"),
    ("a leading blank", b" Date: v\r\n"),
    ("a leading tab", b"\tDate: v\r\n"),
    ("folding", b"Date: v\r\n w\r\n"),
    ("CR alone", b"Date: v\r"),
    ("LF alone", b"Date: v\n"),
    ("LF alone between lines", b"Date: v\nHost: w\r\n"),
    ("CR alone between lines", b"Date: v\rHost: w\r\n"),
    ("CR CR LF", b"Date: v\r\r\n"),
    ("LF CR", b"Date: v\n\r"),
    ("an empty line", b"\r\n"),
    ("an empty line between", b"Date: v\r\n\r\nHost: w\r\n"),
    ("an empty last line", b"Date: v\r\n\r\n"),
    ("a request line", b"POST /bookings HTTP/1.1\r\nDate: v\r\n"),
    ("a name with an at sign", b"@method: GET\r\n"),
    ("a quoted name", b'"date": v\r\n'),
    ("a colon alone", b":"),
)


def lines():
    for name, block in BAD_LINES:
        for where, text in (("alone", block), ("after good ones", LINES + block), ("before a good one", block + b"Host: h\r\n")):
            yield from both(f"lines with {name}, {where}", 2, lines=text, names=b"@method")
    yield from both("lines without their last CR LF", 2, lines=LINES[:-2])
    yield from both("lines without their last LF", 2, lines=LINES[:-1])
    for byte in each_byte():
        for before, after in PLACES:
            run = before + byte + after
            name_good = byte in TOKEN or byte == b":" and before  # a colon ends the name, and there is none before the first byte
            yield from not_listed(f"a line of the name {run}", name_good, run + b": v\r\n")
            yield from not_listed(f"a line of the value {run}", byte == b"\t" or byte >= b" " and byte != b"\x7f", b"X: " + run + b"\r\n")


def not_listed(name, good, block):
    if good:
        yield from done(f"{name}, not listed", PAIRS[:1], lines=block)
    else:
        yield from both(f"{name}, not listed", 2, lines=block, names=b"@method")


def each_in(part, allowed):
    """Each byte in a component: as it is where it is allowed, and 2 otherwise, listed or not."""
    for byte in each_byte():
        for before, after in PLACES:
            run = before + byte + after
            if allowed(byte):
                yield from done(f"{part} {run}", [(b"@" + part.encode(), run)], **{part: run})
            else:
                yield from both(f"{part} {run}", 2, **{part: run})
                yield from both(f"{part} {run}, not listed", 2, **{part: run}, names=b"date")


def components():
    yield from each_in("method", lambda byte: byte in TOKEN)
    yield from each_in("authority", lambda byte: b"!" <= byte <= b"~" and not byte.isupper())
    yield from each_in("path", lambda byte: b"!" <= byte <= b"~")
    yield from done("a method is taken as given", [(b"@method", b"post")], method=b"post")
    for authority in (b"api.carrier.example:8443", b"[2001:db8::1]:443"):
        yield from done(f"authority {authority}", [(b"@authority", authority)], authority=authority)
    yield from both("a line feed in a path, which would make two rows of one", 2, path=b'/bookings\n"date": today')
    yield from done("a path of many signs", [(b"@path", b'/%0A"@path":/;?#[]')], path=b'/%0A"@path":/;?#[]')


BAD_NAMES = (
    b",", b"date,", b",date", b"date,,@path", b"date, @path", b"Date", b"content-Type", b"@Method", b"@", b"@query", b"@target-uri", b"@scheme", b"@status",
    b"@signature-params", b"@paths", b"@pat", b"@date", b'"date"', b"date;sf", b"date;tr", b"date\n", b"date\0",
)


def names():
    for byte in each_byte():
        for before, after in PLACES:
            name = before + byte + after
            if byte in LOWER_TOKEN:
                yield from done(f"name {name}", [(name, b"v")], lines=name + b": v\r\n")
            elif byte != b"," or not before or not after:
                yield from both(f"name {name}", 2, names=name)
                yield from both(f"name {name}, after a good one", 2, names=b"date," + name)
    yield from done("a comma parts names", [(b"x", b"1"), (b"z", b"2")], lines=b"x: 1\r\nz: 2\r\n", names=b"x,z")
    for run in BAD_NAMES:
        yield from both(f"names {run}", 2, names=run)
        yield from both(f"names {run}, after a good one", 2, names=b"@method," + run)
    pairs = [(b"method", b"m"), (b"authority", b"a"), (b"path", b"p")]
    yield from done("headers that are called as the three are", pairs, lines=b"Method: m\r\nAuthority: a\r\nPath: p\r\n")


VALUES = (
    ("one line", b"X-A: a\r\n", b"a"),
    ("the line's name in upper case, the value too", b"X-A: A\r\n", b"A"),
    ("the line's name in lower case", b"x-a: A\r\n", b"A"),
    ("names in mixed case", b"x-a: a\r\nX-A: b\r\nX-a: c\r\n", b"a, b, c"),
    ("lines apart", b"X-A: a\r\nX-C: d\r\nx-a: b\r\n", b"a, b"),
    ("in their order", b"X-A: b\r\nX-A: a\r\n", b"b, a"),
    ("one line of a list", b"X-A: a, b\r\n", b"a, b"),
    ("no blank after the colon", b"X-A:a\r\n", b"a"),
    ("blanks and tabs around", b"X-A: \t  a \t\t \r\nX-A:\tb\t\r\n", b"a, b"),
    ("blanks inside", b"X-A:  a   b  \r\n", b"a   b"),
    ("an empty value", b"X-A:\r\n", b""),
    ("blanks alone", b"X-A: \t \r\n", b""),
    ("two empty values", b"X-A:\r\nX-A: \r\n", b", "),
    ("an empty value first", b"X-A:\r\nX-A: a\r\n", b", a"),
    ("an empty value last", b"X-A: a\r\nX-A:\t\r\n", b"a, "),
    ("an empty value between", b"X-A: a\r\nX-A:\r\nX-A: b\r\n", b"a, , b"),
    ("three empty values", b"X-A:\r\n" * 3, b", , "),
    ("commas of its own", b"X-A: a,b\r\nX-A: ,\r\n", b"a,b, ,"),
    ("colons and quotes", b'X-A: "x-b": b;created=1\r\n', b'"x-b": b;created=1'),
    ("names that begin like it", b"X-Ab: b\r\nX: c\r\nX-A: a\r\n", b"a"),
    ("the same value twice", b"X-A: a\r\nX-A: a\r\n", b"a, a"),
)


def values():
    """Of listed headers."""
    for name, block, value in VALUES:
        yield from done(f"a header, {name}", [(b"x-a", value)], lines=block)
        yield from done(f"a header, {name}, among others", [*PAIRS[:2], (b"x-a", value), *PAIRS[3:]], lines=LINES + block)
    for byte in each_byte():
        for place, (before, after) in enumerate(PLACES):
            value = before + byte + after
            block = b"X-A:" + value + b"\r\n"
            if b" " <= byte <= b"~" or byte == b"\t" and place != 1:
                yield from done(f"a listed value {value}", [(b"x-a", value.strip(b" \t"))], lines=block)
            else:
                yield from both(f"a listed value {value}", 2, lines=block, names=b"x-a")
                yield from both(f"a listed value {value}, on its second line", 2, lines=b"X-A: a\r\n" + block, names=b"@method,x-a")
                if byte == b"\t" or byte >= b"\x80":
                    yield from done(f"a value {value} beside a listed one", [(b"x-b", b"b")], lines=block + b"X-B: b\r\n")


# 3


def labels():
    for byte in each_byte():
        for before, after in PLACES:
            label = before + byte + after
            if byte in (KEY if before else KEY_FIRST):
                yield from done(f"label {label}", label=label)
            else:
                yield from both(f"label {label}", 3, label=label)
    for label in (b"*", b"a", b"*-_.9", b"sig-b25"):
        yield from done(f"label {label}", label=label)
    for label in (b"Sig1", b"1sig", b'"sig1"', b"sig1=", b"sig1,", b"sig1;a", b"sig1\0", b"sig1\n", b" sig1", b"sig1 "):
        yield from both(f"label {label}", 3, label=label)
    for label in (b"sig2", b"sig", b"sig11", b"*sig1", b"sig1."):
        yield from verifies(f"asked for label {label}", 3, label=label)


def key_ids():
    for byte in each_byte():
        for before, after in PLACES:
            key_id = before + byte + after
            if b" " <= byte <= b"~":
                yield from done(f"key id {key_id}", key_id=key_id)
            else:
                yield from both(f"key id {key_id}", 3, key_id=key_id)
    for key_id in (b'"', b"\\", b'\\"', b'"\\', b'""', b"\\\\", b'a"b\\c', b'";created=1', b" ", b" a ", b'\\"\\"\\\\', b"\\" * 255):
        yield from done(f"key id {key_id}", key_id=key_id)
    for key_id in (b"portal-8", b"portal-", b"portal-77", b"Portal-7", b"portal-7 ", b"\\portal-7", b'portal-7"'):
        yield from verifies(f"asked for key id {key_id}", 3, key_id=key_id)


def keys():
    """HMAC hashes a key of more than 64 bytes, and fills a shorter one up with zeros (RFC 2104)."""
    for size in (*range(1, 70), 127, 128, 129, 192, 255, 256):
        yield from done(f"a key of {size} bytes", key=bytes((7 * place + 1) % 256 for place in range(size)))
    for key in (b"\0", b"\xff" * 64, b"\0" * 65, b"\r\n"):
        yield from done(f"the key {key.hex()}", key=key)
    for key in (SIGN.key[:-1], SIGN.key[1:], SIGN.key[::-1], SIGN.key + b"\1", b"\0", bytes(32), SIGN.key * 2):
        yield from verifies(f"another key, {key.hex()}", 6, key=key)
    yield from verifies("the key with zeros after it, up to 64 bytes", 0, key=SIGN.key.ljust(64, b"\0"))
    yield from verifies("the key with zeros after it, up to 65 bytes", 6, key=SIGN.key.ljust(65, b"\0"))


def times():
    for time in (0, 1, 9, 10, 255, 256, 65_536, 999_999_999, 4_294_967_295, 4_294_967_296, 99_999_999_999_999, 10**14, 10**15 - 2, 10**15 - 1):
        yield from done(f"created {time:,}", created=time)
    for time in (10**15, 10**16 - 1, (1 << 53) + 1, 1 << 63, (1 << 64) - 999, (1 << 64) - 1):
        yield from signs(f"created {time:,}", 1, created=time)


# 4 and 5


def twice():
    value = dict(PAIRS) | {b"date": b"Tue, 20 Apr 2021 02:07:55 GMT", b"content-type": b"application/json"}
    for run in (
        b"date,date", b"@method,@method", b"@authority,@authority", b"@path,@path", b"date,@path,date", b"date,date,date",
        b"content-type,date,@path,date,content-type",
    ):
        yield from both(f"names {run}", 4, names=run)
        yield from told_as(f"names {run} in input too", 4, [(name, value[name]) for name in run.split(b",")], names=run)
    yield from both("a name twice that no line has", 4, names=b"x-none,x-none")
    yield from both("a name twice beside one that no line has", 4, names=b"x-none,date,date")
    many = [b"x%d" % place for place in range(150)]
    yield from both("the first of 150 names again", 4, names=b",".join(many + many[:1]), lines=b"".join(name + b": v\r\n" for name in many))


def missing():
    for run in (b"x-none", b"date,x-none", b"x-none,date", b"dat", b"dates", b"method", b"@method,path", b"content", b"content-typ", b"tue", b"x,z"):
        yield from both(f"names {run}", 5, names=run)
    yield from both("a header where there are no lines", 5, lines=b"", names=b"date")
    yield from both("a header that stands in a value only", 5, lines=b"X: date: v\r\n", names=b"date")


SUBJECTS = (sizes, lines, components, names, values, labels, key_ids, keys, times, twice, missing)
