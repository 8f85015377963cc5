"""Calls to verify by the two values that came: their form, every changed byte, other lists, other messages."""

import base64

from carrier import client
from carrier.placed import DIGEST, KEY_FIRST, LINES, LOWER_TOKEN, PAIRS, PARAMS, SIGN, VERIFY, done, listing, resigned, told_as, verifies

BASE64 = b"ABCDEFGHIJKLMNOPQRSTUVWXYZabcdefghijklmnopqrstuvwxyz0123456789+/"
NO_SPARE = BASE64[::4]  # the last letter of 32 bytes: its two lowest bits are zero
CODE = client.code(SIGN.key, client.base(PAIRS, PARAMS))
TEXT = base64.b64encode(CODE)

# An input in its form, part by part

LABEL = b"sig1="
NAMED = b'("@method" "@path")'
TIME = b";created=1618884473"
KEY_ID = b';keyid="portal-7"'

NO_LISTS = (
    b"", b"( )", b'( "@method" "@path")', b'("@method" "@path" )', b'("@method"  "@path")', b'("@method""@path")', b'("@method", "@path")', b'("@method"\t"@path")',
    b'("@method" "@path"', b'"@method" "@path")', b'("@method")("@path")', b'(("@method" "@path"))', b"(@method @path)", b'"@method"', b'("")', b'("@method" "Date")',
    b'("@query")', b'("@status")', b'("@target-uri")', b'("@signature-params")', b'("@")', b'("@method" "date";sf)', b'("@method";req)', b'("da te")', b'("\\date")',
    b'("\\"")', b'("date,date")', b"(:ZGF0ZQ==:)", b'("\xc3\xa4")', b'("da/te")',
)
NO_PARAMS = (
    b"", TIME, KEY_ID, KEY_ID + TIME, b" " + TIME + KEY_ID, b"; created=1618884473" + KEY_ID, TIME + b'; keyid="portal-7"', TIME + b" " + KEY_ID,
    b";created= 1618884473" + KEY_ID, b";created =1618884473" + KEY_ID, b";Created=1618884473" + KEY_ID, TIME + b';keyId="portal-7"', TIME + TIME + KEY_ID, TIME + KEY_ID + KEY_ID,
    TIME + b";keyid=portal-7", TIME + b";keyid=:cG9ydGFsLTc=:", TIME + b';keyid="portal-7', TIME + b";keyid='portal-7'", TIME + b";keyid=", TIME + b";keyid",
    TIME + b';keyid="\\portal-7"', TIME + b';keyid="portal-7\\"', TIME + b';keyid="portal"-7"', TIME + b';keyid="portal\t7"', TIME + b';keyid="portal\n7"', TIME + b';keyid="portal\xe47"',
    TIME + b';alg="hmac-sha256"' + KEY_ID, TIME + b";expires=1618884773" + KEY_ID,
)
NO_ENDS = (
    b" ", b"\t", b"\n", b"\r\n", b"\0", b"x", b";", b",", b";a", b";expires=1618884773", b';nonce="a"', b';alg="hmac-sha256"', b';tag="a"',
    b', sig2=();created=1;keyid="a"', b',sig2=("@path")' + TIME + KEY_ID, b", sig1=" + NAMED + TIME + KEY_ID,
)
NO_TIMES = (
    b"", b"-", b"-1", b"+1", b"00", b"01", b"007", b"01618884473", b"1.0", b"1618884473.0", b"1e9", b"0x1", b"1_000", b"1 000", b'"1618884473"', b":MQ==:", b"?1", b"1618884473a",
    b"\xb2", b"000000000000001", b"0000000000000001", b"1000000000000000", b"9999999999999999", b"18446744073709551616",
)
NO_FRONTS = (
    b"Signature-Input: sig1=", b" sig1=", b"sig1 =", b"sig1= ", b"=", b"", b"sig1", b"sig1=sig1=", b"Sig1=", b"1sig1=", b"a=1, sig1=", b",sig1=", b"sig1:", b"\xe4=", b'"sig1"=',
)
OTHER_LABELS = (b"sig2", b"sig", b"sig11", b"*", b"s" * 65, b"s" * 300)


def inputs():
    for text in NO_LISTS:
        yield from verifies(f"input with the list {text}", 2, input=LABEL + text + TIME + KEY_ID)
    for text in NO_PARAMS:
        yield from verifies(f"input with the params {text}", 2, input=LABEL + NAMED + text)
    for text in NO_ENDS:
        yield from verifies(f"input with {text} at its end", 2, input=VERIFY.input + text)
    for text in NO_FRONTS:
        yield from verifies(f"input with {text} before the params", 2, input=text + PARAMS)
    yield from verifies("the signature for input", 2, input=VERIFY.signature)
    method_and_path = {"pairs": PAIRS[0:3:2], "names": b"@method,@path"}
    for text in NO_TIMES:
        yield from resigned(f"input of the time {text}", 2, NAMED + b";created=" + text + KEY_ID, **method_and_path)
    for text in (b"0", b"1", b"10", b"100000000000000", b"999999999999999"):
        for name, call, number, _ in resigned(f"input of the time {text}", 0, NAMED + b";created=" + text + KEY_ID, **method_and_path):
            yield name, call, number, int(text).to_bytes(8, "big")
    for label in OTHER_LABELS:
        yield from verifies(f"input with label {label}", 3, input=label + b"=" + PARAMS)
    for key_id in (b"", b"portal-8", b"portal-7 ", b" portal-7", b"PORTAL-7", b'portal-7"', b"\\", b"p" * 256, b"p" * 2_000):
        told = client.params([name for name, _ in PAIRS], SIGN.created, key_id)
        yield from resigned(f"input with key id {key_id}, rightly signed", 3, told, PAIRS)


NO_CODES = (
    TEXT[:43], TEXT[:43] + b"==", TEXT[:42] + b"==", TEXT[:43] + b"A", b"=" + TEXT[:43], TEXT[:20] + b" " + TEXT[21:], TEXT[:20] + b"\n" + TEXT[21:], TEXT + b" ", b" " + TEXT,
    b"-" + TEXT[1:], b"_" + TEXT[1:], b"." + TEXT[1:], CODE.hex().encode(), b"", b"=" * 44, TEXT[:20] + b":" + TEXT[21:], TEXT[:20] + b"\xc3" + TEXT[21:], TEXT[:20] + b"\0" + TEXT[21:],
)
NO_SIGNATURES = (
    b"sig1=" + TEXT, b"sig1=" + TEXT + b":", b"sig1=:" + TEXT, b'sig1="' + TEXT + b'"', b"sig1=(:" + TEXT + b":)", b"sig1=::" + TEXT + b"::",
    b"=:" + TEXT + b":", b":" + TEXT + b":", b"sig1 =:" + TEXT + b":", b"sig1= :" + TEXT + b":", b"Sig1=:" + TEXT + b":", b"1sig1=:" + TEXT + b":",
    b"Signature: " + VERIFY.signature, b" " + VERIFY.signature, b"," + VERIFY.signature, b"a=1, " + VERIFY.signature,
    *(VERIFY.signature + end for end in (b";a", b" ", b"\n", b"\r\n", b"\0", b",", b", sig2=:" + TEXT + b":", b", " + VERIFY.signature)),
)


def signatures():
    for more in (1, 2, 3):
        last = BASE64[BASE64.index(TEXT[42]) + more]
        yield from verifies(f"signature with the spare bits {more}", 2, signature=b"sig1=:" + TEXT[:42] + bytes([last]) + b"=:")
    for size in (0, 1, 29, 30, 31, 33, 34, 48, 64):
        yield from verifies(f"signature of {size} bytes", 2, signature=b"sig1=:" + base64.b64encode((CODE + CODE)[:size]) + b":")
    for text in NO_CODES:
        yield from verifies(f"signature of {text}", 2, signature=b"sig1=:" + text + b":")
    for text in NO_SIGNATURES:
        yield from verifies(f"signature {text}", 2, signature=text)
    yield from verifies("the input for signature", 2, signature=VERIFY.input)
    for code in (bytes(32), b"\xff" * 32, CODE[::-1], CODE[:16] + bytes(16), bytes(16) + CODE[16:]):
        yield from verifies(f"signature of {code.hex()}", 6, signature=b"sig1=:" + base64.b64encode(code) + b":")
    for place in range(32):
        for bit in (1, 128):
            code = bytes(byte ^ bit if place == at else byte for at, byte in enumerate(CODE))
            yield from verifies(f"signature with byte {place} changed by {bit}", 6, signature=b"sig1=:" + base64.b64encode(code) + b":")
    for label in OTHER_LABELS:
        signature = label + b"=:" + TEXT + b":"
        yield from verifies(f"signature with label {label}", 3, signature=signature)
        yield from verifies(f"both with label {label}", 3, input=label + b"=" + PARAMS, signature=signature)
    yield from verifies("a signature of another label and other bytes", 3, signature=b"sig2=:" + base64.b64encode(bytes(32)) + b":")


# Every changed byte


def changed_bytes():
    """Of a short input and a short signature each byte replaced by each other one, left out, twice; of longer ones each front too."""
    input, signature = client.made(b"a", [(b"b", b"v")], 1, b"k", SIGN.key)
    short = VERIFY._replace(lines=b"b: v\r\n", names=b"b", label=b"a", key_id=b"k", input=input, signature=signature)
    yield "a short message, verified", short, 0, (1).to_bytes(8, "big")
    label, name, time, key_id = 0, input.index(b'b"'), input.index(b"=1;") + 1, input.index(b'k"')
    plain = bytes(byte for byte in range(32, 127) if byte not in b'"\\')
    replaced = {label: (KEY_FIRST, 3), name: (LOWER_TOKEN, 6), time: (b"0123456789", 6), key_id: (plain, 3)}
    for what, number, text in changes(input, replaced, {key_id: 3}, {label: 3, name: 6, time: 6, key_id: 3}):
        yield f"a short input with {what}", short._replace(input=text), number, None
    replaced = {place: (BASE64, 6) for place in range(3, 45)} | {label: (KEY_FIRST, 3), 45: (NO_SPARE, 6)}
    for what, number, text in changes(signature, replaced, {}, {label: 3}):
        yield f"a short signature with {what}", short._replace(signature=text), number, None
    for part in ("input", "signature"):
        whole = getattr(VERIFY, part)
        for place in range(len(whole)):
            yield from verifies(f"the first {place} bytes of {part}", 2, **{part: whole[:place]})
            yield from verifies(f"{part} with byte {place} left out", (2, 3, 6), **{part: whole[:place] + whole[place + 1:]})
            yield from verifies(f"{part} with byte {place} twice", (2, 3, 6), **{part: whole[:place + 1] + whole[place:]})


def changes(text, replaced, without, doubled):
    """By place, the numbers that are not 2: of a byte replaced by one of these, of one left out, of one twice."""
    for place in range(len(text)):
        allowed, number = replaced.get(place, (b"", 2))
        for byte in range(256):
            if byte != text[place]:
                yield f"byte {place} replaced by {byte}", number if byte in allowed else 2, text[:place] + bytes([byte]) + text[place + 1:]
        yield f"byte {place} left out", without.get(place, 2), text[:place] + text[place + 1:]
        yield f"byte {place} twice", doubled.get(place, 2), text[:place + 1] + text[place:]


# 6. Each signature is right for the list that its input tells.


def lists():
    method, authority, path, digest = PAIRS
    date = (b"date", b"Tue, 20 Apr 2021 02:07:55 GMT")
    for pairs in (
        (method, authority, digest, path), (authority, method, path, digest), PAIRS[::-1], PAIRS[:3], PAIRS[1:], (method,), (), (*PAIRS, date), (date, *PAIRS),
        (method, authority, path, date),
    ):
        yield from told_as(f"the list {listing(pairs)} for another", 6, pairs)
        yield from done(f"the list {listing(pairs)} as asked", pairs)
    for pairs in ((*PAIRS, digest), (method, *PAIRS), PAIRS * 2, (*PAIRS, (b"x-none", b"")), (method, authority, path, (b"content-diges", DIGEST))):
        yield from told_as(f"the list {listing(pairs)} for another", 6, pairs)
    yield from told_as("no name is asked for, one told", 6, (method,), names=b"")
    yield from told_as("no name is asked for, none told", 0, (), names=b"")
    yield from told_as("as many names as input has room for", 6, [(b"n", b"")] * ((4_096 - len(LABEL + b"()" + TIME + KEY_ID)) // 4), lines=b"n:\r\n", names=b"n")
    yield from told_as("one name for two", 6, [(b"a-b", b"v")], names=b"a,b", lines=b"a: v\r\nb: v\r\na-b: v\r\n")


OTHER_LINES = (
    ("another date, which is not listed", 0, LINES.replace(b"20 Apr", b"21 Apr")),
    ("no date, which is not listed", 0, LINES[LINES.index(b"Content-Type"):]),
    ("a header more", 0, LINES + b"X-More: m\r\n"),
    ("the digest's name in upper case", 0, LINES.replace(b"Content-Digest", b"CONTENT-DIGEST")),
    ("blanks about the digest", 0, LINES.replace(DIGEST, b"\t " + DIGEST + b" \t")),
    ("lines in another order", 0, b"".join(LINES.splitlines(True)[::-1])),
    ("no digest", 5, b"Date: v\r\n"),
    ("another digest", 6, LINES.replace(b"X48E", b"X48F")),
    ("the digest in other case", 6, LINES.replace(b"X48E", b"x48e")),
    ("a second digest", 6, LINES + b"Content-Digest: " + DIGEST + b"\r\n"),
    ("an empty second digest", 6, LINES + b"content-digest:\r\n"),
    ("an empty digest", 6, b"Content-Digest:\r\n"),
)


def other_messages():
    for part, run in (
        ("method", b"PUT"), ("method", b"post"), ("authority", b"api.carrier.example:443"), ("authority", b"api.carrier.test"),
        ("path", b"/bookings/"), ("path", b"/Bookings"), ("path", b"/bookings?x=1"),
    ):
        yield from verifies(f"another {part}, {run}", 6, **{part: run})
        others = [pair for pair in PAIRS if pair[0] != b"@" + part.encode()]
        yield from told_as(f"another {part}, {run}, which is not listed", 0, others, names=listing(others), **{part: run})
    for name, number, block in OTHER_LINES:
        yield from verifies(f"a message with {name}", number, lines=block)
    split, whole = b"X-A: a\r\nX-A: b\r\n", b"X-A: a, b\r\n"
    for block in (split, whole):
        yield from told_as(f"{block} signed as a, b", 0, [(b"x-a", b"a, b")], names=b"x-a", lines=block)
        for value in (b"a,b", b"b, a", b"a", b"b", b"a ,b", b"a, b, ", b"", b"a,  b", b" a, b", b"a, b "):
            yield from told_as(f"{block} signed as {value}", 6, [(b"x-a", value)], names=b"x-a", lines=block)
    yield from verifies("another time", 6, input=VERIFY.input.replace(b"473;", b"474;"))
    base = client.base(PAIRS, PARAMS)
    for name, text in (
        ("a line feed at its end", base + b"\n"), ("CR LF", base.replace(b"\n", b"\r\n")), ("no params", client.base(PAIRS, b"")), ("no row of params", base[:base.index(b'\n"@signature')]),
        ("no quotes", base.replace(b'"', b"")), ("no blank after a colon", base.replace(b": ", b":")), ("the label", client.base(PAIRS, LABEL + PARAMS)), ("nothing", b""),
    ):
        yield from verifies(f"a base with {name}", 6, signature=client.signature(b"sig1", SIGN.key, text))


SUBJECTS = (inputs, signatures, changed_bytes, lists, other_messages)
