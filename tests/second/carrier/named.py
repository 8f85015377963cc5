"""Calls by document 02's sentences: a name, the call, its number, and what it leaves where that is not what was lent.

Numbers and signed values are said by the cases and not taken from the model, so that model and cases check each other. Where a
signature is right, client.py writes it from the values that the case names. A number may be a tuple of those that are possible.
"""

import base64
from itertools import combinations

from carrier import fields, messages
from carrier.placed import LINES, PARAMS, SIGN, VERIFY, both, done, verifies, verify_of

# The standard's own

EXAMPLE = SIGN._replace(
    authority=b"example.com",
    path=b"/foo",
    lines=(
        b"Host: example.com\r\n"
        b"Date: Tue, 20 Apr 2021 02:07:55 GMT\r\n"
        b"Content-Type: application/json\r\n"
        b"Content-Digest: sha-512=:WZDPaVn/7XgHaAy8pmojAkGWoRx2UFChF41A2svX+TaPm+AbwAgBWnrIiYllu7BNNyealdVLvRwEmTHWXvJwew==:\r\n"
        b"Content-Length: 18\r\n"
    ),
    names=b"date,@authority,content-type",
    created=1_618_884_473,
    label=b"sig-b25",
    key_id=b"test-shared-secret",
    key=base64.b64decode(b"uzvJfB4u3N0Jy4T7NZ75MDVcr8zSTInedJtkgcu46YW4XByzNJjxBdtjUkdJPBtbmHhIDi6pcl8jsasjlTMtDQ=="),
)
EXAMPLE_INPUT = b'sig-b25=("date" "@authority" "content-type");created=1618884473;keyid="test-shared-secret"'
EXAMPLE_SIGNATURE = b"sig-b25=:pxcQw6G3AjtMBQjwo8XzkZf/bws5LelbaMk5rGIGtE8=:"


def standard():
    text = b"Signature-Input: " + EXAMPLE_INPUT + b"\r\nSignature: " + EXAMPLE_SIGNATURE + b"\r\n"
    yield "RFC 9421, B.2.5, signed", EXAMPLE, 0, text + b"\xaa" * (4_096 - len(text))
    yield "RFC 9421, B.2.5, verified", verify_of(EXAMPLE, EXAMPLE_INPUT, EXAMPLE_SIGNATURE), 0, (1_618_884_473).to_bytes(8, "big")
    pairs = [
        (b"host", b"www.example.com"),
        (b"date", b"Tue, 20 Apr 2021 02:07:56 GMT"),
        (b"x-ows-header", b"Leading and trailing whitespace."),
        (b"cache-control", b"max-age=60, must-revalidate"),
        (b"example-dict", b"a=1,    b=2;x=1;y=2,   c=(a   b   c)"),
        (b"x-empty-header", b""),
    ]
    block = (
        b"Host: www.example.com\r\nDate: Tue, 20 Apr 2021 02:07:56 GMT\r\nX-OWS-Header:   Leading and trailing whitespace.   \r\n"
        b"Cache-Control: max-age=60\r\nCache-Control:    must-revalidate\r\nExample-Dict:  a=1,    b=2;x=1;y=2,   c=(a   b   c)\r\n"
        b"X-Empty-Header: \r\n"
    )
    yield from done("RFC 9421, 2.1, the fields that are not folded", pairs, lines=block)
    yield from both("RFC 9421, 2.1, the folded field", 2, lines=b"X-Obs-Fold-Header: Obsolete\r\n    line folding.\r\n")


# The lowest number that holds

SIGN_FAULTS = {
    1: ({"created": 10**15}, {"out_size": 4_095}, {"path": b""}),
    2: ({"path": b"/a\n"}, {"authority": b"A"}, {"method": b"P T"}, {"lines": LINES[:-1]}),
    3: ({"label": b"Sig1"}, {"key_id": b"\x7f"}),
    4: ({"names": b"date,date"},),
    5: ({"names": b"x-none"},),
}
VERIFY_FAULTS = {
    1: ({"created": b"1234567"}, {"input": b" " * 4_097}, {"key": b""}),
    2: ({"path": b"/a\n"}, {"lines": b"Date"}, {"input": VERIFY.input + b" "}, {"signature": VERIFY.signature[:-1]}),
    3: ({"label": b"sig2"}, {"key_id": b"portal-8"}, {"label": b"Sig1"}, {"key_id": b"\x80"}, {"signature": VERIFY.signature.replace(b"sig1", b"sig2")}),
    4: ({"names": b"date,date"},),
    5: ({"names": b"x-none"},),
    6: ({"key": b"another"}, {"method": b"PUT"}, {"signature": b"sig1=:" + base64.b64encode(bytes(32)) + b":"}),
}
TWICE_AND_MISSING = {"names": b"date,date,x-none"}  # 4 and 5 are both in the names


def at_once():
    for call, faults in ((SIGN, SIGN_FAULTS), (VERIFY, VERIFY_FAULTS)):
        for number, ones in faults.items():
            for one in ones:
                yield f"{number} alone, by {[*one]}", call._replace(**one), number, None
        for lower, higher in combinations(faults, 2):
            for one in faults[lower]:
                for other in faults[higher]:
                    together = other | one | (TWICE_AND_MISSING if (lower, higher) == (4, 5) else {})
                    yield f"{lower} and {higher}, by {[*one, *other]}", call._replace(**together), lower, None
        for lowest in faults:
            every = {} if lowest > 4 else TWICE_AND_MISSING
            for number in range(lowest, max(faults) + 1):
                every = faults[number][0] | every
            yield f"all from {lowest} on", call._replace(**every), lowest, None
    yield from both("a listed value outside ASCII, and its name twice", 2, lines=b"Date: \xe4\r\n", names=b"date,date")
    yield from both("a listed value outside ASCII, beside a name that no line has", 2, lines=b"Date: \xe4\r\n", names=b"x-none,date")
    yield from both("an upper-case name that no line has, twice", 2, names=b"X-None,X-None")
    yield from both("an upper-case name and a bad label", 2, names=b"Date", label=b"Sig1")
    yield from verifies("another label in a malformed input", 2, input=b"sig2=" + PARAMS + b" ")
    yield from verifies("another list and another key id", 3, input=VERIFY.input.replace(b'"@path" ', b"").replace(b"portal-7", b"portal-8"))


SUBJECTS = (standard, *messages.SUBJECTS, *fields.SUBJECTS, at_once)


def cases():
    for subject in SUBJECTS:
        yield from subject()


def possible(number):
    return number if isinstance(number, tuple) else (number,)
