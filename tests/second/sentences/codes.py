"""The code of a request: document 01, 'Header lines and the signed text'."""

import model
from client import line
from sentences.lines import EIGHT
from sentences.placing import KEY, code

HIGHEST = model.HIGHEST


def signed(mask=0, extra=b"", n=0, t=0, lt=0, key=KEY, method=b"GET", head=b"", aside=b"", path=b"/", body=b""):
    return code, mask, extra, n, t, lt, key, method, head, aside, path, body


def cases():
    yield "case 12: a GET, ah 3, no extras, n 5, t 1000, lt 990, Host a, path /, no body"
    yield signed(mask=3, n=5, t=1_000, lt=990, head=b"Host: a\r\n")
    yield "the method first"
    for method in (b"P", b"POST", b"post", b"!#$%&'*+-.^_`|~1", b"M" * 16):
        yield signed(method=method)
        yield signed(mask=3, n=5, method=method, head=b"Host: a\r\n", body=method)
    yield "ah: masks of each length"
    for mask in (0, 1, 2, 255, 256, 65_535, 1 << 16, 1 << 24, 1 << 32, 1 << 40, 1 << 48, 1 << 55, (1 << 56) - 1):
        yield signed(mask=mask, n=7)
    yield "eah (empty if absent)"
    for extra in (b"q", b"q,w", b"w,q", b"Q", b"X-" + b"n" * 126, b"a,b,c,d,e,f,g,j"):
        yield signed(extra=extra)
        yield signed(mask=3, extra=extra, head=b"q: 1\r\nW: 2\r\nHost: 3\r\na:4\r\nj:5\r\n")
    yield "n if carried, t, lt (all as decoded bytes)"
    for number in (0, 1, 255, 256, 65_535, 65_536, 16_777_215, 16_777_216, HIGHEST):
        yield signed(mask=1, n=number)
        yield signed(mask=2, n=number)
        yield signed(t=number)
        yield signed(lt=number)
        yield signed(mask=3, n=number, t=number, lt=number)
    yield "covered values by rising bit"
    every = [line(name, b"v%d" % place) for place, name in enumerate(model.NAMES)]
    full = (1 << 56) - 1
    yield signed(mask=full, head=b"".join(every))
    yield signed(mask=full, head=b"".join(every[::-1]))
    yield signed(mask=full, head=b"".join(every[::2]), aside=b"".join(every[1::3]))
    for bit in range(1, 56):
        yield signed(mask=1 << bit, head=every[bit - 1] + every[bit % 55])
    yield "extra values in eah order"
    for extra in (b"q,w,e", b"e,w,q", b"w"):
        yield signed(extra=extra, head=b"e: 1\r\nq: 2\r\nw: 3\r\n")
        yield signed(mask=2, extra=extra, head=b"e: 1\r\nQ: 2\r\nHost: h\r\n", aside=b"W: own\r\nq:\r\n")
    yield "from the set-aside lines where the name stands there; trimmed; absent is empty"
    for head, aside in ((b"", b""), (b"Host: a \r\n", b""), (b"Host: a\r\n", b"host:\tb\t\r\n"), (b"Host: a\r\n", b"Host:\r\n"), (b"X: a\r\n", b"Y: a\r\n"), (b"", b"HOST: c\r\n")):
        yield signed(mask=2, head=head, aside=aside)
        yield signed(mask=6, extra=b"q", head=head + b"q: d\r\n", aside=aside + b"User-Agent: e\r\n")
    yield "joining by netstrings .. since a bare separator can occur in a value"
    for value in (b"1:a,", b",", b":", b"0:,0:,", b"a|b"):
        yield signed(mask=2, head=line(b"Host", value), path=value, body=value)
    yield "path, body: any bytes"
    yield signed(path=bytes(range(256)), body=bytes(range(256)))
    yield signed(path=b"/a", body=b"b")
    yield signed(path=b"/", body=b"ab")
    for key in (bytes(32), b"\xff" * 32):
        yield signed(key=key)
    yield "Sizes: head and set-aside lines 16,384 each; path 1 to 2,048; body 65,536"
    for size in (2, 55, 56, 63, 64, 65, 111, 112, 127, 128, 129, 2_047, 2_048):
        yield signed(path=b"p" * size)
    for size in (1, 9, 10, 99, 100, 999, 1_000, 9_999, 10_000, 16_384, 65_535, 65_536):
        yield signed(body=b"\0" * size)
    yield signed(mask=2, head=b"Host:" + b"v" * 16_377 + b"\r\n", path=b"/" * 2_048, body=b"b" * 65_536)
    yield signed(mask=2, head=EIGHT * 2_048, aside=EIGHT * 2_048)
    yield "orders bad"
    yield signed(mask=1 << 56)
    yield signed(extra=b"q,q")
