"""Repeated header lines: document 02, K10."""

import model
from client import line
from faults.lists import JOINED, ended
from sentences.codes import signed
from sentences.lines import FULL, doubled
from sentences.placing import instead, joined, repeated

ACCEPT = 2 << model.NAMES.index(b"Accept")

# A block of lines, and what Accept comes to in it; None where it does not stand there.
BLOCKS = {
    b"": None,
    b"Accep: a\r\nAcceptt: b\r\n": None,
    b"Accept: a\r\n": b"a",
    b"Accept:\r\n": b"",
    b"Accept: b\r\naccept: c\r\n": b"b, c",
    b"X: y\r\nACCEPT:\r\nX: y\r\nAccept: \t\r\n": b", ",
    b"Accept: d\r\nAccept:\r\nAccept: e\r\nAccept:\r\n": b"d, , e, ",
}


def lines(*values):
    return b"".join(line(b"Accept", value) for value in values)


def joined_values():
    yield "where repeated in the chosen block, have their trimmed values joined in order by a comma and a space"
    for texts, value in JOINED.values():
        text = b"".join(ended(texts))
        yield joined, b"Accept", text, b"", value
        yield joined, b"Accept", b"Accept: head\r\n", text, value
    yield "each of the twelve, by its bit alone, beside all other bits, and not at all"
    for place, name in enumerate(model.NAMES):
        if name in model.LIST_FIELDS:
            yield joined, name, doubled(name, name.swapcase()), b"", b"a, b"
            yield joined, name, line(name, b"c"), doubled(name.lower(), name.upper()), b"a, b"
            yield repeated, 0, FULL, b"q", doubled(name), doubled(name)
            yield repeated, 0, FULL ^ 2 << place, b"q", doubled(name), doubled(name)
    every = b"".join(doubled(name).replace(b"X-Between: c\r\n", b"") for name in model.LIST_FIELDS)
    yield repeated, 0, FULL, b"", every, b""
    yield repeated, 0, FULL, b"", b"", every
    yield repeated, 0, 0, b"", every, every
    yield "Their repeats in the block that isn't chosen are passed over and give no 7"
    for head, in_head in BLOCKS.items():
        for aside, in_aside in BLOCKS.items():
            yield joined, b"Accept", head, aside, (in_head or b"") if in_aside is None else in_aside
    yield "A value from a single line is handed over as before"
    for text, value in ((b" a, b ", b"a, b"), (b"a,b", b"a,b"), (b", ", b","), (b",", b","), (b" ,\ta,, ", b",\ta,,"), (b"\t", b"")):
        yield joined, b"Accept", line(b"Accept", text), b"", value
        yield joined, b"Via", line(b"via", b"x") * 2, line(b"VIA", text), value


def sevens():
    yield "Every other covered name, extras too, still gives 7"
    for other, mask, extra in ((b"Host", 2, b""), (b"Cookie", 256, b""), (b"q", 0, b"q"), (b"Accept-Parts", 0, b"Accept-Parts"), (b"Vi", 0, b"Vi,Viaa")):
        for head, aside in ((doubled(other), b""), (b"", doubled(other)), (doubled(other), line(other, b"")), (line(other, b""), doubled(other))):
            yield repeated, 7, mask, extra, head, aside
            yield repeated, 7, mask | ACCEPT, extra, lines(b"a", b"b") + head, aside + lines(b"c", b"d")
        yield repeated, 0, mask | ACCEPT, extra, lines(b"a", b"b") + line(other, b"c"), lines(b"d", b"e") + line(other, b"f")


def agreeing():
    yield "Two lines a and b agree then with one line a, b"
    a, b, c = b"a", b"b", b"c"
    for one, other in (
        (lines(a, b), lines(b"a, b")),
        (lines(a, b, c), lines(b"a, b", c)),
        (lines(a, b, c), lines(a, b"b, c")),
        (lines(a, b"", b), lines(b"a, , b")),
        (lines(a, b"", b), lines(a, b", b")),
        (lines(b"", a), lines(b", a")),
        (lines(b"a, b", b"c, d"), lines(b"a, b, c, d")),
        (lines(a, b), b"ACCEPT:\ta\t\r\nX: y\r\naccept:b \r\n"),
        (lines(b""), b""),
    ):
        yield instead, 0, b"Accept", one, other
    yield "and with nothing else"
    for one, other in (
        (lines(a, b), lines(b, a)),
        (lines(a, b), lines(b"a,b")),
        (lines(a, b), lines(b"a ,b")),
        (lines(a, b), lines(b"a,  b")),
        (lines(a, b), lines(b"a,\tb")),
        (lines(a, b), lines(b"ab")),
        (lines(a, b), lines(a)),
        (lines(a, b), lines(b)),
        (lines(a, b), lines(a, b, b"")),
        (lines(a, b), lines(a, b"", b)),
        (lines(a, b), lines(b"", a, b)),
        (lines(a, b), lines(a, b, a)),
        (lines(a, a), lines(a)),
        (lines(a, b""), lines(b"a, ")),  # whose blank is trimmed
        (lines(b"", b""), lines(b"")),
        (lines(b"", b""), b""),
    ):
        yield instead, 11, b"Accept", one, other


def sizes():
    yield "a joined value whose seam stands at each place of a hash's block"
    for size in range(128):
        yield signed(mask=ACCEPT, head=lines(b"v" * size, b"w"))
    yield "many lines, long values, and blocks of 16,384 bytes"
    for size in (96, 97, 98, 996, 997, 998, 9_996, 9_997, 9_998):
        yield signed(mask=ACCEPT, head=lines(b"v" * size, b"w"))
    least = b"TE:\r\n" * 3_275 + b"TE:last\r\n"
    yield joined, b"TE", least, b"", b", " * 3_275 + b"last"
    yield joined, b"TE", least, least, b", " * 3_275 + b"last"
    yield repeated, 0, FULL, b"", least, least
    yield repeated, 0, 1, b"", least, least


def cases():
    yield from joined_values()
    yield from sevens()
    yield from agreeing()
    yield from sizes()
