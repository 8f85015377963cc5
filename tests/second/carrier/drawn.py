"""Calls drawn from a seed: a fresh message is signed, what was made is verified, and both are asked again with one part changed.

Yields (name, call, the numbers that it can get).
"""

from carrier import model
from carrier.calls import Sign, answered
from carrier.placed import KEY, KEY_FIRST, LOWER_TOKEN, TOKEN, verify_of

VISIBLE = bytes(range(33, 127))
NO_UPPER = VISIBLE.translate(None, bytes(range(65, 91)))
TEXT = bytes(range(32, 127))
TELLING = b'"\\;=:(),@/ \t\r\n\0aAzZ09*-_.+\x7f\x80\xff'
COMPONENTS = (b"@method", b"@authority", b"@path")
ANY = range(7)
REFUSED = range(1, 7)


def run_of(rng, alphabet, most):
    """At least one byte; short ones more often."""
    size = rng.choice((1, 2, rng.randint(1, 12), rng.randint(1, most), most))
    return bytes(rng.choices(alphabet, k=min(size, most)))


def in_some_case(rng, name):
    return rng.choice((name, name.title(), name.upper(), bytes(rng.choice((byte, ord(chr(byte).upper()))) for byte in name)))


def blanks(rng):
    return rng.choice((b"", b" ", b" ", b"\t", b" \t "))


def value(rng):
    return bytes(rng.choices(TEXT, k=rng.choice((0, 1, 5, 30, rng.randrange(200))))).strip(b" ")


def message(rng):
    """A call to sign that is answered 0: some headers, each on some lines, and a list of some of them."""
    known = {run_of(rng, LOWER_TOKEN, 20) for _ in range(rng.randrange(8))}
    shown = [(name, value(rng)) for name in known for _ in range(rng.choice((1, 1, 1, 2, 3)))]
    shown += [(b"unlisted", value(rng) + rng.choice((b"\xe4", b"\t-", b"")))] * rng.randrange(2)
    rng.shuffle(shown)
    lines = b"".join(in_some_case(rng, name) + b":" + blanks(rng) + text + blanks(rng) + b"\r\n" for name, text in shown)
    names = [*rng.sample(COMPONENTS, rng.randrange(4)), *rng.sample(sorted(known), rng.randint(0, len(known)))]
    rng.shuffle(names)
    return Sign(
        run_of(rng, TOKEN, 16), run_of(rng, NO_UPPER, 255), b"/" + run_of(rng, VISIBLE, 2_047), lines, b",".join(names),
        rng.choice((0, model.MOST_CREATED, rng.randrange(10 ** rng.randint(1, 15)))), run_of(rng, KEY_FIRST, 1) + run_of(rng, KEY, 63),
        run_of(rng, TEXT + b'"\\' * 20, 255), rng.randbytes(rng.randint(1, 256)), model.LEAST_OUT + rng.randrange(40), rng.randrange(256),
    )


def with_bytes_changed(rng, run):
    """One place of the run is other than it was."""
    while True:
        place = rng.randrange(len(run) + 1)
        gone = rng.choice((0, 1, 1, 2))
        put = rng.choice((b"", bytes([rng.choice(TELLING)]), bytes([rng.choice(TELLING)]), rng.randbytes(1), run[place:place + 1] * 2))
        changed = run[:place] + put + run[place + gone:]
        if changed != run:
            return changed


def with_parts_changed(rng, run, between):
    """One part is missing, twice, new, or elsewhere; the run may come out as it was."""
    parts = run.split(between)
    part = parts.pop(rng.randrange(len(parts)))
    place = rng.randint(0, len(parts))
    parts[place:place] = rng.choice(((), (part,), (part, part), (part.swapcase(),), (part, b"date"), (b"@path",)))
    return between.join(parts)


def resized(rng, name, run):
    """As long as it may be, or a byte longer; or as short, or a byte shorter."""
    least, most = model.SIZES[name]
    size = max(0, rng.choice((least, least - 1, most, most + 1)))
    return (run * (size // len(run) + 1))[:size] if run else b"a" * size


def changed(rng, call, part):
    """The call with one of its parts changed."""
    now = getattr(call, part)
    if part in ("out_byte", "key"):
        other = (now + 1) % 256 if part == "out_byte" else bytes([now[0] ^ 1]) + now[1:]
    elif part == "out_size":
        other = rng.choice((0, model.LEAST_OUT - 1, model.LEAST_OUT))
    elif isinstance(now, int):
        other = rng.choice((model.MOST_CREATED + 1, (1 << 64) - 1, now + 1, now // 2))
    elif part == "created":
        other = rng.randbytes(rng.choice((0, 7, 8, 9)))
    elif part in ("names", "lines") and rng.randrange(2):
        other = with_parts_changed(rng, now, b"," if part == "names" else b"\r\n")
    elif rng.randrange(8) == 0:
        other = resized(rng, part, now)
    else:
        other = with_bytes_changed(rng, now)
    return call._replace(**{part: other})


def calls(rng):
    """Without end."""
    number = 0
    while True:
        number += 1
        name = f"drawn message {number}"
        call = message(rng)
        yield f"{name}, signed", call, (0,)
        made = answered(call)
        input, signature = made.left[:made.length].removeprefix(b"Signature-Input: ").removesuffix(b"\r\n").split(b"\r\nSignature: ")
        good = verify_of(call, input, signature)
        yield f"{name}, verified", good, (0,)
        for asked in (call, good):
            for _ in range(2):
                part = rng.choice(asked._fields)
                other = changed(rng, asked, part)
                # what the two sides agreed on, and what came, cannot be another without a refusal; a message can, where it is not listed
                told = asked is good and part in ("names", "label", "key_id", "key", "input", "signature") and other != asked
                yield f"{name}, {part} changed", other, REFUSED if told else ANY
