"""The other two sides of the gate: the site that makes orders and the client that signs.

Written apart from the model's reading side: it encodes with the standard library and looks headers up in its own way.
It signs whatever it carries, good or bad, so that only the rule under test can stop a faulty request.
"""

import base64

import hashing
from model import NAMES, Orders

METHODS = [b"GET", b"GET", b"POST", b"POST", b"PUT", b"DELETE", b"HEAD", b"PATCH", b"get", b"M-SEARCH", b"X", b"VERSION-CONTROL"]
UNLISTED = [b"X-Dealer", b"X-Farm", b"x-order.no", b"Part", b"Z", b"Content-Type", b"X_Trace", b"Accept-Parts", b"~x~"]


# The site


def make_orders(rng, session_life):
    """Good orders: some bits, one hash or both, some extra names, limits at their default or not."""
    bits = rng.sample(range(1, len(NAMES) + 1), rng.choice([0, 1, 2, 3, 3, 4, 6]))
    mask = sum(1 << bit for bit in bits) | (rng.random() < 0.8)
    names = rng.sample(UNLISTED, rng.choice([0, 0, 0, 1, 1, 2, 3, 8]))
    return Orders(
        mask=mask,
        hashes=rng.choice([hashing.SHA_256, hashing.SHA_512, hashing.BOTH, hashing.BOTH]),
        extra=b",".join(rng.choice([name, name, name.upper()]) for name in names),
        request_life=rng.choice([0, 0, 300, 60, 1, 3_000]),
        idle=rng.choice([0, 0, 1_800, 600, 1, 100_000]),
        session_life=session_life,
    )


# The client


def encoded_number(number):
    run = number.to_bytes(8, "big").lstrip(b"\0")
    return run or b"\0"


def encoded_mask(mask):
    run = encoded_number(mask)
    return bytes([len(run)]) + run


def decoded_mask(run):
    return int.from_bytes(run[1:], "big")


def piece(key, contents):
    return key + b":" + base64.b64encode(contents)


def header_value(fields):
    return b";".join(piece(key, contents) for key, contents in fields)


def setup_value(mask):
    return header_value([(b"r", encoded_mask(mask))])


def parse_reply(text):
    """The fields of a setup reply."""
    pieces = (part.split(b":") for part in text.split(b";"))
    return {key: base64.b64decode(contents, validate=True) for key, contents in pieces}


def line(name, value):
    return name + b":" + value + b"\r\n"


def line_name(text):
    return text.split(b":")[0].lower()


def line_value(text):
    return text.split(b":", 1)[1].rstrip(b"\r\n").strip(b" \t")


def header(name, head, aside):
    """The value to sign: the client's own lines, which a rewriting proxy has set aside; nothing if it sent none.

    Several lines are signed as one list. Where the name is no list field the gate looks at no signature (7).
    """
    for block in (aside, head):
        own = [line_value(text) for text in block if b":" in text and line_name(text) == name.lower()]
        if own:
            return b", ".join(own)
    return b""


def signed_parts(method, fields, head, aside, path, body):
    """The parts of the signed text by name, in order; coverage is what the request itself says."""
    carried = {}
    for key, contents in fields:
        carried.setdefault(key, contents)
    parts = [(b"method", method), (b"h", carried.get(b"h", b"")), (b"ah", carried.get(b"ah", b"")), (b"eah", carried.get(b"eah", b""))]
    if b"n" in carried:
        parts.append((b"n", carried[b"n"]))
    parts += [(b"t", carried.get(b"t", b"")), (b"lt", carried.get(b"lt", b""))]
    mask = decoded_mask(carried.get(b"ah", b""))
    for place, name in enumerate(NAMES):
        if mask & 2 << place:
            parts.append((name, header(name, head, aside)))
    for name in carried.get(b"eah", b"").split(b",") if carried.get(b"eah") else []:
        parts.append((name, header(name, head, aside)))
    return parts + [(b"path", path), (b"body", body)]


def joined(parts):
    return b"".join(str(len(part)).encode() + b":" + part + b"," for _, part in parts)


def named_hash(fields, own):
    """The hash that h names; its own where h, by some fault, names none."""
    mask = decoded_mask(dict(fields).get(b"h", b""))
    return mask if mask in hashing.FUNCTIONS else own
