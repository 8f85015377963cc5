"""Signing and verifying by RFC 9421 with hmac-sha256, as document 02's K13 has it: `sign` and `verify`, as pure functions.

Each takes everything lent and answers an Outcome. The checks stand in the order of their numbers, the lowest that holds is
answered, and only 0 writes.
"""

import re
from typing import NamedTuple

import hashing
from encoding import base64_bytes, base64_text

SIZES = {  # the least and the most bytes of what is lent to be read
    "method": (1, 16),
    "authority": (1, 255),
    "path": (1, 2_048),
    "lines": (0, 16_384),
    "names": (0, 1_024),
    "label": (1, 64),
    "key_id": (1, 255),
    "key": (1, 256),
    "input": (0, 4_096),
    "signature": (0, 4_096),
}
LEAST_OUT = 4_096
CREATED = 8  # bytes, highest first
MOST_CREATED = 999_999_999_999_999  # an Integer of RFC 8941, 3.3.1

# RFC 9110, 5.6.2
LOWER_TOKEN = rb"[!#$%&'*+\-.^_`|~0-9a-z]+"
TOKEN = rb"[!#$%&'*+\-.^_`|~0-9A-Za-z]+"
# RFC 8941: a key (3.1.2) and a string (3.3.3)
KEY = rb"[a-z*][a-z0-9_\-.*]*"
STRING = rb'"((?:[ !#-\[\]-~]|\\["\\])*)"'

LINE = re.compile(rb"(%s):([\t -~\x80-\xff]*)\r\n" % TOKEN)
NAME = rb"(?:@method|@authority|@path|%s)" % LOWER_TOKEN
INPUT = re.compile(rb'(%s)=\(((?:"%s"(?: "%s")*)?)\);created=(0|[1-9][0-9]{0,14});keyid=%s' % (KEY, NAME, NAME, STRING))
SIGNATURE = re.compile(rb"(%s)=:([^:]{44}):" % KEY, re.DOTALL)


class Message(NamedTuple):
    method: bytes
    authority: bytes
    path: bytes
    lines: bytes


class Terms(NamedTuple):
    """What the two sides agreed on."""

    names: bytes
    label: bytes
    key_id: bytes
    key: bytes


class Told(NamedTuple):
    """What an input says."""

    label: bytes
    names: list
    created: int
    key_id: bytes


class Outcome(NamedTuple):
    number: int
    length: int
    left: bytes  # in out, or in created


# The two calls


def sign(message, terms, created, out):
    """Checks 1 to 5."""

    def refused(number):
        return Outcome(number, 0, out)

    if size_bad(message, terms) or created > MOST_CREATED or len(out) < LEAST_OUT:
        return refused(1)
    if message_malformed(message, terms):
        return refused(2)
    if label_bad(terms.label) or key_id_bad(terms.key_id):
        return refused(3)
    names = listed(terms.names)
    if one_twice(names):
        return refused(4)
    if one_missing(message, names):
        return refused(5)

    params = params_text(names, created, terms.key_id)
    code = hashing.code(hashing.SHA_256, terms.key, base(message, names, params))
    text = b"Signature-Input: %s=%s\r\nSignature: %s=:%s:\r\n" % (terms.label, params, terms.label, base64_text(code))
    return Outcome(0, len(text), text + out[len(text):])


def verify(message, terms, input, signature, created):
    """Checks 1 to 6. The message does not choose its own coverage: list, label and key id are those of the terms."""

    def refused(number):
        return Outcome(number, 0, created)

    if size_bad(message, terms) or one_size_bad("input", input) or one_size_bad("signature", signature) or len(created) != CREATED:
        return refused(1)
    told, (its_label, code) = read_input(input), read_signature(signature)
    if message_malformed(message, terms) or told is None or code is None:
        return refused(2)
    if label_bad(terms.label) or key_id_bad(terms.key_id):
        return refused(3)
    if told.label != terms.label or its_label != terms.label or told.key_id != terms.key_id:
        return refused(3)
    names = listed(terms.names)
    if one_twice(names):
        return refused(4)
    if one_missing(message, names):
        return refused(5)
    if told.names != names:
        return refused(6)
    params = params_text(names, told.created, terms.key_id)
    if code != hashing.code(hashing.SHA_256, terms.key, base(message, names, params)):
        return refused(6)

    return Outcome(0, 0, told.created.to_bytes(CREATED, "big"))


# 1: sizes


def one_size_bad(name, run):
    least, most = SIZES[name]
    return not least <= len(run) <= most


def size_bad(message, terms):
    return any(one_size_bad(name, run) for name, run in (message._asdict() | terms._asdict()).items())


# 2: what is malformed


def message_malformed(message, terms):
    lines, names = lines_of(message.lines), listed(terms.names)
    return (
        lines is None
        or not re.fullmatch(TOKEN, message.method)
        or not re.fullmatch(rb"[!-@\[-~]+", message.authority)  # RFC 9421, 2.2.3: in lower case
        or not re.fullmatch(rb"[!-~]+", message.path)
        or not all(re.fullmatch(NAME, name) for name in names)
        or any(not re.fullmatch(rb"[ -~]*", value) for name in names for value in values_of(lines, name))
    )


def lines_of(block):
    """Document 01's header lines as (name in lower case, trimmed value), or None."""
    lines, place = [], 0
    while place < len(block):
        found = LINE.match(block, place)
        if not found:
            return None
        lines.append((found[1].lower(), found[2].strip(b" \t")))
        place = found.end()
    return lines


def listed(names):
    return names.split(b",") if names else []


def values_of(lines, name):
    return [value for known, value in lines if known == name]


def read_input(input):
    """RFC 9421, 4.1: one member, in the very bytes that `sign` writes; or None."""
    found = INPUT.fullmatch(input)
    if not found:
        return None
    label, names, created, key_id = found.groups()
    names = [name[1:-1] for name in names.split(b" ")] if names else []
    return Told(label, names, int(created), re.sub(rb'\\(["\\])', rb"\1", key_id))


def read_signature(signature):
    """RFC 9421, 4.2: the label and the 32 bytes; or None for both."""
    found = SIGNATURE.fullmatch(signature)
    code = base64_bytes(found[2]) if found else None
    return (found[1], code) if code is not None and len(code) == 32 else (None, None)


# 3 to 5


def label_bad(label):
    return not re.fullmatch(KEY, label)


def key_id_bad(key_id):
    return not re.fullmatch(rb"[ -~]*", key_id)


def one_twice(names):
    return len(set(names)) != len(names)


def one_missing(message, names):
    lines = lines_of(message.lines)
    return any(not name.startswith(b"@") and not values_of(lines, name) for name in names)


# What is signed: RFC 9421, 2.5


def base(message, names, params):
    rows = [b'"%s": %s\n' % (name, component(message, name)) for name in names]
    return b"".join(rows) + b'"@signature-params": ' + params


def component(message, name):
    """RFC 9421, 2.1 and 2.2."""
    if name.startswith(b"@"):
        return getattr(message, name[1:].decode())
    return b", ".join(values_of(lines_of(message.lines), name))


def params_text(names, created, key_id):
    """RFC 9421, 2.3, with the two parameters that are used here."""
    shown = re.sub(rb'(["\\])', rb"\\\1", key_id)
    return b'(%s);created=%d;keyid="%s"' % (b" ".join(b'"%s"' % name for name in names), created, shown)
