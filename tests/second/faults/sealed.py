"""Refusal 9 and its edges: the token 'fails to open, or isn't three netstrings as below'.

Session key, id and expiry of a faulty token are also those that the request is signed with.
"""

from cryptography.hazmat.primitives.ciphers.aead import AESGCM

import model
from encoding import netstring
from faults.catalogue import JUDGED, fault, short_id

# Tokens that don't open


def flipped(run, place):
    changed = bytearray(run)
    changed[place] ^= 0x80 if place % 2 else 1
    return bytes(changed)


for flipped_key in (b"s", b"tag", b"iv"):
    for flipped_place, place_name in ((0, "first"), (-1, "last"), (5, "sixth")):

        @fault(f"{flipped_key.decode()}: {place_name} byte altered", 9, "signed")
        def flip(draft, rng, key=flipped_key, place=flipped_place):
            run = dict(draft.fields).get(key, b"")
            if len(run) > 5:
                draft.set_field(key, flipped(run, place))


@fault("another server key", 9, "lent")
def other_server_key(draft, rng):
    if len(draft.server_key) == 32:
        draft.server_key = flipped(draft.server_key, rng.randrange(32))


@fault("tag of zeros", 9, "signed")
def tag_of_zeros(draft, rng):
    draft.set_field(b"tag", bytes(16))


@fault("s one byte short", 9, "signed")
def s_short(draft, rng):
    draft.set_field(b"s", dict(draft.fields).get(b"s", b"12")[:-1])


@fault("s of 118 bytes that open to nothing", 9, "signed")
def s_longest_garbage(draft, rng):
    draft.set_field(b"s", rng.randbytes(118))


@fault("s of one byte that opens", 9, "token text")
def s_of_one_byte(draft, rng):
    draft.token_text = rng.choice([b"0", b":", b",", b"\0"])


@fault("s of any length that opens to garbage", 9, "token text")
def s_opens_to_garbage(draft, rng):
    draft.token_text = rng.randbytes(rng.randint(1, 118))


@fault("sealed with associated data, as document 001 has it", 9, "fields")
def associated_data(draft, rng):
    field = dict(draft.fields)
    data = b"|".join(field.get(key, b"") for key in (b"h", b"ah", b"eah"))
    run = AESGCM(draft.server_key).encrypt(draft.iv, draft.token_text, data)
    draft.set_field(b"s", run[:-16])
    draft.set_field(b"tag", run[-16:])


@fault("sealed under another IV", 9, "fields")
def other_iv(draft, rng):
    s, tag = model.sealed(draft.server_key, flipped(draft.iv, 11), draft.token_text)
    draft.set_field(b"s", s)
    draft.set_field(b"tag", tag)


# Tokens that open to something else. First the three parts


def other_plan(name, change, number=9):
    @fault(f"token: {name}", number, "plan", needs=short_id)
    def alter(draft, rng):
        change(draft)


def set_key(draft, key):
    draft.key = key


def set_id(draft, session_id):
    draft.session_id = session_id


def early(draft):
    """A time whose expiry has nine digits, so that an id of 65 bytes fits into 118."""
    draft.at(900_000_000)
    draft.expiry = 999_999_999 if draft.expiry > draft.clock else draft.expiry


def id_of_65(draft):
    early(draft)
    draft.session_id = b"i" * 65


other_plan("session key of 31 bytes", lambda d: set_key(d, d.key[:31]))
other_plan("session key of 33 bytes", lambda d: set_key(d, d.key[:32] + b"k"))
other_plan("session key of 16 bytes", lambda d: set_key(d, d.key[:16]))
other_plan("session key empty", lambda d: set_key(d, b""))
other_plan("session id empty", lambda d: set_id(d, b""))
other_plan("session id of 65 bytes", id_of_65)
other_plan("session id of 64 bytes", lambda d: set_id(d, b"i" * 64), 0)
other_plan("session id of one byte", lambda d: set_id(d, b"\0"), 0)
other_plan("session id with netstring marks", lambda d: set_id(d, b"3:a,:,"), 0)
other_plan("session id of any bytes", lambda d: set_id(d, bytes(range(0, 256, 5))), 0)


def longest_token(draft):
    draft.at(2_000_000_000)
    draft.expiry = max(draft.expiry, 1_000_000_000)
    draft.session_id = bytes(64)


other_plan("118 bytes", longest_token, 0)


@fault("token: 119 bytes", 4, "plan", JUDGED)
def token_too_long(draft, rng):
    longest_token(draft)
    draft.session_id = bytes(65)


def expiry_digits(name, digits, number=9):
    """Whatever stands for the expiry, a lax reader finds the time in it."""

    @fault(f"token expiry: {name}", number, "token", needs=short_id)
    def alter(draft, rng):
        draft.token[2] = digits(b"%d" % draft.expiry)


expiry_digits("empty", lambda d: b"")
expiry_digits("a leading zero", lambda d: b"0" + d)
expiry_digits("00", lambda d: b"00")
expiry_digits("4294967296", lambda d: b"4294967296")
expiry_digits("9999999999", lambda d: b"9999999999")
expiry_digits("eleven digits", lambda d: b"42949672950")
expiry_digits("2^64 and more", lambda d: b"18446744073709551615")
expiry_digits("2^64 and the time", lambda d: b"%d" % ((1 << 64) + int(d)))
expiry_digits("2^32 and the time", lambda d: b"%d" % ((1 << 32) + int(d)))
expiry_digits("a plus sign", lambda d: b"+" + d)
expiry_digits("a minus sign", lambda d: b"-" + d)
expiry_digits("a blank before it", lambda d: b" " + d)
expiry_digits("a blank after it", lambda d: d + b" ")
expiry_digits("a point", lambda d: d + b".")
expiry_digits("an underscore", lambda d: d[:1] + b"_" + d[1:])
expiry_digits("hexadecimal", lambda d: b"%x" % (int(d) | 0xF000000))
expiry_digits("a NUL after it", lambda d: d + b"\0")
expiry_digits("four bytes of number", lambda d: int(d).to_bytes(4, "big"))
expiry_digits("the byte after the digits", lambda d: b"1:")
expiry_digits("the byte before the digits", lambda d: b"1/")
expiry_digits("0", lambda d: b"0", 10)
expiry_digits("4294967295", lambda d: b"4294967295", 0)


# Then the netstrings


def netstrings(name, change):
    @fault(f"token text: {name}", 9, "token text", needs=short_id)
    def alter(draft, rng):
        draft.token_text = change(*draft.token)


def three(key, session_id, digits):
    return netstring(key) + netstring(session_id) + netstring(digits)


netstrings("session id first, as document 001 has it", lambda k, i, e: three(i, k, e))
netstrings("expiry first", lambda k, i, e: three(e, k, i))
netstrings("a byte after them", lambda k, i, e: three(k, i, e) + b"\0")
netstrings("a comma after them", lambda k, i, e: three(k, i, e) + b",")
netstrings("an empty fourth", lambda k, i, e: three(k, i, e) + b"0:,")
netstrings("only two", lambda k, i, e: netstring(k) + netstring(i))
netstrings("only one", lambda k, i, e: netstring(k))
netstrings("last comma missing", lambda k, i, e: three(k, i, e)[:-1])
netstrings("last comma another byte", lambda k, i, e: three(k, i, e)[:-1] + b";")
netstrings("first comma missing", lambda k, i, e: b"32:" + k + netstring(i) + netstring(e))
netstrings("first comma another byte", lambda k, i, e: b"32:" + k + b"." + netstring(i) + netstring(e))
netstrings("second comma another byte", lambda k, i, e: three(k, i, b"")[:-4] + b"." + netstring(e))
netstrings("colon missing", lambda k, i, e: b"32" + k + b"," + netstring(i) + netstring(e))
netstrings("colon another byte", lambda k, i, e: b"32;" + k + b"," + netstring(i) + netstring(e))
netstrings("length with a leading zero", lambda k, i, e: b"0" + three(k, i, e))
netstrings("expiry's length with a leading zero", lambda k, i, e: netstring(k) + netstring(i) + b"0" + netstring(e))
netstrings("length with a plus sign", lambda k, i, e: b"+" + three(k, i, e))
netstrings("length with a blank", lambda k, i, e: b" " + three(k, i, e))
netstrings("length in hexadecimal", lambda k, i, e: b"20:" + k + b"," + netstring(i) + netstring(e))
netstrings("length missing", lambda k, i, e: b":" + k + b"," + netstring(i) + netstring(e))
netstrings("length one too low", lambda k, i, e: b"31:" + k + b"," + netstring(i) + netstring(e))
netstrings("length one too high", lambda k, i, e: b"33:" + k + b"," + netstring(i) + netstring(e))
netstrings("length past the end", lambda k, i, e: netstring(k) + netstring(i) + b"99:" + e + b",")
netstrings("length of the rest without its comma", lambda k, i, e: netstring(k) + netstring(i) + b"%d:" % len(e) + e)
netstrings("length 2^32 more", lambda k, i, e: b"4294967328:" + k + b"," + netstring(i) + netstring(e))
netstrings("length 2^64 more", lambda k, i, e: b"18446744073709551648:" + k + b"," + netstring(i) + netstring(e))
netstrings("length 2^64 - 1", lambda k, i, e: b"18446744073709551615:" + k + b"," + netstring(i) + netstring(e))
netstrings("length 256 more", lambda k, i, e: b"288:" + k + b"," + netstring(i) + netstring(e))
netstrings("length of forty nines", lambda k, i, e: b"9" * 40 + b":")
netstrings("the parts without netstrings", lambda k, i, e: k + i + e)
netstrings("parts joined by bars", lambda k, i, e: b"|".join([k, i, e]))
