"""Refusals 23, 8 and 11 by a setup reply (document 02, K11): a reply that no setup writes, and one that is another's.

Where it can, the request follows the reply, however bad, so that a lax reader would find that it fits. What is wrong with a request
itself stands in the other files, and is tried with its session's own reply.
"""

import client
import hashing
import model
from drafts import with_text
from faults.catalogue import each_32_but, extras, fault, no_extras, nothing, sha_512, short_id
from faults.grammar import BAD_MASKS, lengthened
from faults.hashes import NO_HASH
from faults.index import covered_twice, lent
from faults.orders import BAD_EXTRAS, LONGEST_NAME
from faults.sealed import flipped, longest_token
from faults.sizes import of_length

TRIAL = ("fits",)
MUST = (b"s", b"iv", b"tag", b"kh", b"h", b"ah")

# 1: 'a setup reply of more than 459 bytes is 1, an empty one 23'


def longest(draft):
    longest_token(draft)
    draft.order(mask=(1 << 56) - 1, extra=LONGEST_NAME)


of_length("setup reply", "setup_reply", [460, 461, 715, 4_096, 65_995], 1, TRIAL)
of_length("setup reply", "setup_reply", [459], 23, TRIAL)


@fault("setup reply: the longest, 459 bytes", 0, "plan", TRIAL, needs=longest)
def longest_reply(draft, rng):
    """As it is."""


# 23: the reply as a whole


def whole_reply(name, number, change, needs=nothing):
    @fault(f"setup reply: {name}", number, "setup reply", TRIAL, needs=needs)
    def alter(draft, rng):
        draft.setup_reply = change(draft.setup_reply)


whole_reply("the longest and a closing semicolon, 460 bytes", 1, lambda reply: reply + b";", needs=longest)
whole_reply("empty", 23, lambda reply: b"")
whole_reply("a lone semicolon", 23, lambda reply: b";")
whole_reply("one closing semicolon", 23, lambda reply: reply + b";")
whole_reply("two closing semicolons", 23, lambda reply: reply + b";;")
whole_reply("a leading semicolon", 23, lambda reply: b";" + reply)
whole_reply("a double semicolon inside", 23, lambda reply: reply.replace(b";", b";;", 1))
whole_reply("a comma for a semicolon", 23, lambda reply: reply.replace(b";", b",", 1))
whole_reply("commas for semicolons", 23, lambda reply: reply.replace(b";", b","))
whole_reply("blanks after the semicolons", 23, lambda reply: reply.replace(b";", b"; "))
whole_reply("a blank before it", 23, lambda reply: b" " + reply)
whole_reply("a blank after it", 23, lambda reply: reply + b" ")
whole_reply("a line feed after it", 23, lambda reply: reply + b"\n")
whole_reply("CR LF after it", 23, lambda reply: reply + b"\r\n")
whole_reply("a NUL after it", 23, lambda reply: reply + b"\0")
whole_reply("in quotes", 23, lambda reply: b'"' + reply + b'"')
whole_reply("with the name of its header", 23, lambda reply: b"X-S-Armor: " + reply)
whole_reply("its last byte cut off", 23, lambda reply: reply[:-1])
whole_reply("its first byte cut off", 23, lambda reply: reply[1:])
whole_reply("in upper case", 23, bytes.upper)
whole_reply("a setup's value", 23, lambda reply: b"r:AQQ=")
whole_reply("an invalidation", 23, lambda reply: model.invalidation(hashing.SHA_512, bytes(32)))


@fault("setup reply: the request's value", 23, "value", TRIAL, needs=short_id)
def request_for_reply(draft, rng):
    draft.setup_reply = draft.value


# 23: its fields


def all_told(draft):
    """Every field, and room for one of them twice."""
    extras(draft)
    short_id(draft)


def other_pieces(name, number, change, needs=all_told):
    @fault(f"setup reply: {name}", number, "told", TRIAL, needs=needs)
    def alter(draft, rng):
        draft.told = change(draft.told)


def in_place_of(key, change):
    """The pieces, with others in the place of this key's."""
    return lambda told: [other for piece in told for other in (change(piece) if piece.startswith(key + b":") else [piece])]


for told_key in (*MUST, b"eah"):
    told_name = told_key.decode()
    other_pieces(f"{told_name} twice", 23, in_place_of(told_key, lambda piece: [piece, piece]))
    other_pieces(f"{told_name} again at the end", 23, lambda told, key=told_key: told + [p for p in told if p.startswith(key + b":")])
    other_pieces(f"{told_name} under a key in upper case", 23, in_place_of(told_key, lambda p, key=told_key: [key.upper() + p[len(key):]]))
    other_pieces(f"{told_name} under another key", 23, in_place_of(told_key, lambda p, key=told_key: [b"x" + p[len(key):]]))
    other_pieces(f"{told_name} under a longer key", 23, in_place_of(told_key, lambda piece: [b"x" + piece]))
    other_pieces(f"{told_name} without its colon", 23, in_place_of(told_key, lambda piece: [piece.replace(b":", b"")]))
    other_pieces(f"{told_name} with two colons", 23, in_place_of(told_key, lambda piece: [piece.replace(b":", b"::")]))
    other_pieces(f"{told_name} with a blank before its key", 23, in_place_of(told_key, lambda piece: [b" " + piece]))
    other_pieces(f"{told_name} with a blank after its colon", 23, in_place_of(told_key, lambda piece: [piece.replace(b":", b": ")]))
    other_pieces(f"{told_name} with a blank after it", 23, in_place_of(told_key, lambda piece: [piece + b" "]))
    other_pieces(f"{told_name} of no bytes", 23, lambda told, key=told_key: with_text(told, key, lambda text: b""))

for missing_key in MUST:
    other_pieces(f"{missing_key.decode()} missing", 23, in_place_of(missing_key, lambda piece: []))


def exchanged(first):
    """The pieces, with that at a place and the next one exchanged."""
    return lambda told: [*told[:first], *told[first:first + 2][::-1], *told[first + 2:]]


for first_place, (first_key, next_key) in enumerate(zip(MUST, (*MUST[1:], b"eah"))):
    other_pieces(f"{first_key.decode()} and {next_key.decode()} exchanged", 23, exchanged(first_place))

other_pieces("its fields turned round", 23, lambda told: told[::-1])
other_pieces("eah in front", 23, lambda told: told[-1:] + told[:-1])
other_pieces("ah in front", 23, lambda told: told[-1:] + told[:-1], needs=no_extras)
other_pieces("s at the end", 23, lambda told: told[1:] + told[:1])
other_pieces("an eah of no bytes where there are no extra names", 23, lambda told: [*told, b"eah:"], needs=no_extras)

for further in (b"x:AAAA", b"c:AAAA", b"t:AA==", b"n:AA==", b"r:AQQ=", b"i:AAAA", b"EAH:cQ==", b"AAAA"):
    other_pieces(f"{further.decode()} after its fields", 23, lambda told, piece=further: [*told, piece])
    other_pieces(f"{further.decode()} before its fields", 23, lambda told, piece=further: [piece, *told])
    other_pieces(f"{further.decode()} after its fields, without extra names", 23, lambda told, piece=further: [*told, piece], needs=no_extras)


# 23: base64. Of the fields' sizes, iv takes no pad, kh and h take one and tag takes two


def other_text(name, key, change):
    other_pieces(f"base64 of {key.decode()}: {name}", 23, lambda told: with_text(told, key, change))


def next_letter(text):
    """The text with the lowest bit of its last letter set, which is spare under a pad."""
    letters = text.rstrip(b"=")
    return letters[:-1] + bytes([letters[-1] + 1]) + b"=" * (len(text) - len(letters))


for padded_key in (b"tag", b"kh", b"h"):
    other_text("padding left out", padded_key, lambda text: text.rstrip(b"="))
    other_text("a pad too many", padded_key, lambda text: text + b"=")
    other_text("a spare bit set", padded_key, next_letter)
other_text("one pad of two left out", b"tag", lambda text: text[:-1])
other_text("four pads", b"iv", lambda text: text + b"====")
for letters_key in (*MUST, b"eah"):
    other_text("a letter of the URL alphabet", letters_key, lambda text: b"_" + text[1:])
    other_text("a letter too few", letters_key, lambda text: text[1:])
    other_text("a line break inside", letters_key, lambda text: text[:2] + b"\r\n" + text[2:])
    other_text("four blanks inside", letters_key, lambda text: text[:2] + b"    " + text[2:])
    other_text("a pad in front", letters_key, lambda text: b"=" + text[1:])


# 23: 'with the lengths of 01 (kh 32)', masks in their one form, and 'an h that isn't 1 or 4'

BAD_LENGTHS = {b"s": (119, 120), b"iv": (1, 11, 13, 16), b"tag": (1, 12, 15, 17), b"kh": (1, 16, 31, 33, 64)}


def telling(name, key, number, change, needs=nothing):
    """Other contents under a key, by the draft."""

    @fault(f"setup reply: {key.decode()} {name}", number, "told", TRIAL, needs=needs)
    def alter(draft, rng):
        draft.tell(key, change(draft))


def own(draft, key):
    return dict(draft.told_fields())[key]


for sized_key, bad_lengths in BAD_LENGTHS.items():
    for bad_length in bad_lengths:
        telling(f"of {bad_length} bytes", sized_key, 23, lambda d, key=sized_key, size=bad_length: lengthened(own(d, key), size))

for key_size in (31, 33):

    @fault(f"setup reply: kh of {key_size} bytes, under which the request is signed", 23, "plan", TRIAL, needs=short_id)
    def signed_under(draft, rng, size=key_size):
        draft.key = lengthened(draft.key, size)


@fault("setup reply: iv of 11 bytes, which the request bears", 23, "plan", TRIAL)
def short_iv(draft, rng):
    draft.iv = draft.iv[:11]


@fault("setup reply: s of 119 bytes, which the request bears", 23, "plan", TRIAL)
def long_token(draft, rng):
    longest_token(draft)
    draft.session_id = bytes(65)


for no_hash in NO_HASH:
    telling(no_hash.hex(), b"h", 23, lambda d, run=no_hash: run)
for bad_name, bad_run in BAD_MASKS.items():
    for mask_key in (b"h", b"ah"):
        telling(bad_name, mask_key, 23, lambda d, run=bad_run: run)
for mask_key in (b"h", b"ah"):
    telling("with a leading zero byte", mask_key, 23, lambda d, key=mask_key: bytes([own(d, key)[0] + 1, 0]) + own(d, key)[1:])


# 23: 'an ah with a bit above 55, an eah that no orders could have', which the request follows


def ordering(name, number, **settings):
    @fault(f"setup reply: {name}", number, "plan", TRIAL, needs=short_id)
    def alter(draft, rng):
        draft.order(**settings)


for high_bit in range(56, 64):

    @fault(f"setup reply: ah with bit {high_bit}", 23, "plan", TRIAL)
    def bit_too_high(draft, rng, bit=high_bit):
        draft.order(mask=draft.orders.mask | 1 << bit)


ordering("ah of all 64 bits", 23, mask=(1 << 64) - 1)
ordering("ah of bit 63 alone", 23, mask=1 << 63)
ordering("ah of bit 55 alone", 0, mask=1 << 55)
for bad_extras, extras_run in BAD_EXTRAS.items():
    ordering(f"eah, {bad_extras}", 23 if len(extras_run) <= 129 else 1, extra=extras_run)
ordering("eah of 130 bytes", 23, extra=b"n" * 130)
ordering("eah of CR LF", 23, extra=b"\r\n")

for no_token, no_token_values in each_32_but(model.TOKEN_CHARACTERS + b","):

    @fault(f"setup reply: eah with a byte that no token has {no_token}", 23, "plan", TRIAL, needs=short_id)
    def bad_byte(draft, rng, values=no_token_values):
        draft.order(extra=b"a,X-%cb" % rng.choice(values))


@fault("setup reply: eah with a listed name", 23, "plan", TRIAL, needs=short_id)
def listed_name(draft, rng):
    name = rng.choice(model.NAMES)
    draft.order(extra=rng.choice([name, b"q," + name, name.swapcase()]))


# 8: 'ah or eah other than the reply's, c not of h's length, h, s, iv or tag other than the reply's'

for token_key in (b"s", b"iv", b"tag"):
    for flipped_place, place_name in ((0, "first"), (-1, "last"), (5, "sixth")):
        telling(f"of another {place_name} byte", token_key, 8, lambda d, key=token_key, at=flipped_place: flipped(own(d, key), at))
telling("of another token", b"s", 8, lambda d: model.sealed(bytes(32), d.iv, d.token_text)[0])
telling("of a byte less", b"s", 8, lambda d: own(d, b"s")[:-1])
telling("of a byte more", b"s", 8, lambda d: own(d, b"s") + b"\0", needs=short_id)
telling("of one byte", b"s", 8, lambda d: own(d, b"s")[:1])
telling("of 118 bytes", b"s", 8, lambda d: lengthened(own(d, b"s"), 118), needs=short_id)

for other_bit in (0, 1, 55):
    telling(f"with bit {other_bit} otherwise", b"ah", 8, lambda d, bit=other_bit: client.encoded_mask(d.orders.mask ^ 1 << bit))

for other_name, other_extras in {
    "in other case": b"X-Dealer,x-farm",
    "in other order": b"X-Farm,X-Dealer",
    "with a name less": b"X-Dealer",
    "with a name more": b"X-Dealer,X-Farm,q",
    "of one other byte": b"X-Dealer,X-Farn",
}.items():
    telling(other_name, b"eah", 8, lambda d, run=other_extras: run, needs=extras)
other_pieces("eah missing where the request has it", 8, lambda told: told[:-1])
other_pieces("eah where the request has none", 8, lambda told: [*told, b"eah:cQ=="], needs=no_extras)


def signed_otherwise(draft):
    """Rightly, but under another hash than the reply's."""
    sha_512(draft)
    draft.hash = hashing.SHA_256


@fault("setup reply: h of the other hash", 8, "plan", TRIAL)
def other_hash(draft, rng):
    draft.chosen ^= hashing.BOTH


@fault("setup reply: h of the other hash, c of the length for it", 8, "signed", TRIAL, needs=signed_otherwise)
def other_length(draft, rng):
    draft.set_field(b"c", bytes(hashing.size(draft.chosen)))


# 11: signed under another key than the reply's

telling("of another first byte", b"kh", 11, lambda d: flipped(own(d, b"kh"), 0))
telling("of another last byte", b"kh", 11, lambda d: flipped(own(d, b"kh"), -1))
telling("of zeros", b"kh", 11, lambda d: bytes(32))


# 'It needs no server key and opens no token', and has neither clock nor record


@fault("trial: a token that opens to garbage", 0, "token text", TRIAL)
def garbage_sealed(draft, rng):
    draft.token_text = rng.randbytes(rng.randint(8, 118))


@fault("trial: a token that has expired", 0, "plan", TRIAL, needs=short_id)
def expired_token(draft, rng):
    draft.expiry = rng.choice([0, draft.clock])


@fault("trial: any times and nonce", 0, "plan", TRIAL)
def any_time(draft, rng):
    draft.t, draft.lt, draft.n = (rng.getrandbits(rng.randint(1, 32)) for _ in range(3))


# 1, 23, 4, 5, 6, 7, 8, 11 in this order: something else that is wrong, with each kind of reply


def in_order(number, name, plan=nothing, lend=nothing):
    """By the session's own reply, by one with another s, and by one that no setup writes."""
    for reply_name, expected, change in (
        ("its own", number, lambda told: told),
        ("one with another s", min(number, 8), lambda told: with_text(told, b"s", lambda text: b"AA==")),
        ("one that lacks kh", 1 if number == 1 else 23, lambda told: [piece for piece in told if not piece.startswith(b"kh:")]),
    ):

        @fault(f"trial: {name}, by {reply_name}", expected, "lent", TRIAL, needs=plan)
        def alter(draft, rng, change=change):
            draft.setup_reply = b";".join(change(draft.told))
            lend(draft)


in_order(1, "a path of no bytes", lend=lent("path", b""))
in_order(4, "an empty value", lend=lent("value", b""))
in_order(5, "a value of another field", lend=lent("value", b"x:AA=="))
in_order(6, "a method with a space", lend=lent("method", b"GE T"))
in_order(7, "a covered name twice", plan=covered_twice)
in_order(8, "the other hash", plan=signed_otherwise)
in_order(11, "another path than was signed", lend=lent("path", b"/another"))
