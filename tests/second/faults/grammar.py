"""Refusal 4 and its edges: 'The X-S-Armor value'. A faulty text decodes, for a lax reader, to what was signed."""

import client
from encoding import ALPHABET
from faults.catalogue import REQUEST, VALUED, each_32_but, extras, fault, nonces

# Pieces and separators


def whole_value(name, number, change):
    @fault(f"value: {name}", number, "value", VALUED)
    def alter(draft, rng):
        draft.value = change(draft.value)


whole_value("one closing semicolon", 0, lambda value: value + b";")
whole_value("empty", 4, lambda value: b"")
whole_value("a lone semicolon", 4, lambda value: b";")
whole_value("two closing semicolons", 4, lambda value: value + b";;")
whole_value("a leading semicolon", 4, lambda value: b";" + value)
whole_value("a piece without a colon", 4, lambda value: value + b";x")
whole_value("a good base64 without a key", 4, lambda value: value + b";AAAA")
whole_value("a piece of blanks", 4, lambda value: value + b"; ")
whole_value("an empty key", 4, lambda value: value + b";:AAAA")
whole_value("an empty value", 4, lambda value: value + b";x:")
whole_value("an empty value in front", 4, lambda value: b"x:;" + value)
whole_value("a lone colon", 4, lambda value: value + b";:")
whole_value("a comma for a semicolon", 4, lambda value: value + b",x:AAAA")
whole_value("a blank after it", 4, lambda value: value + b" ")
whole_value("a line feed after it", 4, lambda value: value + b"\n")
whole_value("CR LF after it", 4, lambda value: value + b"\r\n")
whole_value("a NUL after it", 4, lambda value: value + b"\0")
whole_value("in quotes", 4, lambda value: b'"' + value + b'"')
whole_value("a blank before it", 5, lambda value: b" " + value)
whole_value("a line feed before it", 5, lambda value: b"\n" + value)


@fault("value: a double semicolon inside", 4, "value", REQUEST)
def semicolons_inside(draft, rng):
    draft.value = draft.value.replace(b";", b";;", 1)


@fault("value: a comma between two fields", 4, "value", REQUEST)
def comma_between_fields(draft, rng):
    draft.value = draft.value.replace(b";", b",", 1)


@fault("value: blanks after the semicolons", 5, "value", REQUEST)
def blanks_between_fields(draft, rng):
    draft.value = draft.value.replace(b";", b"; ")


@fault("value: hundreds of pieces", 5, "value", VALUED)
def many_pieces(draft, rng):
    draft.value += rng.choice([b";x:AAAA", b";t:AA==", b";r:AQQ="]) * 400


@fault("value: hundreds of pieces, the last one bad", 4, "value", VALUED)
def many_pieces_last_bad(draft, rng):
    draft.value += b";x:AAAA" * 400 + b";x:AAA"


# Base64. The unknown key needs good base64 too, so these are 4 and not 5.


def bad_base64(name, text):
    @fault(f"base64: {name}", 4, "pieces", VALUED)
    def alter(draft, rng):
        key = rng.choice([b"x", b"kh", b"eahx", b"X"])
        draft.pieces.insert(rng.randint(0, len(draft.pieces)), key + b":" + text)


bad_base64("one letter", b"A")
bad_base64("two letters", b"AA")
bad_base64("three letters", b"AAA")
bad_base64("five letters", b"AAAAA")
bad_base64("no letters, one pad", b"=")
bad_base64("no letters, four pads", b"====")
bad_base64("one letter, three pads", b"A===")
bad_base64("four pads after a group", b"AAAA====")
bad_base64("one pad after a group", b"AAAA=")
bad_base64("two pads inside", b"AA==AA==")
bad_base64("one pad inside", b"AAA=AAAA")
bad_base64("a pad before the last letter", b"AA=A")
bad_base64("a pad in front", b"=AAA")
bad_base64("pad where the second letter stands", b"A=AA")
bad_base64("spare bits under one pad", b"AAB=")
bad_base64("both spare bits under one pad", b"AAD=")
bad_base64("spare bits under two pads", b"AB==")
bad_base64("top spare bit under two pads", b"AI==")
bad_base64("a second colon", b"AA:A")
bad_base64("a second colon in front", b":AAAA")
bad_base64("letters of the URL alphabet", b"AA-_")
bad_base64("a line break inside", b"AAAA\r\nAAAA")
bad_base64("four blanks inside", b"AAAA    AAAA")
bad_base64("a blank before it", b" AAAA")
bad_base64("a blank after it", b"AAAA ")


for outside_name, outside_values in each_32_but(ALPHABET + b"="):

    @fault(f"base64: a byte outside the alphabet {outside_name}", 4, "pieces", VALUED)
    def byte_outside_alphabet(draft, rng, values=outside_values):
        """At any place of any piece; `=` is left out, since it can be good."""
        chosen = rng.randrange(len(draft.pieces))
        piece = bytearray(draft.pieces[chosen])
        piece[rng.randrange(piece.index(b":") + 1, len(piece))] = rng.choice(values)
        draft.pieces[chosen] = bytes(piece)


def padded_piece(draft, rng, pads):
    """The place of a piece whose text ends in so many pads, or in any number."""
    ends = [len(piece) - len(piece.rstrip(b"=")) for piece in draft.pieces]
    fitting = [place for place, count in enumerate(ends) if count == pads] or range(len(ends))
    return rng.choice(fitting)


def padding_of_length(draft):
    """Let a setup's r too be four bytes, whose text ends in two pads."""
    if draft.kind == "setup":
        draft.offer = b"\3\1\0\5"


@fault("base64: padding left out of a field", 4, "pieces", VALUED)
def padding_left_out(draft, rng):
    place = padded_piece(draft, rng, 1)
    draft.pieces[place] = draft.pieces[place].rstrip(b"=")


@fault("base64: one pad of two left out of a field", 4, "pieces", VALUED, needs=padding_of_length)
def one_pad_left_out(draft, rng):
    place = padded_piece(draft, rng, 2)
    draft.pieces[place] = draft.pieces[place][:-1]


def with_spare_bits(piece, pads, rng):
    letters = piece.rstrip(b"=")
    last = ALPHABET.index(letters[-1:])
    return letters[:-1] + ALPHABET[last | rng.randrange(1, 4 ** pads):][:1] + b"=" * pads


@fault("base64: spare bits under one pad of a field", 4, "pieces", VALUED)
def spare_bits_one_pad(draft, rng):
    place = padded_piece(draft, rng, 1)
    draft.pieces[place] = with_spare_bits(draft.pieces[place], 1, rng)


@fault("base64: spare bits under two pads of a field", 4, "pieces", VALUED, needs=padding_of_length)
def spare_bits_two_pads(draft, rng):
    place = padded_piece(draft, rng, 2)
    draft.pieces[place] = with_spare_bits(draft.pieces[place], 2, rng)


@fault("base64: blank after the colon", 4, "pieces", VALUED)
def blank_after_colon(draft, rng):
    place = rng.randrange(len(draft.pieces))
    draft.pieces[place] = draft.pieces[place].replace(b":", b": ", 1)


@fault("base64: a known key with an empty value", 4, "pieces", VALUED)
def known_key_empty(draft, rng):
    place = rng.randrange(len(draft.pieces))
    draft.pieces[place] = draft.pieces[place].split(b":")[0] + b":"


@fault("base64: eah padding left out", 4, "pieces", needs=lambda d: d.order_extra(b"X-Dealer"))
def eah_padding_left_out(draft, rng):
    draft.set_text(b"eah", lambda text: text.rstrip(b"="))


@fault("base64: eah empty", 4, "pieces", needs=extras)
def eah_empty(draft, rng):
    draft.set_text(b"eah", lambda text: b"")


# Contents of the known keys, first in the request they belong to


def small_times(draft):
    """Numbers below 2^24, which leave room for a leading zero byte."""
    draft.at(5_000)
    draft.aged(10)
    draft.lt = draft.t - 1
    draft.order(request_life=0, idle=0)


def small_nonce(draft):
    draft.order_nonces()
    draft.no_window()
    draft.n = 5


NUMBER_NEEDS = {b"t": small_times, b"lt": small_times, b"n": small_nonce}


def bad_number(name, change):
    for key, needs in NUMBER_NEEDS.items():

        @fault(f"{key.decode()}: {name}", 4, "fields", needs=needs)
        def alter(draft, rng, key=key):
            draft.set_field(key, change(dict(draft.fields).get(key, b"\5")))


bad_number("a leading zero byte", lambda run: b"\0" + run)
bad_number("four bytes with leading zeros", lambda run: bytes(4 - len(run)) + run)
bad_number("two zero bytes", lambda run: b"\0\0")
bad_number("five bytes", lambda run: b"\1\0\0\0\0")
bad_number("five bytes with leading zeros", lambda run: bytes(5)[len(run):] + run)
bad_number("eight bytes", lambda run: bytes(8 - len(run)) + run)

BAD_MASKS = {
    "only a length byte 0": b"\0",
    "only a length byte 1": b"\1",
    "no length byte": b"\4",
    "length byte 0 before a byte": b"\0\4",
    "length byte too high": b"\2\4",
    "length byte too low": b"\1\4\4",
    "a leading zero byte": b"\2\0\4",
    "two zero bytes": b"\2\0\0",
    "little-endian with closing zeros": b"\2\4\0\0",
    "nine bytes": b"\x09\1\0\0\0\0\0\0\0\4",
    "nine bytes under length 8": b"\x08\1\0\0\0\0\0\0\0\4",
    "length byte 255": b"\xff\4",
    "eight bytes, the first zero": b"\x08\0\1\0\0\0\0\0\4",
}

for bad_name, bad_run in BAD_MASKS.items():
    for mask_key in (b"h", b"ah"):

        @fault(f"{mask_key.decode()}: {bad_name}", 4, "fields")
        def alter_mask(draft, rng, key=mask_key, run=bad_run):
            draft.set_field(key, run)

    @fault(f"r: {bad_name}", 4, "fields", ("setup",))
    def alter_offer(draft, rng, run=bad_run):
        draft.set_field(b"r", run)


@fault("ah: the ordered mask with a leading zero byte", 4, "fields")
def ah_leading_zero(draft, rng):
    ah = dict(draft.fields).get(b"ah", b"\1\1")
    draft.set_field(b"ah", bytes([ah[0] + 1, 0]) + ah[1:])


def lengthened(run, length):
    return (run + bytes(length))[:length]


BAD_LENGTHS = {b"c": (1, 20, 31, 33, 48, 63, 65, 128), b"iv": (1, 8, 11, 13, 16), b"tag": (1, 4, 12, 15, 17), b"s": (119, 120, 374)}

for sized_key, bad_lengths in BAD_LENGTHS.items():
    for bad_length in bad_lengths:

        @fault(f"{sized_key.decode()}: {bad_length} bytes", 4, "signed")
        def alter_length(draft, rng, key=sized_key, length=bad_length):
            draft.set_field(key, lengthened(dict(draft.fields).get(key, b""), length))


# The same rules where the key is foreign, or a second copy: still 4, before the wrong set of fields

BAD_CONTENTS = {
    b"t": b"\0\5",
    b"lt": b"\1\0\0\0\0",
    b"n": b"\0\0",
    b"h": b"\2\0\4",
    b"ah": b"\0",
    b"r": b"\2\4",
    b"c": bytes(48),
    b"iv": bytes(13),
    b"tag": bytes(15),
    b"s": bytes(119),
}

GOOD_CONTENTS = {
    b"t": b"\5",
    b"lt": b"\0",
    b"n": b"\1\0\0\0",
    b"h": b"\1\4",
    b"ah": b"\1\0",
    b"r": b"\1\4",
    b"c": bytes(64),
    b"iv": bytes(12),
    b"tag": bytes(16),
    b"s": bytes(118),
}

for any_key, contents in BAD_CONTENTS.items():

    @fault(f"a further {any_key.decode()} with bad contents", 4, "pieces", VALUED)
    def add_bad(draft, rng, key=any_key, contents=contents):
        draft.pieces.insert(rng.randint(0, len(draft.pieces)), client.piece(key, contents))


for any_key, contents in GOOD_CONTENTS.items():

    @fault(f"a further {any_key.decode()} with good contents", 5, "pieces", VALUED)
    def add_good(draft, rng, key=any_key, contents=contents):
        draft.pieces.insert(rng.randint(0, len(draft.pieces)), client.piece(key, contents))


# Good numbers at their ends


@fault("t: one zero byte", 0, "plan")
def t_zero(draft, rng):
    draft.at(50)
    draft.order(request_life=0)
    draft.t, draft.lt = 0, 0


@fault("lt: one zero byte", 0, "plan")
def lt_zero(draft, rng):
    draft.at(250)
    draft.order(request_life=0, idle=0)
    draft.t, draft.lt = 200, 0


@fault("t and lt of four bytes 255", 0, "plan")
def t_highest(draft, rng):
    draft.at(4_294_967_295 - rng.randint(1, 30))
    draft.t = draft.lt = 4_294_967_295


@fault("n of each length", 0, "plan", needs=nonces)
def n_of_each_length(draft, rng):
    draft.no_window()
    draft.n = rng.choice([0, 255, 256, 65_535, 65_536, 16_777_215, 16_777_216, 4_294_967_295])
