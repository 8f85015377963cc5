"""Refusal 5: 'A request carries s, c, t, lt, h, ah, iv, tag, each once; eah or not; n exactly if …'"""

import client
from faults.catalogue import REQUEST, VALUED, extras, fault, no_nonces, nonces

MUST = (b"s", b"c", b"t", b"lt", b"h", b"ah", b"iv", b"tag")

for must_key in MUST:

    @fault(f"{must_key.decode()} missing", 5, "signed")
    def missing(draft, rng, key=must_key):
        draft.drop_field(key)

    @fault(f"{must_key.decode()} twice, equal", 5, "signed")
    def twice(draft, rng, key=must_key):
        draft.add_field(rng, key, dict(draft.fields).get(key, b"\1\4"))

    @fault(f"{must_key.decode()} under a key in upper case", 5, "pieces")
    def upper(draft, rng, key=must_key):
        draft.pieces = [key.upper() + p[len(key):] if p.startswith(key + b":") else p for p in draft.pieces]


@fault("eah twice, equal", 5, "signed", needs=extras)
def eah_twice(draft, rng):
    draft.add_field(rng, b"eah", draft.orders.extra)


@fault("eah twice, one other", 5, "signed", needs=extras)
def eah_twice_other(draft, rng):
    draft.add_field(rng, b"eah", b"X-Other")


@fault("n twice, equal", 5, "signed", needs=nonces)
def n_twice(draft, rng):
    draft.add_field(rng, b"n", client.encoded_number(draft.n))


@fault("n missing", 5, "fields", needs=nonces)
def n_missing(draft, rng):
    draft.drop_field(b"n")


@fault("n carried without bit 0", 5, "fields", needs=no_nonces)
def n_unwanted(draft, rng):
    draft.add_field(rng, b"n", b"\5")


@fault("own ah without the ordered bit 0, n carried", 5, "fields", needs=nonces)
def own_ah_drops_nonce_n_carried(draft, rng):
    draft.set_field(b"ah", client.encoded_mask(draft.orders.mask & ~1))


@fault("own ah with bit 0 not ordered, n missing", 5, "fields", needs=no_nonces)
def own_ah_adds_nonce_n_missing(draft, rng):
    draft.set_field(b"ah", client.encoded_mask(draft.orders.mask | 1))


def further(name, key, contents, on=VALUED):
    @fault(f"further field: {name}", 5, "pieces", on)
    def alter(draft, rng):
        draft.pieces.insert(rng.randint(0, len(draft.pieces)), client.piece(key, contents))


further("kh of 32 bytes", b"kh", bytes(32))
further("kh of one byte", b"kh", b"\0")
further("i", b"i", bytes(64))
further("c of 32 bytes", b"c", bytes(32))
further("x", b"x", b"\1\2\3")
further("r", b"r", b"\1\4")
further("eah in a setup", b"eah", b"X-Farm", ("setup",))
further("T of five bytes", b"T", bytes(5))
further("C of one byte", b"C", b"\0")
further("EAH", b"EAH", b"X-Farm")
further("R", b"R", b"\0")
further("a key of one blank", b" ", b"\0")
further("a key of one NUL", b"\0", b"\0")
further("a key of byte 255", b"\xff", b"\0")
further("a key with a pad", b"t=", b"\0")
further("a key with CR LF", b"t\r\n", b"\0")
further("a long key", b"k" * 300, b"\0")


@fault("r missing", 5, "fields", ("setup",))
def r_missing(draft, rng):
    draft.fields = [(rng.choice([b"R", b"h", b" r", b"rr"]), b"\1\4")]


@fault("a request's fields in a setup", 5, "fields", ("setup",))
def request_in_setup(draft, rng):
    draft.fields += [(b"s", bytes(90)), (b"iv", draft.iv), (b"tag", bytes(16)), (b"h", b"\1\4"), (b"ah", b"\1\2")]


@fault("a setup's field in place of all", 5, "signed", REQUEST)
def setup_in_request(draft, rng):
    draft.fields = [(b"r", b"\1\4")]
