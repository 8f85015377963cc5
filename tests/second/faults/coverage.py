"""Refusal 8: 'ah or eah other than ordered, byte for byte'. The request signs the coverage that it chose itself."""

import client
from faults.catalogue import extras, fault, no_extras, no_nonces, nonces


def other_field(name, key, change, needs):
    @fault(name, 8, "fields", needs=needs)
    def alter(draft, rng):
        draft.set_field(key, change(draft))


def nothing_special(draft):
    draft.order(mask=draft.orders.mask | 2)


other_field("ah with a name less", b"ah", lambda d: client.encoded_mask(d.orders.mask & ~2), nothing_special)
other_field("ah with bit 55 more", b"ah", lambda d: client.encoded_mask(d.orders.mask ^ 1 << 55), nothing_special)
other_field("ah with bit 56 more", b"ah", lambda d: client.encoded_mask(d.orders.mask | 1 << 56), nothing_special)
other_field("ah with bit 63 more", b"ah", lambda d: client.encoded_mask(d.orders.mask | 1 << 63), nothing_special)
other_field("ah covers nothing", b"ah", lambda d: client.encoded_mask(d.orders.mask & 1), nothing_special)
other_field("ah with its bytes turned round", b"ah", lambda d: b"\2\1\3", lambda d: d.order(mask=0x0301))


@fault("ah without the ordered bit 0, n missing too", 8, "fields", needs=nonces)
def nonce_left_out(draft, rng):
    draft.set_field(b"ah", client.encoded_mask(draft.orders.mask & ~1))
    draft.drop_field(b"n")


@fault("ah with bit 0 not ordered, n carried too", 8, "fields", needs=no_nonces)
def nonce_brought(draft, rng):
    draft.set_field(b"ah", client.encoded_mask(draft.orders.mask | 1))
    draft.add_field(rng, b"n", b"\5")


@fault("eah missing with extra names ordered", 8, "fields", needs=extras)
def eah_missing(draft, rng):
    draft.drop_field(b"eah")


@fault("eah carried without extra names", 8, "fields", needs=no_extras)
def eah_unwanted(draft, rng):
    draft.add_field(rng, b"eah", rng.choice([b"X-Farm", b"\0", b","]))


other_field("eah in other case", b"eah", lambda d: b"X-Dealer,x-farm", extras)
other_field("eah in other order", b"eah", lambda d: b"X-Farm,X-Dealer", extras)
other_field("eah with a name less", b"eah", lambda d: b"X-Dealer", extras)
other_field("eah with a name more", b"eah", lambda d: b"X-Dealer,X-Farm,q", extras)
other_field("eah with a closing comma", b"eah", lambda d: b"X-Dealer,X-Farm,", extras)
other_field("eah of one other byte", b"eah", lambda d: b"X-Dealer,X-Farn", extras)
other_field("eah of bytes that no name has", b"eah", lambda d: b"\0", extras)
