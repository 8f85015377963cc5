"""What a request that one check refuses is paired with, to show that check's place among those from the token on."""

import hashing
import record as rec
from faults.catalogue import fault


def nothing_else(draft):
    """The other fault by itself."""


def token_altered(draft):
    draft.set_field(b"tag", bytes(16))


def token_expired(draft):
    draft.expiry = draft.clock


def token_expired_no_record(draft):
    token_expired(draft)
    no_record(draft)


def code_altered(draft):
    draft.set_field(b"c", bytes(hashing.size(draft.hash)))


def no_record(draft):
    draft.put(draft.place, rec.FREE)


def idle(draft):
    draft.order(idle=1)
    draft.gap(2)


def too_old(draft):
    draft.order(request_life=1)
    draft.aged(2)


def too_far_ahead(draft):
    draft.ahead(31)


def nonce_far_back(draft):
    draft.order_nonces()
    draft.window(100, 1)
    draft.n = 36


def nonce_seen(draft):
    draft.order_nonces()
    draft.window(100, 1)
    draft.n = 100


def beside(name, needs, also, on=None, late=False):
    """Faults that need this, each with something else: what that is, the number that comes first, and the stage."""
    for other, number, at in also:

        @fault(f"{name}, {other.__name__.replace('_', ' ')}", number, at, on, needs=needs, late=late and number == 8)
        def alter(draft, rng, other=other):
            other(draft)
