"""Coverage and hash: document 01, number 8, and document 02, K2."""

from client import encoded_mask
from faults.hashes import AFTER_THE_SESSION, BEFORE_THE_TOKEN
from sentences.placing import coverage, kept, not_allowed, otherwise
from sentences.values import GOOD, WITH_EXTRA, WITH_NONCE, having, value, without


def cases():
    yield "an h that isn't one allowed bit, or a c not of its length, is 8 in its old place (document 02, K2)"
    for hashes in (1, 4, 5):
        for h in (0, 1, 2, 4, 5, 6, 12, 1 << 8, 1 << 10, 1 << 63):
            yield coverage, 2, hashes, b"", having(GOOD, h=encoded_mask(h))
            yield coverage, 2, hashes, b"", having(GOOD, h=encoded_mask(h), c=bytes(32))
    for h in (1, 4):
        for beside in BEFORE_THE_TOKEN:
            yield not_allowed, h, *beside
    yield "an h other than the record's is 8 directly after 12 (document 02, K2)"
    for h in (1, 4):
        for beside in AFTER_THE_SESSION:
            yield otherwise, h, *beside
    yield "a used record that keeps neither hash is 3 (document 02, K2)"
    for byte in range(256):
        yield kept, 4, byte
    for byte in (0, 1, 2, 3, 4, 5, 129, 255):
        yield kept, 1, byte
    yield "ah or eah other than ordered, byte for byte; eah missing with extra names ordered, or carried without"
    for own in (0, 2, 3, 4, 6, 258, 1 << 55, 1 << 56, (1 << 64) - 1):
        fields = {**GOOD, b"n": b"\5"} if own & 1 else GOOD
        for ordered in (0, 2, 3, 1 << 55, (1 << 56) - 1):
            yield coverage, ordered, 5, b"", having(fields, ah=encoded_mask(own))
    yield coverage, (1 << 56) - 1, 5, b"", having(WITH_NONCE, ah=encoded_mask((1 << 56) - 1))
    yield coverage, 2, 5, b"", value(WITH_EXTRA)
    yield coverage, 2, 5, b"X-Dealer,X-Farm", value(GOOD)
    yield "byte for byte: eah is compared with the orders' own bytes"
    longest = b"X-" + b"n" * 126
    for ordered in (b"X-Dealer,X-Farm", b"X-Farm,X-Dealer", b"x-dealer,X-Farm", b"X-Dealer,X-Far", b"X-Dealer,X-Farms", b"X-Dealer", b"Y-Dealer,X-Farm", longest):
        yield coverage, 2, 5, ordered, value(WITH_EXTRA)
    for own in (longest, longest + b"n", longest[:-1], longest[:-1] + b"m", b"Y" + longest[1:], longest * 3, b"q", b"\0", b","):
        yield coverage, 2, 5, longest, having(GOOD, eah=own)
    for size in range(1, 10):
        yield coverage, 2, 5, b"q" * size, having(GOOD, eah=b"q" * size)
        yield coverage, 2, 5, b"q" * size, having(GOOD, eah=b"q" * (size - 1) + b"r")
    yield "The lowest number that holds: the checks before"
    yield coverage, 1 << 56, 5, b"", value(GOOD)
    yield coverage, 2, 5, b"q,", value(GOOD)
    yield coverage, 2, 5, b"", value(GOOD) + b";;"
    yield coverage, 2, 5, b"", without(GOOD, b"h")
