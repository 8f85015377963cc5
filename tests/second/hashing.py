"""The two hashes that the gate has, each known by its mask (Table 5.1 in document 001), and HMAC under them."""

import hashlib
import hmac

SHA_256 = 1
SHA_512 = 4
BOTH = SHA_256 | SHA_512

FUNCTIONS = {SHA_512: hashlib.sha512, SHA_256: hashlib.sha256}  # the longest first


def longest(mask):
    """The longest hash that this mask has, or None."""
    return next((known for known in FUNCTIONS if known & mask), None)


def size(known):
    """Of its digests and codes, in bytes."""
    return FUNCTIONS[known]().digest_size


SIZES = [size(known) for known in FUNCTIONS]


def code(known, key, text):
    return hmac.new(key, text, FUNCTIONS[known]).digest()
