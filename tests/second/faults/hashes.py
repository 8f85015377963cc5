"""Refusal 8 for the hash (document 02, K2).

'An h that isn't one allowed bit, or a c not of its length, is 8 in its old place; an h other than the record's is 8
directly after 12.' What has the right code for the h that it carries is refused by the rule under test alone.
"""

import hashing
from faults.beside import (
    beside,
    code_altered,
    idle,
    no_record,
    nonce_far_back,
    nonce_seen,
    nothing_else,
    token_altered,
    token_expired,
    token_expired_no_record,
    too_far_ahead,
    too_old,
)
from faults.catalogue import JUDGED, both_hashes, fault, sha_256, sha_512

# In its old place

NO_HASH = (b"\1\0", b"\1\2", b"\1\3", b"\1\5", b"\1\6", b"\1\x08", b"\1\xff", b"\2\1\0", b"\2\4\0", b"\2\1\1", b"\2\1\4")

for other_h in (*NO_HASH, b"\x08\x80\0\0\0\0\0\0\1", b"\x08\x80\0\0\0\0\0\0\4"):

    @fault(f"h {other_h.hex()}", 8, "fields", needs=both_hashes)
    def no_hash(draft, rng, run=other_h):
        draft.set_field(b"h", run)


def other_code(name, needs, change):
    @fault(f"c not of h's length: {name}", 8, "signed", needs=needs)
    def alter(draft, rng):
        draft.set_field(b"c", change(draft))


other_code("the first 32 bytes of SHA-512", sha_512, lambda d: dict(d.fields).get(b"c", bytes(32))[:32])
other_code("SHA-256 under h 4", sha_512, lambda d: hashing.code(hashing.SHA_256, d.key, d.text))
other_code("SHA-256 twice over under h 1", sha_256, lambda d: 2 * dict(d.fields).get(b"c", bytes(32)))
other_code("SHA-512 under h 1", sha_256, lambda d: hashing.code(hashing.SHA_512, d.key, d.text))


BEFORE_THE_TOKEN = (
    (nothing_else, 8, "plan"),
    (token_altered, 8, "signed"),
    (token_expired, 8, "plan"),
    (code_altered, 8, "signed"),
    (no_record, 8, "plan"),
)


def one_allowed(draft, own, allowed):
    own(draft)
    draft.order(hashes=allowed)


beside("h 1 where SHA-512 alone is allowed", lambda d: one_allowed(d, sha_256, hashing.SHA_512), BEFORE_THE_TOKEN, JUDGED)
beside("h 4 where SHA-256 alone is allowed", lambda d: one_allowed(d, sha_512, hashing.SHA_256), BEFORE_THE_TOKEN, JUDGED)


# Against the record

AFTER_THE_SESSION = (
    (nothing_else, 8, "plan"),
    (token_altered, 9, "signed"),
    (token_expired, 10, "plan"),
    (token_expired_no_record, 10, "plan"),
    (code_altered, 11, "signed"),
    (no_record, 12, "plan"),
    (idle, 8, "plan"),
    (too_old, 8, "plan"),
    (too_far_ahead, 8, "plan"),
    (nonce_far_back, 8, "plan"),
    (nonce_seen, 8, "plan"),
)


def signed_otherwise(draft, own):
    own(draft)
    draft.hash ^= hashing.BOTH


beside("SHA-256 in a session of SHA-512", lambda d: signed_otherwise(d, sha_512), AFTER_THE_SESSION, JUDGED, late=True)
beside("SHA-512 in a session of SHA-256", lambda d: signed_otherwise(d, sha_256), AFTER_THE_SESSION, JUDGED, late=True)


def record_otherwise(name, needs):
    @fault(f"record with the other hash, {name}", 8, "lent", needs=needs, late=True)
    def alter(draft, rng):
        draft.put(draft.place, draft.own()._replace(hash=draft.hash ^ hashing.BOTH))


record_otherwise("both allowed", both_hashes)
record_otherwise("which is not allowed", lambda d: d.order(hashes=d.hash))


# Sessions of SHA-256 to their end

beside("a session of SHA-256", sha_256, ((nothing_else, 0, "plan"), (token_expired, 10, "plan"), (idle, 13, "plan")))
