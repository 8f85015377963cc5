"""Refusals 12 and 17 to 20 and their edges: records missing, taken, full or reused; a setup's offer and its expiry."""

import client
import hashing
import model
import record as rec
from faults.catalogue import JUDGED, fault

HIGHEST = model.HIGHEST
OTHER_IV = b"another iv.."

# 12: 'no used record with this IV'


@fault("session's record freed", 12, "plan", ("judge", "one", "end"))
def record_freed(draft, rng):
    draft.put(draft.place, rec.FREE)


@fault("another IV in the session's record", 12, "plan", ("judge", "one", "end"))
def record_other_iv(draft, rng):
    draft.put(draft.place, draft.own()._replace(iv=draft.iv[:11] + bytes([draft.iv[11] ^ 1])))


@fault("a request with the IV of zeros and free records", 12, "plan", JUDGED)
def zero_iv(draft, rng):
    """The zeros of a free record are no IV."""
    draft.iv = bytes(12)
    draft.put(draft.place, rec.FREE)


@fault("an IV of zeros to end and free records", 12, "plan", ("end",))
def zero_iv_to_end(draft, rng):
    draft.iv = bytes(12)
    draft.put(draft.place, rec.FREE)


@fault("a token for an IV that never was set up", 12, "plan", JUDGED)
def unknown_iv(draft, rng):
    draft.iv = rng.randbytes(12)


@fault("a used record with the IV of zeros", 0, "plan", ("judge", "one", "end"))
def used_zero_iv(draft, rng):
    draft.iv = bytes(12)
    draft.put(draft.place, draft.own()._replace(iv=bytes(12)))


@fault("session in the last of 64 records", 0, "plan", ("judge", "end"))
def last_of_64(draft, rng):
    """The others have IVs that differ from it in one byte."""
    own = draft.own()
    others = [rec.fresh(place.to_bytes(1, "big") + own.iv[1:], 5) for place in range(256) if place != own.iv[0]]
    draft.table = rec.table_of(others[:63] + [own])
    draft.place = 63


@fault("an expired session to end", 0, "plan", ("end",))
def expired_to_end(draft, rng):
    draft.put(draft.place, draft.own()._replace(expiry=0))


# 19: 'no hash in common'. A client's mask, and those of the allowed ones with which it has one in common

OFFERS = {
    b"\1\0": (),
    b"\1\1": (1, 5),
    b"\1\2": (),
    b"\1\3": (1, 5),
    b"\1\4": (4, 5),
    b"\1\5": (1, 4, 5),
    b"\1\6": (4, 5),
    b"\1\xfa": (),
    b"\1\xfb": (1, 5),
    b"\1\xfe": (4, 5),
    b"\1\xff": (1, 4, 5),
    b"\2\1\0": (),
    b"\2\4\0": (),
    b"\2\1\4": (4, 5),
    b"\2\4\1": (1, 5),
    b"\x08\5" + bytes(7): (),
    b"\x08" + b"\xff" * 7 + b"\xfa": (),
    b"\x08" + b"\xff" * 8: (1, 4, 5),
    b"\x08\x80\0\0\0\0\0\0\1": (1, 5),
    b"\x08\x80\0\0\0\0\0\0\4": (4, 5),
}

for offer_run, in_common in OFFERS.items():
    for allowed_hashes in (hashing.SHA_256, hashing.SHA_512, hashing.BOTH):
        offer_number = 0 if allowed_hashes in in_common else 19

        @fault(f"offer {offer_run.hex()} where {allowed_hashes} is allowed", offer_number, "plan", ("setup",))
        def offer(draft, rng, run=offer_run, allowed=allowed_hashes):
            draft.offer = run
            draft.order(hashes=allowed)


# 20: 'expiry would pass 4,294,967,295'


def ends(name, number, life, clock):
    @fault(name, number, "plan", ("setup",))
    def alter(draft, rng):
        draft.order(session_life=life)
        draft.clock = clock


ends("expiry at the end of time", 0, 5_000, HIGHEST - 5_000)
ends("expiry one past the end of time", 20, 5_000, HIGHEST - 4_999)
ends("default life to the end of time", 0, 0, HIGHEST - 1_209_600)
ends("default life one past the end of time", 20, 0, HIGHEST - 1_209_599)
ends("longest life to the end of time", 0, 2_592_000, HIGHEST - 2_592_000)
ends("longest life one past the end of time", 20, 2_592_000, HIGHEST - 2_591_999)
ends("clock at the end of time, life 1", 20, 1, HIGHEST)
ends("clock one before the end of time, life 1", 0, 1, HIGHEST - 1)
ends("clock 0, life 1", 0, 1, 0)
ends("clock at the end of time", 20, 0, HIGHEST)


# 17: 'IV already in a used record'


@fault("setup with a used IV", 17, "plan", ("setup",))
def used_iv(draft, rng):
    draft.put(draft.spare(), rec.fresh(draft.iv, HIGHEST))


@fault("setup with the IV of an expired record", 17, "plan", ("setup",))
def expired_iv(draft, rng):
    draft.put(draft.spare(), rec.Record(1, draft.iv, 0, 1, 9, 5, hashing.SHA_512))


@fault("setup with a used IV in a full table", 17, "plan", ("setup",))
def used_iv_in_full_table(draft, rng):
    draft.table = rec.table_of([rec.fresh(OTHER_IV, HIGHEST), rec.fresh(draft.iv, HIGHEST)])


@fault("setup with the IV of the one expired record of a full table", 17, "plan", ("setup",))
def reusable_iv(draft, rng):
    draft.table = rec.table_of([rec.fresh(OTHER_IV, HIGHEST), rec.fresh(draft.iv, 0)])


@fault("setup with the IV of zeros beside free records", 0, "plan", ("setup",))
def zero_iv_setup(draft, rng):
    draft.iv = bytes(12)
    draft.table = rec.table_of([rec.fresh(OTHER_IV, HIGHEST), rec.FREE, rec.FREE])


@fault("setup with an IV that differs in the last byte", 0, "plan", ("setup",))
def near_iv(draft, rng):
    draft.put(draft.spare(), rec.fresh(draft.iv[:11] + bytes([draft.iv[11] ^ 1]), HIGHEST))


# 18: 'no free record, and none whose expiry is at or before now', and which record a setup takes


def full(draft, rng, expiries):
    """A table with no free record and these expiries."""
    known = list(hashing.FUNCTIONS)
    draft.table = rec.table_of([rec.Record(1, rng.randbytes(12), expiry, 1, 70, 3, rng.choice(known)) for expiry in expiries])


def full_table(name, number, expiries):
    """Expiries as seconds from now."""

    @fault(name, number, "plan", ("setup",))
    def alter(draft, rng):
        draft.clock = max(10, draft.clock)
        full(draft, rng, [min(draft.clock + seconds, HIGHEST) for seconds in expiries])


full_table("full table of one", 18, [1])
full_table("full table of three", 18, [1, 100, 5_000])
full_table("full table of 64", 18, [1] * 64)
full_table("full table, one expires now", 0, [1, 0, 100])
full_table("full table of one, expired", 0, [-1])
full_table("full table, lowest place and not lowest expiry", 0, [100, -1, -5, 0])
full_table("full table of 64, the last expired", 0, [9] * 63 + [0])
full_table("full table, all expired", 0, [-3, -2, -10])


@fault("an expired record before a free one", 0, "plan", ("setup",))
def expired_before_free(draft, rng):
    draft.table = rec.table_of([rec.fresh(OTHER_IV, 0), rec.fresh(b"a third iv..", HIGHEST), rec.FREE, rec.FREE])


@fault("a free record between used ones", 0, "plan", ("setup",))
def free_between(draft, rng):
    draft.table = rec.table_of([rec.fresh(OTHER_IV, HIGHEST), rec.FREE, rec.fresh(b"a third iv..", 0), rec.FREE])


@fault("only the last of 64 records free", 0, "plan", ("setup",))
def last_free(draft, rng):
    full(draft, rng, [0] * 63)
    draft.table += rec.to_bytes(rec.FREE)


@fault("offer in a value with a closing semicolon", 0, "value", ("setup",))
def closing_semicolon(draft, rng):
    draft.value = client.setup_value(rng.choice([5, 7, 0xFF05])) + b";"
