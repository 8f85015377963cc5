"""Refusal 3 and its edges: tables that aren't well formed. All three calls, and the making of an index, look at every record."""

import hashing
import model
import record as rec
from faults.catalogue import TABLED, fault

OTHER_IV = b"another iv.."


def put_elsewhere(draft, record):
    """Into a record that isn't the session's."""
    draft.put(draft.spare(), record)


def elsewhere(name, number, record):
    """A record beside the session's own holds this."""

    @fault(name, number, "lent", TABLED)
    def alter(draft, rng):
        put_elsewhere(draft, record)


USED = rec.Record(1, OTHER_IV, 2_000_000_000, 1, 100, 1, hashing.SHA_512)

elsewhere("used mark 2", 3, USED._replace(used=2))
elsewhere("used mark 255", 3, USED._replace(used=255))
elsewhere("used mark 2 on zeros", 3, rec.FREE._replace(used=2))
elsewhere("nonce mark 2", 3, USED._replace(begun=2))
elsewhere("nonce mark 255, no nonce", 3, USED._replace(begun=255, highest=0, bits=0))
elsewhere("free record with an IV", 3, rec.FREE._replace(iv=bytes(11) + b"\1"))
elsewhere("free record with an expiry", 3, rec.FREE._replace(expiry=1))
elsewhere("free record with a high expiry", 3, rec.FREE._replace(expiry=1 << 31))
elsewhere("free record with a nonce mark", 3, rec.FREE._replace(begun=1))
elsewhere("free record with a nonce mark and bit", 3, rec.FREE._replace(begun=1, bits=1))
elsewhere("free record with a highest nonce", 3, rec.FREE._replace(highest=1))
elsewhere("free record with the lowest bit", 3, rec.FREE._replace(bits=1))
elsewhere("free record with the top bit", 3, rec.FREE._replace(bits=1 << 63))
elsewhere("no nonce yet, but a highest", 3, USED._replace(begun=0, highest=7, bits=0))
elsewhere("no nonce yet, but bits", 3, USED._replace(begun=0, highest=0, bits=1))
elsewhere("no nonce yet, but the top bit", 3, USED._replace(begun=0, highest=0, bits=1 << 63))
elsewhere("a nonce, but no bits", 3, USED._replace(bits=0))
elsewhere("a nonce, but the lowest bit clear", 3, USED._replace(bits=(1 << 64) - 2))

NO_HASH = (0, 2, 3, 5, 6, 8, 65, 132, 255)

for no_hash in NO_HASH:
    elsewhere(f"used record with hash {no_hash}", 3, USED._replace(hash=no_hash))
for stray_hash in (1, 4, 128):
    elsewhere(f"free record with hash {stray_hash}", 3, rec.FREE._replace(hash=stray_hash))

elsewhere("used record with SHA-256", 0, USED._replace(hash=hashing.SHA_256))
elsewhere("used record with an IV of zeros", 0, USED._replace(iv=bytes(12)))
elsewhere("used record with expiry 0", 0, USED._replace(expiry=0))
elsewhere("used record with the last expiry", 0, USED._replace(expiry=model.HIGHEST))
elsewhere("bits for nonces below 0", 0, USED._replace(highest=5, bits=1 << 40 | 1))
elsewhere("all bits set", 0, USED._replace(highest=model.HIGHEST, bits=(1 << 64) - 1))
elsewhere("highest nonce 0", 0, USED._replace(highest=0, bits=1))


@fault("free record with one stray byte", 3, "lent", TABLED)
def free_with_stray_byte(draft, rng):
    run = bytearray(rec.SIZE)
    run[rng.randrange(1, rec.SIZE)] = rng.randint(1, 255)
    put_elsewhere(draft, rec.from_bytes(bytes(run)))


@fault("last record malformed", 3, "lent", TABLED)
def last_malformed(draft, rng):
    last = len(draft.table) // rec.SIZE - 1
    draft.put(last, rec.record_at(draft.table, last)._replace(begun=3))


@fault("two used records with one IV", 3, "lent", TABLED)
def twins(draft, rng):
    first = draft.spare()
    draft.put(first, USED)
    draft.table += rec.to_bytes(USED._replace(expiry=model.HIGHEST, begun=0, highest=0, bits=0))


@fault("two used records with one IV, both expired", 3, "lent", TABLED)
def expired_twins(draft, rng):
    draft.put(draft.spare(), USED._replace(expiry=0))
    draft.table += rec.to_bytes(USED._replace(expiry=0))


@fault("two used records of 64 with one IV", 3, "lent", TABLED)
def twins_anywhere(draft, rng):
    records = [rec.fresh(rng.randbytes(12), rng.getrandbits(32)) for _ in range(64)]
    one, other = rng.sample(range(64), 2)
    records[one] = rec.fresh(records[other].iv, 5)
    draft.table = rec.table_of(records)


@fault("session's IV in a second record", 3, "lent", ("judge", "end"))
def own_twin(draft, rng):
    put_elsewhere(draft, rec.fresh(draft.iv, model.HIGHEST))


@fault("IV of setup in two used records", 3, "lent", ("setup",))
def setup_iv_twice(draft, rng):
    draft.table = rec.table_of([rec.fresh(draft.iv, 5), rec.FREE, rec.fresh(draft.iv, model.HIGHEST)])


def own_record(name, number, change, on=("judge", "one", "end")):
    """The session's own record is altered."""

    @fault(f"own record: {name}", number, "lent", on)
    def alter(draft, rng):
        draft.put(draft.place, change(draft.own()))


own_record("used mark 2", 3, lambda own: own._replace(used=2))
own_record("free, but not zeros", 3, lambda own: own._replace(used=0))
own_record("nonce mark 2", 3, lambda own: own._replace(begun=2))
own_record("no nonce yet, but bits", 3, lambda own: own._replace(begun=0, highest=0, bits=1))
own_record("no nonce yet, but a highest", 3, lambda own: own._replace(begun=0, highest=9, bits=0))
own_record("lowest bit clear", 3, lambda own: own._replace(begun=1, bits=1 << 63))
for no_hash in NO_HASH:
    own_record(f"hash {no_hash}", 3, lambda own, hash=no_hash: own._replace(hash=hash))
own_record("expiry 0", 0, lambda own: own._replace(expiry=0))
own_record("last expiry", 0, lambda own: own._replace(expiry=model.HIGHEST))


@fault("bits of own window for nonces below 0", 0, "plan", ("judge", "one"))
def own_bits_below_zero(draft, rng):
    draft.window(5, 1 << 40 | 1)
    draft.n = rng.choice([0, 4, 6, 40, 69, 70])


@fault("a later record malformed", 0, "lent", ("one",))
def later_malformed(draft, rng):
    draft.table += rec.to_bytes(USED._replace(used=7))


@fault("own IV in a later record", 0, "lent", ("one",))
def later_twin(draft, rng):
    draft.table += rec.to_bytes(rec.fresh(draft.iv, model.HIGHEST))
