"""Refusal 22 and what stands about it (document 02, K7): 'an index that doesn't fit its table is refused, never repaired silently'.

Only gate_index makes an index anew, whatever stands in its place: what is 22 in the three calls is an edge there.
"""

import hashing
import model
import record as rec
from faults.beside import beside, idle, no_record, nonce_far_back, nonce_seen, nothing_else, token_expired, too_far_ahead, too_old
from faults.catalogue import INDEXED, TABLED, fault, nothing, sha_256
from faults.tables import USED, put_elsewhere

HIGHEST = model.HIGHEST
NO_PLACE = rec.NO_PLACE
LOWEST_IV, HIGHEST_IV = bytes(12), b"\xff" * 12
FALLING = tuple(bytes([byte]) * 12 for byte in (0xE0, 0x80, 0x7F))


def several(draft):
    """Three used records by falling IV, and two free ones, so that no order but the one by IV is right by chance."""
    draft.table += rec.table_of([*(rec.fresh(iv, HIGHEST) for iv in FALLING), rec.FREE, rec.FREE])


def places_of(draft, *ivs):
    """Of the used records with these IVs."""
    return [place for place, record in enumerate(rec.records_of(draft.table)) if record.used == 1 and record.iv in ivs]


def exchange(draft, *ivs):
    """The entries of the two records with these IVs."""
    places = places_of(draft, *ivs)
    other = dict(zip(places, reversed(places)))
    draft.index = rec.index_of([other.get(entry, entry) for entry in rec.entries_of(draft.index)])


def leave_out(draft, places):
    kept = [entry for entry in rec.entries_of(draft.index) if entry not in places]
    draft.index = rec.index_of(kept + [NO_PLACE] * (len(draft.index) // rec.ENTRY - len(kept)))


def misfit(name, alter, needs=several):
    fault(name, 22, "index", INDEXED, needs=needs)(alter)
    fault(f"{name}: made anew", 0, "index", ("index",), needs=needs)(alter)


# The entries altered: what they become, by what they are and by how many of them are places

MISFITS = {
    "the first two entries exchanged": lambda e, used: [e[1], e[0], *e[2:]],
    "the last two entries exchanged": lambda e, used: [*e[:used - 2], e[used - 1], e[used - 2], *e[used:]],
    "the first and the last entry exchanged": lambda e, used: [e[used - 1], *e[1:used - 1], e[0], *e[used:]],
    "an entry missing, FF FF in its place": lambda e, used: [e[0], NO_PLACE, *e[2:]],
    "the first entry missing, FF FF in its place": lambda e, used: [NO_PLACE, *e[1:]],
    "the last entry missing": lambda e, used: [*e[:used - 1], NO_PLACE, *e[used:]],
    "an entry missing, the others moved up": lambda e, used: [e[0], *e[2:], NO_PLACE],
    "an entry twice, once in another's place": lambda e, used: [e[0], e[0], *e[2:]],
    "an entry twice, the others moved on": lambda e, used: [e[0], *e[:-1]],
    "the last entry twice": lambda e, used: [*e[:used], e[used - 1], *e[used + 1:]],
    "a gap before the first entry": lambda e, used: [NO_PLACE, *e[:-1]],
    "a gap before the last entry": lambda e, used: [*e[:used - 1], NO_PLACE, e[used - 1], *e[used + 1:]],
    "the last entry at the end": lambda e, used: [*e[:used - 1], *e[used:], e[used - 1]],
    "each FF FF before the entries": lambda e, used: e[used:] + e[:used],
    "entries by place": lambda e, used: sorted(e[:used]) + e[used:],
    "entries by falling IV": lambda e, used: e[:used][::-1] + e[used:],
    "lowest byte first": lambda e, used: [entry >> 8 | (entry & 255) << 8 for entry in e],
    "places counted from 1": lambda e, used: [entry + 1 for entry in e[:used]] + e[used:],
    "all FF": lambda e, used: [NO_PLACE] * len(e),
    "all zeros": lambda e, used: [0] * len(e),
    "the first entry a free record's place": lambda e, used: [len(e) - 1, *e[1:]],
    "the last entry a free record's place": lambda e, used: [*e[:used - 1], len(e) - 1, *e[used:]],
    "a free record's place after the entries": lambda e, used: [*e[:used], len(e) - 1, *e[used + 1:]],
    "the first entry past the table": lambda e, used: [len(e), *e[1:]],
    "the last entry past the table": lambda e, used: [*e[:used - 1], len(e), *e[used:]],
    "a place past the table after the entries": lambda e, used: [*e[:used], len(e), *e[used + 1:]],
    "the last entry FF FE": lambda e, used: [*e[:used - 1], 0xFFFE, *e[used:]],
    "256 added to an entry": lambda e, used: [e[0] + 256, *e[1:]],
    "the top bit set in an entry": lambda e, used: [*e[:used - 1], e[used - 1] | 0x8000, *e[used:]],
}

for no_place in (0, 0x00FF, 0x7FFF, 0xFEFF, 0xFF00, 0xFFFE):
    MISFITS[f"{no_place:04X} for the first FF FF"] = lambda e, used, other=no_place: [*e[:used], other, *e[used + 1:]]
    MISFITS[f"{no_place:04X} for the last FF FF"] = lambda e, used, other=no_place: [*e[:-1], other]


def alter_entries(draft, change):
    """None, where another fault has left too few of them."""
    entries = rec.entries_of(draft.index)
    used = sum(entry != NO_PLACE for entry in entries)
    if 2 < used < len(entries) - 1:
        draft.index = rec.index_of(change(entries, used))


for misfit_name, misfit_change in MISFITS.items():
    misfit(f"index: {misfit_name}", lambda draft, rng, change=misfit_change: alter_entries(draft, change))


def garbage(draft, rng):
    draft.index = rng.randbytes(len(draft.index))


def one_bit(draft, rng):
    place = rng.randrange(8 * len(draft.index) or 1)
    draft.index = (int.from_bytes(draft.index, "big") ^ 1 << place).to_bytes(len(draft.index) or 1, "big")


misfit("index: garbage", garbage)
misfit("index: one bit altered", one_bit)


# The table altered, and the index left behind


def left_behind(name, iv, change):
    def alter(draft, rng):
        for place in places_of(draft, iv):
            change(draft, place)

    misfit(f"index left behind: {name}", alter)


def moved(draft, place):
    draft.put(place + 3, rec.record_at(draft.table, place))
    draft.put(place, rec.FREE)


for freed_rank, freed_iv in zip(("highest", "middle", "lowest"), FALLING):
    left_behind(f"a record freed, the {freed_rank} of three", freed_iv, lambda draft, place: draft.put(place, rec.FREE))
left_behind("a record set up", FALLING[1], lambda draft, place: draft.put(place + 2, rec.fresh(b"set up since", HIGHEST)))
left_behind("a record with another IV", FALLING[0], lambda draft, place: draft.put(place, rec.fresh(b"\1" * 12, HIGHEST)))
left_behind("a record in another place", FALLING[0], moved)


@fault("index without the session", 22, "index", ("judge", "end"), needs=several)
def without_own(draft, rng):
    leave_out(draft, [draft.place])


@fault("index with the session to come", 22, "index", ("setup",), needs=several)
def with_own(draft, rng):
    free = next((place for place, record in enumerate(rec.records_of(draft.table)) if record.used == 0), 0)
    draft.index = rec.index_for(rec.with_record(draft.table, free, rec.fresh(draft.iv, HIGHEST)))


# 'In order of IV', the bytes compared from the first: two IVs, the lower before the higher, by where they differ


def differing(place, low, high):
    iv = b"neighbour iv"
    return tuple(iv[:place] + bytes([byte]) + iv[place + 1:] for byte in (low, high))


NEIGHBOURS = {
    **{f"in byte {place + 1} alone": differing(place, 0x7F, 0x80) for place in (0, 6, 7, 8, 9, 10, 11)},
    "in byte 8 by 255": differing(7, 0, 255),
    "in byte 9 by 255": differing(8, 0, 255),
    "in byte 1, and in the others the other way": (b"\0" + b"\xff" * 11, b"\1" + bytes(11)),
    "in byte 8, and after it the other way": (b"nearest\0" + b"\xff" * 4, b"nearest\1" + bytes(4)),
    "in byte 9, and after it the other way": (b"neighbor\x7f" + b"\xff" * 3, b"neighbor\x80" + bytes(3)),
    "in every byte, zeros and FF": (LOWEST_IV, HIGHEST_IV),
    "in the last bit of zeros": (LOWEST_IV, bytes(11) + b"\1"),
    "in the last bit of FF": (b"\xff" * 11 + b"\xfe", HIGHEST_IV),
}


def own_iv(draft, iv):
    draft.iv = iv
    draft.put(draft.place, draft.own()._replace(iv=iv))


def neighbours(where, low, high):
    for which, own, other in (("lower", low, high), ("higher", high, low)):

        @fault(f"session with the {which} of two IVs that differ {where}", 0, "plan", ("judge", "end"))
        def found(draft, rng, own=own, other=other):
            own_iv(draft, own)
            put_elsewhere(draft, rec.fresh(other, HIGHEST))

        @fault(f"the {which} of two IVs that differ {where}, where the other is a session's", 12, "plan", ("judge", "end"))
        def not_found(draft, rng, own=own, other=other):
            own_iv(draft, other)
            draft.iv = own

        @fault(f"setup with the {which} of two IVs that differ {where}", 0, "plan", ("setup",))
        def set_up(draft, rng, own=own, other=other):
            draft.iv = own
            put_elsewhere(draft, rec.fresh(other, HIGHEST))

    def both(draft):
        draft.table += rec.table_of([rec.fresh(high, HIGHEST), rec.fresh(low, HIGHEST)])

    misfit(f"index: two IVs that differ {where} exchanged", lambda draft, rng: exchange(draft, low, high), needs=both)


for they_differ, neighbour_ivs in NEIGHBOURS.items():
    neighbours(they_differ, *neighbour_ivs)


# 'Each call leaves the index right for the table it leaves', wherever the session stands in it


def lowest(draft):
    own_iv(draft, LOWEST_IV)


def highest(draft):
    own_iv(draft, HIGHEST_IV)


def alone(draft):
    draft.table, draft.place = rec.to_bytes(draft.own()), 0


def in_a_full_table(draft):
    draft.table, draft.place = rec.table_of([draft.own(), *(rec.fresh(iv, HIGHEST) for iv in FALLING)]), 0


FREED_OR_NOT = ((nothing_else, 0, "plan"), (token_expired, 10, "plan"), (idle, 13, "plan"))

for standing in (lowest, highest, alone, in_a_full_table):
    standing_name = f"session {standing.__name__.replace('_', ' ')}"
    beside(standing_name, standing, FREED_OR_NOT)
    fault(f"{standing_name}, ended", 0, "plan", ("end",), needs=standing)(lambda draft, rng: None)


def set_up_over(old, new):
    @fault(f"setup with an IV of {new:02X} over an expired one of {old:02X}", 0, "plan", ("setup",))
    def alter(draft, rng):
        draft.iv = bytes([new]) * 12
        expiries = {0x40: HIGHEST, old: 0, 0xC0: HIGHEST}
        draft.table = rec.table_of([rec.fresh(bytes([byte]) * 12, expiry) for byte, expiry in expiries.items()])


for old_byte in (0x10, 0x80, 0xF0):
    for new_byte in (0x11, 0x81, 0xF1):
        set_up_over(old_byte, new_byte)


# 'Directly after 3': something else that is wrong, planned or as it is lent, with the index that fits and with another

SETUP, JUDGE, END = ("setup",), ("judge",), ("end",)


def also(number, name, on, plan=nothing, lend=nothing, late=False):
    def needs(draft):
        several(draft)
        plan(draft)

    @fault(f"{name}, index that fits", number, "index", on, needs=needs, late=late)
    def fits(draft, rng):
        lend(draft)

    @fault(f"{name}, index with entries exchanged", number if number in (1, 2, 3) else 22, "index", on, needs=needs)
    def differs(draft, rng):
        lend(draft)
        exchange(draft, *FALLING[:2])


def lent(attribute, contents):
    return lambda draft: setattr(draft, attribute, contents)


def malformed_elsewhere(draft):
    put_elsewhere(draft, USED._replace(begun=2))


def covered_twice(draft):
    draft.cover(b"Host", head=b"a")
    draft.head_lines.append(b"host:a\r\n")


def other_hash(draft):
    sha_256(draft)
    draft.put(draft.place, draft.own()._replace(hash=hashing.SHA_512))


def full(draft):
    draft.table = rec.table_of([rec.fresh(iv, HIGHEST) for iv in FALLING])


also(1, "an IV of 11 bytes", SETUP + END, lend=lent("iv", bytes(11)))
also(1, "a path of no bytes", JUDGE, lend=lent("path", b""))
also(2, "no hash allowed", SETUP + JUDGE, plan=lambda draft: draft.order(hashes=0))
also(3, "a malformed record", INDEXED, plan=malformed_elsewhere)
also(4, "an empty value", SETUP + JUDGE, lend=lent("value", b""))
also(5, "a value of another field", SETUP + JUDGE, lend=lent("value", b"x:AA=="))
also(6, "a method with a space", JUDGE, lend=lent("method", b"GE T"))
also(7, "a covered name twice", JUDGE, plan=covered_twice)
also(8, "another mask ordered", JUDGE, lend=lambda draft: draft.order(mask=draft.orders.mask ^ 2))
also(9, "another server key", JUDGE, lend=lent("server_key", bytes(32)))
also(10, "an expired token", JUDGE, plan=token_expired)
also(11, "another path than was signed", JUDGE, lend=lent("path", b"/another"))
also(12, "no record of the session", JUDGE, plan=no_record)
also(12, "an IV that no record has", END, lend=lent("iv", b"no record's."))
also(8, "another hash in the record", JUDGE, plan=other_hash, late=True)
also(13, "an idle session", JUDGE, plan=idle)
also(14, "a request too old", JUDGE, plan=too_old)
also(21, "a request too far ahead", JUDGE, plan=too_far_ahead)
also(15, "a nonce far back", JUDGE, plan=nonce_far_back)
also(16, "a nonce seen", JUDGE, plan=nonce_seen)
also(19, "no hash in common", SETUP, lend=lent("value", b"r:AQI="))
also(20, "an expiry too late", SETUP, lend=lent("clock", HIGHEST))
also(17, "an IV that is taken", SETUP, lend=lent("iv", FALLING[0]))
also(18, "a full table", SETUP, plan=full)


# 3 never depends on the index

TWIN_IV = b"twin session"


def twins(draft):
    several(draft)
    draft.table += rec.table_of([rec.fresh(TWIN_IV, HIGHEST), rec.FREE, rec.fresh(TWIN_IV, 5)])


def with_twins(name, change):
    @fault(f"one IV in two used records, index {name}", 3, "index", TABLED, needs=twins)
    def alter(draft, rng):
        change(draft, rng)


with_twins("of both by place", lambda draft, rng: None)
with_twins("of both by falling place", lambda draft, rng: exchange(draft, TWIN_IV))
with_twins("of the first alone", lambda draft, rng: leave_out(draft, places_of(draft, TWIN_IV)[1:]))
with_twins("of the second alone", lambda draft, rng: leave_out(draft, places_of(draft, TWIN_IV)[:1]))
with_twins("of neither", lambda draft, rng: leave_out(draft, places_of(draft, TWIN_IV)))
with_twins("with other entries exchanged", lambda draft, rng: exchange(draft, *FALLING[:2]))
with_twins("of all FF", lambda draft, rng: setattr(draft, "index", b"\xff" * len(draft.index)))
with_twins("of garbage", garbage)


# The thin entry takes no index

for single_other, single_number in ((nothing_else, 0), (token_expired, 10), (no_record, 12), (idle, 13)):
    single_name = f"garbage beside a single record, {single_other.__name__.replace('_', ' ')}"
    fault(f"index: {single_name}", single_number, "index", ("one",), needs=single_other)(garbage)
