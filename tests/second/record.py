"""The session table ('Orders, records and sizes' in 01), its index (02, K7) and the nonce window ('Age, idleness and the window')."""

import struct
from typing import NamedTuple

import hashing

LAYOUT = struct.Struct(">B12sIBIQB")  # of a record's fields, numbers highest byte first
SIZE = LAYOUT.size
WIDTH = 64  # the highest nonce and the 63 below it

ENTRY = 2  # bytes of an index for each record of its table
NO_PLACE = 0xFFFF


class Record(NamedTuple):
    """One record; the two marks are kept as the bytes they are, since a wrong one is refusal 3."""

    used: int
    iv: bytes
    expiry: int
    begun: int  # whether a nonce was accepted yet
    highest: int
    bits: int
    hash: int  # the mask of the one that the setup chose; 0 in a free record


FREE = Record(0, bytes(12), 0, 0, 0, 0, 0)


def fresh(iv, expiry, chosen=hashing.SHA_512):
    """What a setup leaves: 'it then holds the IV, the new expiry and no nonce', and 'keeps the choice at its end'."""
    return Record(1, iv, expiry, 0, 0, 0, chosen)


def from_bytes(run):
    return Record(*LAYOUT.unpack(run))


def to_bytes(record):
    return LAYOUT.pack(*record)


def records_of(table):
    """The whole ones."""
    return [from_bytes(table[start:start + SIZE]) for start in range(0, len(table) - SIZE + 1, SIZE)]


def table_of(records):
    return b"".join(to_bytes(record) for record in records)


def record_at(table, place):
    return from_bytes(table[place * SIZE:][:SIZE])


def with_record(table, place, record):
    return table[:place * SIZE] + to_bytes(record) + table[(place + 1) * SIZE:]


def place_of(records, iv):
    """Where the used record with this IV stands, or None: a free record's zeros are no IV."""
    for place, record in enumerate(records):
        if record.used == 1 and record.iv == iv:
            return place
    return None


def marks_good(record):
    return record.used in (0, 1) and record.begun in (0, 1)


def contents_good(record):
    """The conditions on a single record; bits for nonces below 0 are not among them (docs/DECISIONS.md)."""
    if record.used == 0:
        return record == FREE
    if record.hash not in hashing.FUNCTIONS:
        return False
    if record.begun == 0:
        return record.highest == 0 and record.bits == 0
    return record.bits % 2 == 1


def ivs_distinct(records):
    ivs = [record.iv for record in records if record.used == 1]
    return len(ivs) == len(set(ivs))


def well_formed(records):
    return all(marks_good(r) and contents_good(r) for r in records) and ivs_distinct(records)


def entries_of(index):
    return [int.from_bytes(index[start:start + ENTRY], "big") for start in range(0, len(index), ENTRY)]


def index_of(entries):
    """Highest byte first."""
    return b"".join(entry.to_bytes(ENTRY, "big") for entry in entries)


def fitting_index(records):
    """The places of the used records by rising IV, and FF FF for each entry that is left."""
    places = sorted((place for place, record in enumerate(records) if record.used == 1), key=lambda place: records[place].iv)
    return index_of(places + [NO_PLACE] * (len(records) - len(places)))


def index_for(table):
    return fitting_index(records_of(table))


def take_nonce(record, nonce):
    """One step of the window: the number (0, 15 or 16) and the record after it."""
    if record.begun == 0:
        return 0, record._replace(begun=1, highest=nonce, bits=1)
    if nonce > record.highest:
        distance = nonce - record.highest
        kept = record.bits << distance if distance < WIDTH else 0
        return 0, record._replace(highest=nonce, bits=kept % (1 << WIDTH) | 1)
    distance = record.highest - nonce
    if distance >= WIDTH:
        return 15, record
    if record.bits >> distance & 1:
        return 16, record
    return 0, record._replace(bits=record.bits | 1 << distance)
