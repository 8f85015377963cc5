"""The table and its index: document 02, K7."""

import model
import record as rec
from faults.index import MISFITS, NEIGHBOURS
from sentences.placing import HIGHEST, IV, each_call, looked_up, never_repaired, told_apart, whole_day

MOST = model.MOST_RECORDS


def cases():
    yield "up to 4,096 records"
    for count in (1, 2, 3, 64, 65, 255, 256, 257, 1_000, MOST):
        yield whole_day, count
    yield each_call, [rec.FREE] * (MOST + 1), 1
    yield "an index of the used records: two bytes for each record of the table"
    for size in (0, 1, 3, 5, 6, 8):
        yield each_call, [rec.fresh(IV, HIGHEST), rec.FREE], 1, bytes(size)
    yield "lookup through the index gives what a scan gives"
    for count in range(1, 9):
        yield looked_up, [bytes([place * 151 % 256]) * 12 for place in range(count)]
    yield "in order of IV"
    for low, high in NEIGHBOURS.values():
        yield told_apart, low, high
        yield looked_up, [high, low]
    yield "an index that doesn't fit its table is refused, never repaired silently"
    for change in MISFITS.values():
        yield never_repaired, change
    yield "directly after 3"
    for index in (b"\0\0\0\1\xff\xff", b"\0\1\0\0\xff\xff", b"\0\0\xff\xff\xff\xff", b"\xff" * 6):
        yield each_call, [rec.fresh(IV, HIGHEST), rec.fresh(IV, HIGHEST), rec.FREE], 3, index
        yield each_call, [rec.fresh(IV, HIGHEST)._replace(hash=0), rec.fresh(IV[::-1], HIGHEST), rec.FREE], 3, index
