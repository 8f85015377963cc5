"""The catalogue: a fault has a name, the number that it gives alone, and the stage at which it enters a draft.

Number 0 marks an edge: something odd that 01 nevertheless accepts.
"""

from typing import Callable, NamedTuple

import hashing

JUDGED = ("judge", "one")
REQUEST = (*JUDGED, "fits")
VALUED = (*REQUEST, "setup")
ORDERED = (*JUDGED, "setup")
INDEXED = ("judge", "setup", "end")
TABLED = (*INDEXED, "index")

IN_A_TRIAL = (0, 1, 4, 5, 6, 7, 8, 11)  # what gate_fits answers to a request as the gate does

CATALOGUE = []


class Fault(NamedTuple):
    name: str
    number: int
    at: str
    on: tuple
    needs: Callable
    alter: Callable
    long: bool  # its runs are so long that it isn't worth pairing
    late: bool  # 8 against the record, which comes after 12

    @property
    def check(self):
        return self.number, self.late


def nothing(draft):
    """What most faults need."""


def fault(name, number, at, on=None, needs=nothing, long=False, late=False):
    """Enter the decorated function, which alters a draft by chance of the generator given, into the catalogue.

    Where the calls that it concerns are not named, they are those that judge a request, and gate_fits if the number is one of its own.
    """
    by_number = REQUEST if number in IN_A_TRIAL and not late else JUDGED

    def enter(alter):
        CATALOGUE.append(Fault(name, number, at, on or by_number, needs, alter, long, late))
        return alter

    return enter


# What faults need of a draft before they can show


def nonces(draft):
    draft.order_nonces()


def no_nonces(draft):
    draft.order_no_nonces()


def extras(draft):
    draft.order_extra(b"X-Dealer,X-Farm")


def no_extras(draft):
    draft.order_extra(b"")


def both_hashes(draft):
    draft.order(hashes=hashing.BOTH)


def sha_256(draft):
    """A session of SHA-256, where both are allowed."""
    both_hashes(draft)
    draft.hashed(hashing.SHA_256)


def sha_512(draft):
    both_hashes(draft)
    draft.hashed(hashing.SHA_512)


def short_id(draft):
    """Room in the token's 118 bytes."""
    draft.session_id = draft.session_id[:8]


def each_32_but(good):
    """The byte values that aren't good, as (name, values) for each 32 of the 256, so that all regions come up."""
    for start in range(0, 256, 32):
        values = [byte for byte in range(start, start + 32) if byte not in good]
        if values:
            yield f"among {start} to {start + 31}", values
