"""A scanner's own side of a session, as document 02's K14 has it: `begin`, `sign` and `hear`, as pure functions.

Each takes everything lent and answers an Outcome. The checks stand in the order of their numbers, the first that holds is
answered, and only 0 writes. What a setup reply and a header line are is the gate's; the value of a request is written by client.py.
"""

import struct
from typing import NamedTuple

import client
import hashing
import model as gate

LAYOUT = struct.Struct(">IQQBBB12s16s32s")  # of a state's front, numbers highest byte first; s, eah and zeros follow
MOST_TOKEN = 118
SIZE = LAYOUT.size + MOST_TOKEN + gate.MOST_EXTRA
NO_SESSION = bytes(SIZE)
LEAST_OUT = 4_096
ASKS = client.setup_value(hashing.SHA_256)


class State(NamedTuple):
    last: int  # the time of the last request; at first, of the setup
    next: int  # nonce; one past the highest where none is left
    mask: int  # of ah
    hash: int  # the mask of h
    iv: bytes
    tag: bytes
    key: bytes
    s: bytes
    eah: bytes


class Outcome(NamedTuple):
    number: int
    length: int
    out: bytes
    state: bytes


# The three calls. Only sign is lent an out: the others' outcomes have an empty one.


def begin(time, setup_reply, state):
    """Checks 1, 3, 4. A state of the right size is written anew, whatever it held."""

    def refused(number):
        return Outcome(number, 0, b"", state)

    if len(state) != SIZE:
        return refused(1)
    if len(setup_reply) > gate.MOST_SETUP_REPLY:
        return refused(3)
    told = gate.told_by(setup_reply)
    if told is None or gate.no_orders_give(told):
        return refused(4)

    orders = gate.told_orders(told)
    begun = State(time, 0, orders.mask, orders.hashes, told[b"iv"], told[b"tag"], told[b"kh"], told[b"s"], orders.extra)
    return Outcome(0, 0, b"", to_bytes(begun))


def sign(clock, method, head, path, body, state, out):
    """Checks 1, 2, 3."""

    def refused(number):
        return Outcome(number, 0, out, state)

    held = from_bytes(state)
    if held is None:
        return refused(1)
    if held.next > gate.HIGHEST:
        return refused(2)
    if part_bad(held, method, head, path, body, out):
        return refused(3)

    value = value_of(held, clock, method, head, path, body)
    left = held._replace(last=clock, next=held.next + 1 if bears_nonces(held) else 0)
    return Outcome(0, len(value), gate.written(out, value), to_bytes(left))


def hear(value, state):
    """Checks 1, 4. 'Believes an invalidation only if its HMAC is right.'"""

    def refused(number):
        return Outcome(number, 0, b"", state)

    held = from_bytes(state)
    if held is None:
        return refused(1)
    if value != client.piece(b"i", hashing.code(held.hash, held.key, b"Session Expired")):
        return refused(4)
    return Outcome(0, 0, b"", NO_SESSION)


# 1 and 2: the state


def to_bytes(held):
    front = LAYOUT.pack(held.last, held.next, held.mask, held.hash, len(held.s), len(held.eah), held.iv, held.tag, held.key)
    return (front + held.s + held.eah).ljust(SIZE, b"\0")


def from_bytes(state):
    """What a state holds; None where there is no session, which is any state that no call of ours left."""
    if len(state) != SIZE:
        return None
    last, nonce, mask, known, s_size, eah_size, iv, tag, key = LAYOUT.unpack_from(state)
    rest = state[LAYOUT.size:]
    held = State(last, nonce, mask, known, iv, tag, key, rest[:s_size], rest[s_size:s_size + eah_size])
    if not 1 <= s_size <= MOST_TOKEN or eah_size > gate.MOST_EXTRA or any(rest[s_size + eah_size:]):
        return None
    if known not in hashing.FUNCTIONS or gate.orders_bad(orders_of(held)):
        return None
    return held if nonce <= (gate.HIGHEST + 1 if bears_nonces(held) else 0) else None


def orders_of(held):
    """As far as a client can know them."""
    return gate.Orders(held.mask, held.hash, held.eah, 0, 0, 0)


def bears_nonces(held):
    return gate.orders_nonces(orders_of(held))


# 3: what no gate would take


def part_bad(held, method, head, path, body, out):
    lines = gate.lines_of(head)
    return (
        gate.method_size_bad(method)
        or gate.lines_size_bad(head)
        or gate.path_size_bad(path)
        or gate.body_size_bad(body)
        or len(out) < LEAST_OUT
        or gate.method_bad(method)
        or lines is None
        or gate.covered_name_twice(orders_of(held), lines)
    )


# The value


def value_of(held, clock, method, head, path, body):
    """In this order: s, c, t, lt, iv, tag, h, ah, eah if there are extra names, n if nonces are ordered. Nothing is set aside."""
    fields = [
        (b"s", held.s),
        (b"t", client.encoded_number(clock)),
        (b"lt", client.encoded_number(held.last)),
        (b"iv", held.iv),
        (b"tag", held.tag),
        (b"h", client.encoded_mask(held.hash)),
        (b"ah", client.encoded_mask(held.mask)),
    ]
    if held.eah:
        fields.append((b"eah", held.eah))
    if bears_nonces(held):
        fields.append((b"n", client.encoded_number(held.next)))
    parts = client.signed_parts(method, fields, head.splitlines(True), [], path, body)
    fields.insert(1, (b"c", hashing.code(held.hash, held.key, client.joined(parts))))
    return client.header_value(fields)
