"""A session and a request of it, and how a case of sessions.py, requests.py and named.py is placed in a call.

Each function yields (name, call, number, value, state): the value in front of out and the state that 0 leaves. Every other number
leaves what was lent. States are laid out and read here byte by byte, and values are written by client.py from what the cases say is
covered, with nothing of scanner/model.py.
"""

import re
from typing import NamedTuple

import client
import hashing
from model import NAMES
from scanner.calls import Begin, Hear, Sign

SIZE = 329
ZEROS = bytes(SIZE)
HIGHEST = 4_294_967_295
FULL = (1 << 56) - 1
OUT = (4_096, 0xAA)


class Session(NamedTuple):
    """What a state tells."""

    last: int
    next: int
    mask: int
    hash: int
    iv: bytes
    tag: bytes
    key: bytes
    s: bytes
    eah: bytes


# Covered: nonce, Host, Accept, Cookie; X-Dealer and X-Farm besides
SESSION = Session(
    last=1_505_773_123,
    next=7,
    mask=0b1_0000_1011,
    hash=hashing.SHA_512,
    iv=bytes(range(64, 76)),
    tag=bytes(range(76, 92)),
    key=bytes(range(32, 64)),
    s=bytes(range(100, 160)),
    eah=b"X-Dealer,X-Farm",
)
OTHER = SESSION._replace(iv=bytes(12), tag=bytes(16), key=bytes(range(32)), s=b"another")
NO_NONCES = SESSION._replace(mask=SESSION.mask & ~1, next=0)
HEAD = b"Host: shop.example\r\nAccept: text/html\r\nCookie:seat=4 \r\nx-dealer: Brandt\r\nDNT: 1\r\n"
VALUES = {b"host": b"shop.example", b"accept": b"text/html", b"cookie": b"seat=4", b"x-dealer": b"Brandt", b"dnt": b"1"}


# States and replies


def state_of(session):
    numbers = session.last.to_bytes(4, "big") + session.next.to_bytes(8, "big") + session.mask.to_bytes(8, "big")
    front = numbers + bytes([session.hash, len(session.s), len(session.eah)]) + session.iv + session.tag + session.key
    text = front + session.s + session.eah
    return text + bytes(SIZE - len(text))


def session_of(state):
    """Whatever the state is, if only of the right size."""
    s_end = 83 + state[21]
    numbers = [int.from_bytes(state[start:end], "big") for start, end in ((0, 4), (4, 12), (12, 20), (20, 21))]
    return Session(*numbers, state[23:35], state[35:51], state[51:83], state[83:s_end], state[s_end:s_end + state[22]])


def is_good(session):
    """Whether some setup reply begins it, and some requests later it is so."""
    names = session.eah.split(b",") if session.eah else []
    lowered = {name.lower() for name in names}
    return (
        [len(run) for run in (session.iv, session.tag, session.key)] == [12, 16, 32]
        and 1 <= len(session.s) <= 118
        and session.hash in (1, 4)
        and session.mask < 1 << 56
        and session.next <= (1 << 32 if session.mask & 1 else 0)
        and len(session.eah) <= 128
        and len(lowered) == len(names) <= 8
        and all(re.fullmatch(rb"[!#-'*+.^_`|~0-9A-Za-z-]+", name) for name in names)
        and lowered.isdisjoint({b"x-s-armor", *(name.lower() for name in NAMES)})
    )


def is_ours(state):
    """Whether a call of ours can have left it: what it tells is good, and laid out anew it is the same."""
    return len(state) == SIZE and is_good(session_of(state)) and state_of(session_of(state)) == state


def reply_of(session):
    """The setup reply that tells of this session."""
    fields = [(b"s", session.s), (b"iv", session.iv), (b"tag", session.tag), (b"kh", session.key)]
    fields += [(b"h", client.encoded_mask(session.hash)), (b"ah", client.encoded_mask(session.mask))]
    return client.header_value(fields + ([(b"eah", session.eah)] if session.eah else []))


def begun_by(reply, time):
    """The session that this reply begins; None where no setup writes such a reply: what it tells, written anew, is otherwise."""
    try:
        told = client.parse_reply(reply)
        mask, known = (client.decoded_mask(told[key]) for key in (b"ah", b"h"))
        session = Session(time, 0, mask, known, told[b"iv"], told[b"tag"], told[b"kh"], told[b"s"], told.get(b"eah", b""))
    except (KeyError, ValueError):
        return None
    return session if is_good(session) and reply_of(session) == reply else None


def invalidation(session):
    return client.piece(b"i", hashing.code(session.hash, session.key, b"Session Expired"))


# Values


def covered_by(session, values):
    """The values of the covered names in order, an absent one empty."""
    names = [name for bit, name in enumerate(NAMES, 1) if session.mask >> bit & 1] + (session.eah.split(b",") if session.eah else [])
    return [values.get(name.lower(), b"") for name in names]


def value_of(session, call, covered):
    """The value of a request in this session, with these covered values in order."""
    number, mask = client.encoded_number, client.encoded_mask
    t, lt, h, ah = number(call.clock), number(session.last), mask(session.hash), mask(session.mask)
    nonce = [number(session.next)] if session.mask & 1 else []
    parts = [call.method, h, ah, session.eah, *nonce, t, lt, *covered, call.path, call.body]
    code = hashing.code(session.hash, session.key, client.joined([(b"", part) for part in parts]))
    fields = [(b"s", session.s), (b"c", code), (b"t", t), (b"lt", lt), (b"iv", session.iv), (b"tag", session.tag), (b"h", h), (b"ah", ah)]
    fields += [(b"eah", session.eah)] if session.eah else []
    return client.header_value(fields + [(b"n", n) for n in nonce])


def after(session, clock):
    return session._replace(last=clock, next=session.next + (session.mask & 1))


# Placing

BEGIN = Begin(1_505_773_123, reply_of(SESSION), ZEROS)
SIGN = Sign(1_505_773_183, b"POST", HEAD, b"/stock?part=belt", b"count=12", state_of(SESSION), OUT)
HEAR = Hear(invalidation(SESSION), state_of(SESSION))


def begins(name, number, **changed):
    call = BEGIN._replace(**changed)
    yield name, call, number, b"", state_of(begun_by(call.setup_reply, call.time)) if number == 0 else None


def hears(name, number, **changed):
    yield name, HEAR._replace(**changed), number, b"", ZEROS


def signs(name, session=SESSION, covered=None, **changed):
    """Done; without covered values, those of HEAD."""
    call = SIGN._replace(**{"state": state_of(session)} | changed)
    covered = covered_by(session, VALUES) if covered is None else covered
    yield name, call, 0, value_of(session, call, covered), state_of(after(session, call.clock))


def refuses(name, number, **changed):
    yield name, SIGN._replace(**changed), number, b"", None
