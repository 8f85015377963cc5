"""Calls by the session: the replies that begin it, the state, its nonces and times, and what is believed at its end."""

import base64
import io

import calls
import client
import drafts
import hashing
from faults import CATALOGUE
from faults.orders import BAD_EXTRAS
from histories import History
from scanner.placed import (
    BEGIN, FULL, HEAR, HIGHEST, NO_NONCES, OTHER, SESSION, SIGN, SIZE, VALUES, ZEROS, after, begins, begun_by, covered_by, hears, invalidation,
    is_ours, refuses, reply_of, session_of, signs, state_of, value_of,
)

PLAIN = SESSION._replace(mask=3, hash=hashing.SHA_256, s=b"\1", eah=b"", next=HIGHEST)
TIMES = (0, 1, 255, 256, 65_535, 65_536, (1 << 24) - 1, 1 << 24, 1_505_773_122, 1 << 31, HIGHEST - 1, HIGHEST)


# Beginning

REPLIES = {
    "SHA-512": SESSION,
    "SHA-256": SESSION._replace(hash=hashing.SHA_256),
    "no nonces": NO_NONCES,
    "no extra names": SESSION._replace(eah=b""),
    "nothing covered": NO_NONCES._replace(mask=0, eah=b""),
    "everything covered": SESSION._replace(mask=FULL),
    "bit 55 alone": NO_NONCES._replace(mask=1 << 55),
    "s of one byte": SESSION._replace(s=b"\0"),
    "s of 118 bytes": SESSION._replace(s=bytes(118)),
    "one extra name of one byte": SESSION._replace(eah=b"q"),
    "one extra name of 128 bytes": SESSION._replace(eah=b"n" * 128),
    "eight extra names": SESSION._replace(eah=b"a,b,c,d,e,f,g,i"),
    "zeros in every run": SESSION._replace(iv=bytes(12), tag=bytes(16), key=bytes(32), s=bytes(9)),
    "459 bytes": SESSION._replace(mask=FULL, s=bytes(range(118)), eah=b"n" * 128),
}
LONGEST = reply_of(REPLIES["459 bytes"])


def beginning():
    for name, session in REPLIES.items():
        yield from begins(f"a reply with {name}", 0, setup_reply=reply_of(session))
    for time in TIMES:
        yield from begins(f"begun at {time:,}", 0, time=time)
    for name, state in STATES.items():
        yield from begins(f"begun over {name}", 0, state=state)
    yield from begins("an empty reply", 4, setup_reply=b"")
    yield from begins("459 bytes that are no reply", 4, setup_reply=b";" * 459)
    for reply in (LONGEST + b";", b";" * 460, bytes(461), BEGIN.setup_reply + bytes(65_536 - len(BEGIN.setup_reply))):
        yield from begins(f"a reply of {len(reply):,} bytes", 3, setup_reply=reply)
    for size in (0, 328, 330):
        for name, reply in (("no reply", b""), ("a long one", bytes(460)), ("a good one", BEGIN.setup_reply)):
            yield from begins(f"a state of {size} bytes and {name}", 1, state=bytes(size), setup_reply=reply)


STATES = {
    "zeros": ZEROS,
    "FF in every byte": b"\xff" * SIZE,
    "a session": state_of(OTHER),
    "its own session, some requests later": state_of(SESSION),
    "a session with no nonce left": state_of(SESSION._replace(next=1 << 32)),
    "a reply": BEGIN.setup_reply.ljust(SIZE, b";")[:SIZE],
}


def no_replies():
    """The catalogue's trials (faults/trials.py): a reply that is 23 there is 4 here, one that is too long 3, and any other is a setup's."""
    history = History(14, calls.Writer(*(io.StringIO() for _ in range(3))))
    while history.written == 0 or not history.live_sessions():
        history.begin_chapter()
        history.set_up()
    for fault in CATALOGUE:
        if fault.name.startswith("setup reply"):
            tried = drafts.build(history.draft_for_faults("fits"), [fault], history.rng)
            yield from begins(fault.name, {23: 4, 1: 3}.get(fault.number, 0), setup_reply=calls.named(tried)["setup_reply"])


def changed_replies():
    """Each byte replaced, left out and put in; most are no reply any more."""
    for session in (PLAIN, SESSION):
        reply = reply_of(session)
        for place in range(len(reply)):
            before, own, rest = reply[:place], reply[place:place + 1], reply[place + 1:]
            yield from any_reply(f"a reply without byte {place}", before + rest)
            yield from any_reply(f"a reply with byte {place} twice", before + own * 2 + rest)
            for other in (b";", b":", b"=", b"A", b"/", b"w", b"+", b"1", b" ", b"\0", b"\xff"):
                yield from any_reply(f"a reply with {other} before byte {place}", before + other + own + rest)
                if other != own:
                    yield from any_reply(f"a reply with {other} for byte {place}", before + other + rest)


def any_reply(name, reply):
    yield from begins(name, 4 if begun_by(reply, BEGIN.time) is None else 0, setup_reply=reply)


# The state


def any_state(name, state):
    """Both calls that need a session."""
    if not is_ours(state):
        yield from refuses(f"{name}, signed", 1, state=state)
        yield from hears(f"{name}, heard", 1, state=state)
        return
    session = session_of(state)
    if session.next > HIGHEST:
        yield from refuses(f"{name}, signed", 2, state=state)
    else:
        yield from signs(f"{name}, signed", session)
    yield from hears(f"{name}, heard", 0 if invalidation(session) == HEAR.value else 4, state=state)


def sized_states():
    """A session needs every byte of its state, and there is none in another size."""
    whole = state_of(SESSION) + bytes(2)
    for size in range(SIZE + 2):
        if size != SIZE:
            yield from begins(f"a state of {size} bytes, begun", 1, state=whole[:size])
            yield from any_state(f"a state of {size} bytes", whole[:size])
    for state in (state_of(SESSION) * 2, bytes(65_536)):
        yield from begins(f"a state of {len(state):,} bytes, begun", 1, state=state)
        yield from any_state(f"a state of {len(state):,} bytes", state)


def changed_states():
    """Each byte in turn."""
    for name, session in (("a state", SESSION), ("a plain state", PLAIN), ("a state without nonces", NO_NONCES)):
        for place in range(SIZE):
            for change in (1, 0x80, 0xFF) if session is SESSION else (1,):
                state = bytearray(state_of(session))
                state[place] ^= change
                yield from any_state(f"{name}, byte {place} changed by {change}", bytes(state))


def other_states():
    for name, state in STATES.items():
        yield from any_state(f"a state of {name}", state)
    for known in range(256):
        yield from any_state(f"a state with h {known}", state_of(SESSION._replace(hash=known)))
    for mask in (0, 1, 2, 3, FULL, FULL ^ 1, 1 << 55, 1 << 56, 1 << 57, 1 << 63, 1 << 63 | 3, (1 << 64) - 1):
        yield from any_state(f"a state with ah {mask:#x}", state_of(SESSION._replace(mask=mask, next=mask & 1)))
    for size in (0, 1, 2, 117, 118, 119, 120, 200):
        for eah in (b"", SESSION.eah, b"n" * 46):
            yield from any_state(f"a state with {size} bytes of s and {len(eah)} of eah", state_of(SESSION._replace(s=bytes(size), eah=eah)))
    for size in (1, 127, 128, 129, 130):
        yield from any_state(f"a state with a name of {size} bytes", state_of(SESSION._replace(eah=b"n" * size)))
    for name, eah in BAD_EXTRAS.items():
        if len(eah) <= SIZE - len(state_of(SESSION).rstrip(b"\0")):
            yield from any_state(f"a state with extra names, {name}", state_of(SESSION._replace(eah=eah)))
    for names in (b"a,b,c,d,e,f,g,i", b"a,b,c,d,e,f,g,i,j", b"Hos", b"Hostt", b"X-S-Armo", b"x-S-aRMOR", b"a,A", b"q," * 64):
        yield from any_state(f"a state with extra names {names}", state_of(SESSION._replace(eah=names)))
    longest = state_of(REPLIES["459 bytes"])
    yield from any_state("a state without a zero at its end", longest)
    for name, place, sizes in (("s", 21, (0, 1, 117, 119, 255)), ("eah", 22, (0, 1, 127, 129, 255))):
        for size in sizes:
            yield from any_state(f"the same, which tells of {size} bytes of {name}", longest[:place] + bytes([size]) + longest[place + 1:])


# Nonces and times

NONCES = (0, 1, 127, 128, 255, 256, 65_535, 65_536, (1 << 24) - 1, 1 << 24, 1 << 31, HIGHEST - 2, HIGHEST - 1, HIGHEST)
PAST = (1 << 32 | 1, 1 << 32 | 7, 1 << 33, 1 << 40, 1 << 63, (1 << 64) - 1)


def nonces():
    for known in (hashing.SHA_256, hashing.SHA_512):
        session = SESSION._replace(hash=known)
        for nonce in NONCES:
            yield from signs(f"nonce {nonce:,}, under {known}", session._replace(next=nonce))
        yield from refuses(f"no nonce left, under {known}", 2, state=state_of(session._replace(next=1 << 32)))
        yield from hears(f"no nonce left, heard under {known}", 0, value=invalidation(session), state=state_of(session._replace(next=1 << 32)))
    for nonce in PAST:
        yield from any_state(f"nonce {nonce:,}", state_of(SESSION._replace(next=nonce)))
    yield from signs("a session without nonces", NO_NONCES)
    for nonce in (1, 7, HIGHEST, 1 << 32, *PAST):
        yield from any_state(f"nonce {nonce:,} in a session without nonces", state_of(NO_NONCES._replace(next=nonce)))


def times():
    for clock in TIMES:
        yield from signs(f"a request at {clock:,}", clock=clock)
        for last in TIMES:
            yield from signs(f"a request at {clock:,} after one at {last:,}", SESSION._replace(last=last), clock=clock)


# 'Believes an invalidation only if its HMAC is right'


def believed():
    for name, session in REPLIES.items():
        yield from hears(f"the invalidation of a session with {name}", 0, value=invalidation(session), state=state_of(session))
    yield from hears("the invalidation of a session that is zeros", 1, state=ZEROS)
    yield from hears("nothing, where there is no session", 1, value=b"", state=ZEROS)


def not_believed():
    for session in (SESSION, PLAIN):
        value, state = invalidation(session), state_of(session)
        code = base64.b64decode(value[2:])
        for place in range(len(value)):
            yield from hears(f"the first {place} bytes of an invalidation", 4, value=value[:place], state=state)
            yield from hears(f"an invalidation without byte {place}", 4, value=value[:place] + value[place + 1:], state=state)
            for bit in range(8):
                changed = value[:place] + bytes([value[place] ^ 1 << bit]) + value[place + 1:]
                yield from hears(f"an invalidation with bit {bit} of byte {place} changed", 4, value=changed, state=state)
        for more in (b";", b"=", b" ", b"\0", b"\n", b"\r\n", b"A", b"====", b";" + value, value):
            yield from hears(f"an invalidation and {more}", 4, value=value + more, state=state)
            yield from hears(f"{more} and an invalidation", 4, value=more + value, state=state)
        for size in (4_096, 4_097, 65_536):
            yield from hears(f"an invalidation with blanks up to {size:,} bytes", 4, value=value.ljust(size), state=state)
            yield from hears(f"{size:,} bytes of zeros", 4, value=bytes(size), state=state)
        for place in range(len(code)):
            other = code[:place] + bytes([code[place] ^ 0x10]) + code[place + 1:]
            yield from hears(f"an invalidation with byte {place} of the code changed", 4, value=client.piece(b"i", other), state=state)
        for name, other in not_this(session, code):
            yield from hears(f"an invalidation of {name}", 4, value=other, state=state)


def not_this(session, code):
    """What stands in the place of this session's invalidation."""
    yield "the other hash", invalidation(session._replace(hash=session.hash ^ hashing.BOTH))
    yield "another session", invalidation(OTHER._replace(hash=session.hash))
    yield "a key of zeros", invalidation(session._replace(key=bytes(32)))
    for text in (b"", b"Session expired", b"session expired", b"Session Expired\n", b"Session Expired ", b"SessionExpired", b"15:Session Expired,"):
        yield f"the text {text}", client.piece(b"i", hashing.code(session.hash, session.key, text))
    for key in (b"I", b"h", b"c", b"ii", b""):
        yield f"the key {key}", client.piece(key, code)
    yield "half its code", client.piece(b"i", code[:len(code) // 2])
    yield "its code and a byte", client.piece(b"i", code + b"\0")
    yield "its code as it is", b"i:" + code
    yield "its code in hexadecimal", b"i:" + code.hex().encode()
    yield "its code without padding", client.piece(b"i", code).rstrip(b"=")
    yield "its code in the URL alphabet", b"i:" + base64.urlsafe_b64encode(code)
    yield "its header line", b"X-S-Armor: " + client.piece(b"i", code)
    yield "the setup reply", reply_of(session)
    yield "a request of its own", value_of(session, SIGN, covered_by(session, VALUES))


# Whole sessions, each call on what the one before left


def lives():
    for known in (hashing.SHA_256, hashing.SHA_512):
        for mask in (0, 1, SESSION.mask):
            session = SESSION._replace(hash=known, mask=mask, next=0)
            yield from life(f"a life under {known} with ah {mask}", session)
    yield from last_nonces()


def life(name, session):
    reply = reply_of(session)
    yield f"{name}, begun", BEGIN._replace(setup_reply=reply), 0, b"", state_of(session)
    for count, clock in enumerate((SIGN.clock, SIGN.clock, SIGN.clock - 100, HIGHEST, 0)):
        yield from signs(f"{name}, request {count + 1}", session, clock=clock)
        session = after(session, clock)
        yield from hears(f"{name}, another's invalidation after it", 4, value=invalidation(OTHER), state=state_of(session))
        yield from refuses(f"{name}, a path of no bytes after it", 3, state=state_of(session), path=b"")
    yield from hears(f"{name}, its invalidation", 0, value=invalidation(session), state=state_of(session))
    yield from refuses(f"{name}, a request after that", 1, state=ZEROS)
    yield from hears(f"{name}, its invalidation again", 1, value=invalidation(session), state=ZEROS)
    yield f"{name}, begun again", BEGIN._replace(setup_reply=reply), 0, b"", state_of(session._replace(last=BEGIN.time, next=0))


def last_nonces():
    session = SESSION._replace(next=HIGHEST - 2)
    for nonce in range(HIGHEST - 2, HIGHEST + 1):
        yield from signs(f"the last nonces, {nonce:,}", session)
        session = after(session, SIGN.clock)
    yield from refuses("after the last nonce", 2, state=state_of(session))
    yield from refuses("and again", 2, state=state_of(session))
    yield from begins("a new setup after the last nonce", 0, state=state_of(session))
    yield from signs("the first nonce after that", session._replace(last=BEGIN.time, next=0))
