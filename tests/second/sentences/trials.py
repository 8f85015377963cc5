"""Trying other people's clients: document 02, K11, and the readings of it. Each case has its number beside it."""

from itertools import combinations

import client
import drafts
import encoding
import hashing
import model
from client import encoded_mask
from faults.grammar import BAD_MASKS
from faults.lists import JOINED, ended
from faults.orders import BAD_EXTRAS, GOOD_EXTRAS, LONGEST_NAME
from sentences.edges import given, talked_down
from sentences.lines import FULL, doubled
from sentences.placing import (
    CLOCK,
    HIGHEST,
    IV,
    KEY,
    SERVER_KEY,
    SESSION_ID,
    at,
    covering,
    judged_and_tried,
    ordered,
    replaced,
    replied,
    request_call,
    signing,
    telling,
)

KEYS = (b"s", b"iv", b"tag", b"kh", b"h", b"ah", b"eah")
S, TAG = model.sealed(SERVER_KEY, IV, model.token_text(model.Token(KEY, SESSION_ID, HIGHEST)))  # of the session
EXTRA = ordered(3, b"X-Dealer,X-Farm")
LONGEST = {"orders": ordered(FULL, LONGEST_NAME), "session_id": bytes(model.MOST_SESSION_ID)}
HOST = b"Host: a\r\n"


def tried(note, number, *alterations, **planned):
    """A request held to the setup reply of its session, altered as placing's requests are, and its number."""
    return given, note, request_call(*alterations, kind="fits", **planned), number


def told(change):
    """A reply of other pieces."""
    return at("told", lambda draft: setattr(draft, "told", change(draft.told)))


def with_text(key, text):
    """A reply that has this text under a key."""
    return told(lambda pieces: drafts.with_text(pieces, key, lambda _: text))


def altered(run, place):
    """In one bit of the byte at a place."""
    return run[:place] + bytes([run[place] ^ 1 << place % 8]) + run[place + 1:]


def sizes():
    yield "a setup reply of more than 459 bytes is 1, an empty one 23"
    yield tried("459 bytes, the longest there is", 0, **LONGEST)
    yield tried("460 bytes, the longest and a semicolon", 1, replied(lambda reply: reply + b";"), **LONGEST)
    yield tried("458 bytes, the longest without its last", 23, replied(lambda reply: reply[:-1]), **LONGEST)
    for size in (0, 1, 2, 6, 256, 458, 459):
        yield tried(f"{size} bytes of garbage", 23, replied(lambda reply: (b"s:" * size)[:size]))
    for size in (460, 461, 512, 715, 4_096, 65_536, 65_995):
        yield tried(f"{size} bytes of garbage", 1, replied(lambda reply: b";" * size))
    yield "Sizes: those of the gate for what it is lent"
    for name, sizes_and_numbers in {
        "method": ((0, 1), (1, 0), (16, 0), (17, 1)),
        "path": ((0, 1), (1, 0), (2_048, 0), (2_049, 1)),
        "body": ((0, 0), (65_536, 0), (65_537, 1)),
    }.items():
        for size, number in sizes_and_numbers:
            yield tried(f"{name} of {size} bytes", number, **{name: b"m" * size})
    for block in ("head", "aside"):
        for size, number in ((0, 0), (16_384, 0), (16_385, 1)):
            yield tried(f"{block} of {size} bytes", number, **{block: client.line(b"X", b"v" * (size - 4)) if size else b""})
    for size, number in ((0, 4), (4_096, 4), (4_097, 1)):
        yield tried(f"value of {size} bytes", number, replaced("value", "value", b";" * size))


def layout():
    yield "23: not exactly s, iv, tag, kh, h, ah and perhaps eah"
    yield tried("with eah", 0, orders=EXTRA)
    yield tried("without", 0)
    for place, key in enumerate(KEYS):
        number = 8 if key == b"eah" else 23
        yield tried(f"{key.decode()} missing", number, told(lambda pieces: pieces[:place] + pieces[place + 1:]), orders=EXTRA)
    for place in range(len(KEYS) + 1):
        for piece in (b"", b"x:AAAA", b"c:AAAA", b"x", b":AAAA", b"eah:cQ=="):
            yield tried(f"{piece.decode()} put in at {place}", 23, told(lambda pieces: [*pieces[:place], piece, *pieces[place:]]), orders=EXTRA)
    yield "in this order: each two exchanged"
    for first, second in combinations(range(len(KEYS)), 2):
        order = list(range(len(KEYS)))
        order[first], order[second] = second, first
        yield tried(f"{KEYS[first].decode()} and {KEYS[second].decode()}", 23, told(lambda pieces: [pieces[place] for place in order]), orders=EXTRA)
    yield "each once: each of them again at each place"
    for place, key in enumerate(KEYS):
        for to in range(len(KEYS) + 1):
            yield tried(f"{key.decode()} at {to}", 23, told(lambda pieces: [*pieces[:to], pieces[place], *pieces[to:]]), orders=EXTRA)
    yield "with no closing ;, and nothing else about it: each byte before, after and between"
    for byte in range(256):
        yield tried(f"{byte} before it", 23, replied(lambda reply: b"%c%s" % (byte, reply)))
        yield tried(f"{byte} after it", 23, replied(lambda reply: b"%s%c" % (reply, byte)))
        number = 0 if byte == ord(";") else 23
        yield tried(f"{byte} for the first semicolon", number, replied(lambda reply: reply.replace(b";", bytes([byte]), 1)))
        yield tried(f"{byte} for the last", number, replied(lambda reply: b"%s%c%s" % (reply[:reply.rindex(b";")], byte, reply[reply.rindex(b";") + 1:])))
    yield "keys are compared byte for byte (docs/DECISIONS.md)"
    for place, key in enumerate(KEYS):
        for other in (key.upper(), key + b" ", b" " + key, key * 2, key[1:], b"x"):
            renamed = told(lambda pieces: [*pieces[:place], other + pieces[place][len(key):], *pieces[place + 1:]])
            yield tried(f"{other.decode()} for {key.decode()}", 23, renamed, orders=EXTRA)


def base64():
    yield "Base64 is padded and its spare bits are zero: each byte as a letter of which none, two and four bits are spare"
    kh, tag = (encoding.base64_text(run) for run in (KEY, TAG))
    for key, own, place, spare, number in ((b"kh", kh, 0, 0, 11), (b"kh", kh, len(kh) - 2, 2, 11), (b"tag", tag, len(tag) - 3, 4, 8)):
        for byte in range(256):
            text = own[:place] + bytes([byte]) + own[place + 1:]
            is_good = byte in encoding.ALPHABET and encoding.SIX_BITS[byte] % (1 << spare) == 0
            yield tried(f"{byte} at {place} of {key.decode()}", (number if text != own else 0) if is_good else 23, with_text(key, text))
    yield "Base64 is padded: its padding missing, doubled or misplaced, and other bytes inside"
    for text in (kh[:-1], kh + b"=", kh[:-1] + b"A", kh + b"====", b"=" + kh[1:], kh[:8] + b"\r\n" + kh[8:], b" " + kh, kh + b"    "):
        yield tried(f"{text} as kh", 23, with_text(b"kh", text))


def contents():
    yield "with the lengths of 01 (kh 32): s of 1 to 118 bytes, which the request bears"
    for size in (0, 1, 2, 3, 36, 90, 117, 118, 119, 120):
        yield tried(f"{size} bytes", 0 if 1 <= size <= 118 else 23, replaced("token text", "token_text", bytes(size)))
    yield "kh, under which the request is signed"
    for size in (0, 1, 16, 31, 32, 33, 48, 64):
        number = 0 if size == 32 else 23
        yield tried(f"{size} bytes", number, replaced("told", "key", b"k" * size), at("told", lambda draft: draft.tell(b"kh", draft.key)))
    yield "iv and tag"
    for key, good in ((b"iv", 12), (b"tag", 16)):
        for size in (0, 1, 8, 11, 12, 13, 15, 16, 17, 32):
            yield tried(f"{key.decode()} of {size} bytes", 8 if size == good else 23, telling(key, b"\7" * size))
    yield "masks in their one form"
    for name, run in BAD_MASKS.items():
        for key in (b"h", b"ah"):
            yield tried(f"{key.decode()}, {name}", 23, telling(key, run))
    yield "an h that isn't 1 or 4: each byte, and some masks of more"
    for own, other in ((4, 1), (1, 4)):
        for mask in (*range(256), 257, 260, 1 << 10, 1 << 63, 1 << 63 | 4, (1 << 64) - 1):
            number = {own: 0, other: 8}.get(mask, 23)
            yield tried(f"h {mask} in a session of {own}", number, telling(b"h", encoded_mask(mask)), hash=own)
    for mask in (0, 2, 5, 8):
        carried = at("fields", lambda draft: draft.set_field(b"h", encoded_mask(mask)))
        yield tried(f"h {mask}, which the request bears", 23, telling(b"h", encoded_mask(mask)), carried)


def orders():
    yield "an ah with a bit above 55: each bit alone, with a line of its name"
    for bit in range(64):
        head = client.line(model.NAMES[bit - 1], b"v") if 1 <= bit <= 55 else b""
        yield tried(f"bit {bit}", 0 if bit <= 55 else 23, orders=ordered(1 << bit), head=head)
        yield tried(f"bit {bit} beside all up to 55", 0 if bit <= 55 else 23, orders=ordered(FULL | 1 << bit), head=head)
    yield tried("no bit", 0, orders=ordered(0))
    yield "an eah that no orders could have: names as the orders have them"
    for runs, number in ((GOOD_EXTRAS, 0), (BAD_EXTRAS, 23)):
        for name, run in runs.items():
            yield tried(name, 1 if len(run) > 200 else number, orders=ordered(3, run))
    for size in (1, 127, 128, 129, 130):
        yield tried(f"a name of {size} bytes", 0 if size <= 128 else 23, orders=ordered(3, b"n" * size))
    for count in (1, 7, 8, 9):
        names = b",".join(b"n%d" % place for place in range(count))
        yield tried(f"{count} names", 0 if count <= 8 else 23, orders=ordered(3, names), head=client.line(b"N0", b"v"))
    yield "each byte by itself"
    for byte in range(256):
        yield tried(f"{byte}", 0 if byte in model.TOKEN_CHARACTERS else 23, orders=ordered(3, bytes([byte])))
    yield "none of the 55, in any case, and not X-S-Armor"
    for name in (*model.NAMES, b"X-S-Armor"):
        for run in (name, b"q," + name.swapcase()):
            yield tried(run.decode(), 23, orders=ordered(0, run))
        yield tried(f"{name.decode()}x", 0, orders=ordered(0, name + b"x"))


def requests():
    yield "It says fit: under both hashes, with and without nonces, for sessions of any id"
    for known in hashing.FUNCTIONS:
        for mask in (2, 3):
            for session_id in (b"i", SESSION_ID, bytes(64)):
                request = {"hash": known, "orders": ordered(mask), "head": HOST, "session_id": session_id}
                yield tried(f"h {known}, ah {mask}", 0, **request)
                yield tried(f"h {known}, ah {mask}, another body", 11, replaced("lent", "body", b"x"), **request)
    yield "list fields on several lines, and set-aside ones"
    for name, (texts, value) in JOINED.items():
        lines = b"".join(ended(texts))
        for where, blocks in (("head", {"head": lines}), ("set aside", {"head": b"Accept: head\r\n", "aside": lines})):
            yield tried(f"{name}, {where}", 0, signing(lambda _: value), orders=covering(b"Accept"), **blocks)
            yield tried(f"{name}, {where}, signed otherwise", 11, signing(lambda _: value + b","), orders=covering(b"Accept"), **blocks)
    for name in model.LIST_FIELDS:
        yield tried(f"{name.decode()}, two", 0, signing(lambda _: b"a, b"), orders=covering(name), head=doubled(name, name.upper()))
    yield "a covered name that is no list field, repeated"
    for name, mask, extra in ((b"Host", 2, b""), (b"MIME-Version", 1 << 55, b""), (b"q", 0, b"w,q")):
        for blocks in ({"head": doubled(name)}, {"aside": doubled(name)}, {"head": doubled(name), "aside": client.line(name, b"")}):
            yield tried(f"{name.decode()}, covered", 7, orders=ordered(mask, extra), **blocks)
            yield tried(f"{name.decode()}, not covered", 0, orders=ordered(0), **blocks)
    yield "It needs no server key and opens no token, and has no clock, no limits and no record"
    for text in (b"x", b"\0" * 118, b"0:,0:,0:,"):
        yield tried(f"a token of {text[:10]}", 0, replaced("token text", "token_text", text))
    for t, lt in ((0, 0), (0, HIGHEST), (HIGHEST, 0), (HIGHEST, HIGHEST), (1, 255)):
        yield tried(f"t {t}, lt {lt}", 0, t=t, lt=lt)
    for n in (0, 255, 256, HIGHEST):
        yield tried(f"nonce {n}", 0, n=n)


def differing():
    yield "8 also where h, s, iv or tag differ from the reply: each byte"
    for key, run in ((b"s", S), (b"iv", IV), (b"tag", TAG)):
        for place in range(len(run)):
            yield tried(f"byte {place} of {key.decode()}", 8, telling(key, altered(run, place)))
    for run in (S[:-1], S + b"\0", S[1:], S[:1]):
        yield tried(f"s of {len(run)} bytes", 8, telling(b"s", run))
    for own, other in ((4, 1), (1, 4)):
        yield tried(f"h {own}, where the reply has {other}", 8, replaced("plan", "hash", own), hash=other)
    yield "8: ah or eah other than the reply's, c not of h's length"
    for own in (0, 2, 3, 7, FULL):
        for ordered_mask in (0, 2, 3, 7, FULL):
            number = 0 if own == ordered_mask else 8
            yield tried(f"ah {own}, where the reply has {ordered_mask}", number, telling(b"ah", encoded_mask(ordered_mask)), orders=ordered(own))
    for run in (b"X-Farm,X-Dealer", b"X-Dealer,x-farm", b"X-Dealer", b"X-Dealer,X-Farm,q", b"X-Dealer,X-Far", LONGEST_NAME):
        yield tried(f"another eah, {run[:20].decode()}", 8, telling(b"eah", run), orders=EXTRA)
    yield tried("an eah where the reply has none", 8, told(lambda pieces: pieces[:-1]), orders=EXTRA)
    yield tried("no eah where the reply has one", 8, told(lambda pieces: [*pieces, b"eah:cQ=="]), orders=ordered(3))
    for known, size in ((4, 32), (1, 64)):
        yield tried(f"c of {size} bytes under h {known}", 8, at("signed", lambda draft: draft.set_field(b"c", bytes(size))), hash=known)
    yield "11 under another key than the reply's: each byte of kh"
    for place in range(len(KEY)):
        yield tried(f"byte {place}", 11, telling(b"kh", altered(KEY, place)))


WRONG = (
    (1, replaced("lent", "path", b"")),
    (4, replaced("value", "value", b"")),
    (5, replaced("value", "value", b"x:AA==")),
    (6, replaced("lent", "method", b"GE T")),
    (7, replaced("lent", "head", HOST + HOST)),
    (8, at("fields", lambda draft: draft.set_field(b"ah", encoded_mask(1)))),
    (11, replaced("lent", "body", b"x")),
)


def in_order():
    yield "the first that holds: 1, 23, 4, 5, 6, 7, 8, 11"
    closed = replied(lambda reply: reply + b";")
    other_token = telling(b"tag", bytes(16))
    for number, wrong in WRONG:
        yield tried(f"{number}", number, wrong)
        yield tried(f"{number} beside 23", 1 if number == 1 else 23, wrong, closed)
        yield tried(f"{number} beside another token", min(number, 8), wrong, other_token)
    for (number, wrong), (_, other) in combinations(WRONG, 2):
        yield tried(f"{number} beside a later one", number, other, wrong)


def agreeing():
    yield "It says fit exactly for values that the gate would carry past check 11 and K2's check against the record"
    for known in hashing.FUNCTIONS:
        yield judged_and_tried, f"a request under h {known}", 0, 0, request_call(hash=known)
    yield judged_and_tried, "an idle request", 13, 0, request_call(lt=0)
    yield judged_and_tried, "an old request", 14, 0, request_call(t=CLOCK - 61)
    yield judged_and_tried, "a request far ahead", 21, 0, request_call(t=CLOCK + 31)
    for n, number in ((36, 15), (100, 16), (37, 0)):
        yield judged_and_tried, f"nonce {n} after 100", number, 0, request_call(at("plan", lambda draft: draft.window(100, 1)), n=n)
    yield judged_and_tried, "rightly signed under another hash", 8, 8, talked_down()
    yield judged_and_tried, "wrongly signed under another hash", 11, 8, talked_down(replaced("lent", "body", b"x"))
    for number, wrong in WRONG[1:]:
        yield judged_and_tried, f"a request that is {number}", number, number, request_call(wrong)


def cases():
    yield from sizes()
    yield from layout()
    yield from base64()
    yield from contents()
    yield from orders()
    yield from requests()
    yield from differing()
    yield from in_order()
    yield from agreeing()
