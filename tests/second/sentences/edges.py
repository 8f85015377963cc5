"""The edges and the worked example of docs/RULES.md, as calls."""

import base64
from typing import NamedTuple

import calls
import client
import drafts
import hashing
import model
import record as rec
from sentences.lists import lines
from sentences.placing import (
    CLOCK,
    HIGHEST,
    IV,
    ORDERS,
    at,
    covering,
    lent,
    ordered,
    replaced,
    replied,
    request_call,
    setup_call,
    signing,
    telling,
)


def cases():
    yield "docs/RULES.md, at the edges"
    for asked, call, number in EDGES:
        yield given, asked, call, number
    yield "docs/RULES.md, the example"
    for whose, one in (("a dealer", DEALER), ("a scanner", SCANNER)):
        yield given, f"a setup of {whose}", one.setup, 0
        yield given, f"a request of {whose}", one.request, 0
        yield given, f"a request of {whose}, tried", one.trial, 0


def given(asked, call, number):
    yield asked, call, (number,)


# Edges: what is asked, the call, and its number


def aged(seconds, request_life=0):
    return request_call(orders=ordered(3, request_life=request_life), t=CLOCK - seconds, lt=CLOCK - seconds)


def ahead_again(seconds):
    return request_call(at("plan", lambda draft: draft.window(100, 1)), t=CLOCK + seconds, lt=CLOCK + seconds, n=100)


def nonce(n, highest=None, bits=1):
    if highest is None:
        return request_call(n=n)
    return request_call(at("plan", lambda draft: draft.window(highest, bits)), n=n)


def with_value(change):
    return request_call(at("value", lambda draft: setattr(draft, "value", change(draft.value))))


def lasting(expiry):
    return request_call(replaced("plan", "expiry", expiry))


def set_up_at(clock):
    return calls.altered(setup_call(), clock=clock)


def with_code(size):
    return request_call(at("signed", lambda draft: draft.set_field(b"c", bytes(size))))


def talked_down(*alterations, **planned):
    """Rightly signed under SHA-256, in a session of SHA-512."""
    return request_call(replaced("plan", "hash", hashing.SHA_256), *alterations, **planned)


def tried(*alterations, **planned):
    """Held to the setup reply of its session."""
    return request_call(*alterations, kind="fits", **planned)


def changed(method):
    """A POST that is lent with another method."""
    return request_call(replaced("lent", "method", method), method=b"POST")


def named(name, *alterations, **blocks):
    """With lines in these blocks, where this name is ordered too."""
    orders = covering(name)
    return request_call(*alterations, orders=orders._replace(mask=orders.mask | ORDERS.mask), **blocks)


def accepting(value, head, aside=b""):
    """With these lines of Accept, and signed as this value."""
    return named(b"Accept", signing(lambda _: value), head=head, aside=aside)


def made_one(sent, value):
    """Signed with these lines of Accept and lent with one."""
    return named(b"Accept", replaced("lent", "head", lines(value)), head=sent)


def among(count):
    """In the last of so many records; the others are free."""
    return lent(request_call(), [rec.FREE] * (count - 1) + [OWN])


ONLY_512 = ordered(3, hashes=hashing.SHA_512)

OWN, OTHER = (rec.fresh(iv, HIGHEST) for iv in (IV, IV[::-1]))

FORGED = replaced("lent", "body", b"belts=12")

HOST = b"Host:a\r\n"
TWO = lines(b"a", b"b")
THREE = lines(b"a", b"", b"b")
LAST_EMPTY = lines(b"a", b"")
OWN_TWO = lines(b"c", b"d")

EDGES = (
    ("a request made 60 seconds ago", aged(60), 0),
    ("a request made 61 seconds ago", aged(61), 14),
    ("a request made 300 seconds ago where the orders name 300", aged(300, 300), 0),
    ("a request made 301 seconds ago where the orders name 300", aged(301, 300), 14),
    ("a request from a clock that runs 30 seconds ahead", aged(-30), 0),
    ("a request from a clock that runs 31 seconds ahead", aged(-31), 21),
    ("a request from a clock that runs a year ahead, and whose nonce was taken", ahead_again(31_536_000), 21),
    ("`t` 1,800 seconds after `lt`", request_call(lt=CLOCK - 1_800), 0),
    ("`t` 1,801 seconds after `lt`", request_call(lt=CLOCK - 1_801), 13),
    ("`lt` after `t`", request_call(lt=CLOCK + 1), 0),
    ("a second before the token's expiry", lasting(CLOCK + 1), 0),
    ("at the token's expiry", lasting(CLOCK), 10),
    ("a request under SHA-256 in a session of SHA-256", request_call(hash=hashing.SHA_256), 0),
    ("a request under SHA-256 in a session of SHA-512", talked_down(), 8),
    ("the same at the token's expiry", talked_down(replaced("plan", "expiry", CLOCK)), 10),
    ("the same, wrongly signed", talked_down(FORGED), 11),
    ("a request in a session of SHA-256 where the orders allow SHA-512 alone", request_call(hash=hashing.SHA_256, orders=ONLY_512), 8),
    ("a code of 32 bytes under SHA-512", with_code(32), 8),
    ("a code of 48 bytes", with_code(48), 4),
    ("a session's first nonce, 0", nonce(0), 0),
    ("a session's first nonce, 4,294,967,295", nonce(HIGHEST), 0),
    ("nonce 101 after 100", nonce(101, 100), 0),
    ("nonce 164 after 100", nonce(164, 100), 0),
    ("nonce 37, new, after 100", nonce(37, 100), 0),
    ("nonce 36, new, after 100", nonce(36, 100), 15),
    ("nonce 100 again", nonce(100, 100), 16),
    ("nonce 65 after 1", nonce(65, 1), 0),
    ("nonce 1, new, after 65", nonce(1, 65), 15),
    ("a value with one closing `;`", with_value(lambda value: value + b";"), 0),
    ("a value with two closing `;`", with_value(lambda value: value + b";;"), 4),
    ("a value with a space before a key", with_value(lambda value: b" " + value), 5),
    ("a value with a field twice", with_value(lambda value: value + b";lt:AA=="), 5),
    ("a value with `t:AAE=`, a leading zero byte", with_value(lambda value: value + b";t:AAE="), 4),
    ("a value with `t:AB==`, a spare bit set", with_value(lambda value: value + b";t:AB=="), 4),
    ("no line for a covered name, signed as an empty one", request_call(), 0),
    ("a covered name in the head and among the set-aside lines", request_call(head=HOST, aside=b"host: b \r\n"), 0),
    ("Accept on two lines, `a` and `b`, signed as `a, b`", accepting(b"a, b", TWO), 0),
    ("the same, signed as `a`", accepting(b"a", TWO), 11),
    ("the same, signed as `a,b`", accepting(b"a,b", TWO), 11),
    ("the same, signed as `b, a`", accepting(b"b, a", TWO), 11),
    ("two lines of Accept, `a` and `b`, that were made one on the way, `a, b`", made_one(TWO, b"a, b"), 0),
    ("two lines of Accept, `a` and `b`, that were made one on the way, `a,b`", made_one(TWO, b"a,b"), 11),
    ("Accept on three lines, `a`, an empty one and `b`, signed as `a, , b`", accepting(b"a, , b", THREE), 0),
    ("the same, signed as `a, b`", accepting(b"a, b", THREE), 11),
    ("Accept on two lines, `a` and an empty one, signed as `a, `", accepting(b"a, ", LAST_EMPTY), 0),
    ("the same, made one line on the way, `a, `, whose space is left out", made_one(LAST_EMPTY, b"a, "), 11),
    ("Accept twice in the head and twice among the set-aside lines, signed as the latter", accepting(b"c, d", TWO, OWN_TWO), 0),
    ("Accept twice in the head and once among the set-aside lines, signed as the latter", accepting(b"c", TWO, lines(b"c")), 0),
    ("the same, signed as the head's two", accepting(b"a, b", TWO, lines(b"c")), 11),
    ("Host twice in the head", request_call(head=HOST + HOST), 7),
    ("Host twice in the head and once among the set-aside lines", request_call(head=HOST + HOST, aside=HOST), 7),
    ("Cookie twice among the set-aside lines", named(b"Cookie", aside=b"Cookie: a\r\nCookie: b\r\n"), 7),
    ("an extra name twice in the head", named(b"X-Dealer", head=b"X-Dealer: a\r\nX-Dealer: b\r\n"), 7),
    ("a name that is not covered, twice in the head", request_call(head=b"Cookie: a\r\nCookie: b\r\n"), 0),
    ("a head whose last line lacks CR LF", request_call(replaced("lent", "head", HOST[:-2])), 6),
    ("a method of 16 bytes", request_call(method=b"M" * 16), 0),
    ("a method of 17 bytes", request_call(method=b"M" * 17), 1),
    ("no method", request_call(method=b""), 1),
    ("a method with a space in it", request_call(method=b"GE T"), 6),
    ("a `POST` that was changed to `DELETE` on the way", changed(b"DELETE"), 11),
    ("a `POST` that was changed to `post` on the way", changed(b"post"), 11),
    ("a body that was altered on the way", request_call(FORGED, body=b"belts=11"), 11),
    ("a setup with `r:AQQ=`, SHA-512", setup_call(value=b"r:AQQ="), 0),
    ("a setup with `r:AQQ=;`", setup_call(value=b"r:AQQ=;"), 0),
    ("a setup with `r:AQE=`, SHA-256", setup_call(value=b"r:AQE="), 0),
    ("a setup with `r:AQE=` where the orders allow SHA-512 alone", setup_call(ONLY_512, b"r:AQE="), 19),
    ("a setup with `r:AQI=`, neither of the two", setup_call(value=b"r:AQI="), 19),
    ("a setup with an empty value", setup_call(value=b""), 4),
    ("a setup whose session ends at 4,294,967,295", set_up_at(HIGHEST - model.DEFAULT_SESSION_LIFE), 0),
    ("a setup whose session would end a second later", set_up_at(HIGHEST - model.DEFAULT_SESSION_LIFE + 1), 20),
    ("a request of the session in the last of 4,096 records", among(4_096), 0),
    ("a request of the session in the last of 4,097 records", among(4_097), 1),
    ("an index that lacks two bytes", lent(request_call(), [OWN, OTHER], b"\0\0"), 1),
    ("an index with two entries exchanged", lent(request_call(), [OWN, OTHER], b"\0\1\0\0"), 22),
    ("an index of `FF` alone, and a used record", lent(request_call(), [OWN], b"\xff\xff"), 22),
    ("such an index at the token's expiry", lent(lasting(CLOCK), [OWN], b"\xff\xff"), 22),
    ("two used records with one IV, and any index", lent(request_call(), [OWN, OWN], b"\xff\xff\xff\xff"), 3),
    ("a request made a year ago, tried", tried(t=CLOCK - 31_536_000), 0),
    ("a request whose token has expired, tried", tried(replaced("plan", "expiry", CLOCK)), 0),
    ("a request whose nonce was taken, tried", tried(at("plan", lambda draft: draft.window(100, 1)), n=100), 0),
    ("a request signed with `/stock` for the path `/stock?part=belt`, tried", tried(replaced("lent", "path", b"/stock?part=belt"), path=b"/stock"), 11),
    ("a request under SHA-256, tried by a reply with SHA-512", talked_down(kind="fits"), 8),
    ("the same, wrongly signed, tried", talked_down(FORGED, kind="fits"), 8),
    ("a request tried by a reply with another `iv`", tried(telling(b"iv", IV[::-1])), 8),
    ("by a reply with another `kh`", tried(telling(b"kh", bytes(model.KEY))), 11),
    ("by a reply with `h:AQU=`, both hashes", tried(telling(b"h", client.encoded_mask(hashing.BOTH))), 23),
    ("by a reply whose fields stand in another order", tried(replied(lambda reply: b";".join(reversed(reply.split(b";"))))), 23),
    ("by a reply with one closing `;`", tried(replied(lambda reply: reply + b";")), 23),
    ("by an empty reply", tried(replied(lambda reply: b"")), 23),
    ("by one of 460 bytes", tried(replied(lambda reply: reply.ljust(460))), 1),
)


# The example


class Exchange(NamedTuple):
    """A session set up and one of its requests: the calls, and what a client sees and makes."""

    setup: drafts.Call
    reply: bytes
    parts: list
    code: bytes
    fields: list
    request: drafts.Call
    trial: drafts.Call


def exchange(offered):
    """By a client that has these hashes."""
    server_key, key, iv = bytes(range(32)), bytes(range(32, 64)), bytes(range(64, 76))
    orders = model.Orders(mask=1 | 2 | 256, hashes=hashing.BOTH, extra=b"X-Dealer", request_life=0, idle=0, session_life=0)
    setup = drafts.Setup(
        kind="setup", table=rec.to_bytes(rec.FREE), index=rec.fitting_index([rec.FREE]), iv=iv, reply=(model.LEAST_REPLY, 0), orders=orders,
        clock=1_505_773_123, server_key=server_key, session_key=key, session_id=b"brandt-1", value=client.setup_value(offered),
    ).call()
    outcome = calls.answered(setup, bytes(model.LEAST_REPLY))
    reply = outcome.reply[:outcome.length]
    carried = client.parse_reply(reply)
    head = [client.line(b"Host", b"portal.example"), client.line(b"Cookie", b" seat=4 "), client.line(b"X-Dealer", b"Brandt")]
    method, path, body = b"POST", b"/orders", b"belts=11"
    fields = [(name, carried[name]) for name in (b"s", b"iv", b"tag", b"h", b"ah", b"eah")]
    fields += [(b"n", client.encoded_number(7)), (b"t", client.encoded_number(1_505_773_183)), (b"lt", client.encoded_number(1_505_773_123))]
    parts = client.signed_parts(method, fields, head, [], path, body)
    code = hashing.code(client.decoded_mask(carried[b"h"]), key, client.joined(parts))
    fields.append((b"c", code))
    sent = (client.header_value(fields), method, b"".join(head), b"", path, body)
    left = (outcome.table, outcome.index, (model.LEAST_REPLY, 0))
    request = drafts.Call("judge", (*orders, 1_505_773_190, server_key, *sent), *left)
    trial = drafts.Call("fits", (reply, *sent), *left)
    return Exchange(setup, reply, parts, code, fields, request, trial)


DEALER, SCANNER = exchange(hashing.BOTH), exchange(hashing.SHA_256)


def shown(run):
    """Bytes as a reader can follow them: text where it is text, else hexadecimal."""
    return f"`{run.decode()}`" if run and all(32 < byte < 127 for byte in run) else run.hex(" ") or "nothing"


def part_row(name, part):
    return f"| `{name.decode()}` | {shown(part)} | {shown(client.joined([(name, part)]))} |"


def coded(contents):
    return f"`{base64.b64encode(contents).decode()}`"


def example_lines():
    """The page's lines about the two."""
    yield f"    {DEALER.reply.decode()}"
    yield from (part_row(*part) for part in DEALER.parts)
    yield from (f"| `{name.decode()}` | {shown(contents)} | {coded(contents)} |" for name, contents in DEALER.fields[3:9])
    yield f"    {client.header_value(DEALER.fields).decode()}"
    h = dict(SCANNER.parts)[b"h"]
    yield f"{part_row(b'h', h)} {coded(h)} |"
    for one in (DEALER, SCANNER):
        key, known = calls.named(one.setup)["session_key"], client.decoded_mask(dict(one.parts)[b"h"])
        yield f"    {one.code.hex()}"
        yield f"    {model.invalidation(known, key).decode()}"
