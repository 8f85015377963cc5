"""Self-tests: the twelve proved cases of document 01, a hand-made call for each row of its table, the catalogue, calls to a carrier, and a scanner's."""

import base64
import hashlib
import hmac
import io
import random
import re

from cryptography.hazmat.primitives.ciphers.aead import AESGCM

import agreement
import calls
import client
import drafts
import encoding
import hashing
import model
import record as rec
from carrier import cases as carrier_cases
from faults import CATALOGUE
from histories import Disagreement, History
from scanner import cases as scanner_cases

CASES = []


def case(name):
    def enter(check):
        CASES.append((name, check))
        return check

    return enter


def run(out):
    """Run all; true if none failed."""
    failed = 0
    for name, check in CASES:
        try:
            good = check()
        except Exception as error:  # a case that cannot run has failed like any other
            good, name = False, f"{name}: {error!r:.2000}"
        if not good:
            failed += 1
            print(f"failed: {name}", file=out)
    print(f"{len(CASES) - failed} passed, {failed} failed", file=out)
    return failed == 0


def equal(name, got, wanted):
    case(f"{name}: {got!r:.200} should be {wanted!r:.200}")(lambda: got == wanted)


# The twelve cases of 01

WINDOW_100 = rec.Record(1, bytes(12), 0, 1, 100, 1, hashing.SHA_512)

equal("1, netstring of nothing", encoding.netstring(b""), b"0:,")
equal("2, Kb+4", encoding.number(encoding.base64_bytes(b"Kb+4")), 2_736_056)
equal("3, AQQ=", encoding.mask(encoding.base64_bytes(b"AQQ=")), 4)
equal("4, WcBGQw==", encoding.number(encoding.base64_bytes(b"WcBGQw==")), 1_505_773_123)
equal("5, Aw1z7w==", encoding.mask(encoding.base64_bytes(b"Aw1z7w==")), 0x0D73EF)
equal("6, fresh, n 0", rec.take_nonce(rec.fresh(bytes(12), 0), 0), (0, WINDOW_100._replace(highest=0)))
equal("7, n 37", rec.take_nonce(WINDOW_100, 37), (0, WINDOW_100._replace(bits=1 << 63 | 1)))
equal("8, n 36", rec.take_nonce(WINDOW_100, 36), (15, WINDOW_100))
equal("9, n 100", rec.take_nonce(WINDOW_100, 100), (16, WINDOW_100))
equal("10, n 164", rec.take_nonce(WINDOW_100, 164), (0, WINDOW_100._replace(highest=164, bits=1)))
equal("11, t 1000, lt 1010",
      model.idle_too_long(model.Orders(0, 4, b"", 0, 0, 0), {b"t": b"\3\xe8", b"lt": b"\3\xf2"}), False)

TEXT_12 = bytes.fromhex(
    "333a 474554 2c 323a 0104 2c 323a 0103 2c 303a 2c 313a 05 2c 323a 03e8 2c 323a 03de 2c 313a 61 2c 313a 2f 2c 303a 2c"
)
FIELDS_12 = {b"h": b"\1\4", b"ah": b"\1\3", b"n": b"\5", b"t": b"\3\xe8", b"lt": b"\3\xde"}

equal("12, signed text of the model", model.signed_text(b"GET", FIELDS_12, [b"a"], b"/", b""), TEXT_12)
equal("12, signed text of the client",
      client.joined(client.signed_parts(b"GET", list(FIELDS_12.items()), [b"Host: a\r\n"], [], b"/", b"")), TEXT_12)

# The primitives, by published vectors: RFC 4231 case 1, and test case 14 of the GCM specification

equal("HMAC-SHA-512", hashing.code(4, b"\x0b" * 20, b"Hi There").hex(),
      "87aa7cdea5ef619d4ff0b4241a1d6cb02379f4e2ce4ec2787ad0b30545e17cde"
      "daa833b7d6b8a702038b274eaea3f4e4be9d914eeb61f1702e696c203a126854")
equal("HMAC-SHA-256", hashing.code(1, b"\x0b" * 20, b"Hi There").hex(),
      "b0344c61d8db38535ca8afceaf0bf12b881dc200c9833da726e9376c2e32cff7")
equal("AES-256-GCM", tuple(run.hex() for run in model.sealed(bytes(32), bytes(12), bytes(16))),
      ("cea7403d4d606b6e074ec5d3baf39d18", "d0d1c8a799996bf0265b98b5d48ab919"))

# Base64 against the standard library, on every text of one group over a small alphabet

SMALL = b"AQgv/w+=-_ "


@case("base64 of every group over a small alphabet")
def every_group():
    groups = (bytes([a, b, c, d]) for a in SMALL for b in SMALL for c in SMALL for d in SMALL)
    return all(encoding.base64_bytes(text) == strictly_decoded(text) for text in groups)


def strictly_decoded(text):
    """A text is good exactly if encoding what it decodes to gives it back."""
    try:
        run = base64.b64decode(text, validate=True)
    except ValueError:
        return None
    return run if base64.b64encode(run) == text else None


# A hand-made call for each row of the table. The request is that of case 12; now is 1000.

SERVER_KEY = bytes(range(32))
SESSION_KEY = bytes(range(100, 132))
IV = b"twelve bytes"
REPLY = b"\xaa" * 1_024
FRESH = rec.fresh(IV, 2_000)
ORDERS = model.Orders(3, 5, b"", 0, 0, 1_000)


def text_of(fields):
    return b";".join(key + b":" + base64.b64encode(run) for key, run in fields.items())


TOKEN = b"32:" + SESSION_KEY + b",2:id,4:2000,"


def request(records=(FRESH, rec.FREE), orders=ORDERS, clock=1_000, method=b"GET", head=b"Host: a\r\n", aside=b"", path=b"/",
            token=TOKEN, text=TEXT_12, sign=hashlib.sha512, server_key=SERVER_KEY, reply=REPLY, closing=b"", index=None, **changed):
    """The request with one thing or two changed; further names are fields."""
    run = AESGCM(SERVER_KEY).encrypt(IV, token, None)
    fields = {b"s": run[:-16], b"iv": IV, b"tag": run[-16:], **FIELDS_12}
    fields[b"c"] = hmac.new(SESSION_KEY, text, sign).digest()
    fields.update({key.encode(): run for key, run in changed.items()})
    value = text_of(fields) + closing
    table, index = rec.table_of(records), lent_index(records, index)
    return model.judge(orders, clock, server_key, value, method, head, aside, path, b"", table, index, reply), table, index, reply


def setting_up(records=(rec.FREE,), orders=ORDERS, clock=1_000, value=b"r:AQQ=", session_id=b"id", index=None):
    table, index = rec.table_of(records), lent_index(records, index)
    return model.setup(orders, clock, SERVER_KEY, SESSION_KEY, IV, session_id, value, table, index, REPLY), table, index, REPLY


def lent_index(records, index):
    """The one that fits, unless another is given."""
    return rec.fitting_index(records) if index is None else index


def row(number, asked, name=""):
    """A refusal without effect."""
    outcome, table, index, reply = asked
    equal(f"row {number} {name}", outcome, model.Outcome(number, 0, reply, table, index))


def freed(number, asked, sign=hashlib.sha512, length=90):
    """A refusal that frees the one used record and writes the invalidation."""
    outcome, table, index, reply = asked
    text = b"i:" + base64.b64encode(hmac.new(SESSION_KEY, b"Session Expired", sign).digest())
    wanted = model.Outcome(number, length, text + reply[length:], bytes(len(table)), b"\xff" * len(index))
    equal(f"row {number}, which frees", outcome, wanted)


def accepted(name, asked, record):
    outcome, table, index, reply = asked
    wanted = model.Outcome(0, 2, b"id" + reply[2:], rec.to_bytes(record) + table[31:], index)
    equal(f"row 0, {name}", outcome, wanted)


TAKEN = FRESH._replace(begun=1, highest=5, bits=1)


def aged(seconds, **changed):
    t = (1_000 - seconds).to_bytes(2, "big")
    return request(text=TEXT_12.replace(b"\3\xe8", t), t=t, **changed)


NAMED = ORDERS._replace(request_life=300)

accepted("request of case 12", request(), TAKEN)
accepted("closing semicolon", request(closing=b";"), TAKEN)
accepted("age 60", aged(60), TAKEN)
accepted("age 300 where 300 is named", aged(300, orders=NAMED), TAKEN)
accepted("30 seconds ahead", aged(-30), TAKEN)
row(1, request(path=b""))
row(1, request(reply=bytes(1_023)), "reply of 1,023")
row(2, request(orders=ORDERS._replace(mask=1 << 56 | 3)))
row(2, request(orders=ORDERS._replace(extra=b"a" * 129)), "129 bytes of extra names")
row(3, request(records=(FRESH, FRESH)))
row(4, request(t=b"\0\3\xe8"))
row(5, request(x=b"\0"))
row(6, request(head=b"Host a\r\n"))
row(7, request(head=b"Host: a\r\nhost: a\r\n"))
row(8, request(ah=b"\1\1"))
row(9, request(server_key=bytes(32)))
row(9, request(token=TOKEN + b","), "a byte after the netstrings")
freed(10, request(clock=2_000))
row(11, request(path=b"/x"))
row(12, request(records=(rec.FREE,)))
freed(13, request(text=TEXT_12.replace(b"2:\3\xde", b"1:\0"), lt=b"\0", orders=ORDERS._replace(idle=999)))
row(14, aged(61), "age 61")
row(14, aged(301, orders=NAMED), "age 301 where 300 is named")
row(15, request(records=(TAKEN._replace(highest=69),)))
row(16, request(records=(TAKEN,)))
row(17, setting_up(records=(FRESH, rec.FREE)))
row(18, setting_up(records=(rec.fresh(b"another iv..", 1_001),)))
row(19, setting_up(value=b"r:AQI="))
row(20, setting_up(clock=4_294_966_296))
row(21, aged(-31), "31 seconds ahead")
row(21, aged(-31, orders=NAMED), "31 seconds ahead where 300 is named")
row(12, aged(-31, records=(rec.FREE,)), "before 21")
freed(13, request(text=TEXT_12.replace(b"\3\xe8", b"\4\7").replace(b"2:\3\xde", b"1:\0"), t=b"\4\7", lt=b"\0", orders=ORDERS._replace(idle=1_030)))
row(21, aged(-31, records=(TAKEN._replace(highest=69),)), "before 15")
row(21, aged(-31, records=(TAKEN,)), "before 16")
row(1, setting_up(session_id=bytes(65)), "at setup")
row(5, setting_up(value=b"r:AQQ=;r:AQQ="), "at setup")


@case("no request is both too old and too far ahead")
def old_or_ahead():
    times = [end + by for end in (0, 1 << 31, model.HIGHEST) for by in range(-62, 63) if 0 <= end + by <= model.HIGHEST]
    shortest = ORDERS._replace(request_life=1)

    def both(clock, t):
        field = {b"t": client.encoded_number(t)}
        return model.too_old(shortest, clock, field) and model.too_far_ahead(clock, field)

    return not any(both(clock, t) for clock in times for t in times)


def set_up(h, record, **asked):
    """A setup whose reply has this h, and which leaves this record."""
    outcome, *_ = setting_up(records=(rec.fresh(b"another iv..", 1_000),), **asked)
    run = AESGCM(SERVER_KEY).encrypt(IV, TOKEN, None)
    fields = {b"s": run[:-16], b"iv": IV, b"tag": run[-16:], b"kh": SESSION_KEY, b"h": h, b"ah": b"\1\3"}
    text = text_of(fields)
    wanted = model.Outcome(0, len(text), text + REPLY[len(text):], rec.to_bytes(record), b"\0\0")
    equal(f"row 0, setup: {asked}", outcome, wanted)


# The two hashes. The request of case 12 under SHA-256 has another h in its text, and its code is made with that hash.

UNDER_256 = {"h": b"\1\1", "text": TEXT_12.replace(b"\1\4", b"\1\1"), "sign": hashlib.sha256}
FRESH_256, TAKEN_256 = (record._replace(hash=1) for record in (FRESH, TAKEN))
ONLY_512, ONLY_256 = (ORDERS._replace(hashes=hashes) for hashes in (4, 1))

set_up(b"\1\4", FRESH)
set_up(b"\1\4", FRESH, value=b"r:AQU=")
set_up(b"\1\1", FRESH_256, value=b"r:AQE=")
set_up(b"\1\1", FRESH_256, value=b"r:AQU=", orders=ONLY_256)
row(19, setting_up(value=b"r:AQE=", orders=ONLY_512), "SHA-256 offered, SHA-512 allowed")
row(19, setting_up(value=b"r:AQQ=", orders=ONLY_256), "SHA-512 offered, SHA-256 allowed")
for other_hashes in (0, 2, 3, 7, 1 << 63 | 5):
    row(2, setting_up(orders=ORDERS._replace(hashes=other_hashes)), f"hashes {other_hashes}, at setup")
    row(2, request(orders=ORDERS._replace(hashes=other_hashes)), f"hashes {other_hashes}")
for other_hash in (0, 2, 5, 255):
    row(3, request(records=(FRESH._replace(hash=other_hash),)), f"hash {other_hash}")
row(3, request(records=(FRESH, rec.FREE._replace(hash=4))), "a free record that keeps a hash")
accepted("request of SHA-256", request(records=(FRESH_256, rec.FREE), **UNDER_256), TAKEN_256)
accepted("request of SHA-256, which alone is allowed", request(records=(FRESH_256,), orders=ONLY_256, **UNDER_256), TAKEN_256)
row(4, request(c=bytes(48)), "c of 48 bytes")
row(8, request(c=bytes(32)), "c of 32 bytes under h 4")
row(8, request(records=(FRESH_256,), **UNDER_256, c=bytes(64)), "c of 64 bytes under h 1")
row(8, request(h=b"\1\5", text=TEXT_12.replace(b"\1\4", b"\1\5")), "h 5")
row(8, request(records=(FRESH_256,), orders=ONLY_512, clock=2_000, **UNDER_256), "h not allowed, before 10")
row(8, request(orders=ONLY_256, path=b"/x"), "h not allowed, before 11")
row(8, request(**UNDER_256), "h other than the record's")
row(11, request(path=b"/x", **UNDER_256), "before h is held to the record")
row(12, request(records=(rec.FREE,), **UNDER_256), "before h is held to the record")
row(8, request(clock=1_100, **UNDER_256), "h other than the record's, before 14")
row(8, request(records=(TAKEN,), **UNDER_256), "h other than the record's, before 16")
freed(10, request(clock=2_000, **UNDER_256), hashlib.sha256, 46)
freed(10, request(records=(FRESH_256,), clock=2_000))
IDLE_256 = {**UNDER_256, "text": UNDER_256["text"].replace(b"2:\3\xde", b"1:\0"), "lt": b"\0", "orders": ORDERS._replace(idle=999)}
freed(13, request(records=(FRESH_256,), **IDLE_256), hashlib.sha256, 46)
row(8, request(**IDLE_256), "h other than the record's, before 13")


# The method. That of case 12 is GET.

accepted("a method of 16 bytes", request(method=b"M" * 16, text=TEXT_12.replace(b"3:GET", b"16:" + b"M" * 16)), TAKEN)
for wrong_size in (0, 17, 19):
    row(1, request(method=b"M" * wrong_size), f"a method of {wrong_size} bytes")
for no_token in (b"GE T", b"GET ", b"G/T", b"\0", b"\x7f", b"\xff"):
    row(6, request(method=no_token), f"method {no_token}")
row(4, request(method=b"GE T", t=b"\0\3\xe8"), "before the method's bytes")
row(5, request(method=b"GE T", x=b"\0"), "before the method's bytes")
row(6, request(method=b"GE T", head=b"Host: a\r\nhost: a\r\n"), "before a name twice")
row(11, request(method=b"DELETE"), "another method than was signed")
row(11, request(method=b"get"), "the method in other case")
row(11, request(text=TEXT_12[6:]), "no method signed")


# Repeated lines. Accept has bit 3: a request that covers it alone beside the nonce has ah 01 09.


def accepting(head, signed, aside=b""):
    text = TEXT_12.replace(b"\1\3", b"\1\x09").replace(b"1:a,", b"%d:%s," % (len(signed), signed))
    return request(orders=ORDERS._replace(mask=9), ah=b"\1\x09", head=head, aside=aside, text=text)


A_AND_B = b"Accept: a\r\nACCEPT:\tb\t\r\n"

equal("the list fields are of the list", [name in model.NAMES for name in model.LIST_FIELDS], [True] * 12)
equal("list fields in other case", [model.is_list_field(name) for name in (b"te", b"TE", b"iF-mATCH", b"If", b"T", b"Host", b"TEE")], [True] * 3 + [False] * 4)
for block, in_block in (
    (A_AND_B, b"a, b"),
    (b"accept: b\r\nAccept: a\r\n", b"b, a"),
    (b"Accept: a\r\nHost: c\r\nHost: d\r\nAccept:\r\nAccept: b\r\n", b"a, , b"),
    (b"Accept: a\r\nAccept: \r\n", b"a, "),
    (b"Accept:\r\nAccept: a\r\n", b", a"),
    (b"Accept:\r\nAccept:\r\nAccept:\r\n", b", , "),
    (b"Accept: \ta, , b,\t\r\n", b"a, , b,"),
    (b"Accept:\r\n", b""),
    (b"Accept-Charset: a\r\nAccept-Charset: b\r\n", b""),
):
    accepted(f"{block} in the head", accepting(block, in_block), TAKEN)
    accepted(f"{block} set aside", accepting(b"", in_block, block), TAKEN)
    equal(f"{block}, by the client", client.header(b"Accept", block.splitlines(True), []), in_block)
    equal(f"{block} set aside, by the client", client.header(b"Accept", [b"Host: c\r\n"], block.splitlines(True)), in_block)
accepted("two in the head, one set aside", accepting(A_AND_B, b"own", b"accept: own\r\n"), TAKEN)
accepted("two in the head, an empty one set aside", accepting(A_AND_B, b"", b"Accept:\r\n"), TAKEN)
accepted("one in the head, two set aside", accepting(b"Accept: c\r\n", b"a, b", A_AND_B), TAKEN)
accepted("one line a, b", accepting(b"Accept: a, b\r\n", b"a, b"), TAKEN)
for other_value in (b"a,b", b"b, a", b"a", b"b", b"ab", b"a, b, ", b"a ,b", b"a, \tb", b""):
    row(11, accepting(A_AND_B, other_value), f"a and b signed as {other_value}")
row(11, accepting(A_AND_B, b"a, b", b"Accept:\r\n"), "signed with the head's where one is set aside")
row(11, accepting(b"Accept: a\r\nAccept:\r\n", b"a,"), "a last empty one signed without its blank")
row(7, request(head=b"Host: a\r\nhost: a\r\n", aside=b"Host: a\r\n"), "in the head, which isn't chosen")
row(7, request(aside=b"Host: a\r\nhost: a\r\n"), "in the set-aside lines")
row(7, request(orders=ORDERS._replace(extra=b"q"), head=b"q: a\r\nQ: b\r\n", aside=b"q:\r\n"), "an extra name")


@case("setup: the longest reply has 459 bytes")
def longest_reply():
    orders = model.Orders((1 << 56) - 1, 5, b"x" * 128, 0, 0, 0)
    outcome, *_ = setting_up(orders=orders, clock=2_000_000_000, session_id=bytes(64))
    return outcome.length == 459


NONE = b"\xff\xff"

equal("row 0, end", model.end(IV, rec.table_of([rec.FREE, TAKEN]), b"\0\1" + NONE), model.Outcome(0, 0, b"", bytes(62), 2 * NONE))
equal("row 1, end", model.end(IV[:11], rec.to_bytes(FRESH), b"\0\0"), model.Outcome(1, 0, b"", rec.to_bytes(FRESH), b"\0\0"))
equal("row 3, end", model.end(IV, rec.to_bytes(FRESH._replace(begun=2)), b"\0\0").number, 3)
equal("row 12, end", model.end(bytes(12), bytes(31), NONE), model.Outcome(12, 0, b"", bytes(31), NONE))


# The index. Of three records the second has the lower IV, and the third is free.

LOWER, HIGHER = (rec.fresh(iv, 2_000) for iv in (b"\x7f" + bytes(11), b"\x80" + bytes(11)))
THREE, THEIR_INDEX = rec.table_of([HIGHER, LOWER, rec.FREE]), b"\0\1\0\0\xff\xff"
OTHER_INDEXES = (b"\0\0\0\1\xff\xff", b"\1\0\0\0\xff\xff", b"\xff" * 6, b"\0\1\xff\xff\0\0", b"\0\1\0\0\0\0", b"\0\1\0\0\0\2")


def making(table, index):
    return model.make_index(table, index), table, index, b""


equal("the index that fits", rec.index_for(THREE), THEIR_INDEX)
equal("the index of an empty table", rec.index_for(bytes(31 * 4_096)), NONE * 4_096)
equal("places of two bytes", rec.fitting_index([rec.fresh(bytes(10) + (999 - n).to_bytes(2, "big"), 0) for n in range(1_000)])[:4], b"\3\xe7\3\xe6")
equal("end, the lower of two", model.end(LOWER.iv, THREE, THEIR_INDEX),
      model.Outcome(0, 0, b"", rec.table_of([HIGHER, rec.FREE, rec.FREE]), b"\0\0" + 2 * NONE))
equal("end, the higher of two", model.end(HIGHER.iv, THREE, THEIR_INDEX),
      model.Outcome(0, 0, b"", rec.table_of([rec.FREE, LOWER, rec.FREE]), b"\0\1" + 2 * NONE))
for other_index in OTHER_INDEXES:
    equal(f"row 22, end, {other_index.hex()}", model.end(LOWER.iv, THREE, other_index), model.Outcome(22, 0, b"", THREE, other_index))
    equal(f"made anew, {other_index.hex()}", model.make_index(THREE, other_index), model.Outcome(0, 0, b"", THREE, THEIR_INDEX))
for other_size in (0, 1, 4, 5, 7, 8):
    row(1, (model.end(LOWER.iv, THREE, bytes(other_size)), THREE, bytes(other_size), b""), f"end, an index of {other_size}")
    row(1, making(THREE, bytes(other_size)), f"made, an index of {other_size}")
row(1, making(bytes(31 * 4_097), NONE * 4_097), "made, 4,097 records")
row(1, making(bytes(30), b""), "made, a table of 30 bytes")
row(3, making(rec.table_of([FRESH, FRESH]), b"\0\0\0\1"), "made, one IV twice")
equal("made, 4,096 records", model.make_index(bytes(31 * 4_096), bytes(2 * 4_096)).index, NONE * 4_096)
for two_alike in (b"\0\0\0\1", b"\0\1\0\0", b"\0\0\xff\xff", 2 * NONE):
    row(3, request(records=(FRESH, FRESH), index=two_alike), f"one IV twice, index {two_alike.hex()}")
row(1, request(index=b"\0\0"), "an index of one entry for two")
row(1, setting_up(index=b""), "an empty index, at setup")
row(2, request(index=2 * NONE, orders=ORDERS._replace(hashes=0)), "before 22")
row(22, request(index=2 * NONE), "all FF")
row(22, request(index=b"\xff\xff\0\0"), "FF FF first")
row(22, request(index=2 * NONE, t=b"\0\3\xe8"), "before 4")
row(22, request(index=2 * NONE, clock=2_000), "before 10")
row(22, setting_up(index=b"\0\0"), "at setup")
row(22, setting_up(index=b"\0\0", value=b""), "at setup, before 4")
row(22, (model.end(bytes(12), bytes(31), b"\0\0"), bytes(31), b"\0\0", b""), "end, before 12")


@case("setup: the new IV between two others")
def set_up_between():
    outcome, *_ = setting_up(records=(HIGHER, rec.fresh(b"\x73" + bytes(11), 2_000), rec.FREE))
    return (outcome.number, outcome.index) == (0, b"\0\1\0\2\0\0")


@case("the index that fits: the used records' places, each once, by rising IV, and then FF FF alone")
def fitting():
    rng = random.Random(7)
    for size in (1, 2, 5, 64, 300):
        records = [rng.choice([rec.FREE, rec.fresh(rng.randbytes(12), 0)]) for _ in range(size)]
        index = rec.fitting_index(records)
        used = sum(record.used for record in records)
        places = [256 * index[2 * entry] + index[2 * entry + 1] for entry in range(used)]
        ivs = [records[place].iv for place in places]
        rising = all(low < high for low, high in zip(ivs, ivs[1:]))
        if not (all(records[place].used for place in places) and rising and index[2 * used:] == NONE * (size - used)):
            return False
    return True


# Trials of clients (document 02, K11), by the example of docs/RULES.md

TOKEN_TOLD = (
    b"s:0YuUAwcepCfo4jAesk44d1TofWyGBzwXQnF53a4p1uelNsyA5oO9JkCabxu8PPPr+0ubBAPx2zGzLeY3Cw==;iv:QEFCQ0RFRkdISUpL;"
    b"tag:ZckYUDPe5o/Ab/zCK/KKww==;"
)
TOLD = TOKEN_TOLD + b"kh:ICEiIyQlJicoKSorLC0uLzAxMjM0NTY3ODk6Ozw9Pj8=;h:AQQ=;ah:AgED;eah:WC1EZWFsZXI="
CARRIED = TOKEN_TOLD + b"h:AQQ=;ah:AgED;eah:WC1EZWFsZXI=;n:Bw==;t:WcBGfw==;lt:WcBGQw==;c:"
CODE = b"ZUY8lGKYPFNFMNnrQbq7l9IBvnw9Q43EgKJUT0+04bFMoBcf7bzHEBzjWGYLOC0iKthvEu2pS1JxpQMVwjbxCw=="
CODE_256 = base64.b64encode(bytes.fromhex("1d64128e0766eeeefd0b24a7556f1da4ba0e80be92b55050716473440535adeb"))
SENT = {
    "method": b"POST",
    "head": b"Host:portal.example\r\nCookie: seat=4 \r\nX-Dealer:Brandt\r\n",
    "aside": b"",
    "path": b"/orders",
    "body": b"belts=11",
}


def tried(number, name, setup_reply=TOLD, value=CARRIED + CODE, **changed):
    equal(f"trial, {name}", model.fits(setup_reply, value, **SENT | changed), number)


def told_for(old, new):
    return TOLD.replace(old, new)


TOLD_256, SENT_256 = told_for(b";h:AQQ=", b";h:AQE="), (CARRIED + CODE_256).replace(b";h:AQQ=", b";h:AQE=")

tried(0, "the example")
tried(0, "the scanner's", TOLD_256, SENT_256)
tried(0, "one closing semicolon of the value", value=CARRIED + CODE + b";")
tried(0, "a line set aside", head=SENT["head"].replace(b"Brandt", b"proxy"), aside=b"x-dealer: Brandt\r\n")
tried(8, "the scanner's by the dealer's reply", value=SENT_256)
tried(8, "the dealer's by the scanner's reply", TOLD_256)
tried(8, "a code of the other length", value=CARRIED + CODE_256)
tried(8, "another s", told_for(b"s:0Y", b"s:1Y"))
tried(8, "another iv", told_for(b"iv:QE", b"iv:RE"))
tried(8, "another tag", told_for(b"tag:Zc", b"tag:ac"))
tried(8, "another ah", told_for(b";ah:AgED", b";ah:AgEB"))
tried(8, "another eah", told_for(b"eah:WC1EZWFsZXI=", b"eah:cQ=="))
tried(8, "no eah", told_for(b";eah:WC1EZWFsZXI=", b""))
tried(11, "another kh", told_for(b"kh:IC", b"kh:JC"))
tried(11, "another body", body=b"belts=12")
tried(11, "another path", path=b"/order")
tried(11, "another method", method=b"PUT")
tried(11, "another covered value", head=SENT["head"].replace(b"seat=4", b"seat=5"))
tried(11, "another byte of c", value=CARRIED + b"Y" + CODE[1:])
tried(7, "Host twice", head=SENT["head"] + b"host:a\r\n")
tried(6, "a method with a space", method=b"PO ST")
tried(5, "no n", value=(CARRIED + CODE).replace(b"n:Bw==;", b""))
tried(4, "an empty value", value=b"")
for sized, bad_size in (("path", 0), ("method", 0), ("method", 17), ("body", 65_537), ("head", 16_385), ("aside", 16_385), ("value", 4_097)):
    tried(1, f"{sized} of {bad_size}", **{sized: bytes(bad_size)})
    tried(1, f"{sized} of {bad_size}, before 23", setup_reply=b"", **{sized: bytes(bad_size)})
tried(1, "a reply of 460 bytes", bytes(460))
tried(23, "a reply of 459 bytes", bytes(459))
tried(23, "before 4", TOLD + b";", b"")
tried(23, "before 5", TOLD + b";", b"x:AAAA")
tried(23, "before 6", TOLD + b";", method=b"PO ST")
tried(23, "before 7", TOLD + b";", head=SENT["head"] * 2)
tried(23, "before 8", TOLD + b";", SENT_256)
tried(23, "before 11", TOLD + b";", body=b"")
tried(7, "before another token", told_for(b"s:0Y", b"s:1Y"), head=SENT["head"] * 2)
tried(8, "another token, before 11", told_for(b"s:0Y", b"s:1Y"), body=b"")
for other_reply in (
    b"",
    TOLD + b";",
    b" " + TOLD,
    TOLD + b" ",
    TOLD[:-1],
    TOLD.replace(b";", b"; "),
    told_for(b";kh:", b";KH:"),
    told_for(b";h:AQQ=", b""),
    told_for(b";h:AQQ=", b";h:AQQ=;h:AQQ="),
    told_for(b";h:AQQ=;ah:AgED", b";ah:AgED;h:AQQ="),
    told_for(b"iv:QEFCQ0RFRkdISUpL", b"iv:QEFCQ0RFRkdISUo="),
    told_for(b"tag:ZckYUDPe5o/Ab/zCK/KKww==", b"tag:ZckYUDPe5o/Ab/zCK/KK"),
    told_for(b"Pj8=;h", b"Pg==;h"),
    told_for(b"Pj8=;h", b"Pj9A;h"),
    told_for(b"Pj8=;h", b"Pj8;h"),
    told_for(b"Pj8=;h", b"Pj9=;h"),
    told_for(b";ah:AgED", b";ah:AwABAw=="),
    told_for(b";ah:AgED", b";ah:" + base64.b64encode(b"\x08\1" + bytes(7))),
    *(told_for(b";h:AQQ=", b";h:" + base64.b64encode(b"\1%c" % h)) for h in (0, 2, 3, 5, 8, 255)),
    *(told_for(b"WC1EZWFsZXI=", base64.b64encode(names)) for names in (b"", b",", b"q,", b"q,Q", b"q q", b"Host", b"te", b"x-s-armor", b"a,b,c,d,e,f,g,i,j", b"n" * 129)),
):
    tried(23, f"{other_reply}", other_reply)


def written_by_a_setup(reply):
    """Whether a setup can write it, read in another way than the model's: by the text of each field."""
    found = re.fullmatch(rb"s:([^;]*);iv:([^;]*);tag:([^;]*);kh:([^;]*);h:AQ[EQ]=;ah:([^;]*)(?:;eah:([^;]*))?", reply, re.DOTALL)
    if not found:
        return False
    s, iv, tag, kh, ah = (strictly_decoded(text) or b"" for text in found.groups()[:5])
    mask = int.from_bytes(ah[1:], "big")
    names = [b"q"] if found[6] is None else (strictly_decoded(found[6]) or b"").split(b",")
    known = {name.lower() for name in (*model.NAMES, b"X-S-Armor")}
    return (
        1 <= len(s) <= 118
        and (len(iv), len(tag), len(kh)) == (12, 16, 32)
        and ah == client.encoded_mask(mask)
        and mask < 1 << 56
        and len(names) <= 8
        and len(b",".join(names)) <= 128
        and all(re.fullmatch(rb"[!#-'*+.^_`|~0-9A-Za-z-]+", name) for name in names)
        and len({name.lower() for name in names} | known) == len(names) + len(known)
    )


@case("trial: a reply with a byte altered, put in or taken out anywhere is 23 exactly if no setup writes it")
def replies_altered():
    for place in range(len(TOLD) + 1):
        for byte in b";:=A/w+1 \0\xff":
            altered, longer = (TOLD[:place] + bytes([byte]) + TOLD[rest:] for rest in (place + 1, place))
            for reply in (altered, longer, TOLD[:place] + TOLD[place + 1:]):
                if (model.fits(reply, b"", **SENT) == 4) != written_by_a_setup(reply):
                    return False
    return True


# A judged request and its trial: where something is not given, there is none

JUDGED_12, *_ = request()
TOKENS_12 = {IV: model.Token(SESSION_KEY, b"id", 2_000)}


def trial_12(tokens=TOKENS_12, records=(FRESH, rec.FREE), clock=1_000, server_key=SERVER_KEY, orders=ORDERS, value=None, judged=JUDGED_12):
    """The trial of case 12's request."""
    run = AESGCM(SERVER_KEY).encrypt(IV, TOKEN, None)
    fields = {b"s": run[:-16], b"iv": IV, b"tag": run[-16:], **FIELDS_12, b"c": hmac.new(SESSION_KEY, TEXT_12, hashlib.sha512).digest()}
    sent = (text_of(fields) if value is None else value, b"GET", b"Host: a\r\n", b"", b"/", b"")
    call = drafts.Call("judge", (*orders, clock, server_key, *sent), rec.table_of(records), rec.fitting_index(records), None)
    return agreement.trial_of(call, judged, tokens)


equal("trial of case 12", calls.answered(trial_12(), b"").number, 0)
equal("trial of an empty value", calls.answered(trial_12(value=b""), b"").number, 4)
equal("no trial at the token's expiry", trial_12(clock=2_000), None)
equal("no trial without the record", trial_12(records=(rec.FREE,)), None)
equal("no trial under another server key", trial_12(server_key=bytes(32)), None)
equal("no trial where the orders do not allow the session's hash", trial_12(orders=ONLY_256), None)
equal("no trial of an unknown session", trial_12(tokens={b"another iv..": TOKENS_12[IV]}), None)
for lent_badly in (1, 2, 3, 22):
    equal(f"no trial of what is {lent_badly}", trial_12(judged=JUDGED_12._replace(number=lent_badly)), None)
for judged_number in range(24):
    for tried_number in (0, 4, 8, 11):
        agreed = judged_number in (4, 5, 6, 7, 8, 11) if tried_number else judged_number in (0, 13, 14, 15, 16, 21)
        both = (JUDGED_12._replace(number=number) for number in (judged_number, tried_number))
        equal(f"judged {judged_number}, tried {tried_number}", agreement.agree(*both), agreed)


# The window over whole histories, against the rule of demand 2


@case("window: accepted exactly if not accepted before and less than 64 below the highest accepted")
def window_over_histories():
    rng = random.Random(5)
    for start in (0, 30, 1_000, model.HIGHEST - 300):
        record, taken = FRESH, set()
        for _ in range(2_000):
            nonce = min(max(0, start + rng.randint(-150, 150)), model.HIGHEST)
            start += rng.choice([0, 0, 1]) if start < model.HIGHEST else 0
            fits = not taken or nonce not in taken and max(taken) - nonce < 64
            number, record = rec.take_nonce(record, nonce)
            if (number == 0) != fits:
                return False
            taken |= {nonce} if fits else set()
    return True


# The catalogue: every fault on every kind of call gets its number; and the files


def history_into(seed):
    files = [io.StringIO() for _ in range(3)]
    return History(seed, calls.Writer(*files)), files


CATALOGUE_HISTORY, _ = history_into(1)


def fault_alone(fault, kind):
    def check():
        history = CATALOGUE_HISTORY
        while history.written == 0 or not history.live_sessions():
            history.begin_chapter()
            history.set_up()
        try:
            history.ask(history.draft_for_faults(kind), [fault], fault.name, expected=fault.number)
        except Disagreement:
            return False
        return True

    case(f"{kind}: {fault.name}")(check)


for catalogued in CATALOGUE:
    for kind_of_call in catalogued.on:
        fault_alone(catalogued, kind_of_call)


@case("names of faults are distinct")
def names_distinct():
    names = [fault.name for fault in CATALOGUE]
    return len(names) == len(set(names))


@case("one seed gives one history")
def reproducible():
    texts = []
    for _ in range(2):
        history, files = history_into(7)
        history.generate(300)
        texts.append([file.getvalue() for file in files])
    return texts[0] == texts[1]


@case("compare passes equal answers and shows an altered one")
def comparing():
    history, (asked, answers, names) = history_into(3)
    history.generate(200)
    lines = answers.getvalue().splitlines(keepends=True)
    altered = lines[:99] + ["21" + lines[99]] + lines[100:]

    def compared(got):
        out = io.StringIO()
        passed = calls.compare(asked.getvalue().splitlines(True), names.getvalue().splitlines(True), lines, got, out)
        return passed, out.getvalue()

    same, short, other = compared(lines), compared(lines[:-1]), compared(altered)
    return (
        same == (True, f"{len(lines)} passed, 0 failed\n")
        and not short[0]
        and not other[0]
        and "got      21" + lines[99].strip() in other[1]
        and other[1].endswith(f"{len(lines) - 1} passed, 1 failed\n")
    )


# Calls signed for a carrier (document 02, K13), and a scanner's own side (K14)

for told_case in (*carrier_cases.told(), *scanner_cases.told()):
    equal(*told_case)
