"""The login gate of document 01, with document 02's changes so far, as pure functions: setup, judge, judge_one, end, make_index and fits.

Each takes everything lent and answers an Outcome; fits, which touches nothing, answers a number. The checks stand in 01's order,
one short function for each number; a comment names docs/DECISIONS.md where 01 can be read in two ways.
"""

from typing import NamedTuple

from cryptography.exceptions import InvalidTag
from cryptography.hazmat.primitives.ciphers.aead import AESGCM

import encoding
import hashing
import record as rec
from encoding import base64_bytes, base64_text, netstring

HIGHEST = 4_294_967_295  # of times and nonces

DEFAULT_REQUEST_LIFE = 60
DEFAULT_IDLE = 1_800
DEFAULT_SESSION_LIFE = 1_209_600
LONGEST_SESSION_LIFE = 2_592_000

MOST_AHEAD = 30  # seconds of t after now

MOST_RECORDS = 4_096
MOST_VALUE = 4_096
MOST_METHOD = 16
MOST_LINES = 16_384
MOST_PATH = 2_048
MOST_BODY = 65_536
MOST_SESSION_ID = 64
LEAST_REPLY = 1_024
MOST_SETUP_REPLY = 459
KEY = 32
IV = 12

MOST_EXTRA = 128
MOST_EXTRA_NAMES = 8

# The names of bits 1 to 55, in order. Bit 0 orders nonces and is no header.
NAMES = (
    b"Host,User-Agent,Accept,Connection,Accept-Encoding,Accept-Language,Referer,Cookie,Accept-Charset,"
    b"If-Modified-Since,If-None-Match,Range,Date,Authorization,Cache-Control,Origin,Pragma,DNT,X-Csrftoken,"
    b"Sec-WebSocket-Version,Sec-WebSocket-Protocol,Sec-WebSocket-Key,Sec-WebSocket-Extensions,TE,X-Requested-With,"
    b"X-Forwarded-For,X-Forwarded-Proto,Forwarded,From,HTTP2-Settings,Upgrade,Proxy-Authorization,If,If-Match,"
    b"If-Range,If-Unmodified-Since,Max-Forwards,Prefer,Via,ALPN,Expect,Alt-Used,CalDAV-Timezones,Schedule-Reply,"
    b"If-Schedule-Tag-Match,Destination,Lock-Token,Timeout,Ordering-Type,Overwrite,Position,Depth,SLUG,Trailer,"
    b"MIME-Version"
).split(b",")
HIGHEST_BIT = len(NAMES)

# Those of them whose lines make one list (document 02, K10). No extra name can be one: all are in the list above.
LIST_FIELDS = (
    b"Accept,Accept-Charset,Accept-Encoding,Accept-Language,Connection,Cache-Control,If-Match,If-None-Match,TE,Trailer,"
    b"Upgrade,Via"
).split(b",")

TOKEN_CHARACTERS = (
    b"!#$%&'*+-.^_`|~0123456789ABCDEFGHIJKLMNOPQRSTUVWXYZabcdefghijklmnopqrstuvwxyz"
)


class Orders(NamedTuple):
    """The site's settings as lent; 0 in a limit is the default."""

    mask: int
    hashes: int  # the mask of those allowed
    extra: bytes
    request_life: int
    idle: int
    session_life: int


class Outcome(NamedTuple):
    number: int
    length: int
    reply: bytes
    table: bytes
    index: bytes


class Token(NamedTuple):
    key: bytes
    session_id: bytes
    expiry: int


# The three calls, the thin entry, the making of an index, and the trial of a client


def setup(orders, clock, server_key, session_key, iv, session_id, value, table, index, reply):
    """Set up a session. Checks 1, 2, 3, 22, 4, 5, 19, 20, 17, 18, in this order."""

    def refused(number):
        return Outcome(number, 0, reply, table, index)

    if (
        key_size_bad(server_key)
        or key_size_bad(session_key)
        or iv_size_bad(iv)
        or session_id_size_bad(session_id)
        or value_size_bad(value)
        or table_size_bad(table)
        or index_size_bad(index, table)
        or reply_size_bad(reply)
    ):
        return refused(1)
    if orders_bad(orders):
        return refused(2)
    records = rec.records_of(table)
    if not rec.well_formed(records):
        return refused(3)
    if index_bad(index, records):
        return refused(22)
    fields = fields_of(value)
    if fields is None:
        return refused(4)
    if setup_fields_wrong(fields):
        return refused(5)
    chosen = chosen_hash(orders, fields)
    if chosen is None:
        return refused(19)
    expiry = clock + session_life(orders)
    if expiry > HIGHEST:
        return refused(20)
    if rec.place_of(records, iv) is not None:
        return refused(17)
    place = place_for_setup(records, clock)
    if place is None:
        return refused(18)

    records[place] = rec.fresh(iv, expiry, chosen)
    text = setup_reply(orders, chosen, server_key, iv, Token(session_key, session_id, expiry))
    return Outcome(0, len(text), written(reply, text), rec.table_of(records), rec.fitting_index(records))


def judge(orders, clock, server_key, value, method, head, aside, path, body, table, index, reply):
    """Judge a request. Checks 1, 2, 3, 22, 4 to 12, 8 against the record, 13, 14, 21, 15, 16, in this order."""

    def refused(number):
        return Outcome(number, 0, reply, table, index)

    def invalidated(number, token, place):
        """10 and 13 free the record if there is one and write the invalidation, alone among the refusals."""
        if place is not None:
            records[place] = rec.FREE
        text = invalidation(own_hash(field), token.key)
        return Outcome(number, len(text), written(reply, text), rec.table_of(records), rec.fitting_index(records))

    if (
        key_size_bad(server_key)
        or request_size_bad(value, method, head, aside, path, body)
        or table_size_bad(table)
        or index_size_bad(index, table)
        or reply_size_bad(reply)
    ):
        return refused(1)
    if orders_bad(orders):
        return refused(2)
    records = rec.records_of(table)
    if not rec.well_formed(records):
        return refused(3)
    if index_bad(index, records):
        return refused(22)
    number, field, values = read_request(orders, value, method, head, aside)
    if number != 0:
        return refused(number)
    token = opened_token(server_key, field)
    if token is None:
        return refused(9)
    place = rec.place_of(records, field[b"iv"])
    if expired(clock, token):
        return invalidated(10, token, place)
    if signature_differs(field, token.key, signed_text(method, field, values, path, body)):
        return refused(11)
    if place is None:
        return refused(12)
    if records[place].hash != own_hash(field):
        return refused(8)
    if idle_too_long(orders, field):
        return invalidated(13, token, place)
    if too_old(orders, clock, field):
        return refused(14)
    if too_far_ahead(clock, field):
        return refused(21)
    if orders_nonces(orders):
        number, records[place] = rec.take_nonce(records[place], encoding.number(field[b"n"]))
        if number != 0:
            return refused(number)

    return Outcome(0, len(token.session_id), written(reply, token.session_id), rec.table_of(records), index)


def judge_one(orders, clock, server_key, value, method, head, aside, path, body, record, reply):
    """The thin entry: 'It answers as a table of that one record would.' No index is lent, so the outcome has an empty one."""
    index = rec.fitting_index(rec.records_of(record))
    return judge(orders, clock, server_key, value, method, head, aside, path, body, record, index, reply)._replace(index=b"")


def end(iv, table, index):
    """End a session by its IV. Checks 1, 3, 22, 12; no reply buffer is lent, so the outcome has an empty one."""

    def refused(number):
        return Outcome(number, 0, b"", table, index)

    if iv_size_bad(iv) or table_size_bad(table) or index_size_bad(index, table):
        return refused(1)
    records = rec.records_of(table)
    if not rec.well_formed(records):
        return refused(3)
    if index_bad(index, records):
        return refused(22)
    place = rec.place_of(records, iv)
    if place is None:
        return refused(12)
    records[place] = rec.FREE
    return Outcome(0, 0, b"", rec.table_of(records), rec.fitting_index(records))


def make_index(table, index):
    """Write the index that fits a table, whatever stood there. Checks 1, 3; no reply buffer is lent here either."""

    def refused(number):
        return Outcome(number, 0, b"", table, index)

    if table_size_bad(table) or index_size_bad(index, table):
        return refused(1)
    records = rec.records_of(table)
    if not rec.well_formed(records):
        return refused(3)
    return Outcome(0, 0, b"", table, rec.fitting_index(records))


def fits(setup_reply, value, method, head, aside, path, body):
    """Try a client: whether its request fits the setup reply that it got (document 02, K11). Checks 1, 23, 4 to 8, 11, in this order."""
    if len(setup_reply) > MOST_SETUP_REPLY or request_size_bad(value, method, head, aside, path, body):
        return 1
    told = told_by(setup_reply)
    if told is None or no_orders_give(told):
        return 23
    number, field, values = read_request(told_orders(told), value, method, head, aside)
    if number != 0:
        return number
    if token_differs(told, field):
        return 8
    if signature_differs(field, told[b"kh"], signed_text(method, field, values, path, body)):
        return 11
    return 0


def read_request(orders, value, method, head, aside):
    """Checks 4 to 8, in this order: the number, and where it is 0 the fields by key and the covered values."""

    def refused(number):
        return number, None, None

    fields = fields_of(value)
    if fields is None:
        return refused(4)
    if request_fields_wrong(fields):
        return refused(5)
    field = dict(fields)
    head_lines, aside_lines = lines_of(head), lines_of(aside)
    if method_bad(method) or head_lines is None or aside_lines is None:
        return refused(6)
    if covered_name_twice(orders, head_lines) or covered_name_twice(orders, aside_lines):
        return refused(7)
    if coverage_differs(orders, field):
        return refused(8)
    return 0, field, covered_values(orders, head_lines, aside_lines)


# 1: sizes


def key_size_bad(key):
    return len(key) != KEY


def iv_size_bad(iv):
    return len(iv) != IV


def session_id_size_bad(session_id):
    return not 1 <= len(session_id) <= MOST_SESSION_ID


def request_size_bad(value, method, head, aside, path, body):
    return (
        value_size_bad(value)
        or method_size_bad(method)
        or lines_size_bad(head)
        or lines_size_bad(aside)
        or path_size_bad(path)
        or body_size_bad(body)
    )


def value_size_bad(value):
    """No lower end: an empty value is 4 (docs/DECISIONS.md)."""
    return len(value) > MOST_VALUE


def method_size_bad(method):
    return not 1 <= len(method) <= MOST_METHOD


def lines_size_bad(block):
    """The whole block, CR LF counted (docs/DECISIONS.md)."""
    return len(block) > MOST_LINES


def path_size_bad(path):
    return not 1 <= len(path) <= MOST_PATH


def body_size_bad(body):
    return len(body) > MOST_BODY


def table_size_bad(table):
    return len(table) % rec.SIZE != 0 or not 1 <= len(table) // rec.SIZE <= MOST_RECORDS


def index_size_bad(index, table):
    return len(index) != rec.ENTRY * (len(table) // rec.SIZE)


def reply_size_bad(reply):
    return len(reply) < LEAST_REPLY


# 2: orders


def orders_bad(orders):
    return (
        orders.mask >> (HIGHEST_BIT + 1) != 0
        or hashes_bad(orders.hashes)
        or orders.session_life > LONGEST_SESSION_LIFE
        or extra_names_bad(orders.extra)
    )


def hashes_bad(hashes):
    """'An allowed mask of 0 or with other bits is 2.'"""
    return hashes == 0 or hashes & ~hashing.BOTH != 0


def extra_names_bad(extra):
    """'0 to 8 RFC 9110 tokens joined by commas, at most 128 bytes, none twice, none from the list, not X-S-Armor.'"""
    if len(extra) > MOST_EXTRA:
        return True
    names = extra_names(extra)
    if len(names) > MOST_EXTRA_NAMES or not all(is_token(name) for name in names):
        return True
    lowered = [name.lower() for name in names]
    listed = [name.lower() for name in NAMES]
    return len(lowered) != len(set(lowered)) or any(name in listed or name == b"x-s-armor" for name in lowered)


def extra_names(extra):
    """An empty run is no name; otherwise an empty name between commas stays, and is no token (docs/DECISIONS.md)."""
    return extra.split(b",") if extra else []


def is_token(name):
    return len(name) > 0 and all(byte in TOKEN_CHARACTERS for byte in name)


def orders_nonces(orders):
    return orders.mask & 1 == 1


def request_life(orders):
    return orders.request_life or DEFAULT_REQUEST_LIFE


def idle_limit(orders):
    return orders.idle or DEFAULT_IDLE


def session_life(orders):
    return orders.session_life or DEFAULT_SESSION_LIFE


# 22: the index


def index_bad(index, records):
    """'An index that doesn't fit its table is refused, never repaired silently.'"""
    return index != rec.fitting_index(records)


# 4: the X-S-Armor value


def fields_of(value):
    """The pieces as (key, decoded bytes) in order, or None where the grammar is broken."""
    if value.endswith(b";"):
        value = value[:-1]  # one closing `;` is allowed
    fields = []
    for piece in value.split(b";"):
        key, colon, text = piece.partition(b":")  # the key ends at the first colon
        if not colon or not key or not text:
            return None
        contents = base64_bytes(text)
        if contents is None or contents_bad(key, contents):
            return None
        fields.append((key, contents))
    return fields


def contents_bad(key, contents):
    """The rules of the known keys, which hold for setup and request alike (docs/DECISIONS.md)."""
    if key in (b"t", b"lt", b"n"):
        return encoding.number(contents) is None
    if key in (b"r", b"h", b"ah"):
        return encoding.mask(contents) is None
    if key == b"c":
        return len(contents) not in hashing.SIZES
    if key == b"iv":
        return len(contents) != 12
    if key == b"tag":
        return len(contents) != 16
    if key == b"s":
        return not 1 <= len(contents) <= 118
    return False


# 5: the set of fields


def setup_fields_wrong(fields):
    """'A setup request carries r alone.'"""
    return [key for key, _ in fields] != [b"r"]


def request_fields_wrong(fields):
    """'s, c, t, lt, h, ah, iv, tag, each once; eah or not; n exactly if bit 0 of ah is set.'

    The request's own ah decides over n (docs/DECISIONS.md).
    """
    keys = [key for key, _ in fields]
    must = [b"s", b"c", b"t", b"lt", b"h", b"ah", b"iv", b"tag"]
    if any(keys.count(key) != 1 for key in must):
        return True
    if any(key not in must + [b"eah", b"n"] for key in keys):
        return True
    own_mask = encoding.mask(dict(fields)[b"ah"])
    return keys.count(b"eah") > 1 or keys.count(b"n") != (own_mask & 1)


# 6 and 7: the method, head and set-aside lines


def method_bad(method):
    """'A byte that no token has is 6.'"""
    return any(byte not in TOKEN_CHARACTERS for byte in method)


def lines_of(block):
    """The lines as (name in lower case, trimmed value), or None where one is malformed."""
    if not block:
        return []
    if not block.endswith(b"\r\n"):
        return None
    lines = []
    for line in block[:-2].split(b"\r\n"):
        name, colon, value = line.partition(b":")
        if not colon or not is_token(name) or not all(value_byte_good(byte) for byte in value):
            return None
        lines.append((name.lower(), value.strip(b" \t")))
    return lines


def value_byte_good(byte):
    return byte == 9 or 32 <= byte <= 126 or byte >= 128


def covered_names(orders):
    """By rising bit, then the extra names in their order."""
    listed = [NAMES[bit - 1] for bit in range(1, HIGHEST_BIT + 1) if orders.mask >> bit & 1]
    return [name.lower() for name in listed + extra_names(orders.extra)]


def is_list_field(name):
    return name.lower() in [listed.lower() for listed in LIST_FIELDS]


def covered_name_twice(orders, lines):
    """In one block, whether or not the block is the chosen one (docs/DECISIONS.md). A list field may be (document 02, K10)."""
    names = [name for name, _ in lines]
    return any(names.count(name) > 1 for name in covered_names(orders) if not is_list_field(name))


def covered_values(orders, head_lines, aside_lines):
    return [covered_value(name, head_lines, aside_lines) for name in covered_names(orders)]


def covered_value(name, head_lines, aside_lines):
    """'From the set-aside lines where the name stands there, and otherwise from the head. Absent is empty.'

    Past check 7 only a list field can have several lines: 'joined in order by a comma and a space', empty ones too.
    """
    head, aside = ([value for own, value in lines if own == name] for lines in (head_lines, aside_lines))
    return b", ".join(aside or head)


# 8: coverage


def coverage_differs(orders, field):
    named = own_hash(field)
    return (
        named is None
        or named & orders.hashes == 0
        or len(field[b"c"]) != hashing.size(named)
        or field[b"ah"] != encoding.mask_bytes(orders.mask)
        or field.get(b"eah", b"") != orders.extra  # a carried eah is never empty: no value is
    )


def own_hash(field):
    """The hash that a request names, or None where its h is not the mask of one."""
    mask = encoding.mask(field[b"h"])
    return mask if mask in hashing.FUNCTIONS else None


# 9 and 10: the token


def sealed(server_key, iv, text):
    """AES-256-GCM with no associated data: the sealed bytes and the tag."""
    run = AESGCM(server_key).encrypt(iv, text, None)
    return run[:-16], run[-16:]


def opened_token(server_key, field):
    """'Three netstrings: session key, session id, expiry in decimal …; nothing after them, else 9.'"""
    try:
        rest = AESGCM(server_key).decrypt(field[b"iv"], field[b"s"] + field[b"tag"], None)
    except InvalidTag:
        return None
    parts = []
    for _ in range(3):
        taken = encoding.first_netstring(rest)
        if taken is None:
            return None
        part, rest = taken
        parts.append(part)
    key, session_id, digits = parts
    expiry = encoding.decimal(digits)
    if rest or len(key) != KEY or not 1 <= len(session_id) <= MOST_SESSION_ID:
        return None
    if expiry is None or expiry > HIGHEST:
        return None
    return Token(key, session_id, expiry)


def token_text(token):
    return netstring(token.key) + netstring(token.session_id) + netstring(b"%d" % token.expiry)


def expired(clock, token):
    """By the token alone; the record's expiry is not read (docs/DECISIONS.md)."""
    return clock >= token.expiry


# 11: the signature


def signed_text(method, field, values, path, body):
    """In netstrings: the method, 'h, ah, eah (empty if absent), n if carried, t, lt …, covered values …, path, body'."""
    parts = [method, field[b"h"], field[b"ah"], field.get(b"eah", b"")]
    if b"n" in field:
        parts.append(field[b"n"])
    parts += [field[b"t"], field[b"lt"]]
    parts += values
    parts += [path, body]
    return b"".join(netstring(part) for part in parts)


def signature_differs(field, key, text):
    return field[b"c"] != hashing.code(own_hash(field), key, text)


# 13, 14 and 21: idleness and age, which may be below zero


def idle_too_long(orders, field):
    return encoding.number(field[b"t"]) - encoding.number(field[b"lt"]) > idle_limit(orders)


def too_old(orders, clock, field):
    return clock - encoding.number(field[b"t"]) > request_life(orders)


def too_far_ahead(clock, field):
    return encoding.number(field[b"t"]) - clock > MOST_AHEAD


# 18 and 19: setup's own checks


def place_for_setup(records, clock):
    """'The lowest free record, else the lowest whose expiry is at or before now', by place (docs/DECISIONS.md)."""
    for place, record in enumerate(records):
        if record.used == 0:
            return place
    for place, record in enumerate(records):
        if record.expiry <= clock:
            return place
    return None


def chosen_hash(orders, fields):
    """'Setup picks the longest hash that both sides have.'"""
    return hashing.longest(encoding.mask(dict(fields)[b"r"]) & orders.hashes)


# 23 and 8: a setup reply, and a request held to it


def told_by(setup_reply):
    """'Exactly s, iv, tag, kh, h, ah and perhaps eah in this order with no closing ;': contents by key, or None if it is otherwise."""
    pieces = [piece.partition(b":") for piece in setup_reply.split(b";")]
    must = [b"s", b"iv", b"tag", b"kh", b"h", b"ah"]
    if [key for key, _, _ in pieces] not in (must, [*must, b"eah"]):
        return None
    told = {key: base64_bytes(text) for key, _, text in pieces}
    if any(not contents or contents_bad(key, contents) for key, contents in told.items()) or key_size_bad(told[b"kh"]):
        return None
    return told


def no_orders_give(told):
    """'An h that isn't 1 or 4, an ah with a bit above 55, an eah that no orders could have.'"""
    return own_hash(told) is None or orders_bad(told_orders(told))


def told_orders(told):
    """The orders that a reply tells: its hash alone is allowed. It tells no limits, and nothing here asks for them."""
    return Orders(encoding.mask(told[b"ah"]), encoding.mask(told[b"h"]), told.get(b"eah", b""), 0, 0, 0)


def token_differs(told, field):
    """'8 also where h, s, iv or tag differ from the reply.' Of h, told_orders has said so."""
    return any(field[key] != told[key] for key in (b"s", b"iv", b"tag"))


# Replies


def written(reply, text):
    """'Bytes after a reply keep their contents.'"""
    return text + reply[len(text):]


def setup_reply(orders, chosen, server_key, iv, token):
    s, tag = sealed(server_key, iv, token_text(token))
    fields = [
        (b"s", s),
        (b"iv", iv),
        (b"tag", tag),
        (b"kh", token.key),
        (b"h", encoding.mask_bytes(chosen)),
        (b"ah", encoding.mask_bytes(orders.mask)),
    ]
    if orders.extra:
        fields.append((b"eah", orders.extra))
    return b";".join(key + b":" + base64_text(contents) for key, contents in fields)


def invalidation(known, session_key):
    return b"i:" + base64_text(hashing.code(known, session_key, b"Session Expired"))
