"""Calls in the making. A draft is a good call; faults alter it at named stages, and what comes later follows suit.

The stages of a request: plan (orders, times, nonce, method, lines, path, body), token (its three parts), token text (what gets
sealed), told and setup reply (the pieces and the whole of what the session's setup answered), fields (what will be signed), parts
and text (of the signature), signed (the fields with c), pieces, value, lent (the runs as handed over), index (the one that fits
the table). A setup has plan, fields, pieces, value, lent, index; an ending has plan, lent, index, and so has the index made anew.
"""

import base64
from dataclasses import dataclass, field
from typing import NamedTuple, Optional

import client
import hashing
import model
import record as rec
from encoding import netstring

HIGHEST = model.HIGHEST


class Call(NamedTuple):
    """One finished call: its kind, its arguments in the order of the call file, the table, index and reply buffer lent."""

    kind: str
    arguments: tuple
    table: bytes
    index: bytes
    reply: Optional[tuple]  # count and byte; None leaves the buffer as it stands


def with_text(pieces, key, change):
    """The pieces, the base64 text of this key's altered."""
    start = key + b":"
    return [start + change(piece[len(start):]) if piece.startswith(start) else piece for piece in pieces]


@dataclass
class Draft:
    """What every call is lent."""

    kind: str
    table: bytes
    iv: bytes = b""
    place: Optional[int] = None  # of the session's record in the table; None for a setup and for an index
    reply: Optional[tuple] = None
    index: bytes = b""

    def put(self, place, record):
        self.table = rec.with_record(self.table, place, record)

    def own(self):
        return rec.record_at(self.table, self.place)

    def spare(self):
        """The place of a record that isn't the session's; the table grows if it must."""
        if len(self.table) == rec.SIZE:
            self.table += rec.to_bytes(rec.FREE)
        return next(place for place in range(len(self.table) // rec.SIZE) if place != self.place)

    def stage(self, name, rng):
        """Make what this stage adds."""
        if name == "index":
            self.index = rec.index_for(self.table)


@dataclass
class End(Draft):
    stages = ("plan", "lent", "index")

    def call(self):
        return Call("end", (self.iv,), self.table, self.index, self.reply)


@dataclass
class Index(Draft):
    """The index made anew, whatever stands in its place."""

    stages = ("plan", "lent", "index")

    def call(self):
        return Call("index", (), self.table, self.index, self.reply)


@dataclass
class Valued(Draft):
    """A setup or a request: it has orders, a clock, a server key and an X-S-Armor value."""

    orders: model.Orders = None
    clock: int = 0
    server_key: bytes = b""
    fields: list = field(default_factory=list)
    pieces: list = field(default_factory=list)
    value: bytes = b""

    def order(self, **changed):
        self.orders = self.orders._replace(**changed)

    def set_field(self, key, contents):
        self.fields = [(k, contents if k == key else c) for k, c in self.fields]

    def add_field(self, rng, key, contents):
        self.fields.insert(rng.randint(0, len(self.fields)), (key, contents))

    def drop_field(self, key):
        self.fields = [(k, c) for k, c in self.fields if k != key]

    def set_text(self, key, change):
        """Alter the base64 text of this key's piece."""
        self.pieces = with_text(self.pieces, key, change)

    def numbers_and_keys(self):
        return (*self.orders, self.clock, self.server_key)

    def stage(self, name, rng):
        if name == "pieces":
            self.pieces = [client.piece(key, contents) for key, contents in self.fields]
        if name == "value":
            self.value = b";".join(self.pieces)
        super().stage(name, rng)


@dataclass
class Setup(Valued):
    session_key: bytes = b""
    session_id: bytes = b""
    offer: bytes = b""

    stages = ("plan", "fields", "pieces", "value", "lent", "index")

    def hashed(self, known):
        """Let the client have this hash alone."""
        self.offer = client.encoded_mask(known)

    def stage(self, name, rng):
        if name == "fields":
            self.fields = [(b"r", self.offer)]
        super().stage(name, rng)

    def call(self):
        arguments = (*self.numbers_and_keys(), self.session_key, self.iv, self.session_id, self.value)
        return Call("setup", arguments, self.table, self.index, self.reply)


@dataclass
class Request(Valued):
    """A request: to judge by the whole table (kind judge) or by the thin entry (kind one), or to hold to its setup reply (kind fits)."""

    key: bytes = b""
    session_id: bytes = b""
    expiry: int = 0
    t: int = 0
    lt: int = 0
    n: int = 0  # carried if the orders say so
    hash: int = hashing.SHA_512  # that it names and signs with
    chosen: int = hashing.SHA_512  # that the session's setup chose
    method: bytes = b"GET"
    head_lines: list = field(default_factory=list)
    aside_lines: list = field(default_factory=list)
    path: bytes = b"/"
    body: bytes = b""

    token: list = field(default_factory=list)  # three parts
    token_text: bytes = b""
    told: list = field(default_factory=list)
    setup_reply: bytes = b""
    parts: list = field(default_factory=list)
    text: bytes = b""
    head: bytes = b""
    aside: bytes = b""

    stages = ("plan", "token", "token text", "told", "setup reply", "fields", "parts", "text", "signed", "pieces", "value", "lent", "index")

    def order_nonces(self):
        self.order(mask=self.orders.mask | 1)

    def order_no_nonces(self):
        self.order(mask=self.orders.mask & ~1)

    def order_extra(self, extra):
        self.order(extra=extra)

    def hashed(self, known):
        """Let the session have this hash, and the request sign with it."""
        self.hash = self.chosen = known
        self.put(self.place, self.own()._replace(hash=known))

    def tell(self, key, contents):
        """Let the setup reply have these contents under this key, where it has the key."""
        self.told = with_text(self.told, key, lambda text: base64.b64encode(contents))

    def code(self, key, text):
        return hashing.code(client.named_hash(self.fields, self.hash), key, text)

    def window(self, highest, bits):
        self.put(self.place, self.own()._replace(begun=1, highest=highest, bits=bits | 1))

    def no_window(self):
        self.put(self.place, self.own()._replace(begun=0, highest=0, bits=0))

    def at(self, clock):
        """Move the call in time; the request and the token keep their distance from the clock where they can."""
        shift = clock - self.clock
        self.clock = clock
        self.t, self.lt, self.expiry = (min(max(0, time + shift), HIGHEST) for time in (self.t, self.lt, self.expiry))

    def aged(self, age):
        """Let now minus t be age, and keep the gap between t and lt."""
        if age > self.clock:
            self.at(min(age + 5_000, HIGHEST - 1))
        gap = self.t - self.lt
        self.t = self.clock - age
        self.lt = min(max(0, self.t - gap), HIGHEST)

    def ahead(self, seconds):
        """Let t minus now be so many seconds, and keep the gap between t and lt."""
        if self.clock + seconds > HIGHEST:
            self.at(HIGHEST - seconds)
        self.aged(-seconds)

    def gap(self, seconds):
        """Let t minus lt be so many seconds."""
        if seconds > self.t:
            self.at(min(self.clock + seconds - self.t, HIGHEST - 1))
            self.t = max(self.t, seconds)
        self.lt = self.t - seconds

    def drop_lines(self, name):
        self.head_lines = [text for text in self.head_lines if client.line_name(text) != name.lower()]
        self.aside_lines = [text for text in self.aside_lines if client.line_name(text) != name.lower()]

    def cover(self, name, head=None, aside=None):
        """Order this listed name, and let it have these values; None is no line."""
        self.order(mask=self.orders.mask | 2 << model.NAMES.index(name))
        self.give(name, head, aside)

    def uncover(self, name):
        self.order(mask=self.orders.mask & ~(2 << model.NAMES.index(name)))

    def give(self, name, head=None, aside=None):
        self.drop_lines(name)
        if head is not None:
            self.head_lines.append(client.line(name, head))
        if aside is not None:
            self.aside_lines.append(client.line(name, aside))

    def stage(self, name, rng):
        if name == "token":
            self.token = [self.key, self.session_id, b"%d" % self.expiry]
        if name == "token text":
            self.token_text = b"".join(netstring(part) for part in self.token)
        if name == "told":
            self.told = [client.piece(key, contents) for key, contents in self.told_fields()]
        if name == "setup reply":
            self.setup_reply = b";".join(self.told)
        if name == "fields":
            self.fields = self.unsigned_fields()
            rng.shuffle(self.fields)
        if name == "parts":
            self.parts = client.signed_parts(self.method, self.fields, self.head_lines, self.aside_lines, self.path, self.body)
        if name == "text":
            self.text = client.joined(self.parts)
        if name == "signed":
            self.add_field(rng, b"c", self.code(self.key, self.text))
        if name == "lent":
            self.head = b"".join(self.head_lines)
            self.aside = b"".join(self.aside_lines)
        super().stage(name, rng)

    def token_fields(self):
        s, tag = model.sealed(self.server_key, self.iv, self.token_text)
        return [(b"s", s), (b"iv", self.iv), (b"tag", tag)]

    def told_fields(self):
        """What a setup under the orders as planned tells the client."""
        fields = [
            *self.token_fields(),
            (b"kh", self.key),
            (b"h", client.encoded_mask(self.chosen)),
            (b"ah", client.encoded_mask(self.orders.mask)),
        ]
        if self.orders.extra:
            fields.append((b"eah", self.orders.extra))
        return fields

    def unsigned_fields(self):
        fields = [
            *self.token_fields(),
            (b"t", client.encoded_number(self.t)),
            (b"lt", client.encoded_number(self.lt)),
            (b"h", client.encoded_mask(self.hash)),
            (b"ah", client.encoded_mask(self.orders.mask)),
        ]
        if self.orders.extra:
            fields.append((b"eah", self.orders.extra))
        if self.orders.mask & 1:
            fields.append((b"n", client.encoded_number(self.n)))
        return fields

    def call(self):
        by = (self.setup_reply,) if self.kind == "fits" else self.numbers_and_keys()
        runs = (self.value, self.method, self.head, self.aside, self.path, self.body)
        return Call(self.kind, (*by, *runs), self.table, self.index, self.reply)


def build(draft, faults, rng):
    """Carry the draft through its stages, each fault at its own; what faults need comes before all of them."""
    for fault in faults:
        fault.needs(draft)
    for name in draft.stages:
        draft.stage(name, rng)
        for fault in faults:
            if fault.at == name:
                fault.alter(draft, rng)
    return draft.call()
