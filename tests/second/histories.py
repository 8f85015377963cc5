"""The generator: from a seed, a history of calls on tables that evolve under the model.

A history is cut into chapters. Each begins with a table, a server key, a clock and orders of its own; the table is empty, or
large and mostly of strangers' sessions. Good calls alternate with resent requests, requests of sessions that are gone or with
covered names on several lines, endings, the index made anew, trials of clients, single faults and pairs of faults. Every single
fault must get the number that the catalogue gives it: the model and the catalogue check each other. After each judged request comes
its trial, where what K11 takes as given is so, and the two must agree.
"""

import random
from collections import Counter
from dataclasses import dataclass

import agreement
import calls
import client
import drafts
import model
import record as rec
from faults import CATALOGUE

HIGHEST = model.HIGHEST
CALLS_IN_CHAPTER = 250
TABLE_SIZES = [1, 2, 2, 3, 3, 4, 4, 5, 6, 8, 8, 12, 16, 30, 64]
LARGE_EVERY = 8  # chapters
CALLS_IN_LARGE_CHAPTER = 40
LARGE_SIZES = [65, 100, 128, 200, 256, 257, 300]
VARIED = [range(12)] * 4 + [(0,), (7,), (8,), (11,), (0, 11), (7, 8), range(8), range(8, 12)]  # the bytes in which IVs differ
CLOCKS = [0, 200, 5_000, 70_000, 1_505_773_123, 1_760_000_000, (1 << 31) - 600, HIGHEST - 3_000_000, HIGHEST - 9_000]
OFFERS = [1, 1, 3, 4, 5, 5, 6, 0xF4, 0xF9, 1 << 40 | 5]
KINDS_IN_PAIRS = ["judge"] * 14 + ["one"] * 3 + ["setup"] * 8 + ["end"] * 2 + ["index"] + ["fits"] * 6


class Disagreement(Exception):
    """The model answers otherwise than the maker of the call says."""


@dataclass
class Session:
    """What the generator knows of a session that was set up."""

    iv: bytes
    key: bytes
    session_id: bytes
    expiry: int
    hash: int
    orders: model.Orders
    last: int
    reply: bytes  # that its setup wrote


class Counts:
    """How often each number, each act without a fault, each fault, each pair of numbers and each side of K11's agreement came up."""

    def __init__(self):
        self.numbers = Counter()
        self.acts = Counter()
        self.faults = Counter({fault.name: 0 for fault in CATALOGUE})
        self.pairs = Counter()
        self.agreements = Counter({"fit": 0, "not fit": 0})


class History:
    def __init__(self, seed, writer):
        self.rng = random.Random(seed)
        self.writer = writer
        self.counts = Counts()
        self.deck = []
        self.written = 0
        self.chapters = 0
        self.chapter_end = 0

    def generate(self, count):
        """Write so many calls."""
        while self.written < count:
            if self.written >= self.chapter_end:
                self.begin_chapter()
            self.step()

    # Chapters

    def begin_chapter(self):
        rng = self.rng
        self.chapters += 1
        large = self.chapters % LARGE_EVERY == 0
        self.chapter_end = self.written + (CALLS_IN_LARGE_CHAPTER if large else CALLS_IN_CHAPTER)
        self.like_iv = rng.randbytes(12)
        self.varied = rng.choice([places for places in VARIED if len(places) > 1 or not large])
        self.table = bytes(rec.SIZE * rng.choice(TABLE_SIZES))
        if large:
            self.fill(rng.choice(LARGE_SIZES))
        self.index = rec.index_for(self.table)
        self.clock = rng.choice(CLOCKS)
        self.server_key = rng.randbytes(32)
        lives = [500, 3_000, 6_000] if self.clock > HIGHEST - 10_000 else [0, 900, 5_000, 1_209_600, 2_592_000]
        self.orders = [client.make_orders(rng, rng.choice(lives)) for _ in range(3)]
        self.sessions = []
        self.accepted = []
        self.reply = (rng.choice([1_024, 1_024, 1_024, 1_100]), rng.randrange(256))
        self.reply_altered = True

    def fill(self, size):
        """A table of so many records, most of them of strangers' sessions, some of which have expired."""
        rng = self.rng
        records = [rec.FREE] * size
        taken = set()
        for place in rng.sample(range(size), rng.choice([size // 2, size - 20, size - 1])):
            records[place] = rec.fresh(self.iv_but(taken), rng.choice([0, HIGHEST, HIGHEST]))
            taken.add(records[place].iv)
        self.table = rec.table_of(records)

    def new_iv(self):
        """One that no session of the chapter has or had."""
        return self.iv_but({session.iv for session in self.sessions} | {record.iv for record in rec.records_of(self.table)})

    def iv_but(self, taken):
        """Its bytes that vary are even, since some faults alter the lowest bit of the last."""
        while True:
            iv = bytes(2 * self.rng.randrange(128) if place in self.varied else byte for place, byte in enumerate(self.like_iv))
            if iv not in taken:
                return iv

    def live_sessions(self):
        records = rec.records_of(self.table)
        return [s for s in self.sessions if s.expiry > self.clock and rec.place_of(records, s.iv) is not None]

    def gone_sessions(self):
        live = self.live_sessions()
        return [s for s in self.sessions if s not in live]

    def pass_time(self):
        """Mostly seconds; now and then to a moment about the end of some session."""
        rng = self.rng
        later = self.clock + rng.choice([0, 0, 0, 1, 1, 2, 5, 20])
        if rng.random() < 0.01 and self.sessions:
            later = rng.choice(self.sessions).expiry + rng.choice([-1, 0, 1])
        self.clock = min(max(self.clock, later), HIGHEST - 1)

    # One step of a history

    def step(self):
        self.pass_time()
        live = self.live_sessions()
        if not live:
            return self.set_up_or_clear()
        chosen = self.rng.random()
        if chosen < 0.22:
            return self.good_request(self.rng.choice(live))
        if chosen < 0.25:
            return self.request_on_several_lines(self.rng.choice(live))
        if chosen < 0.31:
            return self.resend()
        if chosen < 0.34:
            return self.request_of_gone_session()
        if chosen < 0.40:
            return self.set_up()
        if chosen < 0.41:
            return self.end(self.rng.choice(self.sessions))
        if chosen < 0.42:
            return self.make_index()
        if chosen < 0.45:
            return self.try_client()
        if chosen < 0.85:
            return self.single_fault()
        return self.pair_of_faults()

    def set_up_or_clear(self):
        """A new session; if none fits, because the table is full or time at its end, a new chapter."""
        if self.set_up().number != 0:
            self.begin_chapter()

    def set_up(self):
        draft = self.setup_draft()
        return self.ask(draft, [], "setup")

    def good_request(self, session):
        place = rec.place_of(rec.records_of(self.table), session.iv)
        kind = "one" if place == 0 and self.rng.random() < 0.3 else "judge"
        draft = self.request_draft(session, kind)
        outcome = self.ask(draft, [], "good request", expected=0)
        session.last = draft.t
        return outcome

    def request_on_several_lines(self, session):
        """A good request, but with lines of a covered name or two put into a block: 7 where that repeats one that is no list field."""
        rng = self.rng
        draft = self.request_draft(session, "judge")
        covered = model.covered_names(draft.orders)
        for name in rng.sample(covered, min(len(covered), rng.choice([1, 1, 2]))):
            lines = rng.choice([draft.head_lines, draft.aside_lines])
            for _ in range(rng.choice([1, 2, 3])):
                lines.insert(rng.randint(0, len(lines)), client.line(name, value(rng)))
        return self.ask(draft, [], "request on several lines")

    def resend(self):
        """An accepted request again, as a proxy or a reader of a bundle would send it."""
        if not self.accepted:
            return self.set_up()
        again = drafts.Call("judge", self.rng.choice(self.accepted), self.table, self.index, self.lent_reply())
        return self.act(calls.altered(again, clock=self.clock), "resent request")

    def request_of_gone_session(self):
        gone = self.gone_sessions()
        if not gone:
            return self.resend()
        return self.ask(self.request_draft(self.rng.choice(gone), "judge"), [], "request of a gone session")

    def end(self, session):
        draft = drafts.End("end", self.table, session.iv, reply=self.lent_reply())
        return self.ask(draft, [], "ending")

    def make_index(self):
        """As a host does that has lost the index, or does not trust what it has."""
        size = len(self.index)
        found = self.rng.choice([self.index, bytes(size), b"\xff" * size, self.rng.randbytes(size)])
        return self.act(drafts.Call("index", (), self.table, found, self.lent_reply()), "index made")

    def try_client(self):
        """A good request of a session, live or gone, held to the reply that its setup wrote, and now and then to another's."""
        session = self.rng.choice(self.sessions)
        other = self.rng.choice(self.sessions)
        told, expected = (session, 0) if other is session or self.rng.random() < 0.7 else (other, 8)
        call = drafts.build(self.request_draft(session, "fits"), [], self.rng)
        outcome = self.act(calls.altered(call, setup_reply=told.reply), "trial")
        if outcome.number != expected:
            raise Disagreement(f"trial: the model answers {outcome.number}, not {expected}: {call}")
        return outcome

    def single_fault(self):
        if not self.deck:
            self.deck = shuffled_deck(self.rng)
        fault, kind = self.deck.pop()
        return self.ask(self.draft_for_faults(kind), [fault], fault.name, expected=fault.number)

    def pair_of_faults(self):
        """Two checks first, so that rare ones are paired as often as common ones."""
        kind = self.rng.choice(KINDS_IN_PAIRS)
        fitting = [fault for fault in CATALOGUE if kind in fault.on and not fault.long]
        checks = self.rng.sample(sorted({fault.check for fault in fitting}), 2)
        pair = [self.rng.choice([fault for fault in fitting if fault.check == check]) for check in checks]
        # Edges go in first, then high numbers: the faults of 1 cut runs to a size that nothing can be put into.
        pair.sort(key=lambda fault: fault.number or HIGHEST, reverse=True)
        outcome = self.ask(self.draft_for_faults(kind), pair, " + ".join(fault.name for fault in pair))
        self.counts.pairs[(min(checks), max(checks), outcome.number)] += 1
        return outcome

    # Drafts of good calls

    def lent_reply(self):
        """The chapter's reply buffer anew if the last call was lent another, else the buffer as it stands."""
        return self.reply if self.reply_altered else None

    def setup_draft(self):
        rng = self.rng
        orders = rng.choice(self.orders)
        return drafts.Setup(
            kind="setup",
            table=self.table,
            iv=self.new_iv(),
            reply=self.lent_reply(),
            orders=orders,
            clock=self.clock,
            server_key=self.server_key,
            session_key=rng.randbytes(32),
            session_id=rng.randbytes(rng.choice([1, 16, 64, rng.randint(1, 64)])),
            offer=client.encoded_mask(rng.choice([offer for offer in OFFERS if offer & orders.hashes])),
        )

    def request_draft(self, session, kind):
        rng = self.rng
        records = rec.records_of(self.table)
        place = rec.place_of(records, session.iv)
        orders = session.orders
        t, lt = self.times(session)
        nonce = 5 if place is None or kind == "fits" else fresh_nonce(records[place], rng)
        if nonce is None:
            orders = orders._replace(mask=orders.mask & ~1)
            nonce = 0
        head, aside = self.lines(orders)
        return drafts.Request(
            kind=kind,
            table=self.table,
            iv=session.iv,
            place=place,
            reply=self.lent_reply(),
            orders=orders,
            clock=self.clock,
            server_key=self.server_key,
            key=session.key,
            session_id=session.session_id,
            expiry=session.expiry,
            hash=session.hash,
            chosen=session.hash,
            t=t,
            lt=lt,
            n=nonce,
            method=rng.choice(client.METHODS),
            head_lines=head,
            aside_lines=aside,
            path=rng.choice([b"/", b"/parts/belt?n=11", b"/a%20b", b"*", b"/" + b"p" * rng.randrange(60)]),
            body=rng.randbytes(rng.choice([0, 0, 6, rng.randrange(300), rng.randrange(300), rng.randrange(1_500)])),
        )

    def times(self, session):
        """Two times that pass: the age within the request life, or at most 30 seconds ahead; the gap within the idle limit."""
        rng = self.rng
        life, idle = model.request_life(session.orders), model.idle_limit(session.orders)
        t = max(0, self.clock - min(life, rng.choice([0, 0, 1, 3, life])))
        if rng.random() < 0.1:
            t = min(HIGHEST, self.clock + rng.choice([1, 29, 30]))
        lt = session.last
        if t - lt > idle:
            lt = t - rng.randint(0, min(t, idle))
        return t, lt

    def lines(self, orders):
        """Lines for most covered names and for some others, here and there with the client's own set aside.

        A list field now and then has several in a block.
        """
        rng = self.rng
        covered = model.covered_names(orders)
        named = {name.lower(): name for name in model.NAMES + client.UNLISTED}
        present = [named.get(name, name) for name in covered if rng.random() < 0.8]
        others = [name for name in rng.sample(model.NAMES, 2) + [b"X-Unknown"] if name.lower() not in covered]
        head = [client.line(name, value(rng)) for name in present + others for _ in range(lines_for(name, rng))]
        set_aside = [name for name in covered if rng.random() < 0.12]
        aside = [client.line(name, value(rng)) for name in set_aside for _ in range(lines_for(name, rng))]
        rng.shuffle(head)
        return head, aside

    def draft_for_faults(self, kind):
        """A call that is good whatever the table holds, so that only the faults speak."""
        if kind == "index":
            return drafts.Index("index", self.table, reply=self.lent_reply())
        if kind == "setup":
            draft = self.setup_draft()
            draft.table = with_last_free(draft.table)
            draft.clock = min(draft.clock, HIGHEST - model.session_life(draft.orders))
            return draft
        session = self.rng.choice(self.live_sessions())
        if kind == "end":
            place = rec.place_of(rec.records_of(self.table), session.iv)
            return drafts.End("end", self.table, session.iv, place, self.lent_reply())
        draft = self.request_draft(session, kind)
        if fresh_nonce(draft.own(), self.rng) is None:
            draft.no_window()  # where none is left; some faults order nonces
        if kind == "one" and draft.place != 0:
            draft.table = with_first(draft.table, draft.place)
            draft.place = 0
        return draft

    # Asking the model

    def ask(self, draft, faults, name, expected=None):
        call = drafts.build(draft, faults, self.rng)
        outcome = self.write(call, name) if faults else self.act(call, name)
        for fault in faults:
            self.counts.faults[fault.name] += 1
        if expected is not None and outcome.number != expected:
            raise Disagreement(f"{name}: the model answers {outcome.number}, the catalogue {expected}: {call}")
        return outcome

    def act(self, call, name):
        """A call without a fault of the catalogue."""
        self.counts.acts[name] += 1
        return self.write(call, name)

    def write(self, call, name):
        outcome = self.writer.write(call, name)
        self.written += 1
        self.counts.numbers[outcome.number] += 1
        if call.reply is not None:
            self.reply_altered = call.reply != self.reply
        if (call.table, call.index) == (self.table, self.index):
            self.table, self.index = outcome.table, outcome.index
            if self.index != rec.index_for(self.table):
                raise Disagreement(f"{name}: the model leaves an index that does not fit: {call}")
            if outcome.number == 0:
                self.remember(call, outcome)
        if call.kind == "judge":
            self.try_too(call, outcome, name)
        return outcome

    def try_too(self, call, judged, name):
        """The trial of a request that was judged, if K11 says what that comes to."""
        tokens = {session.iv: model.Token(session.key, session.session_id, session.expiry) for session in self.sessions}
        trial = agreement.trial_of(call, judged, tokens)
        if trial is None:
            return
        tried = self.write(trial, f"{name}: tried")
        if not agreement.agree(judged, tried):
            raise Disagreement(f"{name}: judged {judged.number}, tried {tried.number}: {call}, {trial}")
        self.counts.agreements["not fit" if tried.number else "fit"] += 1

    def remember(self, call, outcome):
        """A call was accepted on the chapter's own table: later ones build on it."""
        if call.kind == "setup":
            orders, told = calls.orders_of(call), calls.named(call)
            given = client.parse_reply(outcome.reply[:outcome.length])
            self.sessions.append(
                Session(
                    iv=given[b"iv"],
                    key=given[b"kh"],
                    session_id=told["session_id"],
                    expiry=told["clock"] + model.session_life(orders),
                    hash=client.decoded_mask(given[b"h"]),
                    orders=orders,
                    last=told["clock"],
                    reply=outcome.reply[:outcome.length],
                )
            )
        if call.kind in ("judge", "one") and sum(len(run) for run in call.arguments if isinstance(run, bytes)) < 4_000:
            self.accepted = [*self.accepted[-5:], call.arguments]


def shuffled_deck(rng):
    """Every fault with every kind of call that it concerns; judge's twins, the thin entry and the trial, only for a third of judge's.

    One fault of each check is dealt first, so that short histories too meet them all.
    """
    deck = [
        (fault, kind)
        for fault in CATALOGUE
        for kind in fault.on
        if kind not in ("one", "fits") or len(fault.on) == 1 or rng.random() < 0.33
    ]
    rng.shuffle(deck)
    first_of_check = {fault.check: (fault, kind) for fault, kind in deck}
    firsts = list(first_of_check.values())
    return [card for card in deck if card not in firsts] + firsts


def lines_for(name, rng):
    """How many of this name a good request may have in a block."""
    return rng.choice([1, 1, 1, 2, 3]) if model.is_list_field(name) else 1


def value(rng):
    before, after = rng.choice([b" ", b"", b"\t "]), rng.choice([b"", b"", b" \t"])
    return before + rng.choice([b"a", b"shop.example", b"x=1; y=2", b"", b"\xe9t\xe9", b"1:a,", b"b, c"]) + after


def fresh_nonce(record, rng):
    """A nonce that the window accepts, or None if there is none left."""
    if record.begun == 0:
        return rng.choice([0, 1, 5, 64, 1_000, rng.randrange(1 << 32), HIGHEST - 100])
    jumps = [1] * 12 + [2, 3, 5, 31, 32, 33, 62, 63, 64, 65]
    above = [record.highest + d for d in jumps if record.highest + d <= HIGHEST]
    below = [record.highest - d for d in range(rec.WIDTH) if d <= record.highest and not record.bits >> d & 1]
    fitting = [*above, *rng.sample(below, min(5, len(below))), *below[-1:]]
    return rng.choice(fitting) if fitting else None


def with_last_free(table):
    """Room for a setup: a free record at the end, after whatever the table holds."""
    return table + rec.to_bytes(rec.FREE)


def with_first(table, place):
    """The record at this place put in front, for the thin entry."""
    records = rec.records_of(table)
    records[0], records[place] = records[place], records[0]
    return rec.table_of(records)
