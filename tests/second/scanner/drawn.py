"""Calls drawn from a seed: up to three scanners beside each other, of sessions that the gate's model sets up on one table.

Every value that a session's own state makes is judged by the gate's model on that table: it is accepted, or its session has expired or
was idle for too long, and then the scanner believes what the gate answers; sent again, an accepted one is 16 where nonces are ordered.
"""

import random
from collections import Counter
from dataclasses import dataclass

import client
import model as gate
import record as rec
from carrier.drawn import with_bytes_changed
from histories import CLOCKS, OFFERS, Disagreement, lines_for, value
from scanner.calls import Begin, Hear, Sign, kind
from scanner.model import LEAST_OUT
from scanner.placed import HIGHEST, SIZE, ZEROS, invalidation, reply_of, session_of, state_of

CALLS_IN_CHAPTER = 150
LATEST = HIGHEST - 4_000  # a clock that leaves room for a session, and for a request on its way


@dataclass
class Scanner:
    orders: gate.Orders
    iv: bytes
    expiry: int
    reply: bytes
    state: bytes


class Drawn:
    def __init__(self, seed, writer):
        self.rng = random.Random(seed)
        self.writer = writer
        self.written = self.chapter_end = 0
        self.came_up = Counter()  # numbers of each call
        self.judged = Counter()  # the gate's

    def generate(self, count):
        """Write so many calls, or one more."""
        while self.written < count:
            if self.written >= self.chapter_end:
                self.begin_chapter()
            self.step()

    def begin_chapter(self):
        rng = self.rng
        self.chapter_end = self.written + CALLS_IN_CHAPTER
        self.table = bytes(3 * rec.SIZE)
        self.index = rec.index_for(self.table)
        self.server_key = rng.randbytes(32)
        self.clock = min(rng.choice(CLOCKS), LATEST)
        self.scanners = [self.set_up() for _ in range(rng.randint(1, 3))]

    def step(self):
        self.pass_time()
        own = self.rng.choice(self.scanners)
        chosen = self.rng.random()
        if own.state == ZEROS:
            return self.without_session(own) if chosen < 0.5 else self.begin_anew(own)
        if chosen < 0.45:
            return self.send(own, self.request(own), "a request", (0, 2))
        if chosen < 0.62:
            return self.send(own, self.changed(own), "a changed request", (0, 2, 3))
        if chosen < 0.64:
            return self.go_on_to_last_nonces(own)
        if chosen < 0.76:
            return self.with_another_state(own)
        if chosen < 0.88:
            return self.hear_another(own)
        if chosen < 0.90:
            return self.end(own)
        return self.begin_otherwise(own)

    def pass_time(self):
        """Mostly seconds; now and then to a moment about the end of some session, or past its idle limit."""
        rng = self.rng
        later = self.clock + rng.choice([0, 0, 0, 0, 0, 1, 1, 2])
        if rng.random() < 0.01:
            own = rng.choice(self.scanners)
            later = rng.choice([own.expiry - 1, own.expiry, self.clock + gate.idle_limit(own.orders) + rng.choice([0, 1])])
        self.clock = min(max(self.clock, later), LATEST)

    # Sessions

    def set_up(self):
        """The site sets a session up, and a scanner begins it, over whatever its state held."""
        rng = self.rng
        lives = [500, 3_000, 4_000] if self.clock > HIGHEST - gate.LONGEST_SESSION_LIFE else [0, 900, 5_000, 2_592_000]
        orders = client.make_orders(rng, rng.choice(lives))
        offer = client.setup_value(rng.choice([offer for offer in OFFERS if offer & orders.hashes]))
        key, iv, session_id = (rng.randbytes(size) for size in (32, 12, rng.choice([1, 16, 64])))
        answer = gate.setup(orders, self.clock, self.server_key, key, iv, session_id, offer, self.table, self.index, bytes(gate.LEAST_REPLY))
        self.table, self.index = answer.table, answer.index
        reply = answer.reply[:answer.length]
        before = rng.choice([ZEROS, ZEROS, rng.randbytes(SIZE), b"\xff" * SIZE])
        begun = self.write(Begin(self.clock, reply, before), "a setup reply", (0,))
        return Scanner(orders, iv, self.clock + gate.session_life(orders), reply, begun.state)

    def begin_anew(self, own):
        """The session is gone at the gate, or ends there now."""
        self.end_at_the_gate(own)
        self.scanners[self.scanners.index(own)] = self.set_up()

    def end_at_the_gate(self, own):
        answer = gate.end(own.iv, self.table, self.index)
        self.table, self.index = answer.table, answer.index

    def end(self, own):
        """The site ends the session and says so."""
        self.end_at_the_gate(own)
        own.state = self.write(Hear(invalidation(session_of(own.state)), own.state), "its invalidation", (0,)).state

    def without_session(self, own):
        call = self.rng.choice([self.request(own), self.changed(own), Hear(self.rng.choice([b"", own.reply]), ZEROS)])
        self.write(call, "a call without a session", (1,))

    def go_on_to_last_nonces(self, own):
        session = session_of(own.state)
        if session.mask & 1:
            own.state = state_of(session._replace(next=max(session.next, HIGHEST - self.rng.randint(0, 2))))

    # Requests

    def request(self, own):
        """One that is good by itself. A list field now and then has several lines."""
        rng = self.rng
        covered = gate.covered_names(own.orders)
        others = [name for name in (*rng.sample(gate.NAMES, 2), b"X-Unknown") if name.lower() not in covered]
        names = [name for name in covered if rng.random() < 0.8] + others
        head = [client.line(rng.choice([name, name.title()]), value(rng)) for name in names for _ in range(lines_for(name, rng))]
        rng.shuffle(head)
        return Sign(
            clock=self.clock,
            method=rng.choice(client.METHODS),
            head=b"".join(head),
            path=rng.choice([b"/", b"/parts/belt?n=11", b"*", b"/" + b"p" * rng.randrange(60)]),
            body=rng.randbytes(rng.choice([0, 0, 6, rng.randrange(300), rng.randrange(1_500)])),
            state=own.state,
            out=self.out(),
        )

    def out(self):
        """The one that stands, if it is large enough, or another."""
        stands = len(self.writer.out) >= LEAST_OUT and self.rng.random() < 0.5
        return None if stands else (LEAST_OUT + self.rng.choice([0, 0, 1, 40]), self.rng.randrange(256))

    def changed(self, own):
        """A request with one part changed, so that it may be refused."""
        rng = self.rng
        call = self.request(own)
        lines = call.head.splitlines(True)
        return call._replace(**rng.choice([
            {"clock": rng.choice([0, HIGHEST, rng.randrange(1 << 32), max(0, call.clock - rng.randrange(100))])},
            {"method": with_bytes_changed(rng, call.method)},
            {"method": b"M" * rng.choice([0, 1, 16, 17])},
            {"head": with_bytes_changed(rng, call.head)},
            {"head": b"".join(rng.sample(lines + lines, len(lines)))},
            {"head": call.head + client.line(b"X-Pad", b"p" * (16_384 - len(call.head) - 8 + rng.choice([0, 1])))},
            {"path": b"/" * rng.choice([0, 1, 2_048, 2_049])},
            {"body": bytes(rng.choice([0, 1, 4_000, 65_536, 65_537]))},
            {"out": (rng.choice([0, 1, 4_095, 4_096]), 0)},
        ]))

    def send(self, own, call, name, possible):
        """The scanner makes its value; where it does, that goes to the gate, and where no nonce is left, a new session begins."""
        outcome = self.write(call, name, possible)
        if outcome.number == 2:
            return self.begin_anew(own)
        if outcome.number == 0:
            own.state = outcome.state
            self.deliver(own, call, outcome.out[:outcome.length])

    def deliver(self, own, call, made):
        orders = own.orders
        now = min(call.clock + self.rng.choice([0, 0, 1, min(gate.request_life(orders), 3_000)]), HIGHEST)
        idle = call.clock - session_of(call.state).last > gate.idle_limit(orders)
        judged = self.judge(own, call, made, now, 10 if now >= own.expiry else 13 if idle else 0)
        if judged.number == 0:
            self.judge(own, call, made, now, 16 if orders.mask & 1 else 0)
        else:
            own.state = self.write(Hear(judged.reply[:judged.length], own.state), f"what the gate answered at {judged.number}", (0,)).state

    def judge(self, own, call, made, now, expected):
        request = (made, call.method, call.head, b"", call.path, call.body)
        judged = gate.judge(own.orders, now, self.server_key, *request, self.table, self.index, bytes(gate.LEAST_REPLY))
        if judged.number != expected:
            raise Disagreement(f"the gate answers {judged.number} and not {expected} to {made}: {call}")
        self.table, self.index = judged.table, judged.index
        self.judged[judged.number] += 1
        return judged

    # Calls that the session does not go on from

    def with_another_state(self, own):
        """A byte of it is changed, or two; what is made nevertheless fits the setup reply that the state tells of."""
        rng = self.rng
        state = bytearray(own.state)
        for place in rng.sample(range(SIZE), rng.choice([1, 1, 2])):
            state[place] = rng.choice([0, 1, 4, 255, state[place] ^ 1 << rng.randrange(8), rng.randrange(256)])
        if rng.random() < 0.1:
            state = state[:rng.randrange(SIZE)] if rng.random() < 0.5 else state + b"\0"
        if rng.random() < 0.3:
            return self.write(Hear(invalidation(session_of(own.state)), bytes(state)), "another state", (0, 1, 4))
        call = self.request(own)._replace(state=bytes(state))
        outcome = self.write(call, "another state", (0, 1, 2, 3))
        if outcome.number == 0:
            self.hold_to_its_reply(call, outcome.out[:outcome.length])

    def hold_to_its_reply(self, call, made):
        number = gate.fits(reply_of(session_of(call.state)), made, call.method, call.head, b"", call.path, call.body)
        if number != 0:
            raise Disagreement(f"{made} does not fit the reply that its state tells of, {number}: {call}")

    def hear_another(self, own):
        """What is not its invalidation: altered, cut, another's, something else."""
        rng = self.rng
        true = invalidation(session_of(own.state))
        others = [invalidation(session_of(other.state)) for other in self.scanners if other is not own and other.state != ZEROS]
        others += [with_bytes_changed(rng, true), true[:rng.randrange(len(true))], true + b";", own.reply, rng.randbytes(rng.randrange(200))]
        self.write(Hear(rng.choice(others), own.state), "what is not its invalidation", (4,))

    def begin_otherwise(self, own):
        rng = self.rng
        reply = rng.choice([own.reply, with_bytes_changed(rng, own.reply), own.reply + bytes(rng.randrange(1, 400))])
        state = rng.choice([own.state, ZEROS, own.state[:-1], own.state + b"\0", b""])
        self.write(Begin(rng.randrange(1 << 32), reply, state), "begun otherwise", (0, 1, 3, 4))

    def write(self, call, name, possible):
        outcome = self.writer.write(call, f"drawn, {name}")
        if outcome.number not in possible:
            raise Disagreement(f"{name}: the model answers {outcome.number}, which is none of {possible}: {call}")
        self.written += 1
        self.came_up[kind(call), outcome.number] += 1
        return outcome
