"""The calls that tests/speed measures: written to a call file, or timed on the second program's model.

    python3 tests/speed/requests.py accepted FILE   the calls, in the format of tests/second/README.md, and their names in FILE.names; and hashes, as sha512 TEXT
    python3 tests/speed/requests.py all FILE        the calls, and some that take other ways and more stack
    python3 tests/speed/requests.py time            what each accepted one takes in the model

Each call stands behind its own table and reply lines.
"""

import os
import random
import statistics
import sys
import time
from typing import NamedTuple

sys.path.insert(0, os.path.join(os.path.dirname(os.path.abspath(__file__)), "..", "second"))

import calls  # noqa: E402
import client  # noqa: E402
import drafts  # noqa: E402
import hashing  # noqa: E402
import model  # noqa: E402
import record as rec  # noqa: E402

CLOCK = 1_760_000_000
EXPIRY = CLOCK + 86_400
REPLY = (1_024, 0)
EXTRA = b",".join(b"X-Dealer-Name-%d" % place for place in range(8))
LINE = 64  # bytes of a line that nobody covers
RECORDS = (1, 64, 1_024, 4_096)  # of tables whose cost is compared
TURNS = 9
TURN = 0.02  # seconds


class Hashing(NamedTuple):
    """A hash alone, which the host makes as it does a call."""

    kind: str
    arguments: tuple
    table: bytes = b""
    index: bytes = b""
    reply: tuple = REPLY


def session(iv, known=hashing.SHA_512):
    return rec.Record(1, iv, EXPIRY, 1, 1_000, 0x5555, known)


class Maker:
    def __init__(self, seed):
        self.rng = random.Random(seed)

    def run(self, count):
        return self.rng.randbytes(count)

    def text(self, count):
        return bytes(self.rng.choice(b"abcdefghijklmnopqrstuvwxyz0123456789 ") for _ in range(count)).strip().ljust(count, b".")

    def table(self, count, place, record):
        """So many records, this one in its place, the others used."""
        records = [session(self.run(12)) for _ in range(count)]
        records[place] = record
        return rec.table_of(records)

    def lines(self, named, size=0):
        """A line for each of the first names, spread among others up to so many bytes."""
        named = [client.line(name, b" " + self.text(20)) for name in model.NAMES[:named]]
        others = []
        while sum(map(len, named + others)) + LINE <= size:
            name = b"X-Other-%03d" % len(others)
            others.append(client.line(name, b" " + self.text(LINE - len(name) - 4)))
        for place, text in enumerate(named):
            others.insert(place * (len(others) + 1) // len(named), text)
        return others

    def around(self, size):
        """Each list field twice, before and behind lines of 4 bytes."""
        lists = [client.line(name, b"a") for name in model.LIST_FIELDS]
        return lists + [b"a:\r\n"] * ((size - 2 * sum(map(len, lists))) // 4) + lists

    def judge(self, covered=8, lines=None, records=64, body=200, extra=b"", expiry=EXPIRY, lt=CLOCK - 40, known=hashing.SHA_512):
        """A request that covers the first names; its head has a line for each, and no other, unless lines are given."""
        iv = self.run(12)
        mask = 1 | sum(2 << place for place in range(covered))
        draft = drafts.Request(
            kind="judge", table=self.table(records, records // 2, session(iv, known)), iv=iv, place=records // 2, reply=REPLY, hash=known,
            orders=model.Orders(mask, hashing.BOTH, extra, 0, 0, 0), clock=CLOCK, server_key=self.run(32),
            key=self.run(32), session_id=self.text(32), expiry=expiry, t=CLOCK - 2, lt=lt, n=1_001,
            method=b"POST", head_lines=self.lines(covered) if lines is None else lines, path=b"/order/17?part=4711", body=self.run(body),
        )
        return drafts.build(draft, [], self.rng)

    def setup(self, records=64, extra=b""):
        """One record is free, at any place."""
        draft = drafts.Setup(
            kind="setup", table=self.table(records, self.rng.randrange(records), rec.FREE), iv=self.run(12), reply=REPLY,
            orders=model.Orders(0x1FF, hashing.BOTH, extra, 0, 0, 0), clock=CLOCK, server_key=self.run(32),
            session_key=self.run(32), session_id=self.text(32), offer=client.encoded_mask(hashing.BOTH),
        )
        return drafts.build(draft, [], self.rng)

    def end(self, records=64):
        iv = self.run(12)
        draft = drafts.End(kind="end", table=self.table(records, records // 2, session(iv)), iv=iv, reply=REPLY)
        return drafts.build(draft, [], self.rng)

    def index(self, records=64):
        draft = drafts.Index(kind="index", table=self.table(records, 0, session(self.run(12))), reply=REPLY)
        return drafts.build(draft, [], self.rng)


def measured():
    """Names and calls; each call is accepted."""
    maker = Maker(20261115)
    yield "setup", maker.setup()
    yield "judge, small", maker.judge()
    yield "body of 64 KiB judged", maker.judge(body=65_536)
    yield "judge, small, SHA-256", maker.judge(known=hashing.SHA_256)
    yield "body of 64 KiB, SHA-256 judged", maker.judge(body=65_536, known=hashing.SHA_256)
    yield "end", maker.end()
    for name, make in (("setup", maker.setup), ("judge", maker.judge), ("end", maker.end), ("index", maker.index)):
        for records in RECORDS:
            yield f"{name}, {records} records", make(records=records)
    for size in (1, 4, 16):
        yield f"judge, head of {size} KiB", maker.judge(lines=maker.lines(8, size * 1_024))
    for covered in (0, 8, 55):
        yield f"judge, {covered} of 55 names covered", maker.judge(covered=covered, lines=maker.lines(55))
    yield "judge, 55 names, head of 16 KiB", maker.judge(covered=55, lines=maker.lines(55, 16_384))
    yield "judge, lines of 4 bytes, 55 names", maker.judge(covered=55, lines=[b"a:\r\n"] * 4_096)
    yield "judge, all of it", maker.judge(covered=55, lines=maker.lines(55, 16_384), body=65_536)
    yield "judge, lines of 4 bytes, 63 names", maker.judge(covered=55, lines=[b"a:\r\n"] * 4_096, extra=b"b,c,d,e,f,g,h,i")
    yield "judge, Accept on two lines", maker.judge(lines=maker.lines(8) + [client.line(b"Accept", b" text/plain")])
    yield "judge, TE on lines of 5 bytes", maker.judge(covered=55, lines=[b"TE:\r\n"] * 3_276)
    yield "judge, 12 list fields around others", maker.judge(covered=55, lines=maker.around(16_384))


def hashed():
    """The hash of a body, beside a request that has such a one."""
    body = Maker(20261117).run(65_536)
    yield "body of 64 KiB hashed", Hashing("sha512", (body,))
    yield "body of 64 KiB, SHA-256 hashed", Hashing("sha256", (body,))


def others():
    """Calls with extra names, and those that invalidate a session."""
    maker = Maker(20261116)
    yield "setup, 8 extra names", maker.setup(extra=EXTRA)
    yield "judge, 8 extra names", maker.judge(extra=EXTRA)
    for name, known in (("SHA-512", hashing.SHA_512), ("SHA-256", hashing.SHA_256)):
        yield f"judge, token expired, {name}", maker.judge(expiry=CLOCK, known=known)
        yield f"judge, idle, {name}", maker.judge(lt=CLOCK - 2_000, known=known)


def write(path, named_calls):
    with open(path, "w", encoding="ascii") as to, open(path + ".names", "w", encoding="ascii") as names:
        for name, call in named_calls:
            to.write(f"table {calls.run_text(call.table)} {calls.run_text(call.index)}\n")
            to.write("reply {} {}\n".format(*call.reply))
            to.write(" ".join([call.kind, *map(calls.field_text, call.arguments)]) + "\n")
            names.write(name + "\n")


def turn(call, reply):
    """Seconds of one call, over enough calls to fill a turn."""
    count, start = 0, time.perf_counter()
    while time.perf_counter() - start < TURN:
        calls.answered(call, reply)
        count += 1
    return (time.perf_counter() - start) / count


def time_model():
    for name, call in measured():
        reply = bytes([call.reply[1]]) * call.reply[0]
        outcome = calls.answered(call, reply)
        assert outcome.number == 0, (name, outcome.number)
        median = statistics.median(turn(call, reply) for _ in range(TURNS))
        print(f"{name:<36} {median * 1e6:10.1f} us")


if __name__ == "__main__":
    match sys.argv[1:]:
        case ["time"]:
            time_model()
        case ["accepted", path]:
            write(path, [*measured(), *hashed()])
        case ["all", path]:
            write(path, [*measured(), *others()])
        case _:
            sys.exit(__doc__)
