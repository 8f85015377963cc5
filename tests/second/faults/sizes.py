"""Refusal 1 and its edges: 'something lent to this call has a size outside Sizes'."""

import client
import record as rec
from faults.catalogue import ORDERED, REQUEST, TABLED, VALUED, fault


def resized(run, length):
    return (run * (length // max(1, len(run)) + 1))[:length] if run else bytes(length)


def of_length(name, attribute, lengths, number, on, at="lent", long=False):
    """One fault for each length of one lent run."""
    for length in lengths:

        @fault(f"{name} of {length} bytes", number, at, on, long=long)
        def alter(draft, rng, length=length):
            setattr(draft, attribute, resized(getattr(draft, attribute), length))


of_length("server key", "server_key", [0, 16, 31, 33, 64, 288], 1, ORDERED)
of_length("session key", "session_key", [0, 31, 33, 64], 1, ("setup",))
of_length("session id", "session_id", [0, 65, 257], 1, ("setup",))
of_length("session id", "session_id", [1, 63, 64], 0, ("setup",))
of_length("IV", "iv", [0, 11, 13, 16], 1, ("setup", "end"))
of_length("path", "path", [0, 2_049, 2_304], 1, REQUEST, at="plan")
of_length("path", "path", [1, 2_048], 0, REQUEST, at="plan")
of_length("body", "body", [65_537], 1, REQUEST, at="plan", long=True)
of_length("body", "body", [65_536], 0, REQUEST, at="plan", long=True)
of_length("body", "body", [0, 1, 9, 10, 99, 100, 111, 112, 127, 128, 129, 999, 1_000], 0, REQUEST, at="plan")
of_length("body", "body", [9_999, 10_000], 0, REQUEST, at="plan", long=True)


def padded_to(length, value):
    """A piece that is good but for its unknown key brings the value to this length."""
    room = length - len(value) - len(b";x:")
    text = b"A" * (room - room % 4)
    key = b"x" * (1 + room % 4)
    return value + b";" + key + b":" + text


@fault("value of 4,097 bytes in good grammar", 1, "value", VALUED)
def value_too_long(draft, rng):
    draft.value = padded_to(4_097, draft.value)


@fault("value of 4,096 bytes with an unknown key", 5, "value", VALUED)
def value_longest(draft, rng):
    draft.value = padded_to(4_096, draft.value)


@fault("value of 4,097 bytes of garbage", 1, "lent", VALUED)
def value_garbage_too_long(draft, rng):
    draft.value = rng.randbytes(4_097)


@fault("value of 4,096 bytes of garbage", 4, "lent", VALUED)
def value_garbage(draft, rng):
    draft.value = b";;" + rng.randbytes(4_094)


def padding(length, lines):
    """Lines that nobody covers bring a block to this length."""
    missing = length - len(b"".join(lines)) - len(b"X-Pad:\r\n")
    return lines + [client.line(b"X-Pad", b"p" * missing)]


@fault("head of 16,384 bytes", 0, "plan", long=True)
def head_longest(draft, rng):
    draft.head_lines = padding(16_384, draft.head_lines)


@fault("head of 16,385 bytes", 1, "plan", long=True)
def head_too_long(draft, rng):
    draft.head_lines = padding(16_385, draft.head_lines)


@fault("head of 16,385 bytes of garbage", 1, "lent", long=True)
def head_garbage_too_long(draft, rng):
    draft.head = rng.randbytes(16_385)


@fault("set-aside lines of 16,384 bytes", 0, "plan", long=True)
def aside_longest(draft, rng):
    draft.aside_lines = padding(16_384, draft.aside_lines)


@fault("set-aside lines of 16,385 bytes", 1, "plan", long=True)
def aside_too_long(draft, rng):
    draft.aside_lines = padding(16_385, draft.aside_lines)


@fault("head and set-aside lines of 16,384 bytes each", 0, "plan", long=True)
def both_longest(draft, rng):
    draft.head_lines = padding(16_384, draft.head_lines)
    draft.aside_lines = padding(16_384, draft.aside_lines)


@fault("head of some thousand lines", 0, "plan", long=True)
def head_of_many_lines(draft, rng):
    draft.head_lines += [client.line(b"q", b"")] * 3_000


def reply_of(count, number):
    @fault(f"reply buffer of {count} bytes", number, "lent", ORDERED)
    def alter(draft, rng):
        draft.reply = (count, rng.randrange(256))


for short in (0, 1, 90, 459, 768, 1_023):
    reply_of(short, 1)
for enough in (1_024, 1_025, 1_500):
    reply_of(enough, 0)


@fault("table of no bytes", 1, "lent", TABLED)
def table_empty(draft, rng):
    draft.table = b""


def table_of(count, number, long):
    @fault(f"table of {count:,} records", number, "plan", TABLED, long=long)
    def alter(draft, rng):
        draft.table += bytes(count * rec.SIZE - len(draft.table))


table_of(320, 0, long=False)
table_of(4_096, 0, long=True)
table_of(4_097, 1, long=True)


@fault("table one byte short", 1, "lent", TABLED)
def table_short(draft, rng):
    draft.table = draft.table[:-1]


@fault("table one byte long", 1, "lent", TABLED)
def table_long(draft, rng):
    draft.table += b"\0"


@fault("table of half a record more", 1, "lent", TABLED)
def table_half_record(draft, rng):
    draft.table += bytes(15)


@fault("table of one byte", 1, "lent", TABLED)
def table_of_one_byte(draft, rng):
    draft.table = b"\0"


@fault("record followed by a stray byte", 0, "lent", ("one",))
def record_and_stray_byte(draft, rng):
    draft.table += b"\xff"


def index_of(name, change):
    @fault(f"index {name}", 1, "index", TABLED)
    def alter(draft, rng):
        draft.index = change(draft.index)


index_of("of no bytes", lambda index: b"")
index_of("one byte short", lambda index: index[:-1])
index_of("one byte long", lambda index: index + b"\xff")
index_of("an entry short", lambda index: index[:-rec.ENTRY])
index_of("an entry long", lambda index: index + b"\xff\xff")
index_of("twice as long", lambda index: index + b"\xff" * len(index))
