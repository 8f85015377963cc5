"""Places a case in whole calls, where what it comes to shows in a call's number, reply or table.

Each function takes a case and yields calls: a note, the call, and the numbers that it can get. But for what the case puts in, a
call is good. What a request decodes to shows by its signature, which is over those very bytes, and by its age and its idle
gap, which meet the limits to the second.
"""

import random

import agreement
import calls
import client
import drafts
import encoding
import hashing
import model
import record as rec
from encoding import netstring
from faults.catalogue import Fault, nothing
from histories import Disagreement

HIGHEST = model.HIGHEST

SERVER_KEY = bytes(range(100, 132))
KEY = bytes(range(32))
IV = bytes(range(200, 212))
SESSION_ID = b"brandt-1"
CLOCK = 1_505_773_000
NONCE = 5
REPLY = (model.LEAST_REPLY, 170)
OFFER = client.setup_value(hashing.BOTH)
MOST_SEALED = 118  # bytes of s
IV_LETTERS = 16  # of its base64


def ordered(mask, extra=b"", request_life=0, idle=0, session_life=0, hashes=hashing.BOTH):
    return model.Orders(mask, hashes, extra, request_life, idle, session_life)


ORDERS = ordered(3)  # nonces and Host; both hashes


# Calls


def setup_call(orders=ORDERS, value=OFFER, session_id=SESSION_ID, iv=IV):
    draft = drafts.Setup(
        kind="setup",
        table=rec.to_bytes(rec.FREE),
        index=rec.fitting_index([rec.FREE]),
        iv=iv,
        reply=REPLY,
        orders=orders,
        clock=CLOCK,
        server_key=SERVER_KEY,
        session_key=KEY,
        session_id=session_id,
        value=value,
    )
    return draft.call()


def request_call(*alterations, kind="judge", orders=ORDERS, iv=IV, hash=hashing.SHA_512, head=b"", aside=b"", **planned):
    """A request of the session that the table's one record is for, altered at some stages of its draft."""
    plan = {"clock": CLOCK, "key": KEY, "session_id": SESSION_ID, "t": CLOCK, "lt": CLOCK, "n": NONCE, **planned}
    draft = drafts.Request(
        kind=kind,
        table=rec.to_bytes(rec.fresh(iv, HIGHEST, hash)),
        iv=iv,
        hash=hash,
        chosen=hash,
        place=0,
        reply=REPLY,
        orders=orders,
        server_key=SERVER_KEY,
        expiry=HIGHEST,
        head_lines=head.splitlines(keepends=True),
        aside_lines=aside.splitlines(keepends=True),
        **plan,
    )
    return drafts.build(draft, alterations, random.Random(0))


def at(stage, alter):
    """An alteration of a draft at one of its stages."""
    return Fault(name="", number=0, at=stage, on=(), needs=nothing, alter=lambda draft, rng: alter(draft), long=False, late=False)


def replaced(stage, name, contents):
    return at(stage, lambda draft: setattr(draft, name, contents))


def about(t):
    """A clock that t is not too far ahead of, before the end of time: no token outlives that."""
    return min(max(CLOCK, t), HIGHEST - 1)


def end_call(iv=IV):
    return drafts.build(drafts.End("end", rec.to_bytes(rec.fresh(iv, HIGHEST)), iv, 0, REPLY), [], random.Random(0))


def index_call():
    return drafts.build(drafts.Index("index", rec.to_bytes(rec.FREE), reply=REPLY), [], random.Random(0))


def lent(call, records, index=None):
    """The call on these records, with the index that fits them or with another."""
    return call._replace(table=rec.table_of(records), index=rec.fitting_index(records) if index is None else index)


def in_turn(records, steps, index=None):
    """Calls with their numbers, the first on these records, each other one on what the one before it left."""
    left = lent(index_call(), records, index)
    for note, call, number in steps:
        call = call._replace(table=left.table, index=left.index)
        yield note, call, (number,)
        left = calls.answered(call, bytes(model.LEAST_REPLY))


# The table and its index


def whole_day(count):
    """A session that comes and goes in a table of so many records, all others used, whose index was lost."""
    rng = random.Random(count)
    records = [rec.fresh(rng.randbytes(12), HIGHEST) for _ in range(count)]
    records[rng.randrange(count)] = rec.FREE
    return in_turn(records, (
        ("the index made", index_call(), 0),
        ("set up", setup_call(), 0),
        ("another set up", calls.altered(setup_call(), iv=b"no room left"), 18),
        ("a request", request_call(), 0),
        ("the same again", request_call(), 16),
        ("an idle request", request_call(lt=0), 13),
        ("a request after that", request_call(), 12),
        ("set up again", setup_call(), 0),
        ("ended", end_call(), 0),
        ("ended again", end_call(), 12),
        ("the index made again", index_call(), 0),
    ), rng.randbytes(rec.ENTRY * count))


def each_call(records, number, index=None):
    """The calls that look at table and index, where all are refused for the same."""
    steps = (("a request", request_call()), ("a setup", setup_call()), ("an ending", end_call()), ("the index made", index_call()))
    return in_turn(records, ((note, call, number) for note, call in steps), index)


def looked_up(ivs):
    """Each IV, and those next to it, in a table of sessions with these."""
    records = [rec.fresh(iv, HIGHEST) for iv in ivs]
    for iv in ivs:
        yield f"{iv.hex()} ended", lent(end_call(iv), records), (0,)
        yield f"{iv.hex()} set up", lent(calls.altered(setup_call(), iv=iv), records), (17,)
        for next_iv in (int.from_bytes(iv, "big") + by for by in (-1, 1)):
            if 0 <= next_iv < 1 << 96 and next_iv.to_bytes(12, "big") not in ivs:
                yield f"{next_iv:024x} ended", lent(end_call(next_iv.to_bytes(12, "big")), records), (12,)


def told_apart(low, high):
    """Two sessions with IVs that differ little."""
    records = [rec.fresh(high, HIGHEST), rec.FREE, rec.fresh(low, HIGHEST)]
    yield "a request of the lower, the index the other way round", lent(request_call(iv=low), records, rec.index_of([0, 2, rec.NO_PLACE])), (22,)
    yield from in_turn(records, (
        ("a request of the lower", request_call(iv=low), 0),
        ("a request of the higher", request_call(iv=high), 0),
        ("the lower ended", end_call(low), 0),
        ("a request of the lower after that", request_call(iv=low), 12),
        ("a request of the higher after that", request_call(iv=high, n=NONCE + 1), 0),
        ("the lower set up", calls.altered(setup_call(), iv=low), 0),
        ("the higher ended", end_call(high), 0),
        ("a request of the lower, set up anew", request_call(iv=low), 0),
        ("the higher set up", calls.altered(setup_call(), iv=high), 0),
        ("a request of the higher, set up anew", request_call(iv=high), 0),
    ))


def never_repaired(change):
    """Whatever is asked, until the index is made anew."""
    ivs = (IV, IV[::-1], bytes(12), b"\xff" * 12)
    records = [*(rec.fresh(iv, HIGHEST) for iv in ivs), rec.FREE, rec.FREE]
    index = rec.index_of(change(rec.entries_of(rec.fitting_index(records)), len(ivs)))
    return in_turn(records, (
        ("a request", request_call(), 22),
        ("an ending", end_call(), 22),
        ("a setup", calls.altered(setup_call(), iv=b"another iv.."), 22),
        ("a request at the token's expiry", request_call(replaced("plan", "expiry", CLOCK)), 22),
        ("the index made", index_call(), 0),
        ("a request after that", request_call(), 0),
    ), index)


# The thin entry


def taken_out(*nonces):
    """Nonces by the thin entry, over a record that is taken out of a table of two and put back; each again by gate_judge."""
    steps = []
    for nonce in nonces:
        call = request_call(n=nonce)
        steps.append((f"nonce {nonce} by the thin entry", call._replace(kind="one"), 0))
        steps.append((f"nonce {nonce} again, by gate_judge", call, 16))
    return in_turn([rec.fresh(IV, HIGHEST), rec.fresh(IV[::-1], HIGHEST)], steps)


def freed_apart(note, freeing, number):
    """A record that is freed by the thin entry, after which the host makes the index anew, and the sessions beside it."""
    records = [rec.fresh(IV, HIGHEST), rec.fresh(IV[::-1], HIGHEST), rec.FREE]
    return in_turn(records, (
        (f"{note} by the thin entry", freeing._replace(kind="one"), number),
        ("a request of the other session", request_call(iv=IV[::-1]), 0),
        ("a request of the freed one", request_call(), 12),
        ("the same by the thin entry", request_call()._replace(kind="one"), 12),
        ("set up again", setup_call(), 0),
        ("a request by the thin entry", request_call()._replace(kind="one"), 0),
        ("the other session ended", end_call(IV[::-1]), 0),
    ))


# Trials of clients


def replied(change):
    """Another reply than the session's."""
    return at("setup reply", lambda draft: setattr(draft, "setup_reply", change(draft.setup_reply)))


def telling(key, contents):
    """A reply that has other contents under a key."""
    return at("told", lambda draft: draft.tell(key, contents))


def judged_and_tried(note, number, tried_as, call):
    """A request of the one session by gate_judge and by gate_fits, and whether the two agree (document 02, K11)."""
    judged = calls.answered(call, bytes([REPLY[1]]) * REPLY[0])
    trial = agreement.trial_of(call, judged, {IV: model.Token(KEY, SESSION_ID, HIGHEST)})
    if not agreement.agree(judged, calls.answered(trial, b"")):
        raise Disagreement(f"{note}: judged {judged.number}, and otherwise tried: {call}, {trial}")
    yield f"{note}, judged", call, (number,)
    yield f"{note}, tried", trial, (tried_as,)


# Sessions apart


def drawn_day(rng, ivs, count):
    """So many calls of sessions with these IVs, drawn, each with a note: requests by either entry, endings, and calls that bear no IV."""
    for _ in range(count):
        iv, n = rng.choice(ivs), rng.randrange(0, 100, 9)
        note, call = rng.choice((
            *[(f"nonce {n}", request_call(iv=iv, n=n))] * 24,
            ("no token", request_call(replaced("token text", "token_text", b"x"), iv=iv)),
            ("another text signed", request_call(replaced("text", "text", b""), iv=iv)),
            ("an old request", request_call(iv=iv, n=n, t=CLOCK - 61)),
            ("an idle request", request_call(iv=iv, n=n, lt=0)),
            ("a request at the token's expiry", request_call(replaced("plan", "expiry", CLOCK), iv=iv)),
            ("an ending", end_call(iv)),
            ("the index made", index_call()),
            ("a value of bad grammar", valued(b";", ORDERS)),
            ("a setup's value", valued(OFFER, ORDERS)),
        ))
        if call.kind == "judge" and rng.random() < 0.2:
            note, call = f"{note}, by the thin entry", call._replace(kind="one")
        yield note, call


def borne(call):
    """The IV of a request's iv field, if its value has good grammar and fields, or the one that an ending is lent."""
    if call.kind in ("end", "index"):
        return calls.named(call).get("iv")
    fields = calls.request_fields(calls.named(call)["value"])
    return fields and fields[b"iv"]


def played(records, steps):
    """The calls in turn from these records on, each with its note and what the model answers."""
    acts = []
    left = lent(index_call(), records)
    for note, call in steps:
        call = call._replace(table=left.table, index=left.index)
        left = calls.answered(call, bytes([REPLY[1]]) * REPLY[0])
        acts.append((note, call, left))
    return acts


def told(iv, acts):
    """Number, reply length and reply buffer of each call that bears an IV, and the record that is found under it at the end."""
    _, _, last = acts[-1]
    records = rec.records_of(last.table)
    place = rec.place_of(records, iv)
    answers = [(outcome.number, outcome.length, outcome.reply) for _, call, outcome in acts if borne(call) == iv]
    return answers, None if place is None else records[place]


def same_session(iv, acts, others):
    if told(iv, acts) != told(iv, others):
        raise Disagreement(f"the session of {iv.hex()} is told otherwise: {told(iv, acts)}, {told(iv, others)}")


def by_the_model(acts, of):
    return ((f"{note}, {of}", call, (outcome.number,)) for note, call, outcome in acts)


def struck_out(seed):
    """A day of three sessions, and for each of them the day without the others' calls."""
    rng = random.Random(seed)
    ivs = (IV, IV[::-1], IV[:-1] + b"\0")
    records = rng.sample([*(rec.fresh(iv, HIGHEST) for iv in ivs), rec.FREE, rec.FREE], 5)
    steps = list(drawn_day(rng, ivs, 45))
    whole = played(records, steps)
    yield from by_the_model(whole, "of three sessions")
    for iv in ivs:
        alone = played(records, [step for step in steps if borne(step[1]) in (iv, None)])
        same_session(iv, whole, alone)
        yield from by_the_model(alone, "of one session")


def on_two_tables(seed):
    """A day of two makers' sessions on one table, and each maker's calls on a table of its own, at other places and of another size."""
    rng = random.Random(seed)
    ours, more, theirs = (rec.fresh(iv, HIGHEST) for iv in (IV, IV[::-1], IV[:-1] + b"\0"))
    makers = (((ours, more), [ours, rec.FREE, rec.FREE, more]), ((theirs,), [rec.FREE, theirs]))
    steps = list(drawn_day(rng, [record.iv for record in (ours, more, theirs)], 45))
    whole = played([ours, theirs, more], steps)
    yield from by_the_model(whole, "on one table")
    for sessions, table in makers:
        ivs = [record.iv for record in sessions]
        own = played(table, [step for step in steps if borne(step[1]) in ivs])
        for iv in ivs:
            same_session(iv, whole, own)
        yield from by_the_model(own, "on its maker's table")


def in_turns():
    """The day of demands' witness, the sessions' places exchanged: the host takes the table's first record out for the thin entry."""
    theirs = IV[::-1]
    records = [rec.fresh(theirs, HIGHEST), rec.fresh(IV, HIGHEST)]
    ours = [("our first nonce", request_call(n=1), 0), ("our first nonce again", request_call(n=1), 16), ("our next", request_call(n=2), 0)]
    yield from in_turn(records, (
        ("their first nonce by the thin entry", request_call(iv=theirs, n=1)._replace(kind="one"), 0),
        ours[0],
        ("their session's end", end_call(theirs), 0),
        ours[1],
        ("their next nonce", request_call(iv=theirs, n=2), 12),
        ours[2],
    ))
    yield from in_turn(records, ours)


# Order of arrival


def drawn_window(rng):
    """A record with any window that one may hold, and new nonces that it accepts in any order, since none is 64 below another or below the highest."""
    record = rec.fresh(IV, HIGHEST)
    if rng.random() < 0.8:
        record = record._replace(begun=1, highest=rng.choice((0, 1, 62, 63, 64, 1_000, HIGHEST - 70)), bits=rng.getrandbits(64) | 1)
    top = record.highest + rng.randrange(71)
    new = [n for n in range(max(0, top - 63), top + 1) if rec.take_nonce(record, n)[0] == 0]
    return record, rng.sample(new, min(6, len(new)))


def merged(rng, steps, others):
    """Both lists in one, each in its order."""
    places = {*rng.sample(range(len(steps) + len(others)), len(steps))}
    own, rest = iter(steps), iter(others)
    return [next(own if place in places else rest) for place in range(len(steps) + len(others))]


def arriving(seed):
    """A session's requests in two orders, each among the same calls of other sessions, setups with them: all are accepted, and the tables are the same."""
    rng = random.Random(seed)
    record, nonces = drawn_window(rng)
    kinds = ("judge", "one") if rng.random() < 0.5 else ("judge",)
    requests = [(f"nonce {n}", request_call(n=n)._replace(kind=rng.choice(kinds))) for n in nonces]
    requests.append(("no nonce ordered", request_call(orders=ordered(2))))
    theirs = (IV[::-1], IV[:-1] + b"\0")
    others = [*drawn_day(rng, theirs, 12), *(("a setup", setup_call(iv=bytes([k]) * 12)) for k in range(1, 4))]
    rng.shuffle(others)
    rest = rng.sample([*(rec.fresh(iv, HIGHEST) for iv in theirs), rec.FREE, rec.FREE], 4)
    days = [played([record, *rest], merged(rng, rng.sample(requests, len(requests)), others)) for _ in range(2)]
    for day in days:
        if any(outcome.number for _, call, outcome in day if borne(call) == IV):
            raise Disagreement(f"a request of {IV.hex()} is refused: {day}")
    one, other = (outcome for _, _, outcome in (day[-1] for day in days))
    if (one.table, one.index) != (other.table, other.index):
        raise Disagreement(f"two orders leave two tables: {days}")
    for day, order in zip(days, ("in one order", "in another")):
        yield from by_the_model(day, order)


def around_another():
    """The two orders of demands' witness, the sessions' places exchanged: the host takes the table's first record out for the thin entry."""
    theirs = IV[::-1]
    records = [rec.fresh(theirs, HIGHEST), rec.fresh(IV, HIGHEST)]
    first, other = ("our nonce 1", request_call(n=1), 0), ("our nonce 3", request_call(n=3), 0)
    between = ("their nonce by the thin entry", request_call(iv=theirs, n=1)._replace(kind="one"), 0)
    yield from in_turn(records, (first, between, other))
    yield from in_turn(records, (between, other, first))


def fallen_out():
    """Two orders, one of which refuses a nonce that fell out of the window: of them nothing is said."""
    records = [rec.fresh(IV, HIGHEST)]
    yield from in_turn(records, (("nonce 1 first", request_call(n=1), 0), ("then 65", request_call(n=65), 0)))
    yield from in_turn(records, (("nonce 65 first", request_call(n=65), 0), ("then 1", request_call(n=1), 15)))


# The hash


def not_allowed(h, other, number, stage):
    """A request under h, where the other hash alone is allowed, and something else that is wrong with it."""
    asked = ordered(3, hashes=h ^ hashing.BOTH)
    yield f"h {h}, {other.__name__}", request_call(at(stage, other), hash=h, orders=asked), (number,)


def otherwise(h, other, number, stage):
    """A request under h, in a session of the other hash, and something else that is wrong with it."""
    call = request_call(replaced("plan", "hash", h), at(stage, other), hash=h ^ hashing.BOTH)
    yield f"h {h}, {other.__name__}", call, (number,)


def kept(h, byte):
    """A request under h, of a session whose record has this byte at its end."""
    keep = at("lent", lambda draft: draft.put(draft.place, draft.own()._replace(hash=byte)))
    call = request_call(keep, hash=h)
    yield f"h {h}, byte {byte}, by gate_judge", call, (0, 3, 8)
    yield f"h {h}, byte {byte}, by the thin entry", call._replace(kind="one"), (0, 3, 8)
    yield f"h {h}, byte {byte}, at the token's expiry", request_call(keep, replaced("plan", "expiry", CLOCK), hash=h), (3, 10)


# Orders


def orders(*settings):
    asked = model.Orders(*settings)
    if model.orders_bad(asked):
        yield "a setup", setup_call(asked), (2,)
        yield "a request", request_call(orders=asked), (2,)
        return
    yield "a setup", setup_call(asked), (0,)
    head = b"".join(client.line(name, b"v%d" % place) for place, name in enumerate(model.covered_names(asked)))
    good = {"orders": asked, "head": head, "hash": hashing.longest(asked.hashes)}
    for known in hashing.FUNCTIONS:
        if known & asked.hashes == 0:
            yield "a request under the other hash", request_call(**good | {"hash": known}), (8,)
    life, idle = model.request_life(asked), model.idle_limit(asked)
    for note, age, number in (("as old as can be", min(life, HIGHEST - 1), 0), ("a second too old", life + 1, 14)):
        t = max(0, CLOCK - age)
        if t + age < HIGHEST:  # no token outlives that
            yield f"a request {note}", request_call(**good, clock=t + age, t=t, lt=t), (number,)
    for note, lead, number in (("as far ahead as can be", model.MOST_AHEAD, 0), ("a second too far ahead", model.MOST_AHEAD + 1, 21)):
        yield f"a request {note}", request_call(**good, t=CLOCK + lead, lt=CLOCK + lead), (number,)
    for note, gap, number in (("idle for the limit", idle, 0), ("idle for a second more", idle + 1, 13)):
        t = max(gap, CLOCK)
        if t <= HIGHEST:
            yield f"a request {note}", request_call(**good, clock=about(t), t=t, lt=t - gap), (number,)


# Values


def setup(value):
    yield "as the value of a setup", setup_call(value=value), (0, 4, 5, 19)


def request(value):
    """Under orders that agree with what it covers, where such orders are good."""
    fields = calls.request_fields(value)
    own = ordered(encoding.mask(fields[b"ah"]), fields.get(b"eah", b"")) if fields else ORDERS
    orders = ORDERS if model.orders_bad(own) else own
    yield "as the value of a request", valued(value, orders), (4, 5, 8, 9)
    if not fields:
        return
    t, lt = encoding.number(fields[b"t"]), encoding.number(fields[b"lt"])
    at_limit = orders._replace(idle=max(0, t - lt))
    last = min(t + model.request_life(orders), HIGHEST - 1)  # no token outlives that
    yield "vouched for, at its limits", vouched(value, at_limit, last), (0, 8)
    if last < HIGHEST - 1:
        yield "vouched for, a second too old", vouched(value, at_limit, last + 1), (8, 14)
    if t > model.MOST_AHEAD:
        earliest = t - model.MOST_AHEAD
        yield "vouched for, as far ahead as can be", vouched(value, at_limit, earliest), (0, 8)
        yield "vouched for, a second too far ahead", vouched(value, at_limit, earliest - 1), (8, 21)
    if t - lt > 1:
        yield "vouched for, a second too idle", vouched(value, orders._replace(idle=t - lt - 1), last), (8, 13)


def coverage(mask, hashes, extra, value):
    orders = ordered(mask, extra, HIGHEST, HIGHEST, hashes=hashes)
    yield "as the value of a request", valued(value, orders), (2, 4, 5, 8, 9)
    if calls.request_fields(value):
        t = encoding.number(calls.request_fields(value)[b"t"])
        yield "vouched for", vouched(value, orders, about(t)), (0, 2, 8)


def valued(value, orders):
    return request_call(replaced("value", "value", value), orders=orders)


def vouched(value, orders, clock):
    """A request with this value, but with s, iv and tag of a session of its hash and with c over what it carries."""
    carried = model.fields_of(value)

    def carry(draft):
        own = {key: contents for key, contents in draft.fields if key in (b"s", b"iv", b"tag")}
        draft.fields = [(key, own.get(key, contents)) for key, contents in carried if key != b"c"]

    def close(draft):
        draft.value += b";" if value.endswith(b";") else b""

    named = client.named_hash(carried, hashing.SHA_512)
    return request_call(at("fields", carry), at("value", close), orders=orders, clock=clock, hash=named)


# The method


def method(run, number):
    call = request_call(method=run)
    yield "by gate_judge", call, (number,)
    yield "by the thin entry", call._replace(kind="one"), (number,)


def changed(signed, lent):
    """A request that is signed with one method and lent with another."""
    call = request_call(replaced("lent", "method", lent), method=signed)
    yield f"{signed.decode()} to {lent.decode()}, by gate_judge", call, (11,)
    yield f"{signed.decode()} to {lent.decode()}, by the thin entry", call._replace(kind="one"), (11,)


# Lines


def block(lines):
    yield "as the head", request_call(head=lines), (0, 6)
    yield "as the set-aside lines", request_call(aside=lines), (0, 6)


def names(mask, extra, head, aside):
    yield "a request", request_call(orders=ordered(mask, extra), head=head, aside=aside), (0, 2, 6, 7)


def repeated(number, mask, extra, head, aside):
    """Names where it is clear what they come to, by both entries."""
    call = request_call(orders=ordered(mask, extra), head=head, aside=aside)
    yield "by gate_judge", call, (number,)
    yield "by the thin entry", call._replace(kind="one"), (number,)


def covering(name):
    """By its bit if the name is listed, as an extra name otherwise."""
    listed = [known.lower() for known in model.NAMES]
    return ordered(2 << listed.index(name.lower()) | 1) if name.lower() in listed else ordered(1, name)


def signing(change):
    """The one covered value, which is the last part but path and body, is signed as another."""

    def sign_other(draft):
        name, value = draft.parts[-3]
        draft.parts[-3] = (name, change(value))

    return at("parts", sign_other)


def covered(name, head, aside):
    request = {"orders": covering(name), "head": head, "aside": aside}
    yield "signed", request_call(**request), (0,)
    yield "another value signed", request_call(signing(lambda value: value + b"x"), **request), (11,)


def joined(name, head, aside, value):
    """A list field that comes to this value, signed as that and as what it might be mistaken for."""
    request = {"orders": covering(name), "head": head, "aside": aside}
    call = request_call(signing(lambda _: value), **request)
    yield f"signed as {value[:40]}", call, (0,)
    yield f"signed as {value[:40]}, by the thin entry", call._replace(kind="one"), (0,)
    turned = b", ".join(value.split(b", ")[::-1])
    for other in sorted({value.replace(b", ", b","), value.strip(b" "), value.strip(b", "), value + b", ", turned} - {value}):
        yield f"signed as {other[:40]}", request_call(signing(lambda _: other), **request), (11,)


def instead(number, name, signed, lent):
    """Signed with one block of lines and lent with another, and the other way round; in the head and set aside."""
    for note, first, second in (("lent instead", signed, lent), ("the other way round", lent, signed)):
        for where in ("head", "aside"):
            call = request_call(replaced("lent", where, second), orders=covering(name), **{where: first})
            yield f"{note}, {where}", call, (number,)


# Netstrings


def read(place, run):
    """As what a token seals, cut to the longest that fits: whole, and from its place on as each of the three parts."""
    key, session_id, expiry = (netstring(part) for part in (KEY, SESSION_ID, b"%d" % HIGHEST))
    part = run[place:]
    for note, text in (
        ("as a token's text", run),
        ("as a token's session key", part + session_id + expiry),
        ("as a token's session id", key + part + expiry),
        ("as a token's expiry", key + session_id + part),
    ):
        sealed = text[:MOST_SEALED]
        yield note, request_call(replaced("token text", "token_text", sealed)), (0, 9, 11) if sealed else (4,)


def written(part):
    """As a session id, which a setup seals and a request opens, and as what is signed."""
    yield "as the session id of a setup", setup_call(session_id=part), (0, 1)
    yield "as the session id of a request", request_call(session_id=part), (0, 4, 9)
    yield "as the path", request_call(path=part), (0, 1)
    yield "as the body", request_call(body=part), (0,)


# The code


def code(mask, extra, n, t, lt, key, method, head, aside, path, body):
    """Under each hash, within limits that nothing exceeds."""
    request = {"orders": ordered(mask, extra, HIGHEST, HIGHEST), "clock": about(t), "n": n, "t": t, "lt": lt, "key": key}
    request |= {"method": method, "head": head, "aside": aside, "path": path, "body": body}

    def alter(draft):
        c = dict(draft.fields)[b"c"]
        draft.set_field(b"c", c[:-1] + bytes([c[-1] ^ 1]))

    for known in hashing.FUNCTIONS:
        signed = {**request, "hash": known}
        yield f"signed under h {known}", request_call(**signed), (0, 2)
        yield f"the last byte of c under h {known} altered", request_call(at("signed", alter), **signed), (2, 11)


# Numbers, masks and base64


def number(n):
    yield "as t, lt and n", request_call(orders=ordered(3, b"", HIGHEST, HIGHEST), clock=about(n), t=n, lt=n, n=n), (0,)


def mask(m):
    yield "as the mask of a setup's orders", setup_call(ordered(m)), (0, 2)
    yield "as the mask of a request's orders", request_call(orders=ordered(m)), (0, 2)
    yield "as ah, under other orders", request_call(replaced("lent", "orders", ORDERS), orders=ordered(m)), (0, 8)
    yield "as r", setup_call(value=client.setup_value(m)), (0, 19)
    yield "as the mask of allowed hashes", setup_call(ordered(3, hashes=m)), (0, 2)
    yield "as h", request_call(at("fields", lambda draft: draft.set_field(b"h", client.encoded_mask(m)))), (0, 8)


def decode(text):
    """As n it shows in the table; at the front of iv, by the token and the record, which the right IV alone opens and finds."""
    yield "of an unknown key", setup_call(value=b"x:" + text), (4, 5)
    yield "as n", with_text(b"n", text), (0, 4)
    if len(text) <= IV_LETTERS:
        front = text.ljust(IV_LETTERS, b"A")
        yield "at the front of iv", with_text(b"iv", front, iv=encoding.base64_bytes(front) or IV), (0, 4)


def with_text(key, text, **planned):
    """A request whose field of this key has this text, signed over what it decodes to."""
    contents = encoding.base64_bytes(text) or b""
    carry = at("fields", lambda draft: draft.set_field(key, contents))
    return request_call(carry, at("pieces", lambda draft: draft.set_text(key, lambda made: text)), **planned)
