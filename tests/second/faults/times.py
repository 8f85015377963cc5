"""Refusals 10, 13, 14 and 21 and their edges: expiry, idleness, age, and a clock that runs ahead."""

import hashing
import model
import record as rec
from faults.beside import beside, code_altered, idle, no_record, nonce_far_back, nonce_seen, token_altered, token_expired, too_far_ahead
from faults.catalogue import fault

HIGHEST = model.HIGHEST

# 10: 'now is at or past the token's expiry'


def expires(name, number, seconds):
    @fault(name, number, "plan")
    def alter(draft, rng):
        draft.expiry = min(max(0, draft.clock + seconds), HIGHEST)


expires("token expires now", 10, 0)
expires("token expired a second ago", 10, -1)
expires("token expired long ago", 10, -100_000)
expires("token expires in a second", 0, 1)


@fault("token expired, no record", 10, "plan")
def expired_without_record(draft, rng):
    draft.expiry = draft.clock
    draft.put(draft.place, rec.FREE)


@fault("token expired, record of another session in the place", 10, "plan")
def expired_other_record(draft, rng):
    draft.expiry = draft.clock
    draft.put(draft.place, rec.fresh(b"another iv..", HIGHEST))


@fault("token expired, the record's expiry to come", 10, "plan")
def expired_record_young(draft, rng):
    draft.expiry = draft.clock
    draft.put(draft.place, draft.own()._replace(expiry=HIGHEST))


def expired(draft):
    draft.expiry = draft.clock


@fault("token expired, wrong signature", 10, "signed", needs=expired)
def expired_forged(draft, rng):
    draft.set_field(b"c", bytes(hashing.size(draft.hash)))


@fault("clock at its end", 10, "plan")
def clock_at_end(draft, rng):
    """No expiry lies behind it."""
    draft.clock = draft.t = draft.lt = draft.expiry = HIGHEST


@fault("clock 0", 0, "plan")
def clock_zero(draft, rng):
    draft.clock = draft.t = draft.lt = 0
    draft.expiry = rng.choice([1, draft.expiry or 1])


@fault("clock one before its end", 0, "plan")
def clock_near_end(draft, rng):
    draft.clock = draft.t = draft.lt = HIGHEST - 1
    draft.expiry = HIGHEST


@fault("record expired, token not", 0, "plan")
def record_expired(draft, rng):
    """The record's own expiry is never read in judging."""
    draft.put(draft.place, draft.own()._replace(expiry=rng.choice([0, draft.clock, max(0, draft.clock - 1)])))


@fault("a second token with this IV, another id and expiry", 0, "plan")
def second_token(draft, rng):
    draft.key, draft.session_id = rng.randbytes(32), b"second token"
    draft.expiry = min(draft.clock + rng.randint(1, 1_000_000), HIGHEST)


# 13: 't minus lt exceeds the idle limit'


def gaps(name, number, ordered, seconds):
    @fault(name, number, "plan")
    def alter(draft, rng):
        draft.order(idle=ordered)
        draft.gap(seconds)


gaps("gap 1800 at the default", 0, 0, 1_800)
gaps("gap 1801 at the default", 13, 0, 1_801)
gaps("gap 1 at limit 1", 0, 1, 1)
gaps("gap 2 at limit 1", 13, 1, 2)
gaps("gap 700 at limit 700", 0, 700, 700)
gaps("gap 701 at limit 700", 13, 700, 701)
gaps("gap 0", 0, 1, 0)


@fault("gap below zero", 0, "plan")
def gap_negative(draft, rng):
    draft.order(idle=1)
    draft.lt = min(HIGHEST, draft.t + rng.choice([1, 10, 1_801, 1 << 31]))


@fault("lt at its end, t near 0", 0, "plan")
def gap_lowest(draft, rng):
    draft.at(60)
    draft.aged(rng.choice([0, 60]))
    draft.order(idle=1, request_life=0)
    draft.lt = HIGHEST


@fault("t at its end, lt 0", 13, "plan")
def gap_highest(draft, rng):
    draft.t, draft.lt = HIGHEST, 0
    draft.order(idle=rng.choice([0, 1, HIGHEST - 1]))


@fault("t at its end, lt 0, idle limit at its end", 0, "plan")
def gap_highest_allowed(draft, rng):
    draft.at(HIGHEST - rng.randint(1, 30))
    draft.t, draft.lt = HIGHEST, 0
    draft.order(idle=HIGHEST)


@fault("gap of 2^31", 13, "plan")
def gap_half(draft, rng):
    draft.order(idle=rng.choice([0, 1 << 31]))
    draft.at((1 << 31) + 1)
    draft.t, draft.lt = draft.clock, 0


@fault("idle and too old", 13, "plan")
def idle_and_old(draft, rng):
    draft.order(idle=0, request_life=0)
    draft.at(max(draft.clock, 10_000))
    draft.aged(61)
    draft.gap(1_801)


@fault("gap wide, measured from now only", 0, "plan")
def gap_from_now(draft, rng):
    """now minus lt is over the limit, t minus lt isn't."""
    draft.order(idle=100, request_life=300)
    draft.at(max(draft.clock, 10_000))
    draft.aged(50)
    draft.gap(100)


# 14: 'now minus t exceeds the request life'


def ages(name, number, ordered, seconds):
    @fault(name, number, "plan")
    def alter(draft, rng):
        draft.order(request_life=ordered)
        draft.aged(seconds)


ages("age 59 at the default", 0, 0, 59)
ages("age 60 at the default", 0, 0, 60)
ages("age 61 at the default", 14, 0, 61)
ages("age 300 at the default", 14, 0, 300)
ages("age 61 at limit 300", 0, 300, 61)
ages("age 300 at limit 300", 0, 300, 300)
ages("age 301 at limit 300", 14, 300, 301)
ages("age 1 at limit 1", 0, 1, 1)
ages("age 2 at limit 1", 14, 1, 2)
ages("age 60 at limit 60", 0, 60, 60)
ages("age 61 at limit 60", 14, 60, 61)
ages("age 0 at limit 1", 0, 1, 0)
ages("age far past", 14, 0, 100_000)


@fault("age of nearly 2^32", 14, "plan")
def oldest(draft, rng):
    draft.order(request_life=rng.choice([0, HIGHEST - 2]))
    draft.clock, draft.t, draft.lt = HIGHEST - 1, 0, 0
    draft.expiry = HIGHEST


@fault("age of nearly 2^32 in the longest life", 0, "plan")
def oldest_allowed(draft, rng):
    draft.order(request_life=HIGHEST - 1)
    draft.clock, draft.t, draft.lt = HIGHEST - 1, 0, 0
    draft.expiry = HIGHEST


# 21: 't is more than 30 seconds ahead of now', whatever the request life


def ahead(name, number, seconds):
    @fault(name, number, "plan")
    def alter(draft, rng):
        draft.order(request_life=rng.choice([0, 1, HIGHEST]))
        draft.ahead(seconds)


ahead("1 second ahead", 0, 1)
ahead("29 seconds ahead", 0, 29)
ahead("30 seconds ahead", 0, 30)
ahead("31 seconds ahead", 21, 31)
ahead("60 seconds ahead", 21, 60)
ahead("61 seconds ahead", 21, 61)
ahead("300 seconds ahead", 21, 300)
ahead("a year ahead", 21, 31_536_000)
ahead("2^31 ahead", 21, 1 << 31)
ahead("2^31 and 31 seconds ahead", 21, (1 << 31) + 31)


def times_at(name, number, clock, t):
    @fault(name, number, "plan")
    def alter(draft, rng):
        draft.at(clock)
        draft.t = draft.lt = t


times_at("clock 0, t 30", 0, 0, 30)
times_at("clock 0, t 31", 21, 0, 31)
times_at("clock 0, t at its end", 21, 0, HIGHEST)
times_at("clock one before its end, t at its end", 0, HIGHEST - 1, HIGHEST)
times_at("t at its end, 30 seconds ahead", 0, HIGHEST - 30, HIGHEST)
times_at("t at its end, 31 seconds ahead", 21, HIGHEST - 31, HIGHEST)

beside("a clock that runs ahead", too_far_ahead, (
    (token_altered, 9, "signed"),
    (token_expired, 10, "plan"),
    (code_altered, 11, "signed"),
    (no_record, 12, "plan"),
    (idle, 13, "plan"),
    (nonce_far_back, 21, "plan"),
    (nonce_seen, 21, "plan"),
))
