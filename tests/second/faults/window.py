"""Refusals 15 and 16 and their edges: 'Age, idleness and the window'."""

import model
from faults.catalogue import fault, no_nonces, nonces

HIGHEST = model.HIGHEST
ALL = (1 << 64) - 1
START = 1_000_000


def below(distance, number, is_set):
    state = "set" if is_set else "clear"

    @fault(f"nonce {distance} below, bit {state}", number, "plan", needs=nonces)
    def alter(draft, rng):
        bits = rng.getrandbits(64) | 1
        bits = bits | 1 << distance if is_set else bits & ~(1 << distance)
        highest = rng.choice([START, distance, HIGHEST])
        draft.window(highest, bits)
        draft.n = highest - distance


for inside in (1, 2, 30, 31, 32, 33, 61, 62, 63):
    below(inside, 0, False)
    below(inside, 16, True)
below(0, 16, True)


def outside(distance):
    @fault(f"nonce {distance} below", 15, "plan", needs=nonces)
    def alter(draft, rng):
        highest = rng.choice([distance, max(distance, START), HIGHEST])
        draft.window(highest, rng.choice([0, ALL, rng.getrandbits(64)]))
        draft.n = highest - distance


for far in (64, 65, 66, 95, 96, 127, 128, 192, 256, 1 << 16, 1 << 31, HIGHEST):
    outside(far)


def above(distance):
    @fault(f"nonce {distance} above", 0, "plan", needs=nonces)
    def alter(draft, rng):
        highest = rng.choice([0, min(START, HIGHEST - distance), HIGHEST - distance])
        draft.window(highest, rng.choice([0, ALL, rng.getrandbits(64)]))
        draft.n = highest + distance


for ahead in (1, 2, 31, 32, 33, 62, 63, 64, 65, 66, 96, 127, 128, 129, 256, 1 << 31, HIGHEST):
    above(ahead)


def first(nonce):
    @fault(f"first nonce {nonce}", 0, "plan", needs=nonces)
    def alter(draft, rng):
        draft.no_window()
        draft.n = nonce


for opening in (0, 1, 63, 64, 65, 1 << 31, HIGHEST):
    first(opening)


def met(name, number, highest, bits, nonce):
    """The cases of 01 and their like."""

    @fault(name, number, "plan", needs=nonces)
    def alter(draft, rng):
        draft.window(highest, bits)
        draft.n = nonce


met("highest 100, nonce 37, bit clear", 0, 100, ALL & ~(1 << 63), 37)
met("highest 100, nonce 36", 15, 100, 1, 36)
met("highest 100, nonce 100", 16, 100, 1, 100)
met("highest 100, nonce 164", 0, 100, ALL, 164)
met("highest 100, nonce 163", 0, 100, ALL, 163)
met("highest 0, nonce 0", 16, 0, 1, 0)
met("highest 63, nonce 0, bit clear", 0, 63, 1, 0)
met("highest 64, nonce 0", 15, 64, ALL, 0)
met("highest and nonce at the end", 16, HIGHEST, 1, HIGHEST)
met("highest at the end, nonce 0", 15, HIGHEST, ALL, 0)
met("bits all set, next nonce", 0, 500, ALL, 501)


@fault("no nonces ordered: a window stays as it is", 0, "plan", needs=no_nonces)
def window_untouched(draft, rng):
    draft.window(rng.choice([0, 7, START, HIGHEST]), rng.getrandbits(64))


@fault("no nonces ordered: no window begins", 0, "plan", needs=no_nonces)
def window_not_begun(draft, rng):
    draft.no_window()


@fault("nonce as high as the clock", 0, "plan", needs=nonces)
def nonce_like_time(draft, rng):
    """A nonce is never compared with a time."""
    draft.window(5, 1)
    draft.n = rng.choice([draft.clock, draft.t, draft.expiry]) or 6
    draft.n = max(draft.n, 6)
