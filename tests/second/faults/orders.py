"""Refusal 2 and its edges: orders. The request follows them, however bad, so that a lax gate would accept it."""

import hashing
import model
from faults.catalogue import ORDERED, REQUEST, VALUED, each_32_but, fault

LONGEST_NAME = b"X-" + b"n" * 126

GOOD_EXTRAS = {
    "none": b"",
    "one of one byte": b"q",
    "one of 128 bytes": LONGEST_NAME,
    "eight": b"a,b,c,d,e,f,g,j",
    "eight, 128 bytes": b",".join(bytes([letter]) * 15 for letter in b"abcdefg") + b"," + b"h" * 16,
    "every token character": model.TOKEN_CHARACTERS,
    "a listed name and more": b"Hostess,Hos,X-S-Armory,X-S-Armo",
}

BAD_EXTRAS = {
    "nine": b"a,b,c,d,e,f,g,j,k",
    "one of 129 bytes": LONGEST_NAME + b"n",
    "eight, 129 bytes": b",".join(bytes([letter]) * 15 for letter in b"abcdefg") + b"," + b"h" * 17,
    "far over 128 bytes": b"a" * 384,
    "one of 256 bytes": b"a" * 256,
    "a lone comma": b",",
    "a leading comma": b",a",
    "a closing comma": b"a,",
    "a double comma": b"a,,b",
    "a blank after the comma": b"a, b",
    "a blank name": b" ",
    "twice": b"X-Farm,b,X-Farm",
    "twice in other case": b"X-Farm,b,x-fARM",
    "twice, first and last of eight": b"a,b,c,d,e,f,g,A",
    "X-S-Armor": b"X-S-Armor",
    "x-s-armor in other case": b"a,x-S-aRMOR",
}

for good_extras, good_run in GOOD_EXTRAS.items():

    @fault(f"extra names: {good_extras}", 0, "plan", VALUED)
    def order_good_extras(draft, rng, run=good_run):
        draft.order(extra=run)


for bad_extras, bad_run in BAD_EXTRAS.items():

    @fault(f"extra names: {bad_extras}", 2, "plan", ORDERED)
    def order_bad_extras(draft, rng, run=bad_run):
        draft.order(extra=run)


for no_token, no_token_values in each_32_but(model.TOKEN_CHARACTERS + b","):

    @fault(f"extra names: a byte that no token has {no_token}", 2, "plan", ORDERED)
    def extra_bad_byte(draft, rng, values=no_token_values):
        draft.order(extra=b"a,X-%cb" % rng.choice(values))


@fault("extra names: a listed name, covered", 2, "plan", ORDERED)
def extra_listed_covered(draft, rng):
    place = rng.randrange(len(model.NAMES))
    draft.order(extra=model.NAMES[place], mask=draft.orders.mask | 2 << place)


@fault("extra names: a listed name, not covered", 2, "plan", ORDERED)
def extra_listed_uncovered(draft, rng):
    place = rng.randrange(len(model.NAMES))
    draft.order(extra=b"q," + model.NAMES[place], mask=draft.orders.mask & ~(2 << place))


@fault("extra names: a listed name in other case", 2, "plan", ORDERED)
def extra_listed_other_case(draft, rng):
    draft.order(extra=rng.choice(model.NAMES).swapcase())


@fault("extra names: 65,541 bytes", 2, "lent", ORDERED, long=True)
def extra_past_16_bits(draft, rng):
    draft.order(extra=b"a" * 65_541)


def two_extras(name, extra):
    """Names that a careless comparison would take for one, each with a line of its own."""

    @fault(f"extra names: {name}", 0, "plan", REQUEST)
    def alter(draft, rng):
        draft.order(extra=extra)
        for place, listed in enumerate(extra.split(b",")):
            draft.give(listed, head=b"v%d" % place)


two_extras("one the beginning of another", b"Q,QQ,Q-")
two_extras("alike but for ^ and ~", b"x^,x~")
two_extras("in both cases of other letters", b"xA,xb,Xc")


@fault("mask with a bit above 55", 2, "plan", ORDERED)
def mask_higher_bit(draft, rng):
    draft.order(mask=draft.orders.mask | 1 << rng.randint(56, 63))


@fault("mask with bit 56", 2, "plan", ORDERED)
def mask_bit_56(draft, rng):
    draft.order(mask=draft.orders.mask | 1 << 56)


@fault("mask with bit 55", 0, "plan", VALUED)
def mask_bit_55(draft, rng):
    draft.order(mask=draft.orders.mask | 1 << 55)


@fault("mask of all 56 bits", 0, "plan", VALUED)
def mask_full(draft, rng):
    draft.order(mask=(1 << 56) - 1)


@fault("mask 0", 0, "plan", VALUED)
def mask_zero(draft, rng):
    draft.order(mask=0)


@fault("mask of one bit", 0, "plan", VALUED)
def mask_single_bit(draft, rng):
    draft.order(mask=1 << rng.randint(0, 55))


for bad_hashes in (0, 2, 3, 6, 7, 8, 9, 12, 13, 255, 256, 260, 1 << 32, 1 << 32 | 5, 1 << 63, 1 << 63 | 4, (1 << 64) - 1):

    @fault(f"hashes {bad_hashes}", 2, "plan", ORDERED)
    def hashes_bad(draft, rng, hashes=bad_hashes):
        draft.order(hashes=hashes)


for good_hashes in (hashing.SHA_256, hashing.SHA_512, hashing.BOTH):

    @fault(f"hashes {good_hashes}", 0, "plan", VALUED)
    def hashes_good(draft, rng, hashes=good_hashes):
        draft.order(hashes=hashes)
        draft.hashed(hashing.longest(hashes))


@fault("longest setup reply, 459 bytes", 0, "plan", ("setup",))
def longest_reply(draft, rng):
    draft.order(mask=(1 << 56) - 1, extra=LONGEST_NAME, session_life=2_592_000)
    draft.session_id = rng.randbytes(64)
    draft.clock = rng.randint(1_000_000_000, 4_000_000_000)


@fault("session life of 2,592,001", 2, "plan", ORDERED)
def life_too_long(draft, rng):
    draft.order(session_life=2_592_001)


@fault("session life of 4,294,967,295", 2, "plan", ORDERED)
def life_longest_number(draft, rng):
    draft.order(session_life=model.HIGHEST)


@fault("session life of 2,592,000 in a request", 0, "plan", REQUEST)
def life_longest(draft, rng):
    draft.order(session_life=2_592_000)


@fault("request life and idle limit of 4,294,967,295", 0, "plan", VALUED)
def widest_limits(draft, rng):
    draft.order(request_life=model.HIGHEST, idle=model.HIGHEST)
