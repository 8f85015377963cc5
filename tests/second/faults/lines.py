"""Refusals 6 and 7 and their edges: 'Head and set-aside lines'. The list fields, which may be repeated, are in lists.py."""

import client
import model
from faults.catalogue import each_32_but, fault, no_extras

BLOCKS = {"head": "head_lines", "set-aside": "aside_lines"}


def put(draft, block, text, rng):
    lines = getattr(draft, BLOCKS[block])
    lines.insert(rng.randint(0, len(lines)), text)


BAD_LINES = {
    "no colon": b"X-A b\r\n",
    "empty name": b": b\r\n",
    "only a colon": b":\r\n",
    "blank before the colon": b"X-A : b\r\n",
    "tab before the colon": b"X-A\t: b\r\n",
    "leading blank": b" X-A: b\r\n",
    "leading tab": b"\tX-A: b\r\n",
    "folded": b"X-A: b\r\n more\r\n",
    "empty line": b"\r\n",
    "request line": b"GET / HTTP/1.1\r\n",
    "request line with a colon": b"GET http://a/ HTTP/1.1\r\n",
    "bare line feed": b"X-A: b\n",
    "bare line feed and a line": b"X-A: b\nX-B: c\r\n",
    "bare carriage return": b"X-A: b\rc\r\n",
    "carriage return twice": b"X-A: b\r\r\n",
    "carriage return after the colon": b"X-A:\r\r\n",
    "line feed and carriage return": b"X-A: b\n\r\r\n",
    "NUL in the value": b"X-A: b\0\r\n",
    "byte 127 in the value": b"X-A: \x7f\r\n",
    "byte 31 in the value": b"X-A: \x1f\r\n",
    "byte 128 in the name": b"X-\x80: b\r\n",
    "byte 255 in the name": b"\xff: b\r\n",
    "NUL in the name": b"X\0: b\r\n",
    "blank in the name": b"X A: b\r\n",
    "slash in the name": b"X/A: b\r\n",
    "bracket in the name": b"X[: b\r\n",
}

for block_name in BLOCKS:
    for line_name, line_text in BAD_LINES.items():

        @fault(f"{block_name}: {line_name}", 6, "plan")
        def add_bad_line(draft, rng, block=block_name, text=line_text):
            put(draft, block, text, rng)

    @fault(f"{block_name}: a control byte in the value", 6, "plan")
    def control_byte(draft, rng, block=block_name):
        put(draft, block, b"X-A: b%cc\r\n" % rng.choice([byte for byte in range(32) if byte != 9]), rng)

    for no_token, no_token_values in each_32_but(model.TOKEN_CHARACTERS + b":"):

        @fault(f"{block_name}: a byte in the name that no token has {no_token}", 6, "plan")
        def no_token_byte(draft, rng, block=block_name, values=no_token_values):
            put(draft, block, b"X%cA: b\r\n" % rng.choice(values), rng)

    @fault(f"{block_name}: a closing empty line", 6, "plan")
    def closing_empty_line(draft, rng, block=block_name):
        getattr(draft, BLOCKS[block]).append(b"\r\n")

    @fault(f"{block_name}: last line without CR LF", 6, "plan")
    def unended(draft, rng, block=block_name):
        getattr(draft, BLOCKS[block]).append(b"X-A: b")

    @fault(f"{block_name}: last line ended by CR alone", 6, "plan")
    def ended_by_cr(draft, rng, block=block_name):
        getattr(draft, BLOCKS[block]).append(b"X-A: b\r")

    @fault(f"{block_name}: last line ended by LF alone", 6, "plan")
    def ended_by_lf(draft, rng, block=block_name):
        getattr(draft, BLOCKS[block]).append(b"X-A: b\n")

    @fault(f"{block_name}: a covered line malformed", 6, "plan")
    def covered_malformed(draft, rng, block=block_name):
        draft.cover(b"Host")
        put(draft, block, rng.choice([b"Host : a\r\n", b"Host\r\n", b"Host: a\x7f\r\n", b" Host: a\r\n"]), rng)


# 7: a covered name that is no list field twice in one of the two

ONCE_ONLY = [name for name in model.NAMES if not model.is_list_field(name)]


def twice(name, number, on_plan):
    @fault(f"twice: {name}", number, "plan")
    def alter(draft, rng):
        on_plan(draft)


def covered_twice(draft, block, first, second, value="other"):
    draft.cover(b"Host")
    lines = getattr(draft, BLOCKS[block])
    lines.insert(0, client.line(first, b"a"))
    lines.append(client.line(second, b"a" if value == "equal" else b"b"))


twice("covered, in the head", 7, lambda d: covered_twice(d, "head", b"Host", b"Host"))
twice("covered, in the set-aside lines", 7, lambda d: covered_twice(d, "set-aside", b"Host", b"Host"))
twice("covered, in other case", 7, lambda d: covered_twice(d, "head", b"Host", b"hOST"))
twice("covered, with equal values", 7, lambda d: covered_twice(d, "head", b"HOST", b"Host", "equal"))


@fault("twice: covered, in the head, hidden by a set-aside line", 7, "plan")
def twice_in_hidden_head(draft, rng):
    covered_twice(draft, "head", b"Host", b"host")
    draft.aside_lines.append(b"Host: own\r\n")


@fault("twice: covered, in the set-aside lines, once in the head", 7, "plan")
def twice_aside_once_head(draft, rng):
    covered_twice(draft, "set-aside", b"Host", b"host", "equal")
    draft.head_lines.append(b"Host: a\r\n")


@fault("twice: any covered name but a list field", 7, "plan")
def any_covered_twice(draft, rng):
    name, block = rng.choice(ONCE_ONLY), rng.choice([*BLOCKS])
    draft.cover(name, head=b"a", aside=b"a")
    put(draft, block, client.line(name.lower(), b""), rng)


@fault("twice: an empty line and another", 7, "plan")
def empty_and_another(draft, rng):
    draft.cover(b"Cookie", head=b"")
    draft.head_lines.append(b"Cookie: a\r\n")


@fault("twice: Host, beside a list field", 7, "plan")
def host_beside_list(draft, rng):
    covered_twice(draft, "head", b"Host", b"Host")
    draft.cover(b"Accept", head=b"a")
    draft.head_lines.append(b"Accept: b\r\n")


@fault("twice: an extra name in the head", 7, "plan")
def extra_twice_head(draft, rng):
    draft.order_extra(b"q,X-Farm")
    draft.give(b"X-Farm", head=b"1")
    draft.head_lines.append(b"x-farm: 1\r\n")


@fault("twice: an extra name in the set-aside lines", 7, "plan")
def extra_twice_aside(draft, rng):
    draft.order_extra(b"X-Farm")
    draft.give(b"X-Farm", head=b"1", aside=b"2")
    draft.aside_lines.append(b"X-FARM: 2\r\n")


@fault("twice: an extra name in the head, hidden by a set-aside line", 7, "plan")
def extra_twice_hidden(draft, rng):
    draft.order_extra(b"X-Farm")
    draft.give(b"X-Farm", head=b"1", aside=b"own")
    draft.head_lines.append(b"x-farm: 1\r\n")


@fault("twice: an extra name much like a list field", 7, "plan")
def extra_like_list(draft, rng):
    name = rng.choice([b"Accept-Parts", b"Accep", b"Accept_Charset", b"Vi", b"TEA", b"T", b"If-Matches", b"Upgrade."])
    draft.order_extra(name)
    draft.give(name, head=b"a", aside=b"a")
    put(draft, rng.choice([*BLOCKS]), client.line(name.upper(), b"b"), rng)


@fault("twice: thrice in the head", 7, "plan")
def thrice(draft, rng):
    covered_twice(draft, "head", b"Host", b"Host")
    draft.head_lines.append(b"HOST:c\r\n")


def host_twice(draft):
    covered_twice(draft, "head", b"Host", b"Host")


def host_twice_uncovered(draft):
    host_twice(draft)
    draft.uncover(b"Host")


@fault("twice: a name the orders cover and the request doesn't", 7, "fields", needs=host_twice)
def twice_ordered_not_own(draft, rng):
    draft.set_field(b"ah", client.encoded_mask(draft.orders.mask & ~2))


@fault("twice: a name the request covers and the orders don't", 8, "fields", needs=host_twice_uncovered)
def twice_own_not_ordered(draft, rng):
    draft.set_field(b"ah", client.encoded_mask(draft.orders.mask | 2))


# Edges


@fault("twice: a name that nobody covers", 0, "plan")
def uncovered_twice(draft, rng):
    draft.uncover(b"Host")
    draft.head_lines += [b"Host: a\r\n", b"Host: b\r\n"]
    draft.aside_lines += [b"X-Other: a\r\n", b"X-Other: b\r\n"]


@fault("twice: X-S-Armor lines", 0, "plan")
def armor_lines(draft, rng):
    draft.head_lines += [b"X-S-Armor: r:AQQ=\r\n", b"x-s-armor: c:AAAA\r\n"]


@fault("once in each block", 0, "plan")
def once_in_each(draft, rng):
    draft.cover(b"Host", head=b"proxy", aside=b"own")


@fault("an empty set-aside line hides the head's", 0, "plan")
def empty_aside_hides(draft, rng):
    draft.cover(b"Host", head=b"proxy", aside=rng.choice([b"", b" ", b"\t \t"]))


@fault("a set-aside line where the head has none", 0, "plan")
def only_aside(draft, rng):
    draft.cover(b"Cookie", aside=b"a=b; c=d")


@fault("an extra name in each block, in other case", 0, "plan")
def extra_in_each(draft, rng):
    draft.order_extra(b"X-Farm,q")
    draft.give(b"x-FARM", head=b"proxy", aside=b"own")


@fault("no lines at all", 0, "plan")
def no_lines(draft, rng):
    draft.head_lines, draft.aside_lines = [], []


@fault("every covered header absent", 0, "plan", needs=no_extras)
def all_absent(draft, rng):
    draft.order(mask=(1 << 56) - 1)
    draft.head_lines, draft.aside_lines = [b"X-Other:\r\n"], []


@fault("every listed header present", 0, "plan")
def all_present(draft, rng):
    draft.order(mask=(1 << 56) - 1)
    draft.head_lines = [client.line(name, b" v%d " % place) for place, name in enumerate(model.NAMES)]
    draft.aside_lines = [client.line(name, b"own") for name in rng.sample(model.NAMES, 9)]
    rng.shuffle(draft.head_lines)


def odd_value(name, value):
    @fault(f"covered value: {name}", 0, "plan")
    def alter(draft, rng):
        draft.cover(b"Referer", **{rng.choice(["head", "aside"]): value})


odd_value("empty", b"")
odd_value("only blanks and tabs", b" \t \t")
odd_value("blanks and tabs at both ends", b" \t a \t ")
odd_value("blanks and tabs inside", b"a \t b")
odd_value("colons", b"::a:b:")
odd_value("a netstring", b"1:a,")
odd_value("bytes 128 to 255", bytes(range(128, 256)))
odd_value("bytes 32 to 126 and tab", b"x\t" + bytes(range(32, 127)))
odd_value("ends in byte 160", b"a\xa0")
odd_value("long", b"v" * 1_200)


@fault("names with every token character", 0, "plan")
def every_token_character(draft, rng):
    draft.head_lines.append(model.TOKEN_CHARACTERS + b":\r\n")


@fault("a name that only begins like a covered one", 0, "plan")
def begins_like_covered(draft, rng):
    draft.cover(b"If", head=b"a")
    draft.head_lines += [b"I: b\r\n", b"Iff: c\r\n"]


@fault("path and body of any bytes", 0, "plan")
def any_path(draft, rng):
    draft.path = b"\r\n\0\x7f\xff " + rng.randbytes(20)
    draft.body = b"\r\n\0" + rng.randbytes(40)
