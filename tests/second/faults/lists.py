"""The list fields (document 02, K10).

'Where repeated in the chosen block, have their trimmed values joined in order by a comma and a space.' What a client signs
for its lines is spelt out here, so that the model's joining and the client's are both held to it.
"""

import client
import model
from faults.catalogue import fault
from faults.lines import BLOCKS, put
from faults.signature import other_parts, replaced

# Lines of Accept, and the value that they come to.
JOINED = {
    "two": ([b"Accept: a", b"Accept: b"], b"a, b"),
    "two in the other order": ([b"Accept: b", b"Accept: a"], b"b, a"),
    "two with equal values": ([b"Accept: a", b"Accept: a"], b"a, a"),
    "three": ([b"Accept: c", b"Accept: a", b"Accept: b"], b"c, a, b"),
    "forty": ([b"Accept: a"] * 40, b"a" + b", a" * 39),
    "names in any case": ([b"accept: a", b"ACCEPT: b", b"aCCEPt: c"], b"a, b, c"),
    "blanks and tabs around values": ([b"Accept: \t a \t", b"Accept:b\t", b"Accept:\tc "], b"a, b, c"),
    "blanks and tabs inside": ([b"Accept: a \t b", b"Accept: c\td"], b"a \t b, c\td"),
    "an empty one first": ([b"Accept:", b"Accept: a"], b", a"),
    "an empty one in the middle": ([b"Accept: a", b"Accept:", b"Accept: b"], b"a, , b"),
    "an empty one last": ([b"Accept: a", b"Accept:"], b"a, "),
    "all empty": ([b"Accept:", b"Accept:", b"Accept:"], b", , "),
    "all blank": ([b"Accept: ", b"Accept:\t \t"], b", "),
    "lists themselves": ([b"Accept: a, b", b"Accept: c,d", b"Accept: ,"], b"a, b, c,d, ,"),
    "other lines between": ([b"Accept: a", b"Accep: x", b"Accept: b", b"Accept-Ranges: x", b"X-Accept: x", b"Accept: c"], b"a, b, c"),
    "colons and bytes above 127": ([b"Accept::", b"Accept: \xa0\xff"], b":, \xa0\xff"),
}
TWO, OTHER_TWO, ONE = [b"Accept: a", b"Accept: b"], [b"Accept: c", b"Accept: d"], [b"Accept: own"]
EMPTY, TWO_EMPTY = [b"Accept:"], [b"Accept:", b"Accept:"]


def accept(head=(), aside=()):
    """What most of these need: Accept covered, with these lines behind the others."""

    def needs(draft):
        draft.cover(b"Accept")
        draft.head_lines += ended(head)
        draft.aside_lines += ended(aside)

    return needs


def ended(lines):
    return [text + b"\r\n" for text in lines]


def signed_as(name, number, value, head=(), aside=()):
    @fault(f"list field: {name}", number, "parts", needs=accept(head, aside))
    def alter(draft, rng):
        draft.parts = replaced(b"Accept", lambda run: value)(draft.parts)


for lines_name, (accept_lines, accept_value) in JOINED.items():
    signed_as(f"{lines_name}, in the head", 0, accept_value, accept_lines)
    signed_as(f"{lines_name}, in the set-aside lines", 0, accept_value, (), accept_lines)

# Only the chosen block speaks

signed_as("two in each block", 0, b"c, d", TWO, OTHER_TWO)
signed_as("two in the head, hidden by one set aside", 0, b"own", TWO, ONE)
signed_as("two in the head, hidden by an empty one set aside", 0, b"", TWO, EMPTY)
signed_as("two in the head, hidden by two empty ones set aside", 0, b", ", TWO, TWO_EMPTY)
signed_as("two set aside, one in the head", 0, b"a, b", ONE, TWO)
signed_as("signed with the head's where one is set aside", 11, b"a, b", TWO, ONE)
signed_as("signed with the head's where an empty one is set aside", 11, b"a, b", TWO, EMPTY)
signed_as("signed with both blocks' values", 11, b"a, b, c, d", TWO, OTHER_TWO)
signed_as("signed with both blocks' values, set-aside ones first", 11, b"c, d, a, b", TWO, OTHER_TWO)

# 'A value from a single line is handed over as before'

signed_as("a single line that is a list", 0, b"a, , b,", [b"Accept: a, , b, "])
signed_as("a single line of commas", 0, b", ,", [b"Accept: , ,"])
signed_as("a single line, signed with a comma after it", 11, b"a, ", [b"Accept: a"])
signed_as("a single empty line, signed as two", 11, b", ", EMPTY)
signed_as("a single list, signed without its blank", 11, b"a,b", [b"Accept: a, b"])
signed_as("a single list, signed with a blank put in", 11, b"a, b", [b"Accept: a,b"])

# Clients that join otherwise

signed_as("joined by a bare comma", 11, b"a,b", TWO)
signed_as("joined by a blank", 11, b"a b", TWO)
signed_as("joined by a comma and two blanks", 11, b"a,  b", TWO)
signed_as("joined by a comma and a tab", 11, b"a,\tb", TWO)
signed_as("joined by a blank and a comma", 11, b"a ,b", TWO)
signed_as("joined by a semicolon", 11, b"a; b", TWO)
signed_as("joined by nothing", 11, b"ab", TWO)
signed_as("joined by CR LF", 11, b"a\r\nb", TWO)
signed_as("joined in the other order", 11, b"b, a", TWO)
signed_as("the first alone", 11, b"a", TWO)
signed_as("the last alone", 11, b"b", TWO)
signed_as("nothing signed", 11, b"", TWO)
signed_as("a comma after the last", 11, b"a, b, ", TWO)
signed_as("a comma before the first", 11, b", a, b", TWO)
signed_as("equal values once", 11, b"a", [b"Accept: a", b"Accept: a"])
signed_as("untrimmed", 11, b" a ,  b ", [b"Accept: a ", b"Accept: b "])
signed_as("trimmed only at both ends", 11, b"a ,  b", [b"Accept: a ", b"Accept: b "])
signed_as("trimmed once joined", 11, b"a,", [b"Accept: a", b"Accept:"])
signed_as("a first empty one left out", 11, b"a", [b"Accept:", b"Accept: a"])
signed_as("an empty one in the middle left out", 11, b"a, b", [b"Accept: a", b"Accept:", b"Accept: b"])
signed_as("a last empty one left out", 11, b"a", [b"Accept: a", b"Accept:"])
signed_as("two empty ones as one", 11, b"", TWO_EMPTY)

other_parts("a part for each line of a list field", accept(TWO), lambda parts: [
    other for part in parts for other in ([(b"Accept", b"a"), (b"Accept", b"b")] if part[0] == b"Accept" else [part])
])


# Altered on the way. 'Two lines a and b agree then with one line a, b'


def altered(name, number, head=((), ()), aside=((), ())):
    """Lines of Accept in each block: those signed, and those lent."""

    @fault(f"list field, altered on the way: {name}", number, "lent", needs=accept(head[0], aside[0]))
    def alter(draft, rng):
        draft.drop_lines(b"Accept")
        draft.head = b"".join(draft.head_lines + ended(head[1]))
        draft.aside = b"".join(draft.aside_lines + ended(aside[1]))


altered("two lines made one", 0, (TWO, [b"Accept: a, b"]))
altered("one line made two", 0, ([b"Accept: a, b"], TWO))
altered("three lines made two", 0, ([*TWO, b"Accept: c"], [b"Accept: a", b"Accept: b, c"]))
altered("two lists made four lines", 0, ([b"Accept: a, b", b"Accept: c, d"], TWO + OTHER_TWO))
altered("lists cut elsewhere", 0, ([b"Accept: a, b", b"Accept: c"], [b"Accept: a", b"Accept: b, c"]))
altered("case and blanks of the lines", 0, (TWO, [b"ACCEPT:a\t", b"accept:\t b "]))
altered("another line between", 0, (TWO, [b"Accept: a", b"X-Proxy: new", b"Accept: b"]))
altered("moved to the set-aside lines", 0, (TWO, ()), ((), TWO))
altered("moved to the set-aside lines, others in the head", 0, (TWO, OTHER_TWO), ((), TWO))
altered("repeats put into the head where one is set aside", 0, ((), TWO), (ONE, ONE))
altered("two lines exchanged", 11, (TWO, TWO[::-1]))
altered("two lines made one by a bare comma", 11, (TWO, [b"Accept: a,b"]))
altered("a bare comma's line made two", 11, ([b"Accept: a,b"], TWO))
altered("two empty lines made one, whose blank is trimmed", 11, (TWO_EMPTY, [b"Accept: , "]))
altered("the first taken out", 11, (TWO, TWO[1:]))
altered("the last taken out", 11, (TWO, TWO[:1]))
altered("one put in", 11, (TWO, [*TWO, b"Accept: c"]))
altered("an empty one put in", 11, (TWO, [*TWO, b"Accept:"]))
altered("an empty one put in front", 11, (TWO, [b"Accept:", *TWO]))
altered("an empty one taken out", 11, ([*TWO, b"Accept:"], TWO))
altered("one of two moved to the set-aside lines", 11, (TWO, TWO[:1]), ((), TWO[1:]))
altered("one set aside beside two in the head", 11, (TWO, TWO), ((), ONE))
altered("a repeat put into the set-aside lines", 11, aside=(ONE, ONE * 2))


# Other list fields


@fault("list field: any, on any lines", 0, "plan")
def any_list_field(draft, rng):
    name = rng.choice(model.LIST_FIELDS)
    draft.cover(name)
    for block in BLOCKS:
        for _ in range(rng.choice([0, 1, 2, 3, 9])):
            value = rng.choice([b"", b" ", b"a", b" b\t", b"c, d", b",", b"\t;q=0.1 "])
            put(draft, block, client.line(rng.choice([name, name.lower(), name.upper()]), value), rng)


@fault("list field: all of them on three lines, here and there in both blocks", 0, "plan")
def every_list_field(draft, rng):
    for name in model.LIST_FIELDS:
        draft.cover(name)
        draft.head_lines += [client.line(name, b"%d" % place) for place in range(3)]
        draft.aside_lines += [client.line(name, b"own")] * rng.choice([0, 0, 1, 2])
    rng.shuffle(draft.head_lines)


@fault("list field: nobody covers it", 0, "plan")
def list_field_uncovered(draft, rng):
    for name in model.LIST_FIELDS:
        draft.drop_lines(name)
        draft.uncover(name)
        draft.head_lines += [client.line(name, b"a"), client.line(name, b"b")]
        draft.aside_lines += [client.line(name, b"c"), client.line(name, b"d")]


@fault("list field: the orders cover it and the request doesn't", 8, "fields", needs=accept(TWO))
def list_field_not_own(draft, rng):
    draft.set_field(b"ah", client.encoded_mask(draft.orders.mask & ~(2 << model.NAMES.index(b"Accept"))))
