"""docs/RULES.md held to the second program: its sizes, fields, numbers and names, its example worked byte by byte, and its edges.

What the page says at an edge is a call here, which the C host plays on the library too (sentences/edges.py).
"""

import base64
import pathlib
import re

import agreement
import calls
import client
import hashing
import model
import record as rec
from sentences.edges import DEALER, EDGES, OTHER, OWN, SCANNER, example_lines, talked_down
from sentences.placing import CLOCK, at, replaced, request_call

ROOT = pathlib.Path(__file__).resolve().parents[2]

# Sizes: what is lent, the least and the most of it.
SIZES = (
    ("server key, session key", model.KEY, model.KEY),
    ("IV", model.IV, model.IV),
    ("session id", 1, model.MOST_SESSION_ID),
    ("X-S-Armor value", 0, model.MOST_VALUE),
    ("setup reply, to try a client by", 0, model.MOST_SETUP_REPLY),
    ("method", 1, model.MOST_METHOD),
    ("head, set-aside lines, each", 0, model.MOST_LINES),
    ("path", 1, model.MOST_PATH),
    ("body", 0, model.MOST_BODY),
    (f"table, in records of {rec.SIZE} bytes", 1, model.MOST_RECORDS),
    ("index, for each record of the table", rec.ENTRY, rec.ENTRY),
    ("reply buffer", model.LEAST_REPLY, None),
)

# Fields: key, how many bytes it holds as the page says it, and whether it may hold so many.
FIELDS = (
    ("s", "1 to 118", range(1, 119)),
    ("c", "32 or 64", (32, 64)),
    ("iv", "12", (12,)),
    ("tag", "16", (16,)),
    ("t", "1 to 4", range(1, 5)),
    ("lt", "1 to 4", range(1, 5)),
    ("n", "1 to 4", range(1, 5)),
    ("h", "2 to 9", range(2, 10)),
    ("ah", "2 to 9", range(2, 10)),
    ("r", "2 to 9", range(2, 10)),
    ("eah", "at least 1", range(1, 1_000)),
)

LIMITS = (
    ("request life", model.DEFAULT_REQUEST_LIFE),
    ("idle", model.DEFAULT_IDLE),
    ("session life", model.DEFAULT_SESSION_LIFE),
)

# As check-client's own help has them
STATUSES = "Exit status: 0 for fit, 1 for a rule broken, 2 for files that cannot be read or are no request."


# The page


def rows(text, heading):
    """The rows of the table under a heading, as lists of cells."""
    part = text.split(f"\n## {heading}\n", 1)[1].split("\n## ", 1)[0]
    return [[cell.strip() for cell in line.strip("|").split("|")] for line in part.split("\n") if line.startswith("| ")][1:]


def span(least, most):
    if most is None:
        return f"at least {least:,}"
    return f"{least:,}" if least == most else f"{least:,} to {most:,}"


def header_numbers():
    """The numbers that include/gate.h names."""
    text = (ROOT / "include/gate.h").read_text()
    return {int(number): name for name, number in re.findall(r"^\s+(GATE_[A-Z0-9_]+) = (\d+)[,\s]", text, re.M)}


def held_by(key, size):
    """Whether a value with this field of this size keeps its grammar."""
    contents = bytes([size - 1] + [1] * (size - 1)) if key in ("h", "ah", "r") and size else b"\1" * size
    return model.fields_of(client.piece(key.encode(), contents)) is not None


def hash_row(name, known):
    """Its mask, h, and the sizes of a code and of an invalidation."""
    h = base64.b64encode(client.encoded_mask(known)).decode()
    return [name, str(known), f"`{h}`", str(hashing.size(known)), str(len(model.invalidation(known, bytes(model.KEY))))]


def longest_reply():
    orders = model.Orders((1 << model.HIGHEST_BIT + 1) - 1, hashing.BOTH, bytes(model.MOST_EXTRA), request_life=0, idle=0, session_life=0)
    token = model.Token(bytes(model.KEY), bytes(model.MOST_SESSION_ID), model.HIGHEST)
    return max(len(model.setup_reply(orders, known, bytes(model.KEY), bytes(model.IV), token)) for known in hashing.FUNCTIONS)


def in_any_order():
    """Whether 64 nonces in a row are accepted though the last comes first."""
    table = request_call().table
    for n in reversed(range(64)):
        answer = outcome(request_call(n=n)._replace(table=table))
        if answer.number:
            return False
        table = answer.table
    return True


def at_edge(asked):
    return next(number for edge, _, number in EDGES if edge == asked)


def left_at(asked):
    return outcome(next(call for edge, call, _ in EDGES if edge == asked))


def directly_after_12():
    """Whether 12 comes before a hash other than the session's, and 13 after it."""
    gone = talked_down(at("lent", lambda draft: draft.put(draft.place, rec.FREE)))
    idle = talked_down(replaced("plan", "lt", CLOCK - model.DEFAULT_IDLE - 1))
    return [outcome(call).number for call in (gone, idle)] == [12, 8]


def outcome(call):
    return calls.answered(call, bytes(model.LEAST_REPLY))


def sent_again(request):
    return outcome(request._replace(table=outcome(request).table)).number


def phrases():
    """What the page says outside its tables with numbers in it, or of several lines, and whether it is so."""
    setup, request = calls.named(DEALER.setup), DEALER.request
    mask, clock, told = setup["mask"], setup["clock"], dict(DEALER.fields)
    defaults = model.Orders(0, hashing.BOTH, b"", 0, 0, 0)
    freeing = [left_at(edge) for edge in ("at the token's expiry", "`t` 1,801 seconds after `lt`")]
    yield f"one record of {rec.SIZE} bytes", True
    yield "bit 0", mask & 1 and b"n" in told
    yield "Bit 0", True
    yield "where 0 stands for the default", model.request_life(defaults) == model.DEFAULT_REQUEST_LIFE
    yield "more than 30 days", model.LONGEST_SESSION_LIFE == 30 * 86_400
    yield "only the masks 1, 4 and 5 make good orders", [hashes for hashes in range(1 << 16) if not model.hashes_bad(hashes)] == [1, 4, 5]
    yield f"Bits 1 to {len(model.NAMES)}", model.HIGHEST_BIT == len(model.NAMES)
    yield f"none of the {len(model.NAMES)}", True
    yield f"at most {model.MOST_EXTRA_NAMES}, at most {model.MOST_EXTRA} bytes together", True
    yield f"at most {model.MOST_SETUP_REPLY} bytes", longest_reply() == model.MOST_SETUP_REPLY
    yield "Twelve of the names that have a bit are list fields", len(model.LIST_FIELDS) == 12 and set(model.LIST_FIELDS) <= set(model.NAMES)
    yield "the lines `a`, an empty one and `b` come to `a, , b`", at_edge("Accept on three lines, `a`, an empty one and `b`, signed as `a, , b`") == 0
    yield "Two lines `a` and `b` are signed as the one line `a, b` is", at_edge("two lines of Accept, `a` and `b`, that were made one on the way, `a, b`") == 0
    yield "made `a,b`, they are another value", at_edge("two lines of Accept, `a` and `b`, that were made one on the way, `a,b`") == 11
    yield "`a` and an empty line come to `a, ` with its space", at_edge("Accept on two lines, `a` and an empty one, signed as `a, `") == 0
    yield f"from 0 to {model.HIGHEST:,}", True
    yield "14; at the default 60 passes and 61 does not", at_edge("a request made 60 seconds ago") == 0 and at_edge("a request made 61 seconds ago") == 14
    yield f"exceeds {model.MOST_AHEAD} seconds", True
    yield "21; 30 passes and 31 does not", at_edge("a request from a clock that runs 30 seconds ahead") == 0 and at_edge("a request from a clock that runs 31 seconds ahead") == 21
    yield f"from {model.MOST_AHEAD} seconds before its", True
    yield "the 63 below it", at_edge("nonce 37, new, after 100") == 0
    yield "less than 64 below", at_edge("nonce 36, new, after 100") == 15
    yield "at most 64 requests at a time never meets 15 or 16", in_any_order()
    yield "of a session's first nonces 1 and 65 both are accepted if 1 comes first", at_edge("nonce 65 after 1") == 0
    yield "after 65 the nonce 1 has fallen out", at_edge("nonce 1, new, after 65") == 15
    yield "At 0 the reply", True
    yield "At 10 and 13", True
    yield "At 10 the record is freed whatever hash it holds", outcome(talked_down(replaced("plan", "expiry", CLOCK))).table == bytes(rec.SIZE)
    yield "directly after 12", directly_after_12()
    yield "`00 02 00 00 FF FF FF FF`", rec.fitting_index([OTHER, rec.FREE, OWN, rec.FREE]).hex(" ") == "00 02 00 00 ff ff ff ff"
    yield "10 and 13 leave the index that fits", [left.index for left in freeing] == [rec.index_for(left.table) for left in freeing]
    yield "where the answer was 10 or 13", all(left.table == bytes(rec.SIZE) for left in freeing)
    yield f"a session key of {model.KEY} bytes", True
    yield "At 0 the request fits", outcome(DEALER.trial).number == 0
    yield "past 11 and past 8 against the session's record", not {8, 11} & {*agreement.CARRIED_PAST}
    yield "but for 8 where", at_edge("the same, wrongly signed, tried") == 8 and at_edge("the same, wrongly signed") == 11
    yield "may still get 10, 12, 13, 14, 15, 16 or 21", {10, 12, *agreement.CARRIED_PAST} == {0, 10, 12, 13, 14, 15, 16, 21}
    yield "0 for fit, 1 for a rule broken, 2 for files that cannot be read or are no request", STATUSES in (ROOT / "tools/check-client/main.c").read_text()
    yield "for 1, 2, 3, 22, 4 to 12, then for 8 against the session's record, then for 13, 14, 21, 15 and 16", "1, 2, 3, 22, 4 to 12, 8 against the record, 13, 14, 21, 15, 16" in model.judge.__doc__
    yield "for 1, 2, 3, 22, 4, 5, 19, 20, 17 and 18 in this order", "Checks 1, 2, 3, 22, 4, 5, 19, 20, 17, 18" in model.setup.__doc__
    yield "an ending for 1, 3, 22 and 12", "1, 3, 22, 12" in model.end.__doc__
    yield "the making of an index for 1 and 3", "Checks 1, 3;" in model.make_index.__doc__
    yield "tried for 1, 23, 4 to 8 and 11", "Checks 1, 23, 4 to 8, 11, in this order" in model.fits.__doc__
    yield "the bytes 00 to 1f", setup["server_key"] == bytes(range(0x20))
    yield "the session key 20 to 3f", setup["session_key"] == bytes(range(0x20, 0x40))
    yield "the IV 40 to 4b", setup["iv"] == bytes(range(0x40, 0x4C))
    yield f"the mask {mask}, bytes {client.encoded_number(mask).hex(' ')}", mask == 1 | 2 | 256
    yield f"Now is {clock}", True
    yield "nonce 7", told[b"n"] == b"\7"
    yield f"is {int.from_bytes(told[b't'], 'big')}", int.from_bytes(told[b"lt"], "big") == clock
    yield "The gate answers 0", True
    yield "gets 16", sent_again(request) == 16


STANDARDS = r"RFC \d+|section \d+|AES-256-GCM|SHA-256|SHA-512|[Bb]ase64|HTTP2-Settings"


def unchecked(text, told):
    """The numbers of the page's prose that no phrase has; refusals in parentheses are those of the table."""
    prose = "\n".join(line for line in text.split("\n") if not line.startswith(("|", "    ")))
    prose = re.sub(r"`[^`]*`", " ", prose)
    for phrase in sorted(told, key=len, reverse=True):
        prose = prose.replace(phrase, " ")
    prose = re.sub(STANDARDS, " ", prose)
    prose = re.sub(r"\(\d+\)", " ", prose)
    return re.findall(r"\S*\d\S*", prose)


def claims(text):
    """Each thing that the page says, and whether it is so."""
    yield "sizes", rows(text, "Sizes") == [[name, span(least, most)] for name, least, most in SIZES]
    yield "limits", rows(text, "Orders") == [[name, f"{seconds:,}"] for name, seconds in LIMITS]
    yield "hashes", rows(text, "Hashes") == [hash_row(name, known) for name, known in (("SHA-256", hashing.SHA_256), ("SHA-512", hashing.SHA_512))]
    yield "fields", [row[0::2] for row in rows(text, "The value")] == [[f"`{key}`", told] for key, told, _ in FIELDS]
    for key, _, sizes in FIELDS:
        yield f"{key} of its sizes", all(held_by(key, size) == (size in sizes) for size in range(200))
    named = header_numbers()
    yield "numbers", [row[:2] for row in rows(text, "Numbers")] == [[str(number), f"`{named[number]}`"] for number in range(24)]
    yield "names", ", ".join(name.decode() for name in model.NAMES) in re.sub(r"\s+", " ", text)
    yield "list fields", ": " + ", ".join(name.decode() for name in model.LIST_FIELDS) + ".\n" in text
    told = dict(phrases())
    for phrase, good in told.items():
        yield phrase, bool(good) and phrase in text
    yield f"numbers that nothing checks: {unchecked(text, told)}", not unchecked(text, told)
    for line in example_lines():
        yield f"example: {line[:40]}", line in text.split("\n")
    for call in (DEALER.setup, DEALER.request, DEALER.trial, SCANNER.setup, SCANNER.request, SCANNER.trial):
        yield f"example: {call.kind}", outcome(call).number == 0
    yield "edges", rows(text, "Edges") == [[asked, str(number)] for asked, _, number in EDGES]
    for asked, call, number in EDGES:
        yield asked, outcome(call).number == number


def run(out):
    """Check all; true if nothing on the page is otherwise."""
    text = (ROOT / "docs/RULES.md").read_text()
    answers = list(claims(text))
    for name, good in answers:
        if not good:
            print(f"failed: docs/RULES.md, {name}", file=out)
    failed = sum(not good for _, good in answers)
    print(f"{len(answers) - failed} passed, {failed} failed", file=out)
    return failed == 0
