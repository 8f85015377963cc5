"""Clients with one mistake each: every fault of the second program's catalogue that a trial can have, as files for check-client.

    python3 tests/clients/trials.py SEED PROGRAM..

The number is the model's, and the sentence after it is not the bare text of the number. Some faults cannot be written as a request
on the wire: a client has no set-aside lines, a method ends at the first space and a path at the end of its line, and the head's
lines end with CR LF and at the first empty one. UNWRITTEN names them, and no fault is left out that it does not name.
"""

import base64
import random
import re
import sys

from program import Files, Program, gate_texts

import client
import drafts
import hashing
import model
import record as rec
from faults import CATALOGUE
from faults.catalogue import Fault, nothing

CLOCK = 1_505_773_123
NUMBERS = {0, 1, 23, 4, 5, 6, 7, 8, 11}
GOOD = 20  # requests without a fault
DRAWS = 20  # until one can be written: some faults choose between head and set-aside lines by chance

UNWRITTEN = re.compile(
    r".*set[- ]aside.*|list field: two in each block|altered on the way: an uncovered line"  # set-aside lines
    r"|head: (empty line|a closing empty line|last line .*)|head of 16,385 bytes of garbage"
    r"|method: (a blank after it|the request line)|trial: a method with a space.*|path and body of any bytes"
)


def good_draft(rng):
    known = rng.choice([hashing.SHA_256, hashing.SHA_512])
    iv = rng.randbytes(12)
    orders = client.make_orders(rng, 0)._replace(hashes=hashing.BOTH)
    names = rng.sample(model.covered_names(orders), rng.randint(0, len(model.covered_names(orders))))
    lines = [client.line(name, rng.choice([b"a", b" shop.example ", b"", b"\xe9"])) for name in names]
    return drafts.Request(
        kind="fits",
        table=rec.to_bytes(rec.fresh(iv, CLOCK + 1_000, known)),
        iv=iv,
        place=0,
        orders=orders,
        clock=CLOCK,
        server_key=rng.randbytes(32),
        key=rng.randbytes(32),
        session_id=b"brandt-1",
        expiry=CLOCK + 1_000,
        hash=known,
        chosen=known,
        t=CLOCK - 1,
        lt=CLOCK - 60,
        n=rng.randrange(1 << 32),
        method=rng.choice(client.METHODS),
        head_lines=lines,
        path=rng.choice([b"/", b"/a b", b"/parts/belt?n=11"]),
        body=rng.randbytes(rng.choice([0, 9, 300])),
    )


def wire(method, head, path, body):
    return method + b" " + path + b" HTTP/1.1\r\n" + head + b"\r\n" + body


def read_back(text):
    """The parts of a request as the program's help says them."""
    first, _, rest = text.partition(b"\r\n")
    method, _, target = first.partition(b" ")
    head, _, body = (b"\r\n" + rest).partition(b"\r\n\r\n")
    return method, (head + b"\r\n")[2:], target.rpartition(b" ")[0], body


def written(call):
    """The files of a call, or None where the request cannot be written."""
    reply, value, method, head, aside, path, body = call.arguments
    text = wire(method, head, path, body)
    if aside or read_back(text) != (method, head, path, body):
        return None
    return Files(reply + b"\r\n", value + b"\r\n", text)


def without_aside(draft, rng):
    draft.aside_lines = []


NO_ASIDE = Fault("no set-aside lines", 0, "plan", ("fits",), nothing, without_aside, False, False)


def drawn(fault, rng):
    """A call with this fault and its files; without the set-aside lines where the fault needs them and shows nevertheless."""
    for others in [[]] * DRAWS + [[NO_ASIDE]] * DRAWS:
        call = drafts.build(good_draft(rng), [fault, *others] if fault else others, rng)
        files = written(call)
        if files is not None and (not others or model.fits(*call.arguments) == fault.number):
            return call, files
    return None


def wrong(said, number, texts, call):
    """What is wrong about an answer, or None."""
    if said.number != number or said.status != (number != 0) or said.err:
        return f"{number} expected"
    if number != 0 and said.first == f"{number} {texts[number]}":
        return "no sentence of its own"
    wanted = [*signed_lines(call)] if number == 11 else []
    return None if said.out.split("\n")[1:-1] == wanted else f"{wanted} expected after it"


# At 11: the signed text, part by part


def shown(run):
    return "".join(chr(byte) if 32 <= byte <= 126 and byte != 92 else f"\\x{byte:02x}" for byte in run)


def remark(count):
    """What is said of a covered name with so many lines."""
    return {0: " (not in the head, an empty part)", 1: ""}.get(count, f" ({count} lines, joined)")


def signed_lines(call):
    """The lines after the first: by the second program's client, not by its model."""
    reply, value, method, head, _, path, body = call.arguments
    told, carried = client.parse_reply(reply), client.parse_reply(value.removesuffix(b";"))
    lines = [text + b"\r\n" for text in head.split(b"\r\n") if text]
    parts = client.signed_parts(method, [*carried.items()], lines, [], path, body)
    for place, (name, run) in enumerate(parts):
        said = " (not carried, an empty part)" if name == b"eah" and not run else ""
        if place >= 6 + (b"n" in carried) and name not in (b"path", b"body"):
            said = remark([client.line_name(text) for text in lines].count(name.lower()))
        yield f"  {shown(name)}{said}  {len(run)}:{shown(run)},"
    text = client.joined(parts)
    code = hashing.code(client.decoded_mask(told[b"h"]), told[b"kh"], text)
    yield f"The signed text has {len(text)} bytes."
    yield f"c should be  {base64.b64encode(code).decode()}"
    yield f"c was sent   {base64.b64encode(carried[b'c']).decode()}"


def run(seed, program, out):
    rng, texts, results, met = random.Random(seed), gate_texts(), [], set()
    for fault in [None] * GOOD + [fault for fault in CATALOGUE if "fits" in fault.on]:
        name = fault.name if fault else "a good request"
        made = drawn(fault, rng)
        if made is not None:
            call, files = made
            number = model.fits(*call.arguments)
            said = program.tries(files)
            results.append(wrong(said, number, texts, call))
            met.add(number)
        elif not UNWRITTEN.fullmatch(name):
            said = None
            results.append("cannot be written")
        else:
            continue
        if results[-1]:
            print(f"{name}: {results[-1]}: {said}", file=out)
    results.append(None if met == NUMBERS else "numbers")
    print(f"seed {seed}: the numbers {sorted(met)} came up", file=out)
    return results


if __name__ == "__main__":
    results = run(int(sys.argv[1]), Program(sys.argv[2:]), sys.stdout)
    print(f"{results.count(None)} passed, {len(results) - results.count(None)} failed")
    sys.exit(results.count(None) != len(results))
