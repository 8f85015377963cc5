"""Cases drawn from the calls of one history of the generator."""

import io
from itertools import islice

import calls
import encoding
import hashing
import histories
import model
from faults.catalogue import ORDERED
from sentences import placing

SEED = 20_260_101
CALLS = 1_800
MOST_BYTES = 600  # of a case
MOST_CODES = 120


class Recorder(calls.Writer):
    """Keeps the setups and requests that are no 1."""

    def __init__(self):
        super().__init__(io.StringIO(), io.StringIO(), io.StringIO())
        self.asked = []

    def write(self, call, name):
        outcome = super().write(call, name)
        if outcome.number != 1 and call.kind in ORDERED:
            self.asked.append(call)
        return outcome


def history():
    recorder = Recorder()
    histories.History(SEED, recorder).generate(CALLS)
    return recorder.asked


def arguments(asked, *names):
    for call in asked:
        given = calls.named(call)
        if all(name in given for name in names):
            yield tuple(given[name] for name in names)


def is_short(case):
    return sum(len(word) for word in case if isinstance(word, bytes)) <= MOST_BYTES


def number(place, case):
    """What the first call of the case answers."""
    _, call, _ = next(place(*case))
    count, byte = call.reply
    return calls.answered(call, bytes([byte]) * count).number


def some(place, cases, most):
    """Of the cases, different short ones, at most so many of each number."""
    counts, seen = dict.fromkeys(most, 0), set()
    for case in cases:
        if counts == most:
            return
        if not is_short(case) or case in seen:
            continue
        answer = number(place, case)
        if counts.get(answer, 0) < most.get(answer, 0):
            counts[answer] += 1
            seen.add(case)
            yield place, *case


def signed(asked):
    """The codes of requests that are good up to their token."""
    for mask, hashes, extra, value, *rest in arguments(asked, "mask", "hashes", "extra", "value", "method", "head", "aside", "path", "body"):
        method, head, aside, _, _ = rest
        if number(placing.names, (mask, extra, head, aside)) != 0 or number(placing.coverage, (mask, hashes, extra, value)) != 9:
            continue
        if model.method_bad(method):
            continue
        field = dict(model.fields_of(value))
        n, t, lt = (encoding.number(field.get(key, b"\0")) for key in (b"n", b"t", b"lt"))
        key = hashing.code(hashing.SHA_256, value, b"")
        yield mask, extra, n, t, lt, key, *rest


def cases():
    asked = history()
    setups = [call for call in asked if call.kind == "setup"]
    judged = [call for call in asked if call.kind != "setup"]
    yield "drawn from the generator of histories"
    yield from some(placing.orders, arguments(asked, *calls.ORDERS), {0: 40, 2: 40})
    yield from some(placing.request, arguments(judged, "value"), {4: 40, 5: 20, 8: 2, 9: 15})
    yield from some(placing.setup, arguments(setups, "value"), {0: 8, 4: 30, 5: 20, 19: 8})
    yield from some(placing.names, arguments(judged, "mask", "extra", "head", "aside"), {0: 15, 6: 30, 7: 30})
    yield from some(placing.coverage, arguments(judged, "mask", "hashes", "extra", "value"), {8: 30, 9: 12})
    for case in islice(signed(judged), MOST_CODES):
        if is_short(case):
            yield placing.code, *case
