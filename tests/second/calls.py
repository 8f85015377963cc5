"""The call file and the answers file: writing, reading, comparing. README.md describes both formats."""

from typing import NamedTuple

import model
import record as rec

ORDERS = model.Orders._fields
SENT = "value method head aside path body".split()
REQUEST = [*ORDERS, "clock", "server_key", *SENT]
ARGUMENTS = {
    "setup": [*ORDERS, *"clock server_key session_key iv session_id value".split()],
    "judge": REQUEST,
    "one": REQUEST,
    "end": ["iv"],
    "index": [],
    "fits": ["setup_reply", *SENT],
    "sign": "method authority path lines names created label key_id key out_size out_byte".split(),
    "verify": "method authority path lines names label key_id key input signature created".split(),
    "scanner_begin": ["time", "setup_reply"],
    "scanner_sign": "clock method head path body".split(),
    "scanner_hear": ["value"],
}
# Lines that are no call: what is lent from now on, and goes on from call to call.
LENT = {"table": ("table", "index"), "reply": ("reply",), "state": ("state",), "out": ("out",)}
MOST_SHOWN = 5


def run_text(run):
    return run.hex() or "-"


def field_text(contents):
    return str(contents) if isinstance(contents, int) else run_text(contents)


def named(call):
    """The arguments of a call by their names."""
    return dict(zip(ARGUMENTS[call.kind], call.arguments))


def altered(call, **changed):
    """The call with other arguments."""
    return call._replace(arguments=tuple((named(call) | changed).values()))


def orders_of(call):
    return model.Orders(*call.arguments[:len(ORDERS)])


def request_fields(value):
    """Contents by key, or None where the value is no request's."""
    fields = model.fields_of(value)
    return None if fields is None or model.request_fields_wrong(fields) else dict(fields)


def answered(call, reply):
    """What the model answers to this call."""
    table, index, arguments = call.table, call.index, call.arguments
    if call.kind == "end":
        return model.end(*arguments, table, index)._replace(reply=reply)
    if call.kind == "index":
        return model.make_index(table, index)._replace(reply=reply)
    if call.kind == "fits":
        return model.Outcome(model.fits(*arguments), 0, reply, table, index)
    orders, rest = orders_of(call), arguments[len(ORDERS):]
    if call.kind == "setup":
        return model.setup(orders, *rest, table, index, reply)
    if call.kind == "judge":
        return model.judge(orders, *rest, table, index, reply)
    return taken_out(model.judge_one(orders, *rest, table[:rec.SIZE], reply), table, index)


def taken_out(outcome, table, index):
    """The thin entry over the table's first record, which is put back; where it is free then, the index is made anew."""
    table = outcome.table + table[rec.SIZE:]
    if outcome.number in (10, 13):
        index = model.make_index(table, index).index
    return outcome._replace(table=table, index=index)


def answer_line(outcome, call, reply):
    """`=` where every byte is as it was before the call."""
    left = (outcome.reply, reply), (outcome.table, call.table), (outcome.index, call.index)
    texts = ("=" if after == before else run_text(after) for after, before in left)
    return " ".join([str(outcome.number), str(outcome.length), *texts]) + "\n"


class Writer:
    """Writes calls, answers and names line by line, and keeps table, index and reply buffer from call to call."""

    def __init__(self, calls, answers, names):
        self.calls, self.answers, self.names = calls, answers, names
        self.table = self.index = self.reply = b""

    def write(self, call, name):
        """Write one call with the answer to it, and return the outcome."""
        if (call.table, call.index) != (self.table, self.index):
            self.calls.write(f"table {run_text(call.table)} {run_text(call.index)}\n")
        if call.reply is not None:
            count, byte = call.reply
            self.reply = bytes([byte]) * count
            self.calls.write(f"reply {count} {byte}\n")
        outcome = answered(call, self.reply)
        self.calls.write(" ".join([call.kind, *map(field_text, call.arguments)]) + "\n")
        self.answers.write(answer_line(outcome, call, self.reply))
        self.names.write(name + "\n")
        self.table, self.index, self.reply = outcome.table, outcome.index, outcome.reply
        return outcome


class Asked(NamedTuple):
    """One call as read from a call file, and what the lines since the last call lend."""

    line_number: int
    kind: str
    fields: list
    lent: dict


def read_calls(lines):
    lent = {}
    for number, line in enumerate(lines, 1):
        kind, *fields = line.rstrip("\n").split(" ")
        if kind in LENT:
            lent |= zip(LENT[kind], fields if kind == "table" else [" ".join(fields)])
        else:
            yield Asked(number, kind, fields, lent)
            lent = {}


def left_by(kind):
    """What goes on from call to call, as an answer has it; to a carrier nothing does."""
    if kind in ("sign", "verify"):
        return ()
    return ("out", "state") if kind.startswith("scanner_") else ("reply", "table", "index")


def shown(asked, name, before, wanted, got):
    """A difference, with the call whole."""
    lines = [f"line {asked.line_number}: {asked.kind}: {name}"]
    lines += [f"  lent {run} {before.get(run, '(none)')}" for run in left_by(asked.kind)]
    lines += [f"  {label} {text}" for label, text in zip(ARGUMENTS[asked.kind], asked.fields)]
    lines += [f"  expected {wanted}", f"  got      {got}"]
    return "\n".join(lines)


def compare(calls, names, expected, got, out):
    """Print the first few differences whole and a closing line; true if there was none."""
    differences = count = 0
    lent = {}
    got = iter(got)
    for asked, name, wanted in zip(read_calls(calls), names, expected, strict=True):
        lent |= asked.lent
        wanted, answer = wanted.rstrip("\n"), next(got, "no answer").rstrip("\n")
        _, _, *left = wanted.split(" ")
        count += 1
        if wanted != answer:
            differences += 1
            if differences <= MOST_SHOWN:
                print(shown(asked, name.rstrip("\n"), lent, wanted, answer), file=out)
        lent |= {run: text for run, text in zip(left_by(asked.kind), left) if text != "="}
    unasked = sum(1 for _ in got)
    if unasked:
        print(f"{unasked} answers more than calls", file=out)
    print(f"{count - differences} passed, {differences + unasked} failed", file=out)
    return differences + unasked == 0
