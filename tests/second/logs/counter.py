"""The counts of an access log by status."""

import re
from collections import Counter

LONGEST = 8_192

WORD = rb"[^ ]+"
DATE = rb"\[[^\]]*\]"
REQUEST = rb'"(?:[^"\\]|\\.)*"'
STATUS = rb"([1-5][0-9][0-9])"
SIZE = rb"(?:[0-9]+|-)"
LINE = re.compile(b" ".join((WORD, WORD, WORD, DATE, REQUEST, STATUS, SIZE)), re.DOTALL)


def lines(log):
    """Each line ends at its line feed; what stands after the last one is a line too."""
    *ended, last = log.split(b"\n")
    return [*ended, last] if last else ended


def status(line):
    """Its status, or None: unread."""
    found = LINE.fullmatch(line) if len(line) <= LONGEST else None
    return int(found[1]) if found else None


def printed(statuses):
    """What is printed of lines with these statuses."""
    counts = Counter(statuses)
    rows = [("status", "lines")]
    rows += sorted((known, count) for known, count in counts.items() if known is not None)
    rows += [("unread", counts[None]), ("total", counts.total())]
    return "".join(f"{name} {count}\n" for name, count in rows).encode()


def report(log):
    return printed(map(status, lines(log)))
