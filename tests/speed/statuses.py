#!/usr/bin/env python3
"""Times the counting of a log of 200 MB beside mawk that counts the ninth field, in turns, and looks at the memory it takes.

    tests/speed/statuses.py PROGRAM..     a command that reads a log from standard input, as target/bin/status_counts

mawk checks nothing of a line; on these, which are all good, both count the same. The last line is 'N passed, M failed': the same
counts, no more memory after 100 MB than after one block, and, on x86-64 alone, as fast as mawk at least. Elsewhere the program
runs under an emulator, whose times say nothing.
"""

import pathlib
import platform
import random
import re
import statistics
import subprocess
import sys
import time

LOG = pathlib.Path("target/tests/statuses.log")
SIZE = 200_000_000
TURNS = 5
MAWK = ["mawk", '{ n[$9]++ } END { for (s in n) print s, n[s] }']


def block():
    """Twenty thousand lines as a portal has them."""
    rng = random.Random(5)
    paths = ("/", "/login", "/orders", "/orders/1182?belts=11", "/parts/88-1120/price", "/parts/list?page=3&sort=name", "/img/logo.png", "/stock/upload")
    statuses = (200,) * 70 + (304,) * 10 + (403,) * 8 + (404,) * 6 + (301,) * 5 + (500,)
    lines = []
    for _ in range(20_000):
        host = ".".join(str(rng.randrange(1, 255)) for _ in range(4))
        when = f"16/Nov/2026:{rng.randrange(24):02}:{rng.randrange(60):02}:{rng.randrange(60):02} +0100"
        request = f"{rng.choice(('GET', 'GET', 'POST'))} {rng.choice(paths)} HTTP/1.1"
        size = rng.choice(("-", str(rng.randrange(100_000))))
        lines.append(f'{host} - {rng.choice(("-", "brandt", "dealer17"))} [{when}] "{request}" {rng.choice(statuses)} {size}\n')
    return "".join(lines).encode()


def write_log(lines):
    LOG.parent.mkdir(parents=True, exist_ok=True)
    with LOG.open("wb") as log:
        for _ in range(SIZE // len(lines) + 1):
            log.write(lines)
    return LOG.stat().st_size


def timed(command):
    """Seconds, and the rows of a status and its count."""
    with LOG.open("rb") as log:
        began = time.monotonic()
        said = subprocess.run(command, stdin=log, stdout=subprocess.PIPE, check=True).stdout
        took = time.monotonic() - began
    return took, sorted(re.findall(rb"^\d+ \d+$", said, re.MULTILINE))


def most_memory(process):
    """The most memory that the process has had, in KiB."""
    status = pathlib.Path(f"/proc/{process.pid}/status").read_text()
    return int(re.search(r"VmHWM:\s*(\d+) kB", status)[1])


def memory(command, lines):
    """The most memory after one block, and after 100 MB."""
    process = subprocess.Popen(command, stdin=subprocess.PIPE, stdout=subprocess.DEVNULL)
    process.stdin.write(lines)
    process.stdin.flush()
    first = most_memory(process)
    for _ in range(100_000_000 // len(lines)):
        process.stdin.write(lines)
    process.stdin.flush()
    last = most_memory(process)
    process.stdin.close()
    process.wait()
    return first, last


def main(command):
    lines = block()
    size = write_log(lines)
    commands = {"program": command, "mawk": MAWK}
    times, counts = {name: [] for name in commands}, {}
    for _ in range(TURNS):
        for name, words in commands.items():
            took, counts[name] = timed(words)
            times[name].append(took)
    LOG.unlink()
    for name, turns in times.items():
        best, median = (size / took / 1e6 for took in (min(turns), statistics.median(turns)))
        print(f"{name}: best {best:.0f} MB/s, median {median:.0f} MB/s, of {TURNS} turns over {size:,} bytes")
    first, last = memory(command, lines)
    print(f"memory: {first:,} KiB after {len(lines):,} bytes, {last:,} KiB after 100 MB")
    tests = {"the counts are mawk's": counts["program"] == counts["mawk"], "memory does not grow": last <= first + 1_024}
    if platform.machine() == "x86_64":
        tests["as fast as mawk at least"] = min(times["program"]) <= min(times["mawk"])
    for name, good in tests.items():
        print(f"{'ok' if good else 'FAILED'}: {name}")
    passed = sum(tests.values())
    print(f"{passed} passed, {len(tests) - passed} failed")
    return 0 if all(tests.values()) else 1


if __name__ == "__main__":
    sys.exit(main(sys.argv[1:]))
