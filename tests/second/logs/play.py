"""The program held to the counter: it is run on each log, from a file, and from a socket where each read gets one part."""

import os
import random
import socket
import subprocess
import tempfile
import threading

from logs import counter, drawn, lines

SAMPLE = b"\n".join((lines.GOOD, b"", lines.GOOD + b"\r", lines.Line(request=b'\\"', status=b"200").text(), lines.GOOD[:-6]))


class Tests:
    """Counts of what passed and failed."""

    def __init__(self, out):
        self.out = out
        self.passed = self.failed = 0

    def expect(self, name, got, wanted):
        if got == wanted:
            self.passed += 1
        else:
            self.failed += 1
            print(f"failed: {name}: got {got!r:.400}, should be {wanted!r:.400}", file=self.out)


class Program:
    def __init__(self, command):
        self.command = command

    def run(self, stdin, stdout=subprocess.PIPE):
        """What it writes to standard output and to standard error."""
        ended = subprocess.run(self.command, stdin=stdin, stdout=stdout, stderr=subprocess.PIPE)
        return ended.stdout, ended.stderr

    def on(self, log):
        with tempfile.TemporaryFile() as file:
            file.write(log)
            file.seek(0)
            return self.run(file)

    def on_parts(self, parts):
        """Each part is a packet, and a read gets one packet."""
        ours, theirs = socket.socketpair(socket.AF_UNIX, socket.SOCK_SEQPACKET)
        sender = threading.Thread(target=send, args=(ours, parts))
        sender.start()
        with theirs:
            answer = self.run(theirs)
        sender.join()
        return answer


def send(ours, parts):
    with ours:
        for part in parts:
            ours.send(part)


def named_logs(tests, program):
    for name, log, statuses in lines.cases():
        wanted = counter.printed(statuses)
        tests.expect(f"{name}, by the counter", counter.report(log), wanted)
        tests.expect(name, program.on(log), (wanted, b""))


def cut_logs(tests, program):
    """One log cut at every byte, and in single bytes; long lines cut about where they become too long."""
    wanted = counter.printed((403, None, None, 200, None)), b""
    for place in range(1, len(SAMPLE)):
        tests.expect(f"the sample cut at byte {place}", program.on_parts([SAMPLE[:place], SAMPLE[place:]]), wanted)
    tests.expect("the sample byte by byte", program.on_parts([b"%c" % byte for byte in SAMPLE]), wanted)
    for length, status in ((8_192, 403), (8_193, None)):
        log = lines.padded("user", length) + b"\n" + lines.GOOD
        for place in (1, 4_096, *range(8_190, 8_197)):
            name = f"a line of {length:,} bytes cut at byte {place:,}"
            tests.expect(name, program.on_parts([log[:place], log[place:]]), (counter.printed((status, 403)), b""))


def drawn_logs(tests, program, seed, count):
    rng = random.Random(seed)
    for turn in range(count):
        log = drawn.log(rng)
        wanted = counter.report(log), b""
        name = f"drawn log {turn} of seed {seed}"
        tests.expect(name, program.on(log), wanted)
        tests.expect(f"{name} in parts", program.on_parts(drawn.cut(rng, log)), wanted)


def failures(tests, program):
    """Reading or writing that fails: a message on standard error, and for reading nothing on standard output."""
    folder = os.open("/", os.O_RDONLY)
    tests.expect("reading that fails", program.run(folder), (b"", b"status-counts: reading: Is a directory\n"))
    os.close(folder)
    with open("/dev/full", "wb") as full:
        tests.expect("writing that fails", program.run(subprocess.DEVNULL, full), (None, b"status-counts: writing: No space left on device\n"))


def run(out, command, seed, count):
    tests, program = Tests(out), Program(command)
    named_logs(tests, program)
    cut_logs(tests, program)
    drawn_logs(tests, program, seed, count)
    failures(tests, program)
    print(f"{tests.passed} passed, {tests.failed} failed", file=out)
    return tests.failed == 0
