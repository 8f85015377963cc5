"""The program check-client run on three files, and docs/RULES.md's example as such files."""

import base64
import os
import pathlib
import re
import subprocess
import sys
import tempfile
from typing import NamedTuple

ROOT = pathlib.Path(__file__).resolve().parents[2]
sys.path.insert(0, str(ROOT / "tests/second"))


class Files(NamedTuple):
    """The contents of the three files that the program takes."""

    reply: bytes
    value: bytes
    request: bytes


class Said(NamedTuple):
    status: int
    out: str
    err: str

    @property
    def first(self):
        return self.out.partition("\n")[0]

    @property
    def number(self):
        """The number that it answers: 0 for fit, None where it answers none."""
        if self.first == "fit":
            return 0
        return int(self.first.partition(" ")[0]) if re.match(r"[1-9]\d* \S", self.first) else None


class Program:
    def __init__(self, command):
        self.command = command
        self.folder = tempfile.TemporaryDirectory()
        self.paths = [os.path.join(self.folder.name, name) for name in Files._fields]

    def tries(self, files):
        for path, contents in zip(self.paths, files):
            with open(path, "wb") as file:
                file.write(contents)
        done = subprocess.run([*self.command, *self.paths], capture_output=True, timeout=60)
        return Said(done.returncode, done.stdout.decode("ascii"), done.stderr.decode("ascii"))  # nothing else may reach a terminal


def gate_texts():
    """What include/gate.h says of each number in a few words."""
    text = (ROOT / "include/gate.h").read_text()
    numbers = {name: int(number) for name, number in re.findall(r"^\s+(GATE_[A-Z0-9_]+) = (\d+)[,\s]", text, re.M)}
    return {numbers[name]: words for name, words in re.findall(r'case (GATE_[A-Z0-9_]+): return "([^"]*)"', text)}


# The example of docs/RULES.md, under SHA-512 and under SHA-256

REQUEST = b"POST /orders HTTP/1.1\r\nHost:portal.example\r\nCookie: seat=4 \r\nX-Dealer:Brandt\r\n\r\nbelts=11"


def examples():
    page = (ROOT / "docs/RULES.md").read_text().split("\n## Example\n", 1)[1]
    reply, value = re.findall(r"^    (s:\S+)$", page, re.M)[:2]
    long, short = (base64.b64encode(bytes.fromhex(code)).decode() for code in re.findall(r"^    ([0-9a-f]{64,128})$", page, re.M)[:2])
    other = [text.replace(";h:AQQ=;", ";h:AQE=;").replace(long, short) for text in (reply, value)]
    return [Files(*(text.encode() + b"\n" for text in pair), REQUEST) for pair in ((reply, value), other)]
