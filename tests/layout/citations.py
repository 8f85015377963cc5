#!/usr/bin/env python3
"""What docs/ and README.md cite is there: each path, each edit, and each name that is cited with its file."""

import pathlib
import re
import sys

ROOT = pathlib.Path(__file__).resolve().parents[2]
PAGES = [ROOT / "README.md", *sorted((ROOT / "docs").rglob("*.md"))]
CRATES = {path.name for path in (ROOT / "crates").iterdir()}

PATH = re.compile(r"\b(?:crates|tests|docs|include|examples)(?:/[A-Za-z0-9_.-]+)+")
EDIT = re.compile(r"(?<![/\w])([a-z0-9_]+)/([a-z0-9_]+)(?![/\w.])")
NAMES = re.compile(r"([\w/]+\.antt): ((?:`[^`]+`(?:, )?)+)")


def files_called(name):
    """The antt files that a citation can mean: a whole path, or a file's name alone."""
    if "/" in name:
        return [ROOT / name]
    return list((ROOT / "crates").rglob(name))


def is_edit(crate, label):
    folders = (ROOT / "crates" / crate / "must-fail", ROOT / "tests" / "edits" / crate)
    return any((folder / f"{label}.edit").exists() for folder in folders)


def missing(text):
    for path in PATH.findall(text):
        path = path.rstrip(".")
        if "NAME" not in path and not (ROOT / path).exists():
            yield path
    for crate, label in EDIT.findall(text):
        if crate in CRATES and not is_edit(crate, label):
            yield f"{crate}/{label}"
    for name, cited in NAMES.findall(text):
        texts = [file.read_text() for file in files_called(name) if file.exists()]
        for word in re.findall(r"`([^`]+)`", cited):
            if not any(re.search(rf"(?<![\w-]){re.escape(word)}(?![\w-])", text) for text in texts):
                yield f"{word} in {name}"


def main():
    count = 0
    for page in PAGES:
        for what in sorted(set(missing(page.read_text()))):
            print(f"{page.relative_to(ROOT)} cites {what}, which is not there")
            count += 1
    return 1 if count else 0


if __name__ == "__main__":
    sys.exit(main())
