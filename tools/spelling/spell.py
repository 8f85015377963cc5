#!/usr/bin/env python3
"""Spells this repository's own names as today's Rattle does: words in snake case, for definitions, lemmas, fields and local names.

    tools/spelling/spell.py        at the top of the repository, once, after the kit's port.py

names.tsv, beside this file, has each name of specs/ and proofs/ and its new spelling. A lemma that would have a definition's name
ends in _lem. In crates/ it turns .antt files and, outside code and strings, .rt files. A name that a file imports from a library,
and the name of an answer, which Rattle makes, stay there.
"""

import pathlib
import re

ROOT = pathlib.Path(__file__).resolve().parents[2]
NAME = r'[^\s(){}.;,@"«»]+'
WORD = re.compile(NAME)
USE = re.compile(r"use ([^\s;{]+)\.\{([^}]*)\}")
BINDERS = re.compile(r"\(([^():]+) : |\{([^{}:=]+) : |λ ((?:[^\s().]+ )*[^\s().]+)\.|let ([^\s(){}]+)(?= :| =)")
OLDER = re.compile(r"[a-z]\w*(?:-\w+)+'*|[a-z]+[a-z0-9]*[A-Z]\w*'*")


def names():
    rows = (ROOT / "tools/spelling/names.tsv").read_text().splitlines()
    return dict(row.split("\t") for row in rows)


def in_snake_case(name):
    return re.sub(r"(?<=[a-z0-9])[A-Z]", lambda m: "_" + m[0].lower(), name).replace("-", "_")


def imported(text, crates):
    """The names that a text imports from a library."""
    found = set()
    for path, those in USE.findall(text):
        steps = path.split(".")
        if steps[0] != "Rattle" or steps[1] not in crates:
            found |= {name.strip() for name in those.split(",")}
    return found


def local(text, known):
    """Local names of a text in the older spelling."""
    found = {}
    for groups in BINDERS.findall(text):
        for name in " ".join(groups).split():
            if OLDER.fullmatch(name) and name not in known:
                found[name] = in_snake_case(name)
    return found


def spelled_antt(text, table, crates):
    stay = imported(text, crates) | set(re.findall(rf"(?m)^(?:abbrev )?(?:pub )?({NAME}) : tie\.", text))
    turned = table | local(text, table.keys() | stay)
    turned = {old: new for old, new in turned.items() if old not in stay}
    return WORD.sub(lambda m: turned.get(m[0], m[0]), text)


PARTS = re.compile(r'(?P<string>b?"(?:[^"\\]|\\.)*")|(?P<comment>//[^\n]*)|(?P<text>[^"/]+|/|")', re.S)
CLAUSE_NAME = re.compile(r"(?<![\w'-])[A-Za-z_][\w'-]*")


def spelled_rt(text, table, crates):
    stay = imported(text, crates)

    def turn(part):
        if part["string"] is not None:
            return part[0]
        if part["comment"] is not None:
            return re.sub(r"`([^`\s]+)`", lambda m: "`" + table.get(m[1], m[1]) + "`", part[0])
        return CLAUSE_NAME.sub(lambda m: m[0] if m[0] in stay else table.get(m[0], m[0]), part[0])

    return PARTS.sub(turn, text)


def main():
    table = names()
    crates = {folder.name for folder in (ROOT / "crates").iterdir()}
    for file in sorted((ROOT / "crates").glob("*/*/**/*")):
        if "out" in file.parts or file.suffix not in (".antt", ".rt"):
            continue
        text = file.read_text()
        turned = (spelled_antt if file.suffix == ".antt" else spelled_rt)(text, table, crates)
        if turned != text:
            file.write_text(turned)


if __name__ == "__main__":
    main()
