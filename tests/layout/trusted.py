#!/usr/bin/env python3
"""What a reader must believe, found by following `use`: the spec files that the contracts of the exported calls and the theorems of demands, logs, signatures, carrier and scanner rest on.

Run from the repository's root. Every such file must be named in docs/TRUST.md's table; every other spec file only names what inner functions
keep, and its name begins with Inner. With --list, prints the files. The last line is 'N passed, M failed'."""
import pathlib
import re
import sys

CRATES = pathlib.Path("crates")
EXPORTS = [f"crates/{name}/src/lib.rt" for name in ("gate", "primitives", "carrier", "scanner")]
DEMANDS = ["Untouched", "History", "Agreement", "Cases", "Determined", "Client", "Age", "Chosen", "Index", "Struck", "Arrival", "Trial", "Scanner", "Scanner/States", "Struck/Steps", "Struck/Witnesses", "Arrival/Witnesses", "Scanner/Witnesses", "Witnesses"]
THEOREMS = [
    *(f"crates/demands/proofs/{name}.antt" for name in DEMANDS),
    "crates/logs/proofs/Theorems.antt",
    "crates/signatures/proofs/Once.antt",
    "crates/signatures/proofs/Alike.antt",
    "crates/carrier/proofs/Theorems.antt",
    "crates/scanner/proofs/Theorems.antt",
]
# today's libraries are trusted as a whole, as the checker is
LIBRARY = {"std", "core"}
USE = re.compile(r"^(?:ghost )?use Rattle\.(\w+)\.specs\.([\w.-]+?)(?: as (\w+))?(?:\.\{([^}]*)\})?;?$", re.M)


def spec_file(crate, module):
    """The file of a spec module, or None for what is declared in code."""
    if crate in LIBRARY or module.startswith("declared"):
        return None
    return CRATES / crate / "specs" / (module.split(".")[0] + ".antt")


def uses(text):
    """(file, names that stand for it in the text) for each spec module that is used."""
    for crate, module, alias, names in USE.findall(text):
        file = spec_file(crate, module)
        if file is None:
            continue
        if names:
            yield file, [name.split(" as ")[-1].strip() for name in names.split(",")]
        else:
            yield file, [alias or module.split(".")[-1]]


def statements(text):
    """The texts of a proof file's public signatures, records and notions, and what modules take for all that stands in them."""
    yield from re.findall(r"^\s*module _ (.*?) where$", text, re.M | re.S)
    for block in re.split(r"\n\s*\n", text):
        lines = [line for line in block.split("\n") if not line.lstrip().startswith(("--", "use "))]
        if not lines or not re.match(r"\s*(abbrev |unfoldable )?pub ", lines[0]):
            continue
        name = re.match(r"\s*(?:abbrev |unfoldable )?pub (?:record )?([^\s:(]+)", lines[0]).group(1)
        if not re.match(r"\s*(abbrev |unfoldable )?pub record|\s*(abbrev|unfoldable) ", lines[0]):
            lines = stop(lines, name)
        yield "\n".join(lines)


def stop(lines, name):
    """A signature's lines, without its proof."""
    kept = lines[:1]
    for line in lines[1:]:
        if re.match(r"\s*(unfolding\b|" + re.escape(name) + r"\b)", line):
            break
        kept.append(line)
    return kept


def roots():
    for export in EXPORTS:
        for file, _ in uses(pathlib.Path(export).read_text()):
            yield file
    yield from (CRATES / "demands/specs").glob("[!L]*.antt")
    for theorem in THEOREMS:
        text = pathlib.Path(theorem).read_text()
        told = " ".join(statements(text))
        words = set(re.split(r"[\s()×→≡,.{}]+", told))
        for file, names in uses(text):
            if any(name in words for name in names):
                yield file


def followed():
    found, left = set(), list(roots())
    while left:
        file = left.pop()
        if file in found:
            continue
        found.add(file)
        left.extend(used for used, _ in uses(file.read_text()))
    return found


def named(text):
    """The spec files that TRUST's table names: a crate's whole folder, or files of it."""
    files = set()
    for crate, rest in re.findall(r"crates/(\w+)/specs((?:/\w+\.antt)?(?:: [\w, ]+)?)", text):
        folder = CRATES / crate / "specs"
        if rest.startswith("/"):
            files.add(folder / rest[1:])
        elif rest:
            files.update(folder / (name.strip() + ".antt") for name in rest[2:].split(","))
        else:
            files.update(file for file in folder.glob("*.antt") if file.stem != "Lib" and not file.stem.startswith("Inner"))
    return files


def main():
    trusted = followed()
    if "--list" in sys.argv:
        print("\n".join(sorted(map(str, trusted))))
        return 0
    table = pathlib.Path("docs/TRUST.md").read_text().split("## What no proof here says")[0]
    listed = named(table)
    wrong = [f"{file} is rested on, and docs/TRUST.md does not name it" for file in sorted(trusted - listed)]
    wrong += [f"docs/TRUST.md names {file}, which nothing rests on" for file in sorted(listed - trusted)]
    for file in sorted(CRATES.glob("*/specs/*.antt")):
        if file.stem == "Lib":
            continue
        if (file in trusted) == file.stem.startswith("Inner"):
            wrong.append(f"{file}: Inner marks what nothing exported rests on")
    print("\n".join(wrong))
    print(f"{len(trusted)} passed, {len(wrong)} failed")
    return 1 if wrong else 0


if __name__ == "__main__":
    sys.exit(main())
