"""The edges of crates.txt against the sources: a crate names each crate whose items or modules a file of it uses, and no other. What it names
of the kit's libraries is used too; std is never named, and rt refuses a library that is used and not named."""

import pathlib
import re
import sys

TOP = pathlib.Path(__file__).resolve().parent.parent
# what a person writes; out/ is rt's
FOLDERS = ("src", "specs", "proofs")
# crates whose types stand in a type that is used, though no line names them: a refusal of putting back holds a sheet's
WITHIN = {"replay": {"sheet"}}


def listed():
    """The edges that crates.txt has."""
    edges = {}
    for line in (TOP / "crates.txt").read_text().splitlines():
        name, colon, rest = line.partition("#")[0].partition(":")
        if colon:
            # the name alone: a static library has `staticlib` after it
            edges[name.split()[0]] = set(rest.split())
    return edges


def used(crate, names):
    """The crates and libraries that the files of a crate name: `use x::..`, `x::..` in code, and `use Rattle.x..` in definitions and proofs."""
    found = set()
    for path in (path for folder in FOLDERS for path in sorted((TOP / "crates" / crate / folder).rglob("*"))):
        if path.suffix == ".rt":
            text = re.sub(r"//.*", "", path.read_text())
            found.update(re.findall(r"\b([a-z][a-z0-9_]*)::", text))
            found.update(re.findall(r"\bRattle\.([a-z0-9_]+)", text))
        elif path.suffix == ".antt":
            found.update(re.findall(r"\bRattle\.([a-z0-9_]+)", re.sub(r"--.*", "", path.read_text())))
    return (found & names) - {crate}


def main():
    edges = listed()
    names = set(edges).union(*edges.values())
    faults = 0
    for crate, has in edges.items():
        uses = used(crate, names)
        for other in sorted(uses - has):
            print(f"{crate} uses {other}, which its line does not name")
            faults += 1
        for other in sorted(has - uses - WITHIN.get(crate, set())):
            print(f"{crate} names {other}, which no file of it uses")
            faults += 1
    print(f"{sum(len(has) for has in edges.values())} edges of {len(edges)} crates, {faults} out of order")
    sys.exit(1 if faults else 0)


main()
