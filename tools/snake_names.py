#!/usr/bin/env python3
"""snake_names [ROOT]: brings the repository's own definitions, lemmas, fields and constructors to snake case, once, after the kit's port.py.

Types and modules keep their spelling, and so do names from src/, exported names, strings, and text of comments outside backquotes. It prints
the names that fall together, and writes nothing where there are any. What it took for what stands in docs/PORT-NAMES.txt.
"""

import os
import re
import sys

# A lemma that would have the name of a function or of another definition gets `_lem`.
LEMMAS = (
    "all-full bit-and bit-or call-refused edge-first hand-fits has_block held-size held-value held-variables in_order "
    "in_place is-bad is-channel is-plan is-size is_loop left-plan line_word lines-read lowest-live move-done put-back-number "
    "row-bars row_word rows-of run-number same-domains sheet-b sheet-k sheet-l sheet-left sheet-number short-b short-k "
    "short-l sized-read start-refused state-length trace-left variables-of "
).split()
MARKS = r"^((?:(?:pattern|unfoldable|abbrev|pub|axiom) )*)"
DEFINITION = re.compile(MARKS + r"([^\s:(){}=]+) (?:\{[^}]*\} )?: ")
DECLARED = re.compile(r"^(?:pub )*(record|data|ruleset) ([^\s:(){}=]+)")
MEMBER = re.compile(r"^\s+(?:pub )?((?:[^\s:(){}=,]+ )+): ")
ALIAS = re.compile(r" as ([^\s,.{}]+)(?=[,};]|$)")
IMPORT = re.compile(r"(?m)^(?:ghost )?use ([^\s{]+)\.\{(.*)\};?$")
TOKEN = re.compile(r"[^\s(){}.,;@«»`\"]+")


def files(root):
    for folder, dirs, names in os.walk(os.path.join(root, "crates")):
        dirs[:] = sorted(d for d in dirs if d not in ("out", "must-fail"))
        for name in sorted(names):
            if name.endswith((".antt", ".rt")):
                yield os.path.join(folder, name)


def snake(name):
    name = name.replace("′", "'")
    name = re.sub(r"(?<=[a-z0-9])(?=[A-Z])", "_", name)
    name = re.sub(r"(?<=[A-Z])(?=[A-Z][a-z])", "_", name)
    # a fact that heads a name keeps its capital; elsewhere a capital is a word
    parts = name.split("-")
    head = parts[0] if re.match(r"[A-Z]", parts[0]) else parts[0].lower()
    return "_".join([head] + [p.lower() for p in parts[1:]])


def is_old(name):
    return "-" in name or "′" in name or bool(re.match(r"[a-z]", name) and re.search(r"[A-Z]", name))


def declared(root):
    found = {}
    for path in files(root):
        with open(path, encoding="utf-8") as file:
            for line in file:
                if line.startswith(("use ", "ghost use ")):
                    for name in ALIAS.findall(line):
                        found.setdefault(name, set()).add(path)
                if path.endswith(".rt") or line.startswith("use ") or line.lstrip().startswith("--"):
                    continue
                for pattern, group in ((DEFINITION, 2), (DECLARED, 2), (MEMBER, 1)):
                    match = pattern.match(line)
                    if match:
                        for name in match.group(group).split():
                            found.setdefault(name, set()).add(path)
                        break
    return found


def imported(text, own):
    """The names that a file has from libraries."""
    found = set()
    for module, names in IMPORT.findall(text):
        if not any(module.startswith(f"Rattle.{crate}.") for crate in own):
            found.update(name.split(" as ")[0] for name in names.split(", "))
    return found


def turned(text, names, is_antt):
    """text with its names turned; in comments those between backquotes alone."""

    def new(match):
        # what is spelled as today may be a name of src/: in code, or where it is a projection
        name, after_dot = match.group(), match.string[: match.start()].endswith(".")
        return name if (after_dot or not is_antt) and not is_old(name) else names.get(name, name)

    lines = []
    for line in text.split("\n"):
        mark = "--" if is_antt else "//"
        cut = line.find(mark) if is_antt else re.search(r'(?<!:)//|$', line).start()
        code, comment = (line, "") if cut < 0 else (line[:cut], line[cut:])
        pieces = re.split(r'("(?:[^"\\]|\\.)*")', code)
        code = "".join(p if k % 2 else TOKEN.sub(new, p) for k, p in enumerate(pieces))
        comment = re.sub(r"`[^`]*`", lambda m: TOKEN.sub(new, m.group()), comment)
        lines.append(code + comment)
    return "\n".join(lines)


def main(argv):
    root = argv[0] if argv else "."
    found = declared(root)
    names = {name: snake(name) for name in found if is_old(name)}
    names.update({name: snake(name) + "_lem" for name in LEMMAS})
    names = {old: new for old, new in names.items() if old != new}
    wrong = []
    # in one file no two names may become one, and none may become a name that is imported or declared there
    for path in files(root):
        with open(path, encoding="utf-8") as file:
            text = file.read()
        if path.endswith(".rt"):
            continue
        # a projection is no name of its own
        used = set(TOKEN.findall(re.sub(r"(?m)^\s*--.*$|(?<=[^\s(])\.[^\s(){}.,;]+", "", text)))
        news = {}
        for old in used & names.keys():
            news.setdefault(names[old], set()).add(old)
        for new, olds in news.items():
            if len(olds) > 1 or new in used and new not in names:
                wrong.append(f"{os.path.relpath(path, root)}: {', '.join(sorted(olds))} and {new if new in used else ''}")
    if wrong:
        print("\n".join(wrong))
        print(f"{len(wrong)} places where names fall together; nothing was written")
        if "--force" not in argv:
            return 1
    count = 0
    own = os.listdir(os.path.join(root, "crates"))
    for path in files(root):
        with open(path, encoding="utf-8") as file:
            text = file.read()
        theirs = imported(text, own)
        new = turned(text, {old: new for old, new in names.items() if old not in theirs}, path.endswith(".antt"))
        if new != text:
            count += 1
            with open(path, "w", encoding="utf-8") as file:
                file.write(new)
    with open(os.path.join(root, "docs", "PORT-NAMES.txt"), "w", encoding="utf-8") as file:
        file.write("".join(f"{old} {new}\n" for old, new in sorted(names.items())))
    print(f"{len(names)} names, {count} files")
    return 0


if __name__ == "__main__":
    raise SystemExit(main(sys.argv[1:]))
