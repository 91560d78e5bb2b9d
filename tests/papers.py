"""What the pages name stands where they say it does.

The pages are those of PAGES. Looked at, and in blocks of code only paths:
- a name with a place, as `run_worked`, run: Worked (crates/run/proofs/Worked.antt), or `run_job`, run/specs/Run.antt: the file declares it;
- a name in snake case, as those of definitions, theorems and functions: some file declares it, or it is a crate; on the pages of INDEXES a
  theorem's is declared in a file that its table row, list item or paragraph names, or that the page has it placed in;
- the names of a table whose last column is headed "file": declared in the files of that column ("same": those of the row above);
- the names of a column headed "field of `R`": the fields of the record R, all of them;
- a function, as `held::rows_at`: the sources of that crate have it;
- a name with a hyphen, an underscore or a capital: some file of the tree has it;
- a wrong build, as sheet/six_before_seven: crates/sheet/must-fail/six_before_seven.edit;
- a path of this tree, and a link, with its heading; of a crate's out/ only what rt makes there of a program or a static library;
- README's table and picture of the crates: the crates of crates.txt and no others.
The exit status is 1 where something is not so."""
import glob
import os
import re
import sys

PAGES = ("README.md", "docs/DEMANDS.md", "docs/READING.md", "docs/CONTRIBUTING.md", "docs/DECISIONS.md", "docs/FORMAT.md")
INDEXES = ("docs/DEMANDS.md", "docs/READING.md")
FOLDERS = ("crates", "docs", "rust", "tests", "examples", "include")
# words that stand for a name
STANDS_FOR = re.compile(r"\b(NAME|LABEL|CRATE|CHANNELS|NN)\b|/F/|…")

NAME = r"[^\W\d_][\w'-]*"
# a constant in capitals is none
SNAKE = re.compile(r"(?=.*[-_])(?=.*[^\W_A-Z\d])[\w'-]+")
# how a theorem is declared, and how a definition
LAW = re.compile(rf"^\s*pub ({NAME}) ", re.M)
DEFINED = re.compile(rf"^\s*(?:abbrev|unfoldable) pub ({NAME}) ", re.M)
# words of Rust and its tools, which no file of the tree declares
RUST = {"leading_zeros", "trailing_zeros", "compile_fail"}
# how the files of the callers declare: Rust, C, Python, and else the shell's functions
CALLERS = {
    ".rs": r"\b(?:fn|struct|enum|const|static|type|mod) (\w+)|^\s+pub (\w+):",
    ".h": r"^(?:[a-z]\w*[ *]+)+(\w+)\(|^#define (\w+)",
    ".c": r"^(?:[a-z]\w*[ *]+)+(\w+)\(|^#define (\w+)",
    ".py": r"^\s*def (\w+)",
    "": r"^(\w+)\(\) \{",
}

PLACE = re.compile(
    r"(?P<path>\b(?:crates/)?(?P<crate>[a-z]\w*)/(?P<folder>specs|proofs|src)/(?P<file>[A-Za-z]\w*)\.(?:antt|rt)\b)"
    r"|(?P<room>\b[a-z]\w*): (?P<rooms>[A-Z]\w*(?:, [A-Z]\w*)*)(?!\.antt|[\w-])"
    r"|(?<![\w/])(?:(?P<within>specs|proofs)/)?(?P<beside>[A-Z]\w*)\.antt\b"
    r"|\bcrates/(?P<whole>[a-z]\w*)(?:/(?P<part>specs|proofs))?(?![\w/])"
)
# between two names of one citation, and between the last and its place; in brackets a place is that of the last, or of two joined by a word
BETWEEN = re.compile(r"(,| and|, and| to| or|, or)?( the)?( fields?| cases?)? ")
JOINED = re.compile(r" (and|or|to) ")
PART = re.compile(r"\b(fields?|cases?) (`[^`]*`(, | and |, and ))*$")
# below a folder that rt makes
OUT = re.compile(r"crates/\w+/out/.")


def read(path):
    with open(path, encoding="utf-8") as file:
        return file.read()


class Tree:
    """What the files of the tree declare, and every word of theirs."""

    def __init__(self):
        self.declared, self.words, self.called = {}, set(), set()
        rows = re.findall(r"^(\w+)( staticlib)?[^:#\n]*:", read("crates.txt"), re.M)
        self.crates = {name for name, _ in rows}
        # what rt makes of a crate that is not a library for the crates above it
        self.made = {f"crates/{name}/out/lib{name}.a" for name, is_archive in rows if is_archive}
        self.made |= {f"crates/{name}/out/{name}" for name in self.crates if os.path.isfile(f"crates/{name}/src/main.rt")}
        for folder in ("specs", "proofs", "src", "must-fail"):
            for path in glob.glob(f"crates/*/{folder}/**/*", recursive=True):
                if path.endswith((".antt", ".rt", ".edit")) and os.path.isfile(path):
                    text = read(path)
                    self.words.update(re.findall(NAME, text))
                    self.declared[path] = declarations(path, text)
        for pattern in ("rust/**/*.rs", "rust/*", "include/*", "tests/*", "examples/**/*.[ch]", "Makefile", ".ci/run", "crates.txt"):
            for path in glob.glob(pattern, recursive=True):
                if os.path.isfile(path) and path != "tests/papers.py":
                    text = read(path)
                    self.words.update(re.findall(r"[A-Za-z]\w*", text))
                    declares = CALLERS.get(os.path.splitext(path)[1], CALLERS[""])
                    self.called.update(name for found in re.finditer(declares, text, re.M) for name in found.groups() if name)
        self.words.update(os.listdir("crates"))
        # what is no theorem: the code's names and its callers', the crates, the definitions
        laws = {name for path in self.declared if path.endswith(".antt") for name in LAW.findall(read(path))}
        self.loose = self.called | self.crates | RUST
        for path, names in self.declared.items():
            self.loose.update(names if path.endswith(".rt") else DEFINED.findall(read(path)) if "/specs/" in path else ())
        self.loose -= laws

    def has(self, paths, name):
        return any(name in self.declared.get(path, ()) for path in paths)

    def fields(self, record):
        """The fields of a record of specs/."""
        for path in self.declared:
            block = "/specs/" in path and re.search(rf"^pub record {record}\b.*\n((?:  .*\n|\n)*)", read(path), re.M)
            if block:
                return set(re.findall(rf"^  pub ({NAME}) :", block[1], re.M))
        return set()


def declarations(path, text):
    if path.endswith(".rt"):
        found = re.findall(r"\b(?:fn|struct|enum|trait|const|static|type)\s+(\w+)", text)
        return set(found) | set(re.findall(r"^\s+([A-Z]\w*)[,({ ]", text, re.M))
    if not path.endswith(".antt"):
        return set()
    found = set(re.findall(rf"^\s*(?:(?:abbrev|unfoldable|opaque)\s+)?pub\s+(?:record\s+|data\s+)?({NAME})", text, re.M))
    for block in re.findall(r"^pub data .*\n((?:  .*\n|\n)*)", text, re.M):
        found |= set(re.findall(rf"^  ({NAME}) :", block, re.M))
    return found


def units(text):
    """Table rows, list items and paragraphs, each with the number of its line; no code blocks."""
    block, first = [], 0
    for number, line in enumerate(text.splitlines(), 1):
        starts = line.startswith(("|", "- ", "#")) or re.match(r"\d+\. ", line)
        if block and (starts or not line.strip()):
            yield first, " ".join(block)
            block = []
        if line.strip() and not line.startswith("    "):
            if not block:
                first = number
            block.append(line.strip())
    if block:
        yield first, " ".join(block)


class Page:
    def __init__(self, path, tree):
        self.path, self.tree, self.faults, self.counts = path, tree, [], dict(placed=0, near=0, paths=0, wrong=0, words=0)
        self.text = read(path)
        self.units = list(units(self.text))
        self.cited, self.loose = set(), []

    def fault(self, line, what):
        told = f"{self.path}:{line}: {what}"
        if told not in self.faults:
            self.faults.append(told)

    # ---- names with places

    def places(self, line, text):
        """The places of a text as (start, end, files), a file without a crate being beside the one before it."""
        found, crate, folder = [], None, None
        for place in PLACE.finditer(text):
            if place["whole"]:
                crate, folder = place["whole"], place["part"]
                continue
            if place["path"]:
                crate, folder = place["crate"], place["folder"]
                files = [f"crates/{crate}/{folder}/{place['file']}.{place['path'].rsplit('.', 1)[1]}"]
            elif place["room"]:
                direct = text[: place.start()].endswith("`, ")
                files = [f"crates/{place['room']}/proofs/{file}.antt" for file in place["rooms"].split(", ")]
                sure = direct or text[: place.start()].endswith("(") and place["room"] in self.tree.crates
                if not sure and not all(os.path.isfile(file) for file in files):
                    continue
                crate, folder = place["room"], "proofs"
            else:
                of = re.match(r" of ([a-z]\w*(?:(?:, | and |, and )[a-z]\w*)*)", text[place.end() :])
                crates = re.split(r", and |, | and ", of[1]) if of else [crate]
                if crates[0] not in self.tree.crates:
                    crate = folder = None
                    if not glob.glob(f"crates/*/*/{place['beside']}.antt") and not STANDS_FOR.search(place[0]):
                        self.fault(line, f"no crate has {place[0]}")
                    continue
                known = [some for some in crates if some in self.tree.crates]
                files = [self.beside(some, place["within"] or folder, place["beside"]) for some in known]
            for file in files:
                if not os.path.isfile(file):
                    self.fault(line, f"no file {file}")
            found.append((place.start(), place.end(), files))
        return found

    def beside(self, crate, folder, file):
        """The file of a crate, first in the folder that was named last."""
        paths = [f"crates/{crate}/{some}/{file}.antt" for some in (folder or "specs", "specs", "proofs")]
        return next((path for path in paths if os.path.isfile(path)), paths[0])

    def citations(self):
        for line, text in self.units:
            names = [(m.start(), m.end(), m[1]) for m in re.finditer(rf"`({NAME})[^`]*`", text)]
            whole = {m.start() for m in re.finditer(rf"`{NAME}`", text)}
            places = self.places(line, text)
            direct = set()
            for start, _, files in places:
                at, chain = start, [name for name in names if name[1] <= start]
                bracket = text[:start].endswith(" (")
                gap = re.compile(r" \(|, ")
                last = ""
                while chain and gap.fullmatch(text[chain[-1][1] : at]):
                    ranged = text[chain[-1][1] : at] == " to "
                    at, _, name = chain.pop()
                    for between in numbers(name, last) if ranged else ():
                        self.cited.add(between)
                        if not self.tree.has(files, between):
                            self.fault(line, f"{between} is not declared in {', '.join(files)}")
                    last = name
                    gap = JOINED if bracket else BETWEEN
                    if at not in whole:
                        continue
                    direct.add(at)
                    self.counts["placed"] += 1
                    if not (self.tree.has(files, name) or self.part(files, name, PART.search(text[:at]))):
                        self.fault(line, f"{name} is not declared in {', '.join(files)}")
                    self.cited.add(name)
            near = [file for _, _, files in places for file in files]
            for begin, _, name in names:
                if begin not in direct and begin in whole and SNAKE.fullmatch(name):
                    self.loose.append((line, name, near))

    def part(self, files, name, said):
        """A case of an enum that the file reads; or, where it is said to be one, a field or a case of what the crate defines."""
        crates = {file.split("/")[1] for file in files}
        read_there = any(re.search(rf"\b{re.escape(name)}\b", read(file)) for file in files if os.path.isfile(file))
        if read_there and name[0].isupper() and self.tree.has(glob.glob("crates/*/src/lib.rt"), name):
            return True
        defined = [file for crate in crates for file in glob.glob(f"crates/{crate}/specs/*.antt")]
        return bool(said) and (read_there or self.tree.has(defined, name))

    def loosely(self):
        for line, name, near in self.loose:
            self.counts["near"] += 1
            if name in self.tree.loose:
                continue
            if self.path not in INDEXES:
                if not self.tree.has(self.tree.declared, name):
                    self.fault(line, f"no file declares {name}")
            elif not self.tree.has(near, name) and name not in self.cited:
                self.fault(line, f"{name} is declared in no file that is named beside it")

    def tables(self):
        header, files, listed = None, [], {}
        for line, text in self.units:
            if not text.startswith("|"):
                header = None
                continue
            cells = [cell.strip() for cell in re.split(r"(?<!\\)\|", text)[1:-1]]
            if header is None:
                header, files = cells, []
                continue
            if set(text) <= set("|- "):
                continue
            if header[-1] == "file" and header[0] == "name":
                if cells[-1] != "same":
                    files = [file for _, _, some in self.places(line, cells[-1]) for file in some]
                self.stand(line, cells[0], files)
            for head, cell in zip(header, cells):
                record = re.fullmatch(r"field of `(\w+)`", head)
                if record:
                    listed.setdefault(record[1], []).extend((line, name) for name in re.findall(rf"`({NAME})`", cell))
        for record, names in listed.items():
            fields = self.tree.fields(record)
            self.cited.update(fields)
            self.counts["placed"] += len(names)
            for line, name in names:
                if name not in fields:
                    self.fault(line, f"{name} is no field of {record}")
            for name in sorted(fields - {name for _, name in names}):
                self.fault(0, f"the field {name} of {record} has no row")

    def stand(self, line, cell, files):
        for name in re.findall(rf"`({NAME})[^`]*`", cell):
            self.counts["placed"] += 1
            self.cited.add(name)
            if not self.tree.has(files, name):
                self.fault(line, f"{name} is not declared in {', '.join(files) or 'any file'}")

    # ---- names alone, wrong builds, paths, links

    def words(self):
        for line, text in self.units:
            for crate, name in re.findall(r"`([a-z]\w*)::(\w+)", text):
                if crate in self.tree.crates and not self.tree.has(glob.glob(f"crates/{crate}/src/*.rt"), name):
                    self.fault(line, f"crate {crate} has no {name}")
            for name, rest in re.findall(rf"`({NAME})((?: [^`]*)?)`", text):
                if re.search(r"[-_]|[A-Z].", name) and not (rest and name[0].islower()):
                    self.counts["words"] += 1
                    if name not in self.tree.words and not STANDS_FOR.search(name):
                        self.fault(line, f"no file has {name}")

    def wrong_builds(self):
        plain = re.compile(r"(?<![\w/.:-])([a-z]\w*)/(\w+)((?:, \w+_\w+)*)(?![\w/.*-])")
        for line, text in self.units:
            bare = re.sub(r"`[^`]*`|\]\([^)]*\)", lambda m: "`" * len(m[0]), text)
            crate = None
            for match in re.finditer(r"\((\w+_\w+)((?:, \w+_\w+)*)\)|" + plain.pattern, bare):
                if match[1]:
                    labels = (match[1] + match[2]).split(", ")
                    if crate is None or match[1] in self.tree.crates:
                        continue
                else:
                    if match[3] in FOLDERS or match[3] in ("target", "src", "specs", "proofs"):
                        continue
                    if match[4] in ("specs", "proofs", "src"):
                        continue
                    crate, labels = match[3], (match[4] + match[5]).split(", ")
                for label in labels:
                    self.counts["wrong"] += 1
                    if not os.path.isfile(f"crates/{crate}/must-fail/{label}.edit"):
                        self.fault(line, f"no wrong build {crate}/{label}")

    def paths(self):
        rooms = "|".join(sorted(self.tree.crates))
        named = re.compile(rf"(?<![\w/.-])((?:{'|'.join(FOLDERS)})/[\w./*+-]*|(?:{rooms})/(?:specs|proofs|src|must-fail)(?:/[\w.+-]*)?)")
        code = [(line, text) for line, text in enumerate(self.text.splitlines(), 1) if text.startswith("    ")]
        for line, text in self.units + code:
            text = re.sub(r"\]\([^)]*\)", "]", text)
            for path in named.findall(text):
                path = path.rstrip(".")
                if STANDS_FOR.search(path):
                    continue
                self.counts["paths"] += 1
                path = path if path.split("/")[0] in FOLDERS else f"crates/{path}"
                if path not in self.tree.made and (OUT.match(path) or not glob.glob(re.sub(r"-N\b", "-*", path))):
                    self.fault(line, f"no file {path}")

    def links(self):
        for line, text in self.units:
            for target in re.findall(r"\]\(([^)]+)\)", text):
                if "://" in target:
                    continue
                file, _, heading = target.partition("#")
                path = os.path.normpath(os.path.join(os.path.dirname(self.path), file)) if file else self.path
                self.counts["paths"] += 1
                if not os.path.exists(path):
                    self.fault(line, f"no file {path}")
                elif heading and heading not in headings(read(path)):
                    self.fault(line, f"{path} has no heading {heading}")

    def crates(self):
        """README only: its table and its picture of the crates."""
        section = self.text.partition("\n## The crates\n")[2].partition("\n## ")[0]
        rows = section.partition("| crate | inside | changes with |\n|---|---|---|\n")[2].partition("\n\n")[0].splitlines()
        table = [name for row in rows for name in row.split("|")[1].strip().split(", ")]
        lines = [re.split(r"\s{2,}", line.strip(), maxsplit=1) for line in section.splitlines() if line.startswith("    ")]
        drawn = [name for line in lines for name in re.findall(r"\w+", line[-1])]
        for what, names in (("table", table), ("picture", drawn)):
            for name in sorted(self.tree.crates - set(names)):
                self.fault(0, f"the {what} of the crates lacks {name}")
            for name in sorted(set(names) - self.tree.crates):
                self.fault(0, f"the {what} of the crates has {name}, which crates.txt has not")
        for name in sorted({name for name in table if table.count(name) > 1}):
            self.fault(0, f"the table of the crates has {name} twice")


def numbers(first, last):
    """The names between two that end in numbers, as those from called_11 to called_14."""
    one, other = re.fullmatch(r"(.*_)(\d+)", first), re.fullmatch(r"(.*_)(\d+)", last)
    return [one[1] + str(k) for k in range(int(one[2]) + 1, int(other[2]))] if one and other and one[1] == other[1] else []


def headings(text):
    found = re.findall(r"^#+ (.*)$", text, re.M)
    return {re.sub(r"[^\w -]", "", heading.lower()).replace(" ", "-") for heading in found}


def main():
    tree, faults, counts = Tree(), [], {}
    for path in PAGES:
        page = Page(path, tree)
        for check in (page.tables, page.citations, page.loosely, page.words, page.wrong_builds, page.paths, page.links):
            check()
        if path == "README.md":
            page.crates()
        faults += page.faults
        for what, number in page.counts.items():
            counts[what] = counts.get(what, 0) + number
    for fault in faults:
        print(fault)
    print(
        f"{counts['placed']} names with a place, {counts['near']} beside one, {counts['words']} names, {counts['wrong']} wrong builds and"
        f" {counts['paths']} paths in the pages, {len(faults)} not as they say"
    )
    return 1 if faults or not all(counts.values()) else 0


if __name__ == "__main__":
    sys.exit(main())
