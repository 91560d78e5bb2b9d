"""Every sentence that a comment of the definitions, theorems or code quotes stands in docs/FORMAT.md, word for word.

A comment puts it in double quotes; [..] leaves words out. Short quotes are words and not sentences, and are passed over.
The exit status is 1 where one does not stand there."""
import glob
import re
import sys

LEAST = 12


def plain(text):
    """The text without marks of layout, and with one space for each stretch of white."""
    return re.sub(r"\s+", " ", re.sub(r"[`*|>]|^\s*-- ", " ", text)).strip()


def comments(path):
    """The comments of a file, lines that follow each other joined."""
    mark = "//" if path.endswith(".rt") else "--"
    block = []
    with open(path, encoding="utf-8") as file:
        for line in file:
            text = line.strip()
            if text.startswith(mark):
                block.append(text[len(mark):].strip())
            elif block:
                yield " ".join(block)
                block = []
    if block:
        yield " ".join(block)


def main():
    with open("docs/FORMAT.md", encoding="utf-8") as file:
        page = plain(file.read())
    paths = sorted(
        path
        for pattern in ("crates/*/specs/*.antt", "crates/*/proofs/*.antt", "crates/*/src/*.rt")
        for path in glob.glob(pattern)
    )
    quoted = missing = 0
    for path in paths:
        for comment in comments(path):
            for quote in re.findall(r'"([^"]+)"', comment):
                for part in re.split(r"\[\.\.\]", quote):
                    part = plain(part).strip(" ,;.")
                    if len(part) < LEAST:
                        continue
                    quoted += 1
                    if part not in page:
                        missing += 1
                        print(f"{path}: not in docs/FORMAT.md: {part}")
    print(f"{quoted} sentences quoted, {missing} not in docs/FORMAT.md")
    return 1 if missing or not quoted else 0


if __name__ == "__main__":
    sys.exit(main())
