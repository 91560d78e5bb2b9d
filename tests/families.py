#!/usr/bin/env python3
"""Times target/bin/reduce_sheet on eight families of sheets of 32 items, seven of 16 settings and one of 4 whose run takes slides, by the
processor seconds of the program itself (best of five), and prints its first and last line, and how many slides it took. Build it first:
make target/bin/reduce_sheet."""
import os
import random
import resource
import subprocess

TOP = os.path.join(os.path.dirname(os.path.abspath(__file__)), "..")
PROGRAM = os.path.join(TOP, "target", "bin", "reduce_sheet")


def sheet(test, size=16):
    full = (1 << size) - 1
    body = b""
    m = 0
    for i in range(32):
        for j in range(i + 1, 32):
            rows = test(i, j)
            if rows is not None and any(r != full for r in rows):
                m += 1
                body += bytes([i, j]) + b"".join(r.to_bytes(2, "big") for r in rows)
    length = 8 + 32 + len(body)
    return bytes([1]) + length.to_bytes(4, "big") + bytes([32]) + m.to_bytes(2, "big") + bytes([size]) * 32 + body


def rows(ok):
    return [sum(1 << c for c in range(16) if ok(a, c)) for a in range(16)]


# The eighth, as rust/src/generate.rs makes it: the rows of the pairs 0-1, 0-2, 0-3, 1-2, 1-3 and 2-3 of each group of four, a digit for each.
SLIDING = ["87c5b7cef6be51dc7fc7da64", "49b5e4fccf91c3ffffc567e5", "eb4a7bfcb64bfac8a79a32f1", "ff06cefbba5e01bb439c57eb",
           "fdc3cdeb5669fbd9f5d0f5b4", "fe17af654b8e4ef9a2ef579f", "2b2567ef9fee4b67bbf7c47a", "a6d0f9e78fc4f17a1cc3feef"]
PAIRS = [(0, 1), (0, 2), (0, 3), (1, 2), (1, 3), (2, 3)]


def slides(i, j):
    at = 4 * PAIRS.index((i % 4, j % 4)) if i // 4 == j // 4 else None
    return None if at is None else [int(digit, 16) for digit in SLIDING[i // 4][at:at + 4]]


rng = random.Random(1)
FAMILIES = [
    ("no block", lambda i, j: None),
    ("every pair unequal", lambda i, j: rows(lambda a, b: a != b)),
    ("every pair a < b", lambda i, j: rows(lambda a, b: a < b)),
    ("every pair of unlike parity", lambda i, j: rows(lambda a, b: (a + b) % 2 == 1)),
    ("|a - b| >= 3 for every pair", lambda i, j: rows(lambda a, b: abs(a - b) >= 3)),
    ("eight groups of four, pairwise unequal", lambda i, j: rows(lambda a, b: a != b) if i // 4 == j // 4 else None),
    ("random, 15% of pairs, 30% barred", lambda i, j: rows(lambda a, b: rng.random() >= 0.3) if rng.random() < 0.15 else None),
]


def seconds(data):
    before = resource.getrusage(resource.RUSAGE_CHILDREN)
    out = subprocess.run([PROGRAM], input=data, capture_output=True, check=True).stdout.decode().split("\n")
    after = resource.getrusage(resource.RUSAGE_CHILDREN)
    return after.ru_utime - before.ru_utime + after.ru_stime - before.ru_stime, out


SHEETS = [(name, sheet(test)) for name, test in FAMILIES] + [("eight groups of four whose runs slide", sheet(slides, 4))]
for name, data in SHEETS:
    runs = [seconds(data) for _ in range(5)]
    out = runs[0][1]
    taken = sum(" slide " in line for line in out)
    print(f"{name}: {min(r[0] for r in runs):.3f} s, {out[0]} .. {out[-2]}" + f", {taken} slides" * (taken > 0))
