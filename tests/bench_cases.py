#!/usr/bin/env python3
"""Writes the bench cases and the answers that docs/FORMAT.md gives for them: stdin and stdout of crates/bench_sheets and crates/bench_jobs.
usage: bench_cases.py [DIRECTORY], which writes the files below that directory instead of crates/.

For the read check and the colouring file the answers come from how each case is built (which faults were put in), and are held against the
readers written here; for the other jobs they come from the jobs written here. A case on a bench sheet is also one on the moved sheet, and
the two answers are held against each other. All follow docs/FORMAT.md alone. The gate runs the programs bench_sheets and bench_jobs on the
committed files; tests/tidy compares them with what this script writes."""
import itertools
import os
import random
import re
import sys

ROOT = sys.argv[1] if len(sys.argv) == 2 else os.path.join(os.path.dirname(os.path.abspath(__file__)), "..", "crates")


def row_width(version, sizes, j):
    """How many bytes a row has of a block whose second item is j."""
    return 1 if version == 2 and j < len(sizes) and sizes[j] <= 8 else 2


def row_bytes(version, sizes, j, rows):
    return b"".join(r.to_bytes(row_width(version, sizes, j), "big") for r in rows)


def sheet(sizes, blocks, version=1, stated=None, n=None, m=None, extra=b""):
    body = bytes(sizes)
    for i, j, rows in blocks:
        body += bytes([i, j]) + row_bytes(version, sizes, j, rows)
    body += extra
    total = 8 + len(body) if stated is None else stated
    n = len(sizes) if n is None else n
    m = len(blocks) if m is None else m
    return bytes([version]) + total.to_bytes(4, "big") + bytes([n]) + m.to_bytes(2, "big") + body


def rows_at(s, p, sizes, i, j):
    """The rows from byte p on of a block of items i and j, as words, and the place after them; None for rows that are cut short."""
    width = row_width(s[0], sizes, j)
    end = p + width * sizes[i]
    return ([int.from_bytes(s[q:q + width], "big") for q in range(p, end, width)] if end <= len(s) else None), end


def read(s):
    """The number of the first refusal, or (n, m)."""
    if len(s) < 8:
        return 1
    if s[0] not in (1, 2):
        return 2
    if int.from_bytes(s[1:5], "big") != len(s):
        return 3
    n, m = s[5], int.from_bytes(s[6:8], "big")
    if n == 0 or n > 32:
        return 4
    sizes = s[8:8 + n]
    if len(sizes) < n or any(z == 0 or z > 16 for z in sizes):
        return 5
    p, before = 8 + n, None
    for _ in range(m):
        if len(s) < p + 2:
            return 6
        i, j = s[p], s[p + 1]
        if not (i < j < n) or (before is not None and (i, j) <= before):
            return 7
        before = (i, j)
        rows, p = rows_at(s, p + 2, sizes, i, j)
        if rows is None:
            return 6
        if any(r >> sizes[j] for r in rows):
            return 8
        if all(r == (1 << sizes[j]) - 1 for r in rows):
            return 9
    if p != len(s):
        return 6
    return (n, m)


class Problem:
    def __init__(self, s):
        self.n = s[5]
        self.sizes = list(s[8:8 + self.n])
        self.rows = {}
        p = 8 + self.n
        for _ in range(int.from_bytes(s[6:8], "big")):
            i, j = s[p], s[p + 1]
            self.rows[i, j], p = rows_at(s, p + 2, self.sizes, i, j)

    def ok(self, i, a, j, b):
        if i > j:
            i, a, j, b = j, b, i, a
        return (i, j) not in self.rows or bool(self.rows[i, j][a] >> b & 1)

    def full(self):
        return set(range(self.n)), [set(range(z)) for z in self.sizes]


def moved(s):
    """The sheet in the other version."""
    P = Problem(s)
    return sheet(P.sizes, [(i, j, rows) for (i, j), rows in P.rows.items()], 3 - s[0])


cases = {"bench_sheets": [], "bench_jobs": []}


def case(name, job, expected, *fields):
    program = "bench_jobs" if job in ("colo", "move") else "bench_sheets"
    cases[program].append((name, job, [f.hex() for f in fields], expected))


def in_both_versions(give):
    """Makes of a function that gives a case on a sheet one that gives it on the moved sheet too, where the sheet is one of `bench` or `wide`:
    every job but the move answers alike on both."""
    def give_both(name, s, *rest, **more):
        told = give(name, s, *rest, **more)
        if s in bench.values() or s in wide.values():
            answer = cases["bench_sheets"][-1][3]
            give(f"{name}, version 2", moved(s), *rest, **more)
            assert cases["bench_sheets"][-1][3] == answer, name
        return told
    return give_both


@in_both_versions
def reading(name, s, expected):
    got = read(s)
    assert got == expected, (name, got, expected)
    case(name, "read", f"refused {expected}" if isinstance(expected, int) else "accepted %d %d" % expected, s)


X = bytes.fromhex
NE2 = [2, 1]          # unequal, two settings each
B = sheet([2, 2], [(0, 1, NE2)])
C = sheet([2, 2, 2], [(0, 1, NE2), (0, 2, NE2), (1, 2, NE2)])
bench = {
    "A": sheet([2], []),
    "B": B,
    "C": C,
    "D": sheet([1, 1], [(0, 1, [0])]),
    "E": sheet([2] * 4, [(0, 1, NE2), (0, 2, NE2), (0, 3, NE2)]),
    "F": sheet([3] * 3, [(0, 1, [6, 5, 3]), (0, 2, [6, 5, 3]), (1, 2, [1, 3, 7])]),
    "G": sheet([2] * 4, [(0, 1, NE2), (0, 2, NE2), (0, 3, [1, 2]), (1, 2, NE2)]),
    "H": sheet([3, 2, 2], [(0, 1, [2, 1, 2]), (0, 2, [2, 1, 2]), (1, 2, NE2)]),
    "K": sheet([3, 2, 2], [(0, 1, [1, 2, 1]), (0, 2, [2, 1, 1]), (1, 2, [2, 3])]),
    "L": sheet([3, 3, 2], [(0, 1, [6, 1, 4]), (0, 2, [1, 1, 3]), (1, 2, [1, 3, 2])]),
}


def near(i, j):
    """Rows for items of i and j settings: setting a is allowed with a and a + 1, as far as there are these, or else with 0."""
    return [((3 << a) & ((1 << j) - 1)) or 1 for a in range(i)]


# items of 8 settings and of 9: in version 2 the widths differ by j, and not by i
wide = {
    "8 and 9": sheet([8, 9], [(0, 1, near(8, 9))]),
    "9 and 8": sheet([9, 8], [(0, 1, near(9, 8))]),
    "8, 9 and 8": sheet([8, 9, 8], [(0, 1, near(8, 9)), (1, 2, [1 << a for a in range(8)] + [1])]),
    "9, 8 and 9": sheet([9, 8, 9], [(0, 1, near(9, 8)), (0, 2, near(9, 9)), (1, 2, near(8, 9))]),
    "9 and 16": sheet([9, 16], [(0, 1, near(9, 16))]),
}
# version 2 as docs/FORMAT.md has it, "The sheet"
assert moved(B) == X("02 0000000e 02 0001 0202 0001 02 01")
assert moved(wide["8, 9 and 8"]) == X("02 00000028 03 0002 080908 0001 0003 0006 000c 0018 0030 0060 00c0 0180"
                                      "0102 01 02 04 08 10 20 40 80 01")
for name, s in [*bench.items(), *wide.items()]:
    assert moved(moved(s)) == s, name
    reading(f"sheet {name}", s, (s[5], int.from_bytes(s[6:8], "big")))


def readings(name, expected, *parts, **more):
    """The sheet of these parts, by the widths of each version."""
    for version in (1, 2):
        reading(name + ", version 2" * (version - 1), sheet(*parts, version=version, **more), expected)


readings("B with first row 4", 8, [2, 2], [(0, 1, [4, 1])])
readings("B with both rows 3", 9, [2, 2], [(0, 1, [3, 3])])
readings("n 33", 4, [2] * 33, [])
readings("size 17", 5, [17], [])
readings("a block that bars everything", (2, 1), [2, 2], [(0, 1, [0, 0])])
readings("n 32", (32, 0), [2] * 32, [])
readings("size 16", (2, 1), [16, 16], [(0, 1, [65534] * 16)])

# Faults in the order of the table's rows. Each is a change of the parts that a sheet is made of, so that two can stand together, the later
# one in a later block. A sheet that ends early (item bytes missing, rows cut) has nothing after that, so it has no later fault.
ROWS = ["1", "2", "3", "4", "5", "6 item bytes", "7", "6 rows", "8", "9", "6 left over"]
NUMBER = [1, 2, 3, 4, 5, 6, 7, 6, 8, 9, 6]


def build(faults, version=1):
    """A sheet of three items of two settings and three blocks with these faults (indices into ROWS), by the widths of this version."""
    f = set(faults)
    sizes = [2, 2, 2]
    blocks = [[0, 1, [2, 1]], [0, 2, [2, 1]], [1, 2, [2, 1]]]
    # one fault a block, in the order of the rows
    where = {}
    for k in sorted(x for x in f if 5 <= x <= 9):
        where[k] = len(where)
    extra, m = b"", None
    cut = None
    for k, b in where.items():
        if k == 6:
            blocks[b][0], blocks[b][1] = blocks[b][1], blocks[b][0]
        if k == 8:
            blocks[b][2] = [4, 1]
        if k == 9:
            blocks[b][2] = [3, 3]
        if k == 5:
            cut = ("items", b)
        if k == 7:
            cut = cut or ("rows", b)
    if 4 in f:
        sizes[1] = 17
    body = bytes(sizes)
    parts = []
    for i, j, rows in blocks:
        parts.append((bytes([i, j]), row_bytes(version, sizes, j, rows)))
    if cut:
        kind, b = cut
        body += b"".join(x + y for x, y in parts[:b]) + (parts[b][0][:1] if kind == "items" else parts[b][0] + parts[b][1][:1])
    else:
        body += b"".join(x + y for x, y in parts)
    if 10 in f:
        body += b"\0"
    n = 33 if 3 in f else 3
    total = 8 + len(body) + (1 if 2 in f else 0)
    s = bytes([3 if 1 in f else version]) + total.to_bytes(4, "big") + bytes([n]) + (3).to_bytes(2, "big") + body
    if 0 in f:
        s = s[:7]
    return s


done = set()
for version in (1, 2):
    suffix = ", version 2" * (version - 1)
    for a in range(len(ROWS)):
        s = build([a], version)
        reading(f"{ROWS[a]} alone{suffix}", s, NUMBER[a])
        for b in range(a + 1, len(ROWS)):
            if a in (5, 7):
                continue
            s = build([a, b], version)
            assert read(build([b], version)) == NUMBER[b]
            reading(f"{ROWS[a]} with {ROWS[b]}{suffix}", s, NUMBER[a])
            done.add((a, b))
missing = [(ROWS[a], ROWS[b]) for a in range(11) for b in range(a + 1, 11) if (a, b) not in done]
print("pairs of faults that no one sheet has:", missing)

# two faults of one block: 7 before cut rows, 8 before 9 (one row beyond, one full), and places of a block
readings("7 and rows cut in one block", 7, [2, 2], [(1, 0, [2])])
readings("7 and 8 in one block", 7, [2, 2], [(1, 0, [4, 1])])
readings("7 and 9 in one block", 7, [2, 2], [(1, 0, [3, 3])])
readings("rows cut and 8 in one block", 6, [2, 2], [(0, 1, [4])])
readings("8 in the second row only", 8, [2, 2], [(0, 1, [3, 7])])
readings("9 of a block before 7 of the next", 9, [2, 2, 2], [(0, 1, [3, 3]), (0, 1, NE2)])
readings("a pair twice", 7, [2, 2, 2], [(0, 1, NE2), (0, 1, NE2)])
readings("pairs falling", 7, [2, 2, 2], [(0, 2, NE2), (0, 1, NE2)])
readings("j is n", 7, [2, 2], [(0, 2, NE2)])
readings("i is j", 7, [2, 2], [(1, 1, NE2)])
readings("i 255", 7, [2, 2], [(255, 1, NE2)])
readings("no item byte", 6, [2, 2], [], m=1)
readings("one item byte", 6, [2, 2], [], m=1, extra=b"\0")
readings("no row byte", 6, [2, 2], [], m=1, extra=b"\0\1")
readings("one byte left over", 6, [2, 2], [(0, 1, NE2)], extra=b"\0")
readings("blocks left over", 6, [2, 2], [(0, 1, NE2)], m=0)
reading("no byte", b"", 1)
reading("seven bytes", B[:7], 1)
readings("eight bytes, n 1", 5, [], [], n=1)
readings("n 0", 4, [], [])
readings("size 0", 5, [2, 0], [])
for version in (0, 3, 255):
    reading(f"version {version}", sheet([2], [], version=version), 2)
    reading(f"version {version}, rows of two bytes", bytes([version]) + B[1:], 2)
    reading(f"version {version}, rows of one byte", bytes([version]) + moved(B)[1:], 2)
readings("stated length one more", 3, [2], [], stated=10)
readings("stated length one less", 3, [2], [], stated=8)
readings("stated length with a high byte", 3, [2], [], stated=9 + (1 << 24))

# rows by the size of j: one that is full, a block that bars nothing, and a bit beyond where a row has room for one
for z in range(1, 17):
    full = (1 << z) - 1
    for version in (1, 2) if z in (7, 8, 9) else (2,):
        name, width = f"j of {z} settings, version {version}", 1 if version == 2 and z < 9 else 2
        accepted = sheet([2, z], [(0, 1, [full, full - 1])], version)
        assert len(accepted) == 12 + 2 * width
        reading(f"{name}, a full row", accepted, (2, 1))
        reading(f"{name}, two full rows", sheet([2, z], [(0, 1, [full, full])], version), 9)
        if z < 8 * width:
            reading(f"{name}, a bit beyond", sheet([2, z], [(0, 1, [0, full + 1])], version), 8)


def mended(s):
    """The sheet with its own length stated."""
    return s[:1] + len(s).to_bytes(4, "big") + s[5:]


# a byte less and a byte more, the stated length mended and not
for name, s in (("B", B), ("F", bench["F"]), *wide.items()):
    s = moved(s)
    reading(f"{name} in version 2, a byte less", s[:-1], 3)
    reading(f"{name} in version 2, a byte less, mended", mended(s[:-1]), 6)
    reading(f"{name} in version 2, a byte more", s + b"\0", 3)
    reading(f"{name} in version 2, a byte more, mended", mended(s + b"\0"), 6)
# The rows of one version under byte 0 of the other. Read as version 2, those of version 1 leave bytes over; where another block is stated,
# bytes of rows stand in the place of its items. Read as version 1, those of version 2 are cut short, or two make a row with a bit beyond.
# Where no block's j has 8 settings or fewer there is no fault: the versions differ in byte 0 only.
AS_OTHER = {
    "B": (6, 6), "C": (7, 8), "D": (6, 6), "E": (7, 8), "F": (7, 8), "G": (7, 8), "H": (7, 8), "K": (7, 8), "L": (7, 8), "9 and 8": (6, 6),
    "8, 9 and 8": (6, 6), "9, 8 and 9": (7, 8),
}
for name, s in [*bench.items(), *wide.items()]:
    if name in AS_OTHER:
        reading(f"{name}, rows of version 1 under version 2", b"\2" + s[1:], AS_OTHER[name][0])
        reading(f"{name}, rows of version 2 under version 1", b"\1" + moved(s)[1:], AS_OTHER[name][1])
    else:
        assert moved(s) == b"\2" + s[1:]


def unequal(n, z, version=1):
    """n items of z settings, every pair unequal."""
    rows = [(1 << z) - 1 - (1 << a) for a in range(z)]
    return sheet([z] * n, [(i, j, rows) for i in range(n) for j in range(i + 1, n)], version)


longest = unequal(32, 16)
assert len(longest) == 16904
reading("the longest sheet", longest, (32, 496))
reading("the longest sheet, version 2", unequal(32, 16, 2), (32, 496))
reading("the longest sheet and a byte", longest + b"\0", 3)

# ---- The jobs, written here for the expected answers. A state is (set of items in, list of sets of settings on).


def spoiler(P, st, i, a, j, b, l):
    """The lowest setting on at l that is allowed with b of j and barred with a of i, or None: a covers b at l."""
    return next((c for c in sorted(st[1][l]) if P.ok(j, b, l, c) and not P.ok(i, a, l, c)), None)


def others(st, *without):
    return [l for l in sorted(st[0]) if l not in without]


def breach(P, st, i, a, j, b, *without):
    """The lowest item in, these left out, at which a of i does not cover b of j, and the setting that spoils it; or None."""
    spoilt = ((l, spoiler(P, st, i, a, j, b, l)) for l in others(st, *without))
    return next(((l, c) for l, c in spoilt if c is not None), None)


def snake_fix(P, st, i, v, j, w):
    return [x for x in sorted(st[1][j]) if P.ok(i, v, j, x) and breach(P, st, j, x, j, w, i, j) is None]


def fold_fix(P, st, i, j, v):
    return [u for u in sorted(st[1][i]) if P.ok(i, u, j, v) and breach(P, st, i, u, j, v, i, j) is None]


def inside(P, st, i, *values):
    return i in st[0] and all(v in st[1][i] for v in values)


def holds(P, st, r, spares=True):
    """Whether the rule of the record holds. The slide rule spares i; that of before, which no job has, does not."""
    kind, i = r[0], r[1]
    if kind == 1:
        b, k = r[2], r[3]
        return inside(P, st, i, b) and k in st[0] and k != i and not any(P.ok(i, b, k, c) for c in st[1][k])
    if kind == 2:
        v = r[2]
        return inside(P, st, i, v) and all(P.ok(i, v, j, w) or snake_fix(P, st, i, v, j, w) for j in others(st, i) for w in st[1][j])
    if kind == 3:
        j = r[2]
        return i in st[0] and j in st[0] and j != i and all(fold_fix(P, st, i, j, v) for v in st[1][j])
    b, a = r[2], r[3]
    if not inside(P, st, i, b, a) or a == b:
        return False
    if kind == 4:
        return breach(P, st, i, a, i, b, i) is None
    return all(any(P.ok(i, a, k, e) and breach(P, st, k, e, k, d, i if spares else k, k) is None for e in st[1][k])
               for k in others(st, i) for d in st[1][k] if P.ok(i, b, k, d))


def empty(st):
    return any(not st[1][i] for i in st[0])


def named(P, st, r):
    """The item and the setting that 17 of this record carries: those of a cover that breaks, and 255 for every other cause."""
    kind, i, b, a = (*r, None)[:4]
    if kind != 4 or a == b or not inside(P, st, i, b, a) or empty(st):
        return 255, 255
    return breach(P, st, i, a, i, b, i)


def after(P, st, r):
    on = [set(x) for x in st[1]]
    i = r[1]
    if r[0] in (2, 3):
        on = [{w for w in x if any(P.ok(j, w, i, c) for c in st[1][i])} if j != i and j in st[0] else set() for j, x in enumerate(on)]
        return st[0] - {i}, on
    on[i].discard(r[2])
    return set(st[0]), on


def candidates(P):
    n, z = range(P.n), P.sizes
    yield from ((1, i, b, k) for i in n for b in range(z[i]) for k in n)
    yield from ((2, i, v) for i in n for v in range(z[i]))
    yield from ((3, i, j) for i in n for j in n)
    yield from ((4, i, b, a) for i in n for b in range(z[i]) for a in range(z[i]))
    yield from ((5, i, b, a) for i in n for b in range(z[i]) for a in range(z[i]))


def run(P, spares=True):
    st, trace = P.full(), []
    while not empty(st):
        r = next((r for r in candidates(P) if holds(P, st, r, spares)), None)
        if r is None:
            break
        trace.append(r)
        st = after(P, st, r)
    return trace, st, 0 if empty(st) else 2 if st[0] else 1


def trace_bytes(trace):
    return b"\1" + b"".join(bytes([len(r)]) + bytes(r) for r in trace)


def state_bytes(st):
    on = [sum(1 << c for c in x) for x in st[1]] + [0] * (32 - len(st[1]))
    return sum(1 << i for i in st[0]).to_bytes(4, "big") + b"".join(x.to_bytes(2, "big") for x in on)


NO_STATE = bytes(68)


def pattern(k):
    return bytes((37 * x + 11) % 251 for x in range(k))


def run_job(s, buffer):
    got = read(s)
    if isinstance(got, int):
        return f"refused {got} {buffer.hex()}"
    P = Problem(s)
    if len(buffer) < 1 + 5 * sum(P.sizes):
        return f"refused 10 {buffer.hex()}"
    trace, st, end = run(P)
    w = trace_bytes(trace)
    return f"done {end} {len(trace)} {len(w)} {state_bytes(st).hex()} {(w + buffer[len(w):]).hex()}"


def start_job(s):
    got = read(s)
    if isinstance(got, int):
        return f"refused {got} {NO_STATE.hex()}"
    P = Problem(s)
    st = P.full()
    while True:
        on = [{a for a in x if all(any(P.ok(i, a, j, b) for b in st[1][j]) for j in range(P.n) if j != i)} for i, x in enumerate(st[1])]
        if on == st[1]:
            return f"started {state_bytes(st).hex()}"
        st = st[0], on


def hand_job(s, state, item):
    got = read(s)
    if isinstance(got, int):
        return f"refused {got} {state.hex()}"
    P = Problem(s)
    bits = int.from_bytes(state[:4], "big")
    on = [int.from_bytes(state[4 + 2 * i:6 + 2 * i], "big") for i in range(32)]
    if bits >> P.n or any(on[i] and (not bits >> i & 1 or on[i] >> (P.sizes[i] if i < P.n else 0)) for i in range(32)):
        return f"refused 11 {state.hex()}"
    st = {i for i in range(P.n) if bits >> i & 1}, [{c for c in range(16) if on[i] >> c & 1} for i in range(P.n)]
    if item not in st[0]:
        return f"refused 12 {state.hex()}"
    if empty(st):
        return f"refused 13 {state.hex()}"
    v = next((v for v in range(16) if holds(P, st, (2, item, v))), None)
    if v is None:
        return f"refused 14 {state.hex()}"
    return f"taken {v} {state_bytes(after(P, st, (2, item, v))).hex()}"


def put_back_job(s, trace, plan, out):
    def refused(*numbers):
        return f"refused {' '.join(map(str, numbers))} {out.hex()}"

    got = read(s)
    if isinstance(got, int):
        return refused(got)
    P = Problem(s)
    if len(plan) != P.n:
        return refused(18)
    if len(out) != P.n:
        return refused(20)
    if not trace or trace[0] != 1:
        return refused(15)
    st, p, done = P.full(), 1, []
    while p < len(trace):
        size = trace[p]
        if p + 1 >= len(trace) or trace[p + 1] not in (1, 2, 3, 4, 5) or size != (3 if trace[p + 1] in (2, 3) else 4) or p + size >= len(trace):
            return refused(16)
        r = tuple(trace[p + 1:p + 1 + size])
        if empty(st) or not holds(P, st, r):
            return refused(17, len(done), *named(P, st, r))
        done.append((st, r))
        st = after(P, st, r)
        p += 1 + size
    x = list(plan)
    if any(x[i] != 255 for i in range(P.n) if i not in st[0]) or any(x[i] not in st[1][i] for i in st[0]):
        return refused(19)
    if not agrees(P, st[0], x):
        return refused(19)
    return f"done {undone(P, done, x).hex()}"


def agrees(P, items, x):
    """Whether each two of these items have an allowed pair."""
    return all(P.ok(i, x[i], j, x[j]) for i in items for j in items if i < j)


def undone(P, steps, plan):
    """The plan of the full sheet: the steps, each with the state before it, undone last first."""
    x = list(plan)
    for before, r in reversed(steps):
        if r[0] == 2:
            i, v = r[1], r[2]
            for j in others(before, i):
                if not P.ok(i, v, j, x[j]):
                    x[j] = snake_fix(P, before, i, v, j, x[j])[0]
            x[i] = v
        if r[0] == 3:
            x[r[1]] = fold_fix(P, before, r[1], r[2], x[r[2]])[0]
    assert agrees(P, range(P.n), x)
    return bytes(x)


def plans(P, st):
    """The plans of a state in order, items rising and settings rising, with 255 for each item out: of all choices those that agree."""
    choices = itertools.product(*(sorted(st[1][i]) if i in st[0] else [255] for i in range(P.n)))
    return (x for x in choices if agrees(P, st[0], x))


def pick_job(s, buffer, plan):
    """The run's answer, with another word, and the plan behind it."""
    word, ran = run_job(s, buffer).split(" ", 1)
    if word == "refused":
        return f"{word} {ran} {plan.hex()}"
    P = Problem(s)
    if len(plan) != P.n:
        return f"refused 20 {buffer.hex()} {plan.hex()}"
    trace, st, _ = run(P)
    first = next(plans(P, st), None)
    if first is not None:
        states = [P.full()]
        for r in trace:
            states.append(after(P, states[-1], r))
        plan = undone(P, list(zip(states, trace)), first)
    # "none" speaks of the full sheet
    assert (first is None) == (next(plans(P, P.full()), None) is None)
    return f"{'none' if first is None else 'plan'} {ran} {plan.hex()}"


# ---- the run

RUNS = {  # the traces that docs/FORMAT.md gives under "Bench sheets", byte for byte
    "A": "0103020000", "B": "010302000003020100", "C": "01", "D": "010401000001",
    "F": "0103020001" "03020100" "03020200", "G": "0103030300", "H": "010404000002",
    "K": "010405000200" "03030100" "03020000" "03020200", "L": "010405000100" "0401010000",
}


@in_both_versions
def running(name, s, long):
    case(name, "work", run_job(s, pattern(long)), long.to_bytes(2, "big"), s)


for name, s in bench.items():
    need = 1 + 5 * sum(s[8:8 + s[5]])
    if name in RUNS:
        assert trace_bytes(run(Problem(s))[0]).hex() == RUNS[name], name
    running(f"run {name}, a longer buffer", s, need + 9)
    running(f"run {name}, a buffer just long enough", s, need)
    running(f"run {name}, a buffer one byte too short", s, need - 1)
assert trace_bytes(run(Problem(bench["E"]))[0])[:5].hex() == "0103020000"
for name, s in wide.items():
    running(f"run {name}", s, 1 + 5 * sum(s[8:8 + s[5]]))
running("run with no buffer", B, 0)
running("run of a refused sheet with no buffer", B[:7], 0)
running("run of a refused sheet", sheet([2, 2], [(0, 1, [4, 1])]), 40)

# by the slide rule of before K and L have no step
for name in "KL":
    assert run(Problem(bench[name]), spares=False)[0] == [], name

rng = random.Random(20260917)


def random_sheet(n, z, share, bar):
    sizes = [rng.randint(1, z) for _ in range(n)]
    blocks = []
    for i in range(n):
        for j in range(i + 1, n):
            rows = [sum(1 << c for c in range(sizes[j]) if rng.random() >= bar) for _ in range(sizes[i])]
            if rng.random() < share and any(r != (1 << sizes[j]) - 1 for r in rows):
                blocks.append((i, j, rows))
    return sheet(sizes, blocks)


for k in range(40):
    s = random_sheet(rng.randint(2, 5), 4, 0.8, rng.choice([0.2, 0.4, 0.6]))
    running(f"random run {k}", s, 1 + 5 * sum(s[8:8 + s[5]]) + rng.randint(0, 3))


def linked_sheet(rng, n, bar):
    """A sheet of n items of 4 settings with a block for each pair, but where nothing is barred."""
    blocks = [(i, j, [sum(1 << c for c in range(4) if rng.random() >= bar) for _ in range(4)]) for i in range(n) for j in range(i + 1, n)]
    return sheet([4] * n, [b for b in blocks if b[2] != [15] * 4])


# Runs with slides: 16 of them, and 8 in which a bare step follows one. Each begins as by the slide rule of before, which took no slide, and
# goes on with one that this rule does not allow.
slide_rng = random.Random(20261204)
sliding = []
wanted = {False: 16, True: 8}
while any(wanted.values()):
    s = linked_sheet(slide_rng, *slide_rng.choice([(3, 0.5), (4, 0.4)]))
    P = Problem(s)
    trace = run(P)[0]
    kinds = [r[0] for r in trace]
    bare_after = (5, 1) in zip(kinds, kinds[1:])
    if 5 not in kinds or not wanted[bare_after]:
        continue
    wanted[bare_after] -= 1
    trace_before, reached, _ = run(P, spares=False)
    first = trace[len(trace_before)]
    assert trace[:len(trace_before)] == trace_before and 5 not in [r[0] for r in trace_before]
    assert first[0] == 5 and holds(P, reached, first) and not holds(P, reached, first, spares=False)
    running(f"a run with slides {len(sliding)}" + ", a bare step after one" * bare_after, s, 1 + 5 * sum(P.sizes))
    sliding.append(s)


# ---- taking out by hand


@in_both_versions
def starting(name, s):
    case(name, "star", start_job(s), s)
    return bytes.fromhex(start_job(s).split()[-1])


@in_both_versions
def hand(name, s, state, item, expected=None):
    answer = hand_job(s, state, item)
    assert expected is None or answer.startswith(expected), (name, answer)
    case(name, "hand", answer, item.to_bytes(8, "big"), state, s)
    return bytes.fromhex(answer.split()[-1])


for name, s in bench.items():
    starting(f"start of {name}", s)
for name, s in wide.items():
    hand(f"{name} by hand, the last item", s, starting(f"start of {name}", s), s[5] - 1)
starting("start of a refused sheet", B[:7])
starting("one emptied item empties all", sheet([2, 1, 1], [(1, 2, [0])]))
lone = sheet([1, 2], [(0, 1, [1])])
starting("start that crosses a setting off", lone)
C0 = starting("start of C", C)
hand("C by hand, item 0", C, C0, 0, "refused 14")
hand("C by hand, item 3", C, C0, 3, "refused 12")
for item in (31, 32, 255, 65536, 1 << 32, (1 << 32) + 1, (1 << 64) - 1):
    hand(f"C by hand, item {item}", C, C0, item, "refused 12")
D0 = starting("start of D", bench["D"])
hand("D from the start", bench["D"], D0, 0, "refused 13")
full_lone = state_bytes(Problem(lone).full())
hand("item 0 leaves only setting 0 on at item 1", lone, full_lone, 0, "taken 0")
F0 = starting("start of F", bench["F"])
hand("F, item 0 goes with setting 1", bench["F"], F0, 0, "taken 1")
# every cause of 11: an item in not below n, an item out with a setting on, a setting on not below its size; and 11 before 12
def with_bits(state, active=None, domain=None):
    b = bytearray(state)
    if active is not None:
        b[:4] = active.to_bytes(4, "big")
    if domain is not None:
        b[4 + 2 * domain[0]:6 + 2 * domain[0]] = domain[1].to_bytes(2, "big")
    return bytes(b)


hand("11: item 3 in", C, with_bits(C0, active=15), 0, "refused 11")
hand("11: item 31 in", C, with_bits(C0, active=7 + (1 << 31)), 9, "refused 11")
hand("11: item 2 out with settings on", C, with_bits(C0, active=3), 9, "refused 11")
hand("11: item 5 has a setting on", C, with_bits(C0, domain=(5, 1)), 0, "refused 11")
hand("11: setting 2 on at item 1", C, with_bits(C0, domain=(1, 7)), 0, "refused 11")
hand("11: setting 15 on at item 0", C, with_bits(C0, domain=(0, 0x8003)), 0, "refused 11")
hand("11 before 13", C, with_bits(C0, active=15, domain=(0, 0)), 0, "refused 11")
hand("12 before 13", C, with_bits(C0, domain=(0, 0)), 7, "refused 12")
hand("13 at another item than the named", C, with_bits(C0, domain=(2, 0)), 0, "refused 13")
hand("a refused start's state", C, NO_STATE, 0, "refused 12")
hand("a refused sheet first", B[:7], C0, 0, "refused 1")

# lists of calls in several orders end alike once they are finished: as many rounds as there are items finish
def orders(name, s, lists):
    ends = set()
    for order in lists:
        state = bytes.fromhex(start_job(s).split()[-1])
        for item in order * s[5]:
            state = hand(f"{name} by hand, {order}, item {item}", s, state, item)
        ends.add(state)
    assert len(ends) == 1, name


orders("E", bench["E"], ([0, 1, 2, 3], [3, 2, 1, 0], [2, 0, 0, 9, 3, 1]))
orders("F", bench["F"], ([0, 1, 2], [2, 1, 0]))
for k in range(8):
    orders(f"random {k}", random_sheet(4, 3, 0.7, 0.3), ([0, 1, 2, 3], [3, 2, 1, 0]))

# ---- putting back


@in_both_versions
def back(name, s, trace, plan, out=None, expected=None):
    out = pattern(len(plan)) if out is None else out
    answer = put_back_job(s, trace, plan, out)
    assert expected is None or answer.startswith(expected), (name, answer)
    case(name, "back", answer, s, trace, plan, out)


def own(s):
    return trace_bytes(run(Problem(s))[0])


F = bench["F"]
back("B", B, own(B), X("ffff"), expected="done 0001")
back("F", F, own(F), X("ffffff"), expected="done 010000")
back("J", C, b"\1", X("000100"), expected="refused 19")
back("a removal elsewhere", lone, X("0103020000"), X("ff01"), expected="refused 19")
back("a setting that stayed", lone, X("0103020000"), X("ff00"), expected="done 0000")
slide = sheet([2, 2], [(0, 1, [3, 2])])
assert holds(Problem(slide), Problem(slide).full(), (5, 0, 0, 1), spares=False)
back("a slide that the rule of before allows too", slide, X("010405000001"), X("0101"), expected="done 0101")
back("a slide that it does not allow", B, X("010405000001"), X("0100"), expected="done 0100")
back("a slide that it does not allow, and a barred pair", B, X("010405000001"), X("0101"), expected="refused 19")
back("a slide that it does not allow, and the setting that went off", B, X("010405000001"), X("0001"), expected="refused 19")
back("a slide that neither allows", C, X("010405000001"), X("010101"), expected="refused 17 0 255 255")
back("K", bench["K"], own(bench["K"]), X("ffffff"), expected="done 000001")
back("L", bench["L"], own(bench["L"]), X("000100"), expected="done 000100")
back("L, with the setting that was bare after the slide", bench["L"], own(bench["L"]), X("000000"), expected="refused 19")
for name, s in wide.items():
    trace, st, _ = run(Problem(s))
    back(f"{name}, a plan of what is left", s, trace_bytes(trace), bytes(next(plans(Problem(s), st))), expected="done")
choice = sheet([3, 3], [(0, 1, [6, 5, 3])])
back("the lowest w'", choice, X("0103020000"), X("ff00"), expected="done 0001")
back("the lowest u", choice, X("0103030001"), X("ff00"), expected="done 0100")
folded = sheet([2, 2, 2], [(0, 1, [1, 2]), (1, 2, [1, 3])])
back("a fold with an item out", folded, X("010302020003030100"), X("00ffff"), expected="done 000000")
back("a fold too early", folded, X("0103030100"), X("00ff00"), expected="refused 17")
barred = bench["D"]
back("an emptied item and no further record", barred, X("010401000001"), X("ffff"), expected="refused 19")
back("a record after an emptied item", barred, X("01040100000103020100"), X("ffff"), expected="refused 17")
back("a malformed record after an emptied item", barred, X("0104010000010302"), X("ffff"), expected="refused 16")
back("255 for an item in", C, b"\1", X("ff0100"), expected="refused 19")
for r, name in (("0302", "cut after the kind"), ("03", "a stray byte"), ("00", "length byte 0"), ("0306000000", "kind 6"), ("0300000000", "kind 0"),
                ("0402000000", "length byte 4 for kind 2"), ("0301000000", "length byte 3 for kind 1"), ("030200", "cut in the fields")):
    back(f"16: {name}", C, X("01" + r), X("000000"), expected="refused 16")
for r, name in (("0302ff00", "item 255"), ("030200ff", "setting 255"), ("03020020", "setting 32"), ("03022000", "item 32"), ("03030000", "a fold with itself"),
                ("0404000000", "a cover by itself"), ("0401000000", "bare at its own item")):
    back(f"17: {name}", C, X("01" + r), X("000000"), expected="refused 17")
back("17 of record 0 before 16 of record 1", C, X("0103020000" "0302"), X("000000"), expected="refused 17")
# every refusal alone and with the later ones, in the order sheet, 18, 20, 15, 16, 17, 19
bad = {"sheet": B[:7], "trace 15": X("02"), "trace 16": X("0103"), "trace 17": X("0103020000"), "plan": X("000000")}
for sheet_bad in (False, True):
    for plan_bad in (False, True):
        for out_bad in (False, True):
            for t, tn in ((b"\1", "good"), (b"", "empty"), (X("02"), "15"), (X("0103"), "16"), (X("0103020000"), "17")):
                back(f"faults: sheet {sheet_bad}, 18 {plan_bad}, 20 {out_bad}, trace {tn}, 19", C[:7] if sheet_bad else C, t,
                     X("0000") if plan_bad else X("000000"), X("aabbccdd") if out_bad else X("aabbcc"))
# a trace of 512 records, and one more: each item loses fifteen settings to the last, and goes out with it
free = sheet([16] * 32, [])
many = [r for i in range(32) for r in [(4, i, b, 15) for b in range(15)] + [(2, i, 15)]]
assert len(many) == 512
back("512 records", free, trace_bytes(many), b"\xff" * 32, expected="done " + "0f" * 32)
back("one record more", free, trace_bytes(many + [(2, 0, 15)]), b"\xff" * 32, expected="refused 17")
# what 17 carries: each cause by name. A putting back refused with 17 for its last record, which has this number; the plan is not looked at
def unlawful(name, s, records, item=255, setting=255, behind=b""):
    out = pattern(s[5])
    back(f"17: {name}", s, trace_bytes(records) + behind, bytes(s[5]), out, f"refused 17 {len(records) - 1} {item} {setting} {out.hex()}")


def spoilt(sizes, i, *bars):
    """A sheet in which setting 1 of item i is barred with these settings (item, setting), and all else is allowed: but for these, setting
    1 covers setting 0, and every setting covers setting 1."""
    blocks = []
    for l in sorted({l for l, _ in bars}):
        barred, (low, high) = {c for k, c in bars if k == l}, sorted((i, l))
        ok = [[not ((x if i == low else y) == 1 and (y if i == low else x) in barred) for y in range(sizes[high])] for x in range(sizes[low])]
        blocks.append((low, high, [sum(1 << y for y in range(sizes[high]) if row[y]) for row in ok]))
    return sheet(sizes, sorted(blocks))


THREES = [3] * 4
for i, at in itertools.permutations(range(4), 2):
    place = {0: "the first", 3: "the last"}.get(at, "a middle")
    unlawful(f"a cover at item {i} breaks at {place} item, {at}", spoilt(THREES, i, (at, (i + at) % 3)), [(4, i, 0, 1)], at, (i + at) % 3)
twice = spoilt(THREES, 1, (0, 2), (3, 0))
unlawful("a cover breaks at two items, the lower is named", twice, [(4, 1, 0, 1)], 0, 2)
unlawful("another b, the same break", twice, [(4, 1, 2, 1)], 0, 2)
back("the other way round nothing breaks", twice, trace_bytes([(4, 1, 1, 0)]), bytes(4), expected="done")
unlawful("with the lower item out the cover breaks at the higher", twice, [(2, 0, 0), (4, 1, 0, 1)], 3, 0)
between = spoilt(THREES, 0, (1, 0), (2, 2), (3, 1))
unlawful("the item between is out, and would break the cover if it were in", between, [(2, 1, 1), (4, 0, 0, 1)], 2, 2)
unlawful("two items between are out", between, [(2, 1, 1), (2, 2, 0), (4, 0, 0, 1)], 3, 1)
back("all items that would break it are out", between, trace_bytes([(2, 1, 1), (2, 2, 0), (2, 3, 0), (4, 0, 0, 1)]), X("01ffffff"), expected="done")
several = spoilt(THREES, 0, (1, 1), (1, 2))
unlawful("two settings spoil a cover, the lower is named", several, [(4, 0, 0, 1)], 1, 1)
unlawful("with the lower off the higher is named", several, [(4, 1, 1, 2), (4, 0, 0, 1)], 1, 2)
unlawful("a lower setting is off that would spoil it", spoilt(THREES, 0, (2, 0), (2, 1), (2, 2)), [(4, 2, 0, 1), (4, 0, 0, 1)], 2, 1)
# item 1: setting 0 is allowed with both, 1 barred with both, 2 barred with b only, 3 allowed with b only
unlawful("settings below that do not spoil it", sheet([2, 4], [(0, 1, [9, 5])]), [(4, 0, 0, 1)], 1, 3)
unlawful("the same, its items exchanged", sheet([4, 2], [(0, 1, [3, 0, 2, 1])]), [(4, 1, 0, 1)], 0, 3)
unlawful("the highest item and setting there are", spoilt([16] * 32, 0, (31, 15)), [(4, 0, 0, 1)], 31, 15)
unlawful("the highest settings of i", sheet([16, 2], [(0, 1, [3] * 14 + [2, 1])]), [(4, 0, 15, 14)], 1, 0)
unlawful("a bare setting as a", sheet([2, 3], [(0, 1, [7, 0])]), [(4, 0, 0, 1)], 1, 0)
# a kind 4 record that names nothing
unlawful("a and b are one setting", between, [(4, 0, 1, 1)])
unlawful("a and b are one setting, after a lawful record", between, [(2, 1, 1), (4, 0, 0, 0)])
unlawful("i is out", between, [(2, 0, 0), (4, 0, 0, 1)])
for i in (4, 5, 31, 32, 33, 128, 255):
    unlawful(f"i is {i}, not below n", between, [(4, i, 0, 1)])
unlawful("a is off", spoilt(THREES, 0, (1, 0), (2, 2)), [(4, 0, 1, 0), (4, 0, 0, 1)])
unlawful("b is off", between, [(4, 0, 2, 0), (4, 0, 2, 1)])
unlawful("a and b are off", between, [(4, 0, 2, 0), (4, 0, 1, 0), (4, 0, 2, 1)])
for c in (3, 4, 15, 16, 17, 32, 64, 255):
    unlawful(f"a is {c}, not a setting of i", between, [(4, 0, 0, c)])
    unlawful(f"b is {c}, not a setting of i", between, [(4, 0, c, 1)])
unlawful("a and b are 255", between, [(4, 0, 255, 255)])
# items 2 and 3 of one setting, barred: a bare empties one of them. Items 0 and 1 have a cover that breaks.
empties = sheet([2, 2, 1, 1], [(0, 1, [3, 1]), (2, 3, [0])])
unlawful("a cover that breaks, no item emptied", empties, [(4, 0, 0, 1)], 1, 1)
unlawful("an item elsewhere is emptied, and the cover breaks", empties, [(1, 2, 0, 3), (4, 0, 0, 1)])
unlawful("an item elsewhere is emptied, and the cover would be lawful", empties, [(1, 3, 0, 2), (4, 0, 1, 0)])
unlawful("i itself is emptied", sheet([2, 2, 2], [(0, 1, [0, 0]), (1, 2, [3, 1])]), [(1, 0, 0, 1), (1, 0, 1, 1), (4, 0, 0, 1)])
unlawful("a lower item is emptied", sheet([1, 1, 2, 2], [(0, 1, [0]), (2, 3, [3, 1])]), [(1, 0, 0, 1), (4, 2, 0, 1)])
unlawful("a fold emptied an item", sheet([1, 2, 1, 2], [(0, 2, [0]), (1, 2, [0, 0]), (1, 3, [3, 1])]), [(3, 0, 1), (4, 1, 0, 1)])
# the other kinds name nothing, whichever cover it is that breaks
for name, r in (("bare", (1, 0, 0, 1)), ("snake", (2, 0, 0)), ("fold", (3, 0, 1)), ("slide", (5, 0, 0, 1))):
    unlawful(f"kind {r[0]}, {name}", C, [r])
    unlawful(f"kind {r[0]}, {name}, after a lawful record", sheet([2, 2, 2, 2], [(0, 1, NE2), (0, 2, NE2), (1, 2, NE2)]), [(2, 3, 0), r])
    unlawful(f"kind {r[0]}, {name}, an item emptied", empties, [(1, 2, 0, 3), r])
unlawful("kind 4 where the others name nothing", C, [(4, 0, 0, 1)], 1, 1)
unlawful("a cover that breaks before a record that is cut short", between, [(4, 0, 0, 1)], 1, 0, X("0302"))
unlawful("a cover that breaks before another that does", between, [(4, 0, 0, 1)], 1, 0, X("0404020001"))
# record numbers: covers and snakes on a sheet of 512 settings, each of which uses up one. Item 30 comes down to settings 0 and 15, and item
# 31 to setting 15; setting 15 of item 30 is barred with every setting of item 31.
block = sheet([16] * 32, [(30, 31, [65535] * 15 + [0])])
down = [r for i in range(30) for r in [(4, i, b, 15) for b in range(15)] + [(2, i, 15)]] + [(4, 30, b, 0) for b in range(1, 15)] \
    + [(4, 31, b, 15) for b in range(15)]
for k in (0, 1, 254, 255, 256, 257, 480, 494, 509):
    unlawful(f"record {k}, a cover that breaks", block, down[:k] + [(4, 30, 0, 15)], 31, max(0, k - 494))
for k in (255, 256, 511, 512):
    unlawful(f"record {k}, i is out", free, many[:k] + [(4, 0, 0, 15)])
    unlawful(f"record {k}, a snake", free, many[:k] + [(2, 0, 15)])
unlawful("record 511, b is off: one setting is on", free, many[:511] + [(4, 31, 14, 15)])
# the step list of docs/FORMAT.md, "Putting back", that is refused; its records exchanged; and the list that is accepted
gates = X("01000000170300020202040001000300010002000f0007")
unlawful("the step list that is refused", gates, [(2, 1, 0), (4, 0, 0, 1)], 2, 3)
unlawful("its records exchanged", gates, [(4, 0, 0, 1)], 1, 1, X("03020100"))
back("the step list mended", gates, trace_bytes([(2, 1, 0), (4, 2, 3, 2), (4, 0, 0, 1)]), X("01ff02"), expected="done 010002")
for k in range(60):
    s = random_sheet(rng.randint(2, 5), 4, 0.8, rng.choice([0.1, 0.3]))
    P = Problem(s)
    st, trace = P.full(), []
    for _ in range(rng.randint(0, 8)):
        good = [r for r in candidates(P) if not empty(st) and holds(P, st, r)]
        if not good:
            break
        r = rng.choice(good)
        trace.append(r)
        st = after(P, st, r)
    left = list(plans(P, st))
    for p in rng.sample(left, min(2, len(left))):
        back(f"random {k}, a plan of what is left", s, trace_bytes(trace), bytes(p), expected="done")
    back(f"random {k}, any bytes", s, trace_bytes(trace), bytes(rng.randint(0, 3) for _ in range(P.n)))
for k, s in enumerate(sliding):
    P = Problem(s)
    trace, st, _ = run(P)
    left = next(plans(P, st), None)
    assert left is not None
    back(f"the run with slides {k}, a plan of what is left", s, trace_bytes(trace), bytes(left), expected="done")
rng = random.Random(20261117)
for k in range(120):
    s = random_sheet(rng.randint(3, 6), 4, 0.8, rng.choice([0.2, 0.4]))
    P = Problem(s)
    st, trace = P.full(), []
    for _ in range(rng.randint(0, 6)):
        good = [] if empty(st) else [r for r in candidates(P) if holds(P, st, r)]
        if not good:
            break
        # items stay in where they can, so that there is something to break
        trace.append(rng.choice([r for r in good if r[0] not in (2, 3)] or good))
        st = after(P, st, trace[-1])
    choices = [i for i in sorted(st[0]) if len(st[1][i]) > 1]
    i = rng.choice(choices or [0])
    settings = rng.sample(sorted(st[1][i]), 2) if choices and rng.random() < 0.8 else [rng.randrange(4), rng.randrange(4)]
    trace.append((4, i, *settings) if rng.random() < 0.8 else rng.choice(list(candidates(P))))
    back(f"random {k}, a last record that may be unlawful", s, trace_bytes(trace), bytes(P.n))

# ---- picking a plan


@in_both_versions
def picking(name, s, long=None, plan=None, expected=None):
    """A trace buffer of `long` bytes, or as long as it must be; the lent plan as it is before, or in a pattern."""
    long = 1 + 5 * sum(s[8:8 + s[5]]) if long is None else long
    plan = pattern(s[5]) if plan is None else plan
    answer = pick_job(s, pattern(long), plan)
    assert expected is None or (answer + " ").startswith(expected + " "), (name, answer)
    case("pick: " + name, "pick", answer, long.to_bytes(2, "big"), s, plan)
    return answer.split()


PICKED = {  # the plans that docs/FORMAT.md gives under "Bench sheets"
    "A": "00", "B": "0001", "C": None, "D": None, "E": "00010101", "F": "010000", "G": None, "H": None, "K": "000001", "L": "000100",
}
for name, s in bench.items():
    n, need = s[5], 1 + 5 * sum(s[8:8 + s[5]])
    answer = picking(name, s)
    assert answer[-1] == (PICKED[name] or pattern(n).hex()) and answer[0] == ("plan" if PICKED[name] else "none"), name
    picking(f"{name}, a longer buffer", s, need + 9, bytes(n))
    picking(f"{name}, a buffer one byte too short", s, need - 1, expected="refused 10")
    picking(f"{name}, a plan one byte too long", s, plan=pattern(n + 1), expected="refused 20")
    picking(f"{name}, a plan one byte too short", s, plan=pattern(n - 1), expected="refused 20")
for name, s in wide.items():
    picking(name, s, expected="plan")
# the first plan is first among the items left: by the full sheet's order it would be 0 0 0, and of F 0 1 1
assert picking("first among the items left", folded, plan=X("ffffff"))[-1] == "010100"
assert next(plans(Problem(folded), Problem(folded).full())) == (0, 0, 0)
assert next(plans(Problem(F), Problem(F).full())) == (0, 1, 1)
# the order of the refusals: each alone and in pairs, the sheet's first, then 10, then 20
for a in range(len(ROWS)):
    s = build([a])
    picking(f"{ROWS[a]} alone", s, 31, pattern(3), f"refused {NUMBER[a]}")
    picking(f"{ROWS[a]} with a buffer too short", s, 30, pattern(3), f"refused {NUMBER[a]}")
    picking(f"{ROWS[a]} with a plan of another length", s, 31, pattern(2), f"refused {NUMBER[a]}")
good = build([])
for long, plan, expected in ((31, 3, "none 2"), (30, 3, "refused 10"), (31, 4, "refused 20"), (30, 4, "refused 10"), (30, 0, "refused 10"),
                             (0, 3, "refused 10"), (0, 0, "refused 10"), (31, 0, "refused 20"), (31, 32, "refused 20"), (2561, 3, "none 2")):
    picking(f"a buffer of {long} bytes, a plan of {plan}", good, long, pattern(plan), expected)
picking("no byte at all", b"", 0, b"", "refused 1")
# what the lent plan holds before is not read: a setting, an item out, and neither
for byte in (0, 1, 2, 15, 16, 254, 255):
    picking(f"a plan of bytes {byte}", B, plan=bytes([byte] * 2), expected="plan 1")
    picking(f"a plan of bytes {byte}, none", C, plan=bytes([byte] * 3), expected="none 2")
# 32 items; and the search among the highest three of them, the others out
picking("32 items and no block", sheet([2] * 32, []), expected="plan 1")
for rows, expected in ((NE2, "none 2"), ([1, 2], "plan 1")):
    picking(f"the highest three of 32 items, rows {rows}", sheet([1] * 29 + [2] * 3, [(29, 30, NE2), (29, 31, NE2), (30, 31, rows)]),
            expected=expected)
for s in sliding[:8]:
    picking("a run with slides", s, expected="plan")
# at random: each end with a plan and without, as far as there is one
rng = random.Random(20270118)
wanted = {("none", "0"): 8, ("plan", "1"): 8, ("plan", "2"): 16, ("none", "2"): 10}
while any(wanted.values()):
    s = random_sheet(rng.randint(3, 5), 4, 0.8, 0.5) if rng.random() < 0.3 else linked_sheet(rng, *rng.choice([(4, 0.6), (5, 0.45), (6, 0.45)]))
    word, end = pick_job(s, bytes(1 + 5 * sum(s[8:8 + s[5]])), bytes(s[5])).split()[:2]
    if wanted[word, end]:
        wanted[word, end] -= 1
        picking(f"at random, {word} after the end {end}", s, expected=f"{word} {end}")

# ---- the sheet of a colouring file

MOST_BYTES = 65536
VERTICES, CHANNELS = range(1, 33), range(1, 17)


def lines_of(file):
    """Each line ends in a newline, which the last may lack."""
    pieces = file.split(b"\n")
    return pieces if pieces[-1] else pieces[:-1]


def form_of(line):
    """c, ("p", vertices, edges), ("e", vertex, vertex), or None for a line of none of these forms."""
    if line[:1] == b"c":
        return "c"
    m = re.fullmatch(rb"(?:(p) edge|(e)) ([0-9]{1,9}) ([0-9]{1,9})", line)
    return m and ((m[1] or m[2]).decode(), int(m[3]), int(m[4]))


def colouring_sheet(vertices, edges, channels):
    """All edges as lines give them: either way round, and again."""
    pairs = sorted({(min(e) - 1, max(e) - 1) for e in edges})
    return sheet([channels] * vertices, [(i, j, [(1 << channels) - 1 - (1 << x) for x in range(channels)]) for i, j in pairs])


def colour(file, channels, buffer):
    """The number of the first refusal, or the bytes written, and the buffer afterwards."""
    if len(file) > MOST_BYTES:
        return 21, None, buffer
    forms = [form_of(line) for line in lines_of(file)]
    if None in forms:
        return 21, None, buffer
    told = [f for f in forms if f != "c"]
    if [f[0] for f in told if f[0] == "p"] != ["p"] or told[0][0] != "p":
        return 21, None, buffer
    (_, vertices, count), *edges = told
    ends = [(a, b) for _, a, b in edges]
    if any(not 1 <= v <= vertices for e in ends for v in e):
        return 21, None, buffer
    if any(a == b for a, b in ends):
        return 22, None, buffer
    if len(ends) != count:
        return 23, None, buffer
    if vertices not in VERTICES or channels not in CHANNELS:
        return 24, None, buffer
    written = colouring_sheet(vertices, ends, channels)
    if len(buffer) < len(written):
        return 25, None, buffer
    return 0, len(written), written + buffer[len(written):]


def plans_are_colourings(file, channels, written):
    """Whether the plans of the sheet are the proper colourings, read off the lines of the file; for small ones, by trying all."""
    P = Problem(written)
    ends = [tuple(int(x) - 1 for x in line.split(b" ")[1:]) for line in file.split(b"\n") if line[:1] == b"e"]
    return P.sizes == [channels] * P.n and all(
        all(p[a] != p[b] for a, b in ends) == all(P.ok(i, p[i], j, p[j]) for i in range(P.n) for j in range(i))
        for p in itertools.product(range(channels), repeat=P.n))


def colouring(name, expected, head, channels=3, long=None, again=b"", total=None):
    """`expected` is the number of a refusal, or None where a sheet is written. A buffer has nine bytes more than the sheet, or `long`. The
    file is its head and then, up to `total` bytes, other bytes again and again: so a long one makes a short line."""
    file = head if total is None else (head + again * total)[:total]
    if long is None:
        long = 9 + (colour(file, channels, bytes(1 << 15))[1] or 31)
    number, written, after = colour(file, channels, pattern(long))
    assert number == (expected or 0), (name, number, expected)
    if number == 0:
        assert read(after[:written]) == (after[5], int.from_bytes(after[6:8], "big")), name
        assert channels ** after[5] > 300 or plans_are_colourings(file, channels, after[:written]), name
    case(name, "colo", f"refused {number} {after.hex()}" if number else f"written {written} {after.hex()}", channels.to_bytes(8, "big"),
         long.to_bytes(2, "big"), len(file).to_bytes(4, "big"), head, again)


def text_of(*lines):
    return b"".join(line + b"\n" for line in lines)


def p_line(vertices, count):
    return b"p edge %d %d" % (vertices, count)


def e_line(e):
    return b"e %d %d" % e


def file_of(vertices, edges, count=None):
    return text_of(p_line(vertices, len(edges) if count is None else count), *map(e_line, edges))


TRIANGLE = [(1, 2), (1, 3), (2, 3)]
COMPLETE = [(a, b) for a in range(1, 33) for b in range(a + 1, 33)]

# what is written
colouring("colour: a triangle", None, file_of(3, TRIANGLE))
colouring("colour: one vertex and no edge", None, file_of(1, []))
colouring("colour: one vertex, one channel", None, file_of(1, []), 1)
colouring("colour: three vertices and no edge", None, file_of(3, []))
colouring("colour: 32 vertices and no edge, 16 channels", None, file_of(32, []), 16)
colouring("colour: one channel and no edge", None, file_of(4, []), 1)
colouring("colour: one channel and an edge, a block that bars everything", None, file_of(2, [(1, 2)]), 1)
colouring("colour: 16 channels", None, file_of(2, [(1, 2)]), 16)
colouring("colour: edges between the lowest and the highest", None, file_of(32, [(1, 32), (31, 32), (1, 2)]), 2)
colouring("colour: edges in no order, larger ends first", None, file_of(5, [(5, 4), (2, 1), (5, 1), (3, 2), (4, 1)]))
colouring("colour: an edge given again", None, file_of(3, [(1, 2), (2, 3), (1, 2), (1, 2)]))
colouring("colour: an edge given again, the other way round", None, file_of(3, [(1, 2), (2, 3), (2, 1), (3, 2)]))
colouring("colour: the last line without its newline", None, file_of(3, TRIANGLE)[:-1])
colouring("colour: the p line is the last and lacks its newline", None, file_of(3, [])[:-1])
colouring("colour: a c line is the last and lacks its newline", None, file_of(3, TRIANGLE) + b"c")
colouring("colour: a number of nine digits with leading zeros", None, text_of(b"p edge 000000003 000000001", b"e 000000001 000000003"))
colouring("colour: leading zeros of all lengths", None, text_of(b"p edge 03 00000003", b"e 01 002", b"e 0001 00003", b"e 000002 0000003"))
for name, comment in (("c alone", b"c"), ("cat", b"cat"), ("c and a space", b"c "), ("c with CR at its end", b"c a comment\r"),
                      ("c and CR", b"c\r"), ("c with CR inside", b"c a\rp edge 1 1"), ("c with NUL", b"c\0\0"),
                      ("c with bytes over 127", b"c\x80\xc3\xa9\xff"), ("c with a tab", b"c\t\t"), ("a p line behind c", b"cp edge 9 9"),
                      ("an e line behind c", b"c e 9 9"), ("every byte but newline", bytes([99]) + bytes(x for x in range(256) if x != 10))):
    p, *es = lines_of(file_of(3, TRIANGLE))
    colouring(f"colour: {name}, before the p line", None, text_of(comment, comment, p, *es))
    colouring(f"colour: {name}, after the p line", None, text_of(p, comment, *es))
    colouring(f"colour: {name}, between e lines", None, text_of(p, es[0], comment, es[1], comment, es[2]))
    colouring(f"colour: {name}, after the e lines", None, text_of(p, *es, comment))
    colouring(f"colour: {name}, last and without its newline", None, text_of(p, *es) + comment)

# The faults that can stand in one call, in the order of their numbers: a file of four vertices and three edges has a loop in its second e
# line (22), states another number of them (23), states 33 vertices (24), and is coloured with 17 channels (24) and into a buffer that is too
# short (25). Each cause of 21 is put in afterwards.
LATER = [22, 23, 24, 24, 25]
PATH = [(1, 2), (2, 3), (3, 4)]
PATH_SHEET = len(colouring_sheet(4, PATH, 2))
NAMES = ["a loop", "another count", "33 vertices", "17 channels", "a short buffer"]


def later(faults):
    """The lines of the file, the channels and the length of the buffer."""
    edges = [(1, 2), (2, 2) if 0 in faults else (2, 3), (3, 4)]
    return ([p_line(33 if 2 in faults else 4, 4 if 1 in faults else 3), *map(e_line, edges)], 17 if 3 in faults else 2,
            PATH_SHEET - 1 if 4 in faults else PATH_SHEET + 3)


for k in range(len(LATER) + 1):
    for faults in itertools.combinations(range(len(LATER)), k):
        lines, channels, long = later(faults)
        colouring("colour: " + (" and ".join(NAMES[f] for f in faults) or "no fault"), LATER[faults[0]] if faults else None, text_of(*lines),
                  channels, long)

# each cause of 21: what becomes of the lines
ON_LINES = {
    "the empty file": lambda ls: [],
    "only comments": lambda ls: [b"c", b"c no p line"],
    "no p line": lambda ls: ls[1:],
    "a second p line behind the first": lambda ls: [ls[0], *ls],
    "a second p line at the end": lambda ls: [*ls, ls[0]],
    "p after e": lambda ls: [ls[1], ls[0], *ls[2:]],
    "p after all e": lambda ls: [*ls[1:], ls[0]],
    "p between e, and a first p": lambda ls: [*ls[:2], ls[0], *ls[2:]],
    "a blank line first": lambda ls: [b"", *ls],
    "a blank line between": lambda ls: [*ls[:2], b"", *ls[2:]],
    "two newlines at the end": lambda ls: [*ls, b""],
    "vertex 0": lambda ls: [*ls, b"e 0 1"],
    "vertex 0 as the second end": lambda ls: [*ls, b"e 1 0"],
    "vertex 0 at both ends": lambda ls: [*ls, b"e 0 0"],
    "vertex 0 with zeros": lambda ls: [*ls, b"e 000 1"],
    "a vertex above the range": lambda ls: [*ls, b"e 34 1"],
    "a vertex above the range as the second end": lambda ls: [*ls, b"e 1 34"],
    "a vertex far above the range": lambda ls: [*ls, b"e 1 999999999"],
    "a vertex above the range in the first e line": lambda ls: [ls[0], b"e 1 100", *ls[1:]],
    "a line of one space": lambda ls: [*ls, b" "],
    "a line of CR": lambda ls: [*ls, b"\r"],
    "CR at the end of p": lambda ls: [ls[0] + b"\r", *ls[1:]],
    "CR at the end of e": lambda ls: [*ls[:-1], ls[-1] + b"\r"],
    "CR at the start of e": lambda ls: [*ls[:-1], b"\r" + ls[-1]],
    "a space before c": lambda ls: [b" c", *ls],
    "a space before p": lambda ls: [b" " + ls[0], *ls[1:]],
    "a space before e": lambda ls: [*ls[:-1], b" " + ls[-1]],
    "a space after p": lambda ls: [ls[0] + b" ", *ls[1:]],
    "a space after e": lambda ls: [*ls[:-1], ls[-1] + b" "],
    "two spaces in p, first": lambda ls: [ls[0].replace(b"p edge", b"p  edge"), *ls[1:]],
    "two spaces in p, second": lambda ls: [ls[0].replace(b"edge", b"edge "), *ls[1:]],
    "two spaces in p, third": lambda ls: [b"  ".join(ls[0].rsplit(b" ", 1)), *ls[1:]],
    "two spaces in e, first": lambda ls: [*ls[:-1], b"e  3 4"],
    "two spaces in e, second": lambda ls: [*ls[:-1], b"e 3  4"],
    "a tab in p": lambda ls: [ls[0].replace(b"edge ", b"edge\t"), *ls[1:]],
    "a tab after p": lambda ls: [ls[0].replace(b"p ", b"p\t"), *ls[1:]],
    "a tab in e": lambda ls: [*ls[:-1], b"e 3\t4"],
    "a tab after e": lambda ls: [*ls[:-1], b"e\t3 4"],
    "a plus sign": lambda ls: [*ls[:-1], b"e +3 4"],
    "a minus sign": lambda ls: [*ls[:-1], b"e 3 -4"],
    "a sign in p": lambda ls: [ls[0].replace(b"edge ", b"edge +"), *ls[1:]],
    "ten digits": lambda ls: [*ls[:-1], b"e 0000000003 4"],
    "ten digits as the second end": lambda ls: [*ls[:-1], b"e 3 0000000004"],
    "ten digits in p": lambda ls: [ls[0].replace(b"edge ", b"edge 000000000"), *ls[1:]],
    "ten digits as p's count": lambda ls: [b" 000000000".join(ls[0].rsplit(b" ", 1)), *ls[1:]],
    "more digits than any number holds": lambda ls: [*ls[:-1], b"e 3 " + b"9" * 40],
    "p col": lambda ls: [ls[0].replace(b"edge", b"col"), *ls[1:]],
    "p edges": lambda ls: [ls[0].replace(b"edge", b"edges"), *ls[1:]],
    "p Edge": lambda ls: [ls[0].replace(b"edge", b"Edge"), *ls[1:]],
    "P": lambda ls: [ls[0].replace(b"p", b"P"), *ls[1:]],
    "C": lambda ls: [b"C a comment", *ls],
    "E": lambda ls: [*ls[:-1], b"E 3 4"],
    "p alone": lambda ls: [b"p", *ls],
    "p edge alone": lambda ls: [*ls, b"p edge"],
    "p edge and a space": lambda ls: [*ls, b"p edge "],
    "p with one number": lambda ls: [ls[0].rsplit(b" ", 1)[0], *ls[1:]],
    "p with one number and a space": lambda ls: [ls[0].rsplit(b" ", 1)[0] + b" ", *ls[1:]],
    "p with three numbers": lambda ls: [ls[0] + b" 2", *ls[1:]],
    "e alone": lambda ls: [*ls, b"e"],
    "e and a space": lambda ls: [*ls, b"e "],
    "e and two spaces": lambda ls: [*ls, b"e  "],
    "e with one number": lambda ls: [*ls, b"e 3"],
    "e with one number and a space": lambda ls: [*ls, b"e 3 "],
    "e with three numbers": lambda ls: [*ls, b"e 3 4 1"],
    "e without a space": lambda ls: [*ls, b"e3 4"],
    "edge for e": lambda ls: [*ls, b"edge 3 4"],
    "a letter among the digits": lambda ls: [*ls, b"e 3 4a"],
    "a letter for a number": lambda ls: [*ls, b"e x 4"],
    "the byte before 0": lambda ls: [*ls, b"e 3 /"],
    "the byte after 9": lambda ls: [*ls, b"e 3 :"],
    "a digit over 127": lambda ls: [*ls, b"e 3 \xb4"],
    "a hexadecimal number": lambda ls: [*ls, b"e 0x3 4"],
    "a comma between": lambda ls: [*ls, b"e 3,4"],
    "NUL for a space": lambda ls: [*ls, b"e 3\x004"],
    "NUL at the end": lambda ls: [*ls, b"e 3 4\0"],
    "a node line": lambda ls: [ls[0], b"n 1 2", *ls[1:]],
    "another first letter": lambda ls: [*ls, b"d 1 2"],
    "a line of 0": lambda ls: [*ls, b"0"],
    "a line of NUL": lambda ls: [*ls, b"\0"],
}
for name, change in ON_LINES.items():
    for faults in [(), *((f,) for f in range(len(LATER))), range(len(LATER))]:
        lines, channels, long = later(faults)
        colouring(f"colour: {name}" + ("" if not faults else " with every later fault" if len(faults) > 1 else " with " + NAMES[faults[0]]), 21,
                  text_of(*change(lines)), channels, long)
colouring("colour: 21 in the last line, without its newline, after a loop in the second", 21, b"p edge 3 2\ne 1 1\ne 1 2 ", 3)
colouring("colour: a blank line alone", 21, b"\n")
colouring("colour: two newlines alone", 21, b"\n\n")
colouring("colour: p alone without its newline", 21, b"p edge 3")

# the range is the one that is stated, whatever it is
colouring("colour: 100 vertices are 24, not 21", 24, text_of(b"p edge 100 1", b"e 99 100"))
colouring("colour: 100 vertices and vertex 101", 21, text_of(b"p edge 100 1", b"e 99 101"))
colouring("colour: 100 vertices, a loop at one above 32", 22, text_of(b"p edge 100 1", b"e 99 99"))
colouring("colour: 999999999 vertices", 24, text_of(b"p edge 999999999 1", b"e 999999999 999999998"))
colouring("colour: 33 vertices", 24, file_of(33, [(1, 33)]))
colouring("colour: 32 vertices", None, file_of(32, [(1, 32)]), 2)
colouring("colour: no vertex", 24, text_of(b"p edge 0 0"))
colouring("colour: no vertex and another count", 23, text_of(b"p edge 0 1"))
colouring("colour: no vertex and an edge", 21, text_of(b"p edge 0 1", b"e 1 2"))
colouring("colour: a loop by leading zeros", 22, text_of(b"p edge 7 1", b"e 7 007"))
colouring("colour: two loops", 22, file_of(3, [(1, 1), (2, 2)]))
colouring("colour: a loop in the last line, without its newline", 22, file_of(3, [(1, 2), (3, 3)])[:-1])

# 23 counts lines
colouring("colour: an edge given again and not counted again", 23, file_of(3, [(1, 2), (2, 3), (2, 1)], 2))
colouring("colour: one edge line missing", 23, file_of(3, TRIANGLE, 4))
colouring("colour: one edge line too many", 23, file_of(3, TRIANGLE, 2))
colouring("colour: no edge line, one stated", 23, file_of(3, [], 1))
colouring("colour: the last edge line lacks its newline and counts", None, file_of(3, TRIANGLE, 3)[:-1])
colouring("colour: the most edge lines that can be stated", 23, file_of(3, TRIANGLE, 999999999))
colouring("colour: edge lines 2^32 and three more cannot be stated", 21, file_of(3, TRIANGLE, (1 << 32) + 3))
for n, other in ((255, 256), (256, 0), (257, 1)):
    front = file_of(2, [], n)
    colouring(f"colour: {n} edge lines", None, front, again=b"e 2 1\n", total=len(front) + 6 * n)
    front = file_of(2, [], other)
    colouring(f"colour: {n} edge lines, {other} stated", 23, front, again=b"e 2 1\n", total=len(front) + 6 * n)

# channels
for channels in (0, 17, 255, 256, 257, 1 << 16, (1 << 16) + 3, 1 << 32, (1 << 32) + 3, 1 << 40, (1 << 63) + 3, (1 << 64) - 1):
    colouring(f"colour: {channels} channels", 24, file_of(3, TRIANGLE), channels)
for channels in CHANNELS:
    colouring(f"colour: {channels} channels", None, file_of(2, [(2, 1)]), channels)

# the buffer
for name, vertices, edges, channels in (("a triangle", 3, TRIANGLE, 3), ("no edge", 2, [], 2),
                                        ("an edge given again", 3, TRIANGLE + TRIANGLE, 2)):
    need = len(colouring_sheet(vertices, edges, channels))
    colouring(f"colour: {name}, a buffer just long enough", None, file_of(vertices, edges), channels, need)
    colouring(f"colour: {name}, a buffer one byte too short", 25, file_of(vertices, edges), channels, need - 1)
    colouring(f"colour: {name}, a buffer one byte longer", None, file_of(vertices, edges), channels, need + 1)
    colouring(f"colour: {name}, no buffer", 25, file_of(vertices, edges), channels, 0)
colouring("colour: no buffer and a bad line", 21, b"x", 3, 0)
colouring("colour: a buffer of the sizes only", 25, file_of(3, TRIANGLE), 3, 11)

# the longest file, and one byte more
def filled(name, expected, lines, total, channels=3, long=None, ends=True):
    """These lines, and comments up to so many bytes, the last of them without its newline where the file is not to end in one."""
    front = text_of(*lines)
    again = b"c\n" if (total - len(front)) % 2 == (0 if ends else 1) else b"\nc"
    colouring(f"colour: {total} bytes{name}", expected, front if again == b"c\n" else front + b"c", channels, long, again, total)


for total, expected in ((65535, None), (65536, None), (65537, 21)):
    filled("", expected, lines_of(file_of(3, TRIANGLE)), total)
    filled(", the last line without its newline", expected, lines_of(file_of(3, TRIANGLE)), total, ends=False)
    colouring(f"colour: {total} bytes, one comment", expected, file_of(3, TRIANGLE), again=b"c", total=total)
    colouring(f"colour: {total} bytes, all but the p line edges", expected, text_of(p_line(2, 10919), b"c" * (total - 65530)), 2, None,
              b"e 1 2\n", total)
for faults in [*((f,) for f in range(len(LATER))), range(len(LATER))]:
    for total in (65536, 65537):
        lines, channels, long = later(faults)
        filled("".join(" with " + NAMES[f] for f in faults), LATER[faults[0]] if total == 65536 else 21, lines, total, channels, long)
colouring("colour: 65536 newlines", 21, b"", again=b"\n", total=65536)
colouring("colour: 65536 c without a newline", 21, b"", again=b"c", total=65536)
# 32 vertices complete with 16 channels: 16,904 bytes, the longest sheet
assert colour(file_of(32, COMPLETE), 16, bytes(16904))[2] == longest
filled(" and the longest sheet", None, lines_of(file_of(32, COMPLETE)), 65536, 16, 16904)
colouring("colour: the longest sheet, and old bytes after it", None, file_of(32, [(b, a) for a, b in reversed(COMPLETE)]), 16, 16911)
colouring("colour: the longest sheet, a buffer one byte too short", 25, file_of(32, COMPLETE), 16, 16903)

# graphs at random, and with a byte changed, put in or left out
rng = random.Random(20261116)


def random_graph(vertices, share):
    edges = [(a, b) for a in range(1, vertices + 1) for b in range(1, vertices + 1) if a != b and rng.random() < share]
    rng.shuffle(edges)
    lines = [p_line(vertices, len(edges)), *map(e_line, edges)]
    for _ in range(rng.randint(0, 3)):
        lines.insert(rng.randint(0, len(lines)), b"c" + bytes(rng.choice(b" ce12p\r\0\xff") for _ in range(rng.randint(0, 5))))
    file = text_of(*lines)
    return file if rng.random() < 0.7 else file[:-1]


for k in range(60):
    colouring(f"colour: random {k}", None, random_graph(rng.randint(1, 9), rng.choice([0.1, 0.3, 0.6])), rng.choice([1, 2, 3, 4, 5, 9]))
for k in range(160):
    file = random_graph(rng.randint(2, 5), 0.4)
    at, change = rng.randrange(len(file)), bytes([rng.choice(b"0123456789 \n\rcep\t-")])
    file = rng.choice([file[:at] + change + file[at:], file[:at] + change + file[at + 1:], file[:at] + file[at + 1:]])
    colouring(f"colour: random {k}, damaged", colour(file, 2, bytes(999))[0] or None, file, 2)

# ---- moving a sheet to the other version


def move_job(s, target):
    got = read(s)
    if isinstance(got, int):
        return f"refused {got} {target.hex()}"
    w = moved(s)
    if len(target) < len(w):
        return f"refused 26 {target.hex()}"
    return f"written {len(w)} {(w + target[len(w):]).hex()}"


def moving(name, s, long, expected=None):
    """A target of `long` bytes. Answers its bytes afterwards."""
    answer = move_job(s, pattern(long))
    assert expected is None or answer.startswith(expected + " "), (name, answer)
    case(f"move: {name}", "move", answer, long.to_bytes(2, "big"), s)
    return X(answer.split(" ")[-1])


def there_and_back(name, s, *more):
    """The sheet is moved, and what was written moved again, which is the sheet it was: into targets just long enough, one byte too short, and
    of these lengths beyond that."""
    here = s
    for way in ("", ", and back"):
        need = len(moved(here))
        moving(f"{name}{way}, a target one byte too short", here, need - 1, "refused 26")
        for k in more:
            moving(f"{name}{way}, a target of {k} bytes more", here, need + k, f"written {need}")
        here = moving(f"{name}{way}", here, need, f"written {need}")
    assert here == s, name


for name, s in [*bench.items(), *wide.items()]:
    there_and_back(name, s, 1, 9)
    # 26 goes by the length of what is written, which is not the sheet's own: targets as long as the sheet, as its front and sizes, and empty
    for here in (s, moved(s)):
        need = len(moved(here))
        for long in (len(here), 8 + s[5], 0):
            moving(f"{name}, version {here[0]}, a target of {long} bytes", here, long, "refused 26" if long < need else f"written {need}")

# the sheet's own refusals come first, whatever the target is
for version in (1, 2):
    for a in range(len(ROWS)):
        for long, name in ((64, "alone"), (len(build([], 3 - version)) - 1, "with a target one byte too short"), (0, "with no target")):
            moving(f"{ROWS[a]} {name}, version {version}", build([a], version), long, f"refused {NUMBER[a]}")
for version in (0, 3, 255):
    moving(f"version {version}", bytes([version]) + B[1:], 64, "refused 2")
moving("no byte at all", b"", 0, "refused 1")

# without a block; lengths and numbers of blocks above 255, on one side and on both; and the longest sheets
for sizes in ([1], [8], [9], [16, 8, 9, 1], [16] * 32):
    there_and_back(f"no block, sizes {sizes}" if len(sizes) < 32 else "32 items and no block", sheet(sizes, []), 3)
for n, z, lengths in ((6, 8, (284, 164)), (6, 9, (314, 314)), (24, 1, (1136, 860)), (32, 8, (8968, 5000)), (32, 16, (16904, 16904))):
    s = unequal(n, z)
    assert (len(s), len(moved(s))) == lengths
    there_and_back(f"{n} items of {z}, every pair unequal", s)
assert moved(longest) == b"\2" + longest[1:]

# at random, items of all sizes; and with a byte changed, put in or left out, the stated length mended or not
rng = random.Random(20270322)
for k in range(30):
    sizes = [rng.choice([1, 2, 3, 7, 8, 9, 10, 16]) for _ in range(rng.randint(2, 5))]
    drawn = [(i, j, [rng.randrange(1 << sizes[j]) for _ in range(sizes[i])]) for i in range(len(sizes)) for j in range(i + 1, len(sizes))]
    s = sheet(sizes, [b for b in drawn if rng.random() < 0.7 and any(r != (1 << sizes[b[1]]) - 1 for r in b[2])])
    there_and_back(f"random {k}", s)
    for here in (s, moved(s)):
        at, change = rng.randrange(len(here)), bytes([rng.choice([0, 1, 2, 3, 8, 9, 127, 128, 255])])
        damaged = rng.choice([here[:at] + change + here[at:], here[:at] + change + here[at + 1:], here[:at] + here[at + 1:]])
        moving(f"random {k}, version {here[0]}, damaged", damaged, 2 * len(here))
        moving(f"random {k}, version {here[0]}, damaged, its length mended", mended(damaged), 2 * len(here))

for program, of_program in cases.items():
    folder = os.path.join(ROOT, program)
    os.makedirs(folder, exist_ok=True)
    with open(os.path.join(folder, "stdin"), "w") as f, open(os.path.join(folder, "stdout"), "w") as g:
        for name, job, fields, expected in of_program:
            f.write(f"# {name}\n{job} {' '.join(fields)}\n")
            g.write(expected + "\n")
    print(len(of_program), "cases of", program)
