#!/usr/bin/env python3
"""The places of docs/DESIGN-PASS.md, counted: tools/design_counts.py [ROOT] [--list].

One line a point; --list names the places. It goes by text: a place that it names may have a reason to be as it is, and the page has those.
"""
import collections
import os
import re
import sys

args = [a for a in sys.argv[1:] if not a.startswith('--')]
ROOT = args[0] if args else '.'
LIST = '--list' in sys.argv
CRATES = sorted(os.listdir(os.path.join(ROOT, 'crates')))


def sources():
    for c in CRATES:
        top = os.path.join(ROOT, 'crates', c, 'src')
        for d, _, files in sorted(os.walk(top)):
            for f in sorted(files):
                if f.endswith('.rt'):
                    with open(os.path.join(d, f), encoding='utf-8') as h:
                        yield c, h.read()


def functions(text):
    """(name, signature, contract, body) of each function."""
    for m in re.finditer(r'^( *)(?:pub )?(?:extern "C" )?fn (\w+)', text, re.M):
        indent = m.group(1)
        end = re.search(r'^' + indent + r'}$', text[m.start():], re.M)
        stop = re.search(r';$', text[m.start():], re.M)
        whole = text[m.start():m.start() + (end.end() if end else stop.end())]
        brace = re.search(r'(^' + indent + r'\{$)|( \{$)', whole, re.M)
        if not brace:
            continue
        head, body = whole[:brace.start()], whole[brace.start():]
        at = re.search(r'^\s*(requires|ensures)\b', head, re.M)
        yield m.group(2), head[:at.start()] if at else head, head[at.start():] if at else '', body


def enums(text):
    for m in re.finditer(r'^(?:pub )?enum (\w+)(?:<[^>]*>)? \{\n(.*?)^\}', text, re.M | re.S):
        body, depth, variants, cur = m.group(2), 0, [], ''
        for ch in body:
            if ch in '({':
                depth += 1
            if ch in ')}':
                depth -= 1
            if ch == ',' and depth == 0:
                variants.append(cur.strip())
                cur = ''
            else:
                cur += ch
        yield m.group(1), variants


SRC = list(sources())
places = collections.OrderedDict()


def put(point, what):
    places.setdefault(point, []).append(what)


for point in ('1 enums shaped as Option or Result', '1 flags in structs', '1 numbers for kinds or refusals', '2 twins by a width',
              '2 functions that stand more than once', '3 loops that count an index', '4 conversions and comparisons by hand',
              '5 t, active, on side by side', '5 pending, waiting side by side', '5 facts in three contracts or more',
              '6 arenas, parallel arrays, sorted lists', '7 a switch on a kind by its number'):
    places[point] = []

bodies = collections.defaultdict(list)
facts = collections.Counter()
for c, text in SRC:
    for name, variants in enums(text):
        plain = [v for v in variants if re.fullmatch(r'\w+', v)]
        refused = [v for v in variants if re.match(r'(Refused|Fault|Bad|TooShort|Malformed)\b', v)]
        if not name.endswith('Refusal') and ((len(variants) == 2 and (len(plain) == 1 or refused)) or (len(variants) == 3 and refused)):
            put('1 enums shaped as Option or Result', f'{c}::{name}')
    for m in re.finditer(r'^(?:pub )?struct (\w+)[^\n]*\{\n(.*?)^\}', text, re.M | re.S):
        for f in re.findall(r'^ +(?:pub )?(\w+): bool,', m.group(2), re.M):
            put('1 flags in structs', f'{c}::{m.group(1)}.{f}')
    for name, sig, contract, body in functions(text):
        if re.search(r'\bkind: usize\b', sig) or re.search(r'^(?!row|done|picked|ran|show)\w+_number$', name):
            put('1 numbers for kinds or refusals', f'{c}::{name}')
        if re.search(r'(16|32)$', name):
            put('2 twins by a width', f'{c}::{name}')
        key = re.sub(r'\s+', ' ', re.sub(r'//[^\n]*', '', body)).strip()
        if len(key) > 60:
            bodies[key].append(f'{c}::{name}')
        for w in re.finditer(r'^( *)while (?:0 < )?(\w+)\b[^\n]*\{\n(.*?)^\1\}', body, re.M | re.S):
            if re.search(r'^' + w.group(1) + r'    (?:    )*' + w.group(2) + r' [+-]= 1;', w.group(3), re.M):
                put('3 loops that count an index', f'{c}::{name} ({w.group(2)})')
        by_hand = re.search(r'\b(if|while|for|match)\b', body)
        if by_hand and (re.match(r'(same_|copy$|least$|lesser$|greater$|digit$|unspoilt$|unbroken$|is_step$|is_record$|end_number$)', name)
                        or re.search(r'_number$', name)):
            put('4 conversions and comparisons by hand', f'{c}::{name}')
        if re.search(r'\bactive: u32\b', sig) and re.search(r'\bon: &', sig):
            put('5 t, active, on side by side', f'{c}::{name}')
        if re.search(r'\bpending: &', sig) and re.search(r'\bwaiting: &', sig):
            put('5 pending, waiting side by side', f'{c}::{name}')
        for fact in set(re.findall(r'\b(Ready|RowTable|Waits|AllUnsupported|Posed|Keeps|Version|BlockMarked|Front|Drawn)\b', contract)):
            facts[fact] += 1
        if re.search(r'\bmatch kind\b', body) and re.search(r'\bkind: usize\b', sig):
            put('7 a switch on a kind by its number', f'{c}::{name}')
for key, names in bodies.items():
    if len(names) > 1:
        put('2 functions that stand more than once', ' = '.join(names))
for fact, n in sorted(facts.items()):
    if n >= 3:
        put('5 facts in three contracts or more', f'{fact} {n}')
proofs = 0
for c in CRATES:
    for d, _, files in os.walk(os.path.join(ROOT, 'crates', c, 'proofs')):
        for f in files:
            if f in ('Answers.antt', 'Invariants.antt'):
                with open(os.path.join(d, f), encoding='utf-8') as h:
                    proofs += len(h.readlines())
for point, found in places.items():
    print(f'{point}: {len(found)}')
    if LIST:
        for what in found:
            print(f'    {what}')
print(f'8 lines of answers and invariants: {proofs}')
