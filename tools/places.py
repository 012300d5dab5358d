#!/usr/bin/env python3
"""Counts the places of docs/DESIGN-PASS.md in crates/*/src of the checkout at the top of which it is run.
With a number, as `tools/places.py 3`, it lists the places of that point."""
import glob, re, sys
from collections import defaultdict

POINT = sys.argv[1] if len(sys.argv) > 1 else None
FILES = sorted(glob.glob('crates/*/src/**/*.rt', recursive=True))
LINES = [(f, i + 1, l.rstrip('\n')) for f in FILES for i, l in enumerate(open(f))]
CODE = [(f, i, l.split('//')[0]) for f, i, l in LINES if not l.strip().startswith('//')]

def grep(pattern, but=None):
    p, q = re.compile(pattern), re.compile(but) if but else None
    return [(f, i, l) for f, i, l in CODE if p.search(l) and not (q and q.search(l))]

def show(point, what, found):
    print(f'{point:3} {len(found):4}  {what}')
    if POINT == point.rstrip('abcdefgh'):
        for f, i, l in found:
            print(f'            {f}:{i}: {l.strip()}')

# 1
enums = grep(r'^\s*(pub(\([a-z]+\))? )?enum \w+')
def inside(f, i, pattern):
    """The matches of a pattern in the lines of an item that begins on line i of f."""
    out = []
    for g, j, l in CODE:
        if g == f and j > i:
            if l.startswith('}'):
                break
            m = re.match(pattern, l)
            if m:
                out.append(m)
    return out
def may_fail(enum):
    found = inside(enum[0], enum[1], r'\s+([A-Z]\w*)(\(.*\))?( = \d+)?,')
    return any(m.group(1) in ('Refused', 'TooLong', 'Failed', 'Line') for m in found)
show('1a', 'enums with a case for failure, the shape of Option or Result', [e for e in enums if may_fail(e)])
show('1b', 'flags beside a value: fields of type bool', grep(r'^\s+(pub )?(failed|fits|hexadecimal): bool,$'))
show('1c', 'numbers for refusals', grep(r'(return |efused\()[1-5][0-9]\b|^\s+[1-5][0-9]$|\{ [1-5][0-9] \}|=> .*efused\([1-5][0-9]\)'))
show('1d', 'numbers for no value: 100000, -1, 0', grep(r'\b100000\b|=> -1|refusal != 0'))
show('1e', 'kinds and choices as numbers: conversions and tests', grep(r'fn (is_kind|choice_of|swatch_of|swatch_at)\(|\b(kind2?|choice) [=<>]=? ?[0-9]'))

# 2: functions whose bodies have one shape, of at least four lines of code
def functions():
    for f in FILES:
        text = open(f).read().split('\n')
        i = 0
        while i < len(text):
            m = re.match(r'(\s*)(pub(\([a-z]+\))? )?(extern "C" )?fn (\w+)', text[i])
            if m:
                ind = m.group(1)
                j = i
                while j < len(text) and text[j] != ind + '{' and not (text[j].startswith(ind) and text[j].endswith(' {') and re.match(ind + r'(pub.*)?fn ', text[i]) and '(' in text[j] and not text[j].strip().startswith(('requires', 'ensures'))):
                    j += 1
                k = j
                while k < len(text) and text[k] != ind + '}':
                    k += 1
                yield f, i + 1, m.group(5), [l.split('//')[0] for l in text[j + 1:k]]
                i = k
            i += 1
def shape(body):
    s = ' '.join(l.strip() for l in body if l.strip())
    s = re.sub(r'b?"[^"]*"', '"', s)
    s = re.sub(r'\b\d\w*\b', '0', s)
    s = re.sub(r'\b[A-Za-z_]\w*\b', lambda m: m.group(0) if m.group(0) in ('let', 'mut', 'if', 'else', 'while', 'for', 'loop', 'match', 'return', 'in', 'break') else 'x', s)
    return s
groups = defaultdict(list)
for f, i, name, body in functions():
    if sum(1 for l in body if l.strip()) >= 4:
        groups[shape(body)].append((f, i, name))
twins = [g for g in groups.values() if len(g) > 1]
show('2a', 'functions of one shape with another: ' + f'{len(twins)} groups', [p for g in twins for p in g])
records = defaultdict(list)
for f, i, l in grep(r'^\s*(pub(\([a-z]+\))? )?struct \w+'):
    body = [m.group(2) for m in inside(f, i, r'\s+(pub )?(\w+):')]
    records[tuple(body)].append((f, i, l))
show('2b', 'structs with the fields of another', [p for k, g in records.items() if len(g) > 1 and len(k) > 2 for p in g])

# 3
show('3a', 'while and loop', grep(r'\bwhile |\bloop \{'))
show('3b', 'for (not counted as places)', grep(r'\bfor .* in '))

# 4
show('4a', 'casts', grep(r'\bas (u8|u16|u32|u64|i64|usize|isize)\b'))
show('4b', 'functions for a conversion, a copy, an equality, a minimum or a maximum', grep(r'\bfn (wide|byte|count|coordinate|lesser|larger|between|same_answer|same_from|same_cell|copy|clear|low_byte|eight|choice_of|base_of|rgb)\('))
show('4c', 'copies of a field before it is used', grep(r'^\s+let (\w+) = (self|curve|patch|solid|v|s|c|w|answer|block|planes|listed|read|flipped|start)\.(\w+);'))

# 5
clauses = defaultdict(list)
for f, i, l in LINES:
    m = re.match(r'\s+requires (\w+ )?\{(.*)\}\s*$', l)
    if m:
        clauses[m.group(2).strip()].append((f, i, l))
often = [(k, g) for k, g in clauses.items() if len(g) > 2]
show('5', f'requires that stand three times or more: {len(often)} facts', [p for k, g in often for p in g])

# 6
show('6', 'a buffer and a count of it side by side', grep(r'&(mut )?\[\w+\], (\w*count|bytes): usize|(records|answers|buffer): &(mut )?\[u8\],? .*count|numbers: &\[u32\]|table: &(mut )?\[u64\]'))

# 7
show('7', 'switches on which step to run', grep(r'\bmatch (report|choice|case\[0\])\b|Report::|hexadecimal'))

# 8
import os
answers = [f for f in glob.glob('crates/*/proofs/**/*.antt', recursive=True) if os.path.basename(f) in ('Answers.antt', 'Invariants.antt')]
print(f'8   {len(answers):4}  files of answers and invariants, of {sum(len(open(f).readlines()) for f in answers)} lines')
