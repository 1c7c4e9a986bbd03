#!/usr/bin/env python3
"""Counts the places of each point of docs/DESIGN-PASS.md in crates/*/src (and, for point 8, in crates/*/proofs).

    tools/places.py [COMMIT] [-v]

COMMIT: count what stood there, else the tree as it stands. -v prints each place."""
import re, subprocess, sys
from collections import defaultdict

args = [a for a in sys.argv[1:] if a != '-v']
verbose = '-v' in sys.argv[1:]
commit = args[0] if args else None


def sh(*c):
    return subprocess.run(c, capture_output=True, text=True, check=True).stdout


def names():
    if commit:
        return sh('git', 'ls-tree', '-r', '--name-only', commit, 'crates').splitlines()
    return sh('git', 'ls-files', 'crates').splitlines()


def text(f):
    if commit:
        return sh('git', 'show', f'{commit}:{f}')
    try:
        return open(f).read()
    except FileNotFoundError:
        return ''


def code(s):
    """The text without comments and without ghost lines."""
    return '\n'.join('' if re.match(r'\s*(//|ghost use)', l) else l for l in s.split('\n'))


SRC = [f for f in names() if re.match(r'crates/[^/]+/src/.*\.rt$', f)]
CODE = {f: code(text(f)) for f in SRC}
FN = re.compile(r'^( *)((?:pub(?:\([a-z]+\))? )?(?:extern "C" )?fn (\w+).*?)\n\1\}$', re.S | re.M)


def functions():
    for f, s in CODE.items():
        for m in FN.finditer(s):
            yield f, m.group(3), m.group(2), s[:m.start()].count('\n') + 1


def clause(l):
    return re.match(r'\s*(requires|ensures)\b', l)


def body(fn):
    return '\n'.join(l for l in fn.split('\n') if not clause(l))


places = defaultdict(list)


def add(point, f, line, what):
    places[point].append((f, line, what))


def lines(point, what, pattern, skip_clauses=True):
    for f, s in CODE.items():
        for n, l in enumerate(s.split('\n'), 1):
            if skip_clauses and clause(l):
                continue
            for _ in re.finditer(pattern, l):
                add(point, f, n, what)


# 1: enums of the shape of Option or Result, a flag with a value, numbers for kinds and refusals
for f, s in CODE.items():
    for m in re.finditer(r'enum (\w+) \{(.*?)\n\}', s, re.S):
        v = m.group(2)
        if re.search(r'\b(Nothing|Bad|Broken|Refused)\b', v):
            add(1, f, s[:m.start()].count('\n') + 1, 'an enum of the shape of Option or Result: ' + m.group(1))
    for m in re.finditer(r'struct (\w+)(?:<[^>]*>)? \{(.*?)\n\}', s, re.S):
        v = m.group(2)
        n = s[:m.start()].count('\n') + 1
        if re.search(r'\b(valid|known|full|owed|chosen): bool', v):
            add(1, f, n, 'a flag beside a value: ' + m.group(1))
        if re.search(r'\brefusal: u16', v):
            add(1, f, n, 'a refusal\'s number beside a value: ' + m.group(1))
        if re.search(r'\b(kind|status): u16', v):
            add(1, f, n, 'a number for a kind: ' + m.group(1))
lines(1, 'a refusal by its number', r'Refused\(\d+\)|refusal: [1-9]\d*\b|refused\([a-z]*,? ?\d+\b')
lines(1, 'a test of a refusal\'s number', r'\b(refusal|e) [!=]= 0\b')
lines(1, 'a kind by its number', r'\b(kind|which|k\.value|kind\.value) (==|>|<) \d')
lines(1, 'a parameter that says whether another is there', r'\bchosen: bool')

# 2: functions whose bodies are the same but for names, types, numbers and constants
shape = defaultdict(list)
for f, name, fn, n in functions():
    b = body(fn)
    b = b[b.find('{') + 1:] if '{' in b else b
    tokens = re.findall(r'[A-Za-z_]\w*|\d+|[^\s\w]', b)
    keep = {'if', 'else', 'while', 'for', 'in', 'match', 'return', 'let', 'mut', 'self', 'loop', 'break', 'continue', 'true', 'false'}
    norm = ' '.join(t if (t in keep or not re.match(r'\w', t)) else 'x' for t in tokens)
    if len(tokens) >= 25:
        shape[norm].append((f, n, name))
for group in shape.values():
    if len(group) > 1:
        for f, n, name in group:
            add(2, f, n, 'of one shape: ' + ', '.join(sorted({g[2] for g in group})))

# 3: loops that count by hand
lines(3, 'a count by hand', r'\b(\w+) = \1 [+-] 1;|\b\w+ [+-]= 1;')

# 4: equality, order, copying, conversion and printing by hand
for f, name, fn, n in functions():
    if re.search(r'^(code|number|of|pack|unpack|opt|unopt|bit|low|four|four_word|class_word|\w+_code|\w+_word)$', name):
        add(4, f, n, 'a conversion by hand: ' + name)
    if re.search(r'^(least|least_of|both|or_default|next_or|chosen|copy|clear|clear_all|default|empty|fresh)$', name):
        add(4, f, n, 'a function of std by hand: ' + name)
lines(4, 'printing by hand', r'write_all\(b"')

# 5: a fact that many contracts repeat, and parameters that travel together
for f, name, fn, n in functions():
    c = [l for l in fn.split('\n') if clause(l)]
    if any(re.search(r'length [\w.]+ ≡ \d|mode < 16', l) for l in c):
        add(5, f, n, 'a fact that others repeat: ' + name)
    sig = fn[:fn.find('\n{')] if '\n{' in fn else fn
    sig = '\n'.join(l for l in sig.split('\n') if not clause(l)).split('->')[0]
    if len(re.findall(r'\b\w+: ', sig)) + ('self' in sig) >= 6:
        add(5, f, n, 'six parameters or more: ' + name)

# 6: buffers with a length beside them, parallel arrays, places in one array
for f, s in CODE.items():
    for m in re.finditer(r'struct (\w+)(?:<[^>]*>)? \{(.*?)\n\}', s, re.S):
        v = m.group(2)
        if re.search(r': \[', v) and re.search(r'\b(count|kept|queued|trailed|counts|sizes): ', v):
            add(6, f, s[:m.start()].count('\n') + 1, 'an array with a count: ' + m.group(1))
lines(6, 'a place in one array', r'const \w*(_AT|HEADS|ACTS|WORDS|ALL)\b')
lines(6, 'parallel arrays', r'heads: &|\(heads, acts')
lines(6, 'a part of an array by its places', r'\[\w*(_AT|HEADS|ACTS|start)\b[^\]]*\.\.')

# 7: a switch on which step to run
for f, s in CODE.items():
    for m in re.finditer(r'match \w+ \{\s*0 =>', s):
        add(7, f, s[:m.start()].count('\n') + 1, 'a switch by number')
    for m in re.finditer(r'enum (Player)\b', s):
        add(7, f, s[:m.start()].count('\n') + 1, 'an enum that says what to run: ' + m.group(1))

# 8: proofs
proof_files = [f for f in names() if re.match(r'crates/(?!rules/)[^/]+/proofs/.*\.antt$', f) and not f.endswith('Lib.antt')]
answers = [f for f in proof_files if f.endswith('/Answers.antt') or f.endswith('/Invariants.antt') or f.endswith('/Proof.antt')]

WORDS = {1: 'enums like Option or Result, flags, numbers for kinds and refusals', 2: 'functions of one shape',
         3: 'counts by hand', 4: 'conversion, copying and printing by hand', 5: 'repeated facts and long parameter lists',
         6: 'buffers with counts, parallel arrays, places in one array', 7: 'switches on what to run'}
for p in range(1, 8):
    print(f'point {p}: {len(places[p])} places ({WORDS[p]})')
    kinds = defaultdict(int)
    for f, n, what in places[p]:
        kinds[what.split(':')[0]] += 1
    for k, c in sorted(kinds.items(), key=lambda x: -x[1]):
        print(f'    {c:4} {k}')
    if verbose:
        for f, n, what in places[p]:
            print(f'        {f}:{n} {what}')
n = sum(text(f).count('\n') for f in proof_files)
print(f'point 8: {len(answers)} files of answers and invariants, {len(proof_files) - len(answers)} of lemmas, {n} lines (crates with code)')
print(f'functions: {len(list(functions()))}; lines of src: {sum(text(f).count(chr(10)) for f in SRC)}')
