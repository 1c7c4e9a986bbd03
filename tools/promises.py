#!/usr/bin/env python3
"""Lists the public functions and the definitions of specs/ that changed since a commit, old and new side by side, as docs/DESIGN-PASS.md has them.

    tools/promises.py COMMIT

What of the old is gone is looked up in tools/moved.tsv: its name there, a tab, and the name of what states its promise now, or
words. Names that the table lacks, and names in it that nothing has, are told on stderr, and the status is 1."""
import re, subprocess, sys

FN = re.compile(r'^( *)(pub )?(?:extern "C" )?fn (\w+)')
HEAD = re.compile(r'^(?:pub )?(impl\b.*?|trait\b.*?)(?: \{.*)?$')


def sh(*c):
    return subprocess.run(c, capture_output=True, text=True, check=True).stdout


def names(commit):
    if commit:
        return sh('git', 'ls-tree', '-r', '--name-only', commit, 'crates').splitlines()
    return sh('git', 'ls-files', 'crates').splitlines()


def text(commit, f):
    if commit:
        return sh('git', 'show', f'{commit}:{f}')
    return open(f).read()


def flat(s):
    s = re.sub(r'\s+', ' ', s).strip()
    return re.sub(r',? ([)\]])', r'\1', re.sub(r'([(\[]) ', r'\1', s))


def owner(head):
    """`impl<'a> Writer<'a>` is Writer, `impl Entry for Rule` is `Rule as Entry`, a trait is its name."""
    head = re.sub(r"<[^<>]*(<[^<>]*>)?[^<>]*>", '', head)
    head = re.sub(r'^(impl|trait)\s*', '', head).split(':')[0].strip()
    m = re.match(r'(\S+) for (\S+)', head)
    return f'{m[2]} as {m[1]}' if m else head


def functions(commit):
    """The public functions by name, with the lines of signature and clauses: those of public modules, and the public methods of
    all modules."""
    found = {}
    all_names = [f for f in names(commit) if re.match(r'crates/\w+/src/\w+\.rt$', f)]
    for f in all_names:
        crate, module = f.split('/')[1], f.split('/')[3][:-3]
        if module == 'main':
            continue
        root = text(commit, f'crates/{crate}/src/lib.rt')
        private = module != 'lib' and not re.search(rf'^pub (mod|use) {module}\b', root, re.M)
        lines = text(commit, f).split('\n')
        inside, public = '', False
        for i, line in enumerate(lines):
            m = HEAD.match(line)
            if m:
                inside = owner(m[1])
                public = ' as ' in inside or line.startswith('pub trait')
            elif line == '}':
                inside, public = '', False
            m = FN.match(line)
            if not m or not (m[2] or public) or (private and not inside):
                continue
            sign, clauses, j = [], [], i
            while True:
                s = lines[j].strip()
                if re.match(r'(requires|ensures)\b', s):
                    clauses.append(s)
                elif s == '{' and (clauses or sign):
                    break
                elif clauses:
                    clauses[-1] += ' ' + s
                else:
                    sign.append(re.sub(r'\s*\{( *\})?$', '', s))
                if (re.search(r'\{( *\})?$', s) and not clauses) or s.endswith(';'):
                    break
                j += 1
            shown = [re.sub(r'^pub ', '', flat(' '.join(sign))).rstrip(';')]
            shown += [flat(c).rstrip(';') for c in clauses]
            found[' '.join(x for x in (f'{crate}::{module}', inside, m[3]) if x)] = shown
    return found


def definitions(commit):
    """The definitions of specs/ by `crate name`."""
    found = {}
    for f in names(commit):
        if not re.match(r'crates/\w+/specs/\w+\.antt$', f) or f.startswith('crates/rules/'):
            continue
        item, section = None, False
        for line in text(commit, f).split('\n'):
            if re.match(r'\s*--', line) or not line.strip():
                continue
            if not line[0].isspace():
                section = line.startswith('module ')
                if section:
                    continue
            elif section:
                line = line[2:]
            if re.match(r'(pub )?(import|open|mod|use|ghost use)\b|#', line):
                item = None
            elif not line[0].isspace() and line[0] != '}':
                m = re.match(r'(?:pub )?(?:(?:abbrev|unfoldable|record|data|ruleset) )*(?:pub )?(?:record |data )?([^\s:({]+)', line)
                name = f.split('/')[1] + ' ' + m[1]
                item = name
                found.setdefault(item, [])
                found[item].append(line.strip())
            elif item:
                found[item].append(line.strip())
    return {k: [flat(' '.join(v))] for k, v in found.items()}


def cell(lines):
    return '<br>'.join('`' + l.replace('|', '\\|') + '`' for l in lines)


def named(name):
    crate, _, rest = name.partition(' ')
    return f'`{crate}` `{rest}`'


def table(heads, rows):
    print('| ' + ' | '.join(heads) + ' |')
    print('|' + '---|' * len(heads))
    for r in rows:
        print('| ' + ' | '.join(r) + ' |')
    print()


commit = sys.argv[1]
moved = dict(l.rstrip('\n').split('\t') for l in open('tools/moved.tsv') if '\t' in l)
status = 0


def says(now, word):
    """What the table says of a name that is gone: a function of now with its clauses, or words."""
    global status
    target = moved.get(word)
    if target is None:
        print('nothing said of', word, file=sys.stderr)
        status = 1
        return '?'
    if re.match(r'\w+::\w+ ', target) and ';' not in target:
        if target not in now:
            print('no such function:', target, file=sys.stderr)
            status = 1
            return '?'
        return named(target) + ' ' + cell(now[target])
    return target


old, now = functions(commit), functions(None)
both = [k for k in old if k in now]
print('### Changed, under the same name\n')
table(['where', 'before', 'now'], [[named(k), cell(old[k]), cell(now[k])] for k in sorted(both) if old[k] != now[k]])
print('### Gone, and what states the promise now\n')
table(['before', 'now'], [[named(k) + ' ' + cell(old[k]), says(now, k)] for k in sorted(old) if k not in now])
targets = {moved.get(k) for k in old if k not in now}
print('### New\n')
table(['where', 'what'], [[named(k), cell(now[k])] for k in sorted(now) if k not in old and k not in targets])
was, are = definitions(commit), definitions(None)
print('### Definitions of specs/\n')
rows = []
for k in sorted(was):
    if k not in are:
        rows.append([f'`{k}`', cell(was[k]), moved.get(k, 'gone')])
    elif was[k] != are[k]:
        rows.append([f'`{k}`', cell(was[k]), cell(are[k])])
rows += [[f'`{k}`', '', cell(are[k])] for k in sorted(are) if k not in was]
table(['crate, name', 'before', 'now'], rows)
print(f'{len(old)} public functions, {len(now)} now; {sum(old[k] == now[k] for k in both)} the same', file=sys.stderr)
sys.exit(status)
