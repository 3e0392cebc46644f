#!/usr/bin/env python3
"""Counts the places in crates/*/src that docs/DESIGN-PASS.md speaks of, point by point.

    tools/places.py [--list] [POINT..]

Run at the top of a checkout, of any commit. --list prints each place. What the counts mean stands on that page; a place found here is one
to look at, and the page says what became of it.
"""
import collections
import pathlib
import re
import sys

FUNCTION = re.compile(r'^\s*(?:pub(?:\([a-z]+\))? )?fn (\w+)')
TYPES = re.compile(r'\b(?:u8|u16|u32|u64|usize|i32|bool)\b')


def sources():
    return sorted(p for p in pathlib.Path('crates').glob('*/src/**/*.rt'))


def functions(path):
    """Each function of a file: name, line, contract, body lines."""
    lines = path.read_text().split('\n')
    i = 0
    while i < len(lines):
        m = FUNCTION.match(lines[i])
        if not m:
            i += 1
            continue
        indent = len(lines[i]) - len(lines[i].lstrip())
        j = i
        while j < len(lines) and lines[j] not in (' ' * indent + '{', ' ' * indent + '}') and not lines[j].endswith('{'):
            j += 1
        head = lines[i:j]
        k = j
        while k < len(lines) and lines[k] != ' ' * indent + '}':
            k += 1
        yield m.group(1), i + 1, head, lines[j + 1:k]
        i = k + 1


def point1():
    """Enums; fields that are flags; parameters and fields that are a number for a kind, a refusal, a stop or a column."""
    for p in sources():
        for n, l in enumerate(p.read_text().split('\n'), 1):
            if re.match(r'\s*(pub(\([a-z]+\))? )?enum ', l):
                yield f'{p}:{n}: {l.strip()}'
            elif re.match(r'\s*(pub )?\w+: bool,$', l):
                yield f'{p}:{n}: {l.strip()}'
            elif re.search(r'\b(kind|number|column|refusal|stop|which)\w*: (u8|u16|u32|u64|usize)\b', l) and 'ghost' not in l:
                yield f'{p}:{n}: {l.strip()}'


def point2():
    """Functions of one crate with the same shape: names, numbers and types apart."""
    shapes = collections.defaultdict(list)
    for p in sources():
        for name, n, head, body in functions(p):
            text = '\n'.join(re.sub(r'//.*', '', b).strip() for b in body)
            if len([b for b in body if b.strip()]) < 3:
                continue
            text = re.sub(r'"[^"]*"|\b0x[0-9a-fA-F_]+\b|\b\d[\d_]*\b', '0', text)
            text = re.sub(r'\b[A-Za-z_]\w*\b', lambda m: m.group() if m.group() in ('if', 'else', 'while', 'match', 'return', 'let', 'mut', 'for', 'in') else 'x', text)
            shapes[p.parts[1], text].append(f'{p}:{n}: {name}')
    for places in shapes.values():
        if len(places) > 1:
            yield from places


def point3():
    """Loops that are no for, and for loops over numbers."""
    for p in sources():
        for n, l in enumerate(p.read_text().split('\n'), 1):
            if re.match(r'\s*(while|loop)\b', l) or re.match(r'\s*for \w+ in \S*\.\.', l):
                yield f'{p}:{n}: {l.strip()}'


def point4():
    """Functions whose whole body is one match from cases to values; functions that put text or numbers."""
    for p in sources():
        for name, n, head, body in functions(p):
            full = [b.strip() for b in body if b.strip()]
            if full and full[0].startswith('match ') and full[-1] == '}' and sum(b.startswith('match ') for b in full) == 1:
                arms = [b for b in full[1:-1] if '=>' in b]
                if arms and all(re.search(r'=> (true|false|\d+|[A-Z]\w*::\w+),?$', b) for b in arms):
                    yield f'{p}:{n}: {name}'
            if re.match(r'(same|equal|compare|less|copy)_', name):
                yield f'{p}:{n}: {name}'


def point5():
    """Facts that three or more functions ask for; parameters that travel together."""
    facts = collections.defaultdict(set)
    groups = collections.Counter()
    for p in sources():
        for name, n, head, body in functions(p):
            text = ' '.join(h.strip() for h in head)
            for clause in re.findall(r'requires (?:\w+ )?\{(.*?)\}(?= ensures| requires|$)', text):
                for fact in re.split(r' × ', clause):
                    facts[p.parts[1], re.sub(r'\b\w+\.(now|old)\b', 'x', fact.strip(' ()'))].add(name)
            names = re.findall(r'(\w+): ', text.split(' requires')[0].split(' ensures')[0])
            for a, b in (('s', 'at'), ('longs', 'words'), ('out', 'at')):
                if a in names and b in names:
                    groups[a + ' and ' + b] += 1
    for (crate, fact), names in sorted(facts.items()):
        if len(names) >= 3:
            yield f'{crate}: {len(names)} functions ask: {fact}'
    for g, n in sorted(groups.items()):
        yield f'{n} functions take {g}'


def point6():
    """Arrays in structs, and slices with a length or a place beside them."""
    for p in sources():
        for n, l in enumerate(p.read_text().split('\n'), 1):
            if re.match(r'\s*(pub )?\w+: \[[\w\[]+; ', l):
                yield f'{p}:{n}: {l.strip()}'
        for name, n, head, body in functions(p):
            text = ' '.join(h.strip() for h in head).split(' requires')[0].split(' ensures')[0]
            if re.search(r'\w+: &(?:mut )?\[\w+\], (?:n|len|have|count|size): usize', text):
                yield f'{p}:{n}: {name}'


def point7():
    """Function pointers, dyn, bounds on Fn; enums of steps."""
    for p in sources():
        for n, l in enumerate(p.read_text().split('\n'), 1):
            if not l.strip().startswith('//') and re.search(r'\bfn\(|\bdyn |: Fn(Once|Mut)?\(|enum (Step|Next|Deed|Call)\b', l):
                yield f'{p}:{n}: {l.strip()}'


def point8():
    """Lines of proof files, by crate."""
    for c in sorted(pathlib.Path('crates').iterdir()):
        files = list((c / 'proofs').rglob('*.antt'))
        if files:
            yield f'{c.name}: {sum(len(f.read_text().split(chr(10))) - 1 for f in files)} lines in {len(files)} files'


def main():
    words = sys.argv[1:]
    show = '--list' in words
    points = [int(w) for w in words if w.isdigit()] or range(1, 9)
    for k in points:
        f = globals()[f'point{k}']
        places = list(f())
        print(f'{k}. {f.__doc__} {len(places)}')
        if show:
            print(''.join(f'    {x}\n' for x in places), end='')


main()
