#!/usr/bin/env python3
"""Lists the places in src/ where an older form may stand, point by point, as docs/DESIGN-PASS.md counts them.

    python3 tools/places.py [POINT]     run at the top of the repository; POINT is 1 to 8, and all of them without it

A place that is listed is one to look at: the page says which were changed, and why the others stay.
"""
import re
import sys
from collections import Counter, defaultdict
from pathlib import Path

TOKEN = re.compile(r'"(?:[^"\\]|\\.)*"|b?\'[^\']\'|[A-Za-z_][A-Za-z_0-9]*|\d[\d_]*|[^\sA-Za-z_0-9]')
KEYWORDS = set('as else fn for if impl in let loop match mut return self Self struct while'.split())


def files():
    return sorted(Path('crates').glob('*/src/**/*.rt'))


def grep(pattern):
    """Each line of code, with comments and clauses left out, in which the pattern stands."""
    found = re.compile(pattern)
    for file in files():
        for number, line in enumerate(file.read_text().split('\n'), 1):
            code = line.split('//')[0]
            if found.search(code) and not code.lstrip().startswith(('ghost', 'ensures', 'requires', 'use ', 'pub use ')):
                yield f'{file}:{number}: {code.strip()}'


def functions():
    """Each function that has a body, with its signature and clauses, and its body."""
    head = re.compile(r'^( *)(?:pub(?:\([a-z]+\))? )?fn (\w+)', re.M)
    for file in files():
        text = file.read_text()
        for start in head.finditer(text):
            opening = re.compile(r'\{$|\{\}$|;$', re.M).search(text, start.end())
            if opening.group() == '{':
                end = re.compile(r'^' + start.group(1) + r'\}$', re.M).search(text, opening.end())
                yield file, start.group(2), text[start.start():opening.start()], text[opening.start():end.end()]


def shape(code):
    """The code with every name, number and text replaced by one word, so that twins look alike."""
    code = re.sub(r'//.*', '', code)
    return ' '.join(t if t in KEYWORDS or not (t[0].isalnum() or t[0] in '_"\'') else '_' for t in TOKEN.findall(code))


def twins():
    """Functions of one crate whose bodies have one shape of 12 or more tokens."""
    alike = defaultdict(list)
    for file, name, _, body in functions():
        form = shape(body)
        if len(form.split()) >= 12:
            alike[file.parts[1], form].append(f'{file}: {name}')
    return [' ~ '.join(places) for places in alike.values() if len(places) > 1]


def together():
    """Parameters, by name and type, that stand side by side in three or more functions."""
    pairs = Counter()
    for _, _, head, _ in functions():
        inside = re.search(r'\((.*?)\)\s*(?:->|$|\n)', head, re.S)
        names = re.findall(r'(\w+): ([^,\n]+?)(?=,|$|\))', inside.group(1)) if inside else []
        for i, one in enumerate(names):
            for other in names[i + 1:]:
                pairs[f'{one[0]}: {one[1]} with {other[0]}: {other[1]}'] += 1
    return [f'{pair} ({count} functions)' for pair, count in pairs.items() if count >= 3]


def facts():
    """Definitions of a record or a type that clauses of three or more functions state."""
    named = defaultdict(set)
    for file, name, head, _ in functions():
        for fact in re.findall(r'(?:ensures|requires)[^{]*\{[^}]*?\b([A-Z]\w*[a-z]\w*)\b', head):
            named[fact].add(f'{file}: {name}')
    return [f'{fact} ({len(places)} functions)' for fact, places in sorted(named.items()) if len(places) >= 3]


def fields():
    """Fields that are arrays or collections, or that number a slot."""
    for file in files():
        for name, body in re.findall(r'struct (\w+)[^;{]*\{\n(.*?)\n\}', file.read_text(), re.S):
            for field in re.findall(r'^    (?:pub(?:\(crate\))? )?(\w+: (?:\[.*; .*\]|.*Vec<.*|VecDeque<.*|u16)),', body, re.M):
                if not re.match(r'(code|place|year|cell|level|count|given): u16', field):
                    yield f'{file}: {name}.{field}'


def answers():
    """What is written of proofs: files and lines, crate by crate."""
    for crate in sorted(Path('crates').iterdir()):
        written = sorted(crate.glob('proofs/**/*.antt'))
        if written:
            lines = sum(len(file.read_text().splitlines()) for file in written)
            yield f'{crate}/proofs: {len(written)} files, {lines} lines'


POINTS = {
    1: ('enums, and numbers or flags that stand for a kind or for none',
        lambda: [*grep(r'^\s*(pub(\(crate\))? )?enum '), *grep(r'const \w+: u16 = (\d+|u16::MAX);|fn (number|kind)\(|u16::MAX$|unwrap_or\(|: bool,$')]),
    2: ('functions that differ only in names, numbers or types', twins),
    3: ('loops over numbers, and counts by hand', lambda: grep(r'\bwhile\b|for [^{]* in [^{]*\.\.|[+-]= 1;')),
    4: ('comparisons, conversions and printing by hand', lambda: grep(
        r'^impl.* (PartialEq|Eq|PartialOrd|Ord|Clone|Copy|From<.*>|TryFrom<.*>|fmt::Display) for'
        r'| as (usize|[iu]\d+)\b|fn (is_same_\w+|compare|name|shown|full|text|giver|number|number_of|answer|places|new)\((?!_?heap)')),
    5: ('facts in three or more contracts, and parameters that travel together', lambda: [*facts(), *together()]),
    6: ('fields that are arrays or vectors, or number a slot, and lists searched by hand', lambda: [*fields(), *grep(r'while .*\[\w+ - 1\]')]),
    7: ('switches on what to do, and functions that are handed on', lambda: grep(r'match (act|fact|self\.order|operation|words)\b|: fn\(|impl Fn|\bdyn\b|\bFn(Once|Mut)?\(|^\s*(pub(\(crate\))? )?enum (Act|Fact|Order)\b')),
    8: ('what is written of proofs', answers),
}


def main():
    for point in [int(word) for word in sys.argv[1:]] or POINTS:
        title, places = POINTS[point]
        listed = list(places())
        print(f'{point}. {title}: {len(listed)}')
        for place in listed:
            print(f'   {place}')


main()
