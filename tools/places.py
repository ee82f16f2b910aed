#!/usr/bin/env python3
"""Lists the places in src/ that docs/DESIGN-PASS.md counts, a line each: 'POINT KIND FILE:LINE: TEXT'; the last lines count them by point and kind.

    python3 tools/places.py [FOLDER]      the folder of the repository, the present one if left out
"""
import collections
import pathlib
import re
import sys

ROOT = pathlib.Path(sys.argv[1] if len(sys.argv) > 1 else '.')

# What a line shows: point, kind, pattern. Comments are taken out before.
LINES = [
    ('1', 'enum', r'\benum \w+'),
    ('1', 'flag', r'^\s*(pub )?\w+: bool,'),
    ('1', 'code', r'\b(number|ending|kind|said|refusal|word|shape|reading|name|letters|wanted): u(8|64)\b'),
    ('1', 'code', r'^\s*(pub(\(crate\))? )?fn (objection|shape\w*|number|place)\b.*-> u(8|64)'),
    ('1', 'code', r'^\s*(pub(\(crate\))? )?const [A-Z_]+: (u8|u64|i32) = '),
    ('1', 'none', r'(usize|u64)::MAX|\bNO_PLACE\b|::NONE =>|!= Line::NONE|=> State::TASKS|Mark::Absent => 0'),
    ('3', 'while', r'^\s*while\b'),
    ('3', 'index', r'\bfor \w+ in (\w|\.|\()+\.\.'),
    ('4', 'compare', r'\bfn (same_\w+|shorter|longer|faster|nearer|farther)\b'),
    ('4', 'compare', r'\.0 (<|<=|==|!=) |(<|<=|==|!=) [a-z_.]+\.0\b'),
    ('4', 'copied', r'^\s+(\w+): \w+\.\1,'),
    ('4', 'copied', r'^\s+let (\w+) = \w+\.\1;'),
    ('4', 'converted', r'\* (256|65536)\b|% (256|65536|4294967296)\b|b\'0\' \+'),
    ('4', 'printed', r'^\s*(pub(\(crate\))? )?fn \w+\(rt: &impl Print'),
    ('6', 'array', r'^\s*(pub )?\w+: \[\w+; \w+\],|: \[\w+; \d+\],$|\[\[?\w+(\(\w+\))?; \w+\]'),
    ('6', 'length', r'^\s*(pub )?(count|depth): u\w+,|let (mut )?(at|end)\b'),
    ('7', 'switch', r'^\s*match (name|word|said|digit|shape|reading|refusal)\b'),
]


def code_of(path):
    """The lines of a source file, comments taken out."""
    return [re.sub(r'//.*', '', line).rstrip() for line in path.read_text().splitlines()]


def functions_of(lines):
    """Name, line, parameters, clauses and body of each function."""
    for start, line in enumerate(lines):
        named = re.match(r'\s*(?:pub(?:\(crate\))? )?fn (\w+)', line)
        if not named:
            continue
        indent = len(line) - len(line.lstrip())
        end = next((k for k in range(start, len(lines)) if lines[k] == ' ' * indent + '}'), start)
        text = '\n'.join(lines[start:end + 1])
        opened = re.search(r'^\s*\{$|\{$', text, re.M)
        head, body = (text[:opened.start()], text[opened.end():]) if opened else (text, '')
        yield named[1], start + 1, head, body


def shape(body):
    """The body with each name replaced by the order of its first use: the same for two twins."""
    seen = {}
    keep = {'if', 'else', 'for', 'in', 'let', 'mut', 'return', 'match', 'true', 'false', 'self'}
    return ' '.join(
        word if word in keep or not re.match(r'\w', word) else str(seen.setdefault(word, len(seen)))
        for word in re.findall(r'\w+|[^\w\s]', body))


found = []
twins = collections.defaultdict(list)
facts = collections.defaultdict(list)
travel = collections.defaultdict(list)
for path in sorted(ROOT.glob('crates/*/src/**/*.rt')):
    lines = code_of(path)
    where = path.relative_to(ROOT)
    for number, line in enumerate(lines, 1):
        for point, kind, pattern in LINES:
            if re.search(pattern, line):
                found.append((point, kind, f'{where}:{number}', line.strip()))
                break
    for name, number, head, body in functions_of(lines):
        place = f'{where}:{number}'
        if len(body.split()) > 6:
            twins[shape(body)].append((place, name))
        for clause in re.findall(r'requires(?: \w+)? \{(.*)\}', head):
            for fact in clause.split('×'):
                facts[where.parts[1], re.sub(r'\b\d+\b', 'n', re.sub(r'length \w+\.now', 'length n', fact)).strip(' ()')].append((place, name))
        parameters = re.findall(r'(\w+): ([^,()]+)', head.split('->')[0]) if '(' in head else []
        for one in range(len(parameters)):
            for other in range(one + 1, len(parameters)):
                travel[parameters[one], parameters[other]].append((place, name))

for group in twins.values():
    if len(group) > 1:
        names = ', '.join(name for _, name in group)
        found.extend(('2', 'twin', place, f'{name}, one of: {names}') for place, name in group)
for (_, fact), group in facts.items():
    if len(group) >= 3:
        found.extend(('5', 'fact', place, f'{name}: {fact}') for place, name in group)
for pair, group in travel.items():
    if len(group) >= 4:
        both = ', '.join(f'{name}: {kind}' for name, kind in pair)
        found.append(('5', 'travel', group[0][0], f'{both}: in {len(group)} functions'))

for point, kind, place, text in sorted(found):
    print(point, kind, f'{place}: {text}')
print()
for (point, kind), count in sorted(collections.Counter((f[0], f[1]) for f in found).items()):
    print('counted:', point, kind, count)
