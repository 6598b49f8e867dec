#!/usr/bin/env python3
"""Lists, in every crate's src/, the places that the eight points of docs/DESIGN-PASS.md ask about.

    python3 tools/places.py            each point's places, and how many
    python3 tools/places.py --counts   the numbers alone

A place that is printed is one to look at: docs/DESIGN-PASS.md says of each what came of it.
"""
import collections
import pathlib
import re
import sys

HEAD = re.compile(r'[ \t]*(?:pub(?:\([^)]*\))? )?(?:const )?fn (\w+)')


def sources():
    for path in sorted(pathlib.Path('crates').glob('*/src/**/*.rt')):
        yield path, path.read_text()


def functions(text):
    """Each function: its line, name, signature, the comment above it, and its body."""
    lines = text.split('\n')
    for at, line in enumerate(lines):
        match = HEAD.match(line)
        if not match:
            continue
        docs = at
        while docs and lines[docs - 1].strip().startswith('//'):
            docs -= 1
        end = at
        while not re.search(r'[{;]$', lines[end].rstrip()) and not re.match(r'\s*(requires|ensures|where)', lines[end]):
            end += 1
        indent = re.match(r' *', line).group(0)
        last = end
        while not lines[last].rstrip().endswith(';') and not lines[last].rstrip().endswith('{}') and lines[last].rstrip() != indent + '}':
            last += 1
        body = end
        while body < last and not re.match(re.escape(indent) + r'\{', lines[body]) and not lines[body].rstrip().endswith('{'):
            body += 1
        signature = ' '.join(lines[at:end + (0 if re.match(r'\s*(requires|ensures|where)', lines[end]) else 1)])
        yield at + 1, match.group(1), re.sub(r'\s+', ' ', signature), ' '.join(lines[docs:at]), ' '.join(lines[body:last + 1])


def by_line(pattern):
    for path, text in sources():
        for number, line in enumerate(text.split('\n'), 1):
            if re.search(pattern, line.split('//')[0]):
                yield f'{path}:{number}: {line.strip()}'


def codes():
    told = re.compile(r'refusal.s number|first refusal|\b0,? or\b|or [0-9,]+ where|[Tt]he layer|number of the (reason|fault)|: 0, ')
    for path, text in sources():
        for line, name, head, docs, body in functions(text):
            answer = head.rsplit('->', 1)[-1] if '->' in head else ''
            numbered = re.search(r'Result<.*, u(8|32)>', head)
            if numbered or (re.match(r'\s*u(8|16|32)\b', answer) and told.search(docs)) or re.search(r'\bnumber: u(8|32)', head):
                yield f'{path}:{line}: {name}'
        for match in re.finditer(r'struct (\w+)[^{;]*\{[^}]*?(\w+): bool,', text):
            yield f'{path}:{text.count(chr(10), 0, match.start()) + 1}: {match.group(1)}.{match.group(2)}'


def twins():
    shapes = collections.defaultdict(list)
    for path, text in sources():
        for line, name, head, docs, body in functions(text):
            code = ' '.join(row.split('//')[0] for row in (head.split('(', 1)[1] + body).split('\n'))
            code = re.sub(r'b?"[^"]*"|b\'.*?\'', 'S', re.sub(r'\s+', ' ', code))
            code = re.sub(r'\b[0-9_]+(u8|u32|u64)?\b', 'N', code)
            words = []

            def shaped(match):
                word = match.group(0)
                if word in KEPT:
                    return word
                if word not in words:
                    words.append(word)
                return f'x{words.index(word)}'

            shape = re.sub(r'\b[A-Za-z_]\w*\b', shaped, code)
            if len(shape) > 60:
                shapes[shape].append(f'{path}:{line}: {name}')
    for places in shapes.values():
        if len(places) > 1:
            yield from places


KEPT = set('fn pub self mut let if else match return for in while for Ok Err Some None'.split())


def clauses():
    told = collections.defaultdict(list)
    for path, text in sources():
        for number, line in enumerate(text.split('\n'), 1):
            match = re.match(r'\s*(requires|ensures)\*?(?: \w+)? \{ (.*) \}$', line)
            if not match:
                continue
            fact = re.sub(r'\.(old|new|now)\b', '', match.group(2))
            for part in re.split(r' × ', fact):
                part = part.strip('() ')
                if len(part) > 12:
                    told[path.parts[1], match.group(1), part].append(f'{path}:{number}: {part}')
    for (crate, kind, fact), places in told.items():
        if kind == 'requires' and len(places) >= 3:
            yield from places
    groups = collections.defaultdict(list)
    for path, text in sources():
        for line, name, head, docs, body in functions(text):
            names = re.findall(r'(\w+): ', head.split('(', 1)[1])
            for size in (3,):
                for at in range(len(names) - size + 1):
                    groups[path.parts[1], tuple(names[at:at + size])].append(f'{path}:{line}: {name}')
    for (crate, names), places in groups.items():
        if len(places) >= 3:
            for place in places:
                yield f'{place} ({", ".join(names)})'


POINTS = [
    ('1 own Option or Result, flag and value, numbers for kinds or refusals', codes),
    ('2 twins: functions of one shape', twins),
    ('3 loops over a range, or that count', lambda: by_line(r'\bfor \S+ in [^{]*\.\.|\.enumerate\(\)|\bwhile\b')),
    ('4 equality, order, copying, conversion, printing by hand', lambda: by_line(r'fn (same|is_ahead|ahead_of|goes_|copy_|plain|write_number|number|digits|round_up|divided_up|sim_(rule|kind))\w*\(|fn is\(')),
    ('5 facts required in three places of a crate or more; parameters that travel together', clauses),
    ('6 buffers with a length, parallel arrays', lambda: by_line(r'^\s*(pub(\(crate\))? )?(len|used|count): (usize|u8),')),
    ('7 switches on which step or rule, function tables', lambda: by_line(r'match (\w+\.)?(kind|rule|way)\b|fn\(|dyn |&mut Cursor|&mut cursor')),
]


def main():
    for name, places in POINTS:
        found = list(dict.fromkeys(places()))
        print(f'{name}: {len(found)}')
        if '--counts' not in sys.argv:
            for place in found:
                print('   ', place)
    proofs = [p for p in pathlib.Path('crates').glob('*/proofs/**/*.antt')]
    answers = [p for p in proofs if p.name == 'Answers.antt']
    lemmas = [p for p in proofs if p.name not in ('Answers.antt', 'Invariants.antt', 'Lib.antt')]
    for kind, files in (('answers', answers), ('lemma files', lemmas)):
        lines = sum(len(p.read_text().split('\n')) - 1 for p in files)
        print(f'8 {kind}: {len(files)} files, {lines} lines')


main()
