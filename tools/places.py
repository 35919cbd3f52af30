#!/usr/bin/env python3
"""Lists the places in crates/*/src/*.rt that docs/DESIGN-PASS.md counts, a point after the other. places.py [FOLDER] [--count]

It finds forms by their text: whether a place it finds is one that could read better is for a reader to say.
"""
import collections
import glob
import os
import re
import sys

FUNCTION = re.compile(r'^ *(?:pub )?(?:extern "C" )?fn (\w+)(?:<[^>]*>)?\(([^{]*?)\)(?: ->|\n| \{)', re.M | re.S)
NUMBER = r'(?:usize|u64|u32|u8|i64)'
KEYWORDS = set('fn pub let mut if else while for in return match true false as struct enum impl use const self Self'.split())

# point: what is looked for, line by line
LINES = {
    '1a own enums': r'^(pub )?enum ',
    '1b a number or a flag for none, a refusal or an end, as the comments tell':
        r'^// .*(\b(0|16|99|128|255) (if|for|where|from)\b|number of a refusal|refusal.s number|hether the power stayed|numbers? of the outcome)',
    '1c a number for a kind': r'\b(which|kind|what|style|then|outcome): ' + NUMBER + r'\b',
    '1d a flag for a kind': r'\b(note|first|tame|made): bool\b',
    '3 loops that are no `for`': r'^ *(while|loop)\b',
    '4a casts': r' as ' + NUMBER + r'\b',
    '4b functions that print or convert one value':
        r'^ *(pub )?fn (print_\w+|text|text_if|number|entry|byte|word|wide|flip|hold|minus|lesser|digit|hex|refusal|amount)\b',
    '5a the length of a page or a noise in a contract': r'(requires|ensures).*length (page|(chip\.old\.)?noise|new)\.(now|old) ≡',
    '5b a ring and its ranges in a contract': r'requires.*(Sane |4 ≤ )([a-z]+\.)*(b|blocks)\b',
    '6a buffers with a length beside them': r'\[u8; (trying::)?LONGEST\]|\[u64; 512\]',
    '7 a switch by number': r'\bmatch (which|what|style|kind|i|r)\b|if (which|kind) (==|<) ',
}

# point 5 and 6: parameters that travel together
TOGETHER = {
    '5c chip, fuse, noise': ('chip', 'fuse', 'noise'),
    '5d b, h': ('b', 'h'),
    '5e next, passed': ('next', 'passed'),
    '5f chip, work': ('chip', 'work'),
    '5g tally, kind': ('tally', 'kind'),
    '6b index, n': ('index', 'n'),
}


def main():
    arguments = [a for a in sys.argv[1:] if a != '--count']
    os.chdir(arguments[0] if arguments else '.')
    found = collections.defaultdict(list)
    skeletons = collections.defaultdict(list)
    for name in sorted(glob.glob('crates/*/src/*.rt')):
        text = open(name).read()
        for i, line in enumerate(text.split('\n'), 1):
            for point, form in LINES.items():
                if re.search(form, line):
                    found[point].append(f'{name}:{i}: {line.strip()[:100]}')
        for f in FUNCTION.finditer(text):
            line = text[:f.start()].count('\n') + 1
            parameters = [re.sub(r'\d$', '', p.split(':')[0].strip().replace('mut ', '')) for p in f.group(2).split(',') if ':' in p]
            for point, group in TOGETHER.items():
                if all(p in parameters for p in group):
                    found[point].append(f'{name}:{line}: {f.group(1)}')
            if len(parameters) >= 7:
                found['5h seven parameters or more'].append(f'{name}:{line}: {f.group(1)}')
            skeletons[skeleton(text, f)].append(f'{name}:{line}: {f.group(1)}')
    for s, places in skeletons.items():
        if len(places) > 1 and s.count(' ') >= 12:
            found['2 bodies that differ in names and numbers alone'].append(', '.join(places))
    for point in sorted(set(LINES) | set(TOGETHER) | set(found)):
        print(f'{point}: {len(found[point])}')
        if '--count' not in sys.argv:
            for place in found[point]:
                print('    ' + place)


def skeleton(text, f):
    """The body with each name as N and each number as 0."""
    body = re.search(r'^( *)\{$.*?^\1\}$|\{$.*?^ *\}$', text[f.start():], re.M | re.S)
    tokens = re.findall(r'[A-Za-z_]\w*|\d\w*|\S', body.group(0) if body else '')
    return ' '.join(t if t in KEYWORDS else 'N' if re.match(r'[A-Za-z_]', t) else '0' if t[0].isdigit() else t for t in tokens)


main()
