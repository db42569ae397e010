#!/usr/bin/env python3
"""The places of docs/DESIGN-PASS.md's points in crates/*/src, counted: tools/forms.py [-v] [COMMIT]; with -v each place is printed, with a commit its files."""
import re
import subprocess
import sys
from collections import defaultdict

ARGS = [a for a in sys.argv[1:] if a != '-v']
SAID = '-v' in sys.argv


def sources():
    """Each source file's name and text, of the commit or as it stands."""
    if ARGS:
        listed = subprocess.run(['git', 'ls-tree', '-r', '--name-only', ARGS[0], 'crates'], capture_output=True, text=True, check=True).stdout.split()
    else:
        listed = subprocess.run(['git', 'ls-files', 'crates'], capture_output=True, text=True, check=True).stdout.split()
    for name in listed:
        if re.fullmatch(r'crates/\w+/src/.*\.rt', name):
            text = subprocess.run(['git', 'show', f'{ARGS[0]}:{name}'], capture_output=True, text=True, check=True).stdout if ARGS else open(name).read()
            yield name, text


def functions(text):
    """Each function's name, its parameters and its body."""
    for m in re.finditer(r'^( *)(?:pub )?(?:extern "C" )?fn (\w+)(?:<[^>]*>)?\((.*?)\)[^\n]*?\n(.*?)^\1}$', text, re.S | re.M):
        yield m[2], [p for p in re.split(r',\s*', m[3].strip()) if p], m[4].split('\n' + m[1] + '{\n', 1)[-1]


def shape(body):
    """A body with its names of variables, fields and numbers taken out: what is called, and how it is put together, stays."""
    return re.sub(r'\s+', ' ', re.sub(r'\b[a-z_]\w*\b(?![(!:])', 'x', re.sub(r'\b\d\w*', '0', re.sub(r'//.*', '', body)))).strip()


def lines(pattern, skip=r'^\s*//'):
    return [f'{name}:{k}: {line.strip()}' for name, text in TEXTS for k, line in enumerate(text.split('\n'), 1) if re.search(pattern, line) and not re.search(skip, line)]


TEXTS = list(sources())
LIBRARY = [(n, t) for n, t in TEXTS if not re.match(r'crates/\w+_c/', n)]  # the exports say the library's functions again, for C
SHAPES = defaultdict(list)
for file, source in LIBRARY:
    for name, params, body in functions(source):
        if len(shape(body)) > 40:
            SHAPES[shape(body)].append(f'{file}: {name}')
POINTS = {
    '1 enums of the repository': lines(r'^\s*(pub )?enum '),
    '1 fields that are a code, a flag or a count of nothing': lines(r'^\s*(pub )?(reason|result|kind|even|found|dropped|number|last): (u32|usize|bool|isize),$'),
    '2 functions whose bodies differ by names and numbers alone': [' = '.join(v) for v in SHAPES.values() if len(v) > 1],
    '2 functions that stand beside one with a form': lines(r'fn \w+_as\('),
    '3 loops with a counter or a test': lines(r'^\s*(while|loop)\b'),
    '4 casts': lines(r'\bas (u8|u16|u32|u64|usize)\b'),
    '4 bytes as numbers': lines(r'(==|!=|<=|<|put_byte\(\w+, \w+,) (9|10|32|33|45|48|57|58|99|118|125|126)\b'),
    '5 functions with nine parameters or more': [f'{f}: {n} {len(p)}' for f, t in LIBRARY for n, p, b in functions(t) if len(p) >= 9],
    '5 contracts that spell ten tables': lines(r'lent_(at|before|after) \w+\.'),
    '6 a buffer with a place beside it': lines(r'(out|buffer): &mut \[u8\], at: usize'),
    '7 a switch on what to do': lines(r'\bmatch (form|k|self) \{|\bif pinned \{'),
}
for point, places in POINTS.items():
    print(f'{len(places):4} {point}')
    if SAID:
        print(''.join(f'       {p}\n' for p in places), end='')
