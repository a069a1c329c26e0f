#!/usr/bin/env python3
"""Counts in src/ the places of the points of docs/DESIGN-PASS.md: design_count.py [-v] TREE."""
import glob
import re
import sys

# What each count finds, by a regular expression over a line, or over the whole file where it spans lines.
LINES = {
    '1 own enums (all; which have the shape of Option or Result is said on the page)': r'^(pub )?enum \w+',
    '1 numbers for faults and refusals': r'turn::stop\(\w+, \d|(Value|Outcome)::Fault\(\d|fault: \d|Bad\(\d+\)|number: \d|fault: u64',
    '1 numbers for kinds': r'^const [A-Z_]+: u64 = [0-9];|: u64\) -> io|fn kind\(.*u64',
    '1 refusals turned into numbers by a method': r'fn refusal\(self\)|\.refusal\(\)',
    '3 while and loop': r"^\s*('\w+: )?(while|loop)\b",
    '3 for': r"^\s*('\w+: )?for\b",
    '4 an order, an equality or a test of two tests by hand': r'-> Order\b|fn (at_most|is_zero|is)\(',
    '5 a key of 32 bytes': r'length (key|k)\.now ≡ 32',
    '5 rows that are a table': r'Table (\d+|w|\(length row\.now\)) [\w.]+ [\w.]+',
    '5 a loader, if there is one': r'Loader lent\.has_loader',
    '5 room for a line': r'96 ≤ length out\.old',
    '7 a step chosen by a number': r'^\s*match (op|step\[0\]|action|kind|waiting) \{',
}


def functions(text):
    for m in re.finditer(r'fn (\w+)(?:<[^(]*>)?\s*\(([^)]*)\)', text):
        yield m.group(1), [p.strip() for p in m.group(2).split(',') if ':' in p]


def main():
    verbose = sys.argv[1] == '-v'
    tree = sys.argv[-1]
    found = {k: [] for k in LINES}
    long, beside = [], []
    for f in sorted(glob.glob(tree + '/crates/*/src/**/*.rt', recursive=True)):
        text = open(f).read()
        name = f[len(tree) + 1:]
        for i, line in enumerate(text.split('\n'), 1):
            for k, r in LINES.items():
                if not line.lstrip().startswith('//') and re.search(r, line):
                    found[k].append(f'{name}:{i}: {line.strip()}')
        for fn, ps in functions(text):
            if len(ps) > 7:
                long.append(f'{name}: {fn}, {len(ps)}')
            for a, b in zip(ps, ps[1:]):
                if re.search(r'&(mut )?\[u(8|64)\]', a) and re.search(r'\b(n|ns|nl|nc|nf|count|m|end|depth): usize', b):
                    beside.append(f'{name}: {fn}, {a}, {b}')
    found['5 more than seven parameters'] = long
    found['6 a slice with a count or an end beside it'] = beside
    for k in sorted(found):
        print(f'{len(found[k]):4} {k}')
        if verbose:
            for x in found[k]:
                print('       ' + x)


main()
