#!/usr/bin/env python3
"""Prints, as tables, what changed between two trees, old and new side by side: design_pairs.py OLD NEW CONTRACTS.json

CONTRACTS.json is what `python3 /opt/rattle/port/contracts.py OLD NEW --json` prints. Signatures, clauses, then the
definitions and theorems of specs/. Of a law or a theorem the statement stands here, not its proof."""
import glob
import json
import re
import sys

# Names that std spells otherwise: what differs in these alone is listed by name.
SPELLED = [
    (r'\bnone\b', 'None'), (r'\bsome\b', 'Some'), (r'\bReplies\b', 'Option ℕ'), (r'\bChecked\b', 'Option ℕ'),
    (r'\bStored\b', 'Option ℕ'), (r'\bGrown\b', 'Option ℕ'), (r'\bFound\b', 'Result ℕ ℕ'), (r'\bChangeList\b', 'Result ℕ ChangeError'),
    (r'\bMath\.Option\b', 'Option'), (r'\(Option ℕ\)', 'Option ℕ'),
]


def where(tree, crate, name):
    for f in sorted(glob.glob(f'{tree}/crates/{crate}/specs/**/*.antt', recursive=True)):
        if re.search(r'^(?:abbrev |unfoldable |pub |record |data )*' + re.escape(name) + r'\b', open(f).read(), re.M):
            return f[len(f'{tree}/crates/{crate}/specs/'):-5]
    return None


def statement(name, text):
    """A law's type: what stands before its first equation."""
    parts = re.split(r'(?:^| )(?:unfolding [\w ]+? )?' + re.escape(name) + r' (?=[^:]*=)', text, maxsplit=1)
    head = parts[0] if len(parts) > 1 and ':' in parts[0] else text
    return re.sub(r'\s+', ' ', head).strip()


def plain(text):
    for a, b in SPELLED:
        text = re.sub(a, b, text)
    return re.sub(r'[()\s]', '', text)


def cell(text):
    text = re.sub(r'\s+', ' ', text).strip().replace('|', '\\|')
    return f'`{text}`' if text else 'none'


def table(title, rows):
    print(f'\n### {title}\n\n| where | old | new |\n|---|---|---|')
    for w, a, b in rows:
        print(f'| {w} | {cell(a)} | {cell(b)} |')


def main():
    old, new, path = sys.argv[1:4]
    d = json.load(open(path))
    table('Signatures', [(w.replace(' src/', ' ').replace('.rt ', ' '), a, b) for w, a, b in d['signatures changed']])
    clauses = []
    for w, ra, ea, rb, eb in d['contracts changed']:
        for kind, xs, ys in (('requires', ra, rb), ('ensures', ea, eb)):
            xs, ys = [f'{n}: {t}' if n else t for n, t in xs], [f'{n}: {t}' if n else t for n, t in ys]
            if xs != ys:
                clauses.append((w.replace(' src/', ' ').replace('.rt ', ' ') + ' ' + kind, ' ; '.join(xs), ' ; '.join(ys)))
    table('Clauses', clauses)
    defs, theorems, laws, spelled = [], [], [], []
    for crate, name, olds, news in d['definitions']['changed']:
        f = where(new, crate, name)
        if f is None:
            continue
        law = 'Laws' in f
        theorem = 'Theorems' in f
        a, b = ' ; '.join(olds), ' ; '.join(news)
        if law or theorem:
            a, b = statement(name, a), statement(name, b)
        if a == b:
            continue
        if plain(a) == plain(b):
            spelled.append(f'{crate} {name}')
            continue
        (laws if law else theorems if theorem else defs).append((f'{crate} {f}: {name}', a, b))
    table('Definitions', defs)
    table('Theorems', theorems)
    table('Laws that proofs cite', laws)
    print('\n### By spelling alone\n\nstd\'s Option, Some and None in place of our own or of Math.Option, nothing else: ' + ', '.join(spelled) + '.')


main()
