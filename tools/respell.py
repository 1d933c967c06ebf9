#!/usr/bin/env python3
"""Brings the repository's own definitions and lemmas to today's spelling: words in snake case, a dash only between two names that are defined. Run once, after the kit's port.py.

usage: python3 tools/respell.py [--dry] [--packs-only]      at the top of the repository

Names of src/ keep their spelling (functions, fields, variables, modules), as do strings, comments of src/ and what the kit defines. Two names that would fall together are told, and
the name that would change keeps its old spelling. Only text changes: no statement and no proof.
"""
import glob
import os
import re
import sys

NAME = re.compile(r"[^\s(){}\[\].,;:λ\"`|]+")
DECLARED = re.compile(r"^(\s*)(?:(?:abbrev|unfoldable|pub|data|record|mutual|ruleset) )*((?:[^\s(){}\[\].,;:λ\"]+ )*[^\s(){}\[\].,;:λ\"]+)\s*:(?=\s|$)")
CAMEL = re.compile(r"[a-z][A-Za-z0-9']*[A-Z]")
WORD = re.compile(r"[A-Za-z_][A-Za-z_0-9]*")
# lemmas that the kit's script gave the very name that a definition has now
LEMMAS = ['alike_at', 'by_place', 'fields_told', 'left_out', 'line_after', 'line_does', 'line_same', 'no_number', 'one_number', 'row_ends', 'tail_of']
# a name in which a capital begins no word
BY_HAND = {'isT1orT2': 'is_t1_or_t2'}


# words of clauses that stand where a word of src/ does
NOT_CODE = {'clerkWords', 'lineWords'}


def files(*patterns):
    return sorted(f for p in patterns for f in glob.glob(f'crates/*/{p}', recursive=True) if '/out/' not in f)


def text(path):
    with open(path, encoding='utf-8') as file:
        return file.read()


def blanked(t, pattern):
    return re.sub(pattern, lambda m: re.sub(r'[^\n]', ' ', m.group()), t)


def code_words():
    """The words of src/ outside clauses, imports of specs, comments and strings: functions, fields, variables."""
    words = set()
    for path in files('src/**/*.rt'):
        t = blanked(blanked(text(path), r'//[^\n]*'), r'"(?:[^"\\]|\\.)*"')
        t = blanked(t, r'ghost use [^;]*;')
        kept, at = '', 0
        for m in re.finditer(r'\b(?:requires|ensures|ghost)\b[^{;]*\{', t):
            if m.start() < at:
                continue
            kept += t[at:m.start()]
            depth, j = 1, m.end()
            while depth and j < len(t):
                depth += {'{': 1, '}': -1}.get(t[j], 0)
                j += 1
            at = j
        words |= set(WORD.findall(kept + t[at:]))
    return words - NOT_CODE


def defined():
    """The names that specs/ and the lemma files define, with a file of each, and the names that are imported from the kit."""
    own, kit = {}, set()
    for path in files('specs/**/*.antt', 'proofs/**/*.antt'):
        t = re.sub(r'--[^\n]*', '', text(path))
        for m in re.finditer(r'^use ([^{;\n]*)(?:\{(.*)\})?\s*$', t, re.M):
            if not m.group(1).startswith('Rattle.') or m.group(1).startswith('Rattle.std'):
                kit |= set(NAME.findall(m.group(2) or '')) | {m.group(1).strip().split('.')[-1]}
        if path.endswith('/Proof.antt') or '/Statement' in path:
            continue
        for line in t.split('\n'):
            m = DECLARED.match(line)
            if m and not line.startswith('use '):
                for name in m.group(2).split(' '):
                    own.setdefault(name, path)
    return own, kit


def snake(part):
    part = part.replace('getD', 'get_or')
    if not CAMEL.match(part):
        return part
    return BY_HAND.get(part) or re.sub(r"(?<=[a-z0-9'])([A-Z])", lambda m: '_' + m.group(1), part).lower()


def new_names():
    code, (own, kit) = code_words(), defined()
    generated, everything = set(), set(code)
    for path in files('specs/**/*.antt', 'proofs/**/*.antt'):
        t = re.sub(r'--[^\n]*', '', text(path))
        everything |= set(NAME.findall(t))
        generated |= {n[5:] for n in NAME.findall(t) if n.startswith('Need-')}
    plain = {n for n in own if '-' not in n} | {snake(n) for n in own if '-' not in n} | {n for n in kit if '-' not in n} | {c for c in code if c.islower()}
    turned, told = {}, []

    def turn(name):
        parts = [p if p in code else snake(p) for p in name.split('-')]
        if name in own and name not in kit:
            out = parts[0]
            for before, part in zip(parts, parts[1:]):
                both = before in plain and part in plain and before and part
                out += ('-' if both or not before or not part else '_') + part
            return out
        return '-'.join(parts)

    taken = everything - code
    for name in sorted(everything, key=lambda n: ('-' in n, n)):
        if name in code or name in kit or name in generated or not (CAMEL.search(name) or name in own):
            continue
        new = turn(name)
        if new == name:
            continue
        if '-' in name and (new in taken or new in turned.values()):
            told.append(f'{name}: {new} is taken')
            new += '_lem'
        elif new in taken and new not in LEMMAS:
            told.append(f'{name}: {new} is taken, and stays so')
        turned[name] = new
    return turned, told


def respell(t, turned):
    for name in LEMMAS:
        t = re.sub(rf"(?<![\w'.-]){name}(?![\w'.-])", name + '_lem', t)
    return NAME.sub(lambda m: turned.get(m.group(), m.group()), t)


def in_source(t, turned):
    """Clauses and imports of specs alone: a name of src/ is never turned, so the whole text but strings and comments may be read."""
    parts = re.split(r'("(?:[^"\\\n]|\\.)*"|//[^\n]*)', t)
    return ''.join(p if i % 2 else NAME.sub(lambda m: turned.get(m.group(), m.group()), p) for i, p in enumerate(parts))


def main():
    turned, told = new_names()
    for line in told:
        print('falls together:', line)
    if '--dry' in sys.argv:
        for name, new in sorted(turned.items()):
            print(f'{name} -> {new}')
        return
    for path in files('specs/**/*.antt', 'proofs/**/*.antt', 'src/**/*.rt', 'must-fail/*.edit'):
        if '--packs-only' in sys.argv and not path.endswith('.edit'):
            continue
        t = text(path)
        new = in_source(t, turned) if path.endswith('.rt') else respell(t, turned)
        if new != t:
            with open(path, 'w', encoding='utf-8') as file:
                file.write(new)
    print(f'{len(turned)} names turned')


main()
