#!/usr/bin/env python3
"""Brings the names that this repository's own .antt files declare to the spelling of today's Rattle. It was run once, right after the toolchain's port.py.

usage: tools/respell.py [--list]      at the top of the repository; --list prints the renamings and changes nothing

A definition, lemma, field or constructor is in snake case: sizeOf becomes size_of, none-nearer none_nearer. A dash stays where it joins two names, as in row-cell. Types,
modules and names of src/ keep their spelling, and so does a name that another library has too. A name whose new spelling stands somewhere already is left, and
named: it would fall together with another. Names are turned in .antt files, in the clauses of .rt files, in must-fail edits and, between backticks, in comments and pages.
"""
import glob
import os
import re
import sys

CRATES = sorted(c for c in os.listdir('crates') if os.path.isdir(f'crates/{c}/src'))
TOKEN = re.compile(r"[^\s(){}\[\],;.\"«»`@:]+")
DECLARED = re.compile(r"^\s*(?:(?:pattern|unfoldable|abbrev|pub|ghost) )*([a-z][A-Za-z0-9'₀-₉-]*)(?: \{[^}]*\})? :(?= |$)", re.M)
# Words for operators and library functions, which a lemma's name may join by dashes.
WORDS = set('zero one suc add sub mul neg inv pow div mod rem le lt eq length take drop append map get_or set replicate reverse sum min max mem bit count'.split())

LIBRARY = {'getD': 'get_or'}
# Names whose new spelling a local name or a module has.
OTHERWISE = {'fromSums': 'from_sums', 'lastLine': 'last_line_of', 'lastStep': 'last_step_of', 'stepLeft': 'step_left_of', 'first-out': 'first_out_lem', 'not-yet': 'not_yet_lem'}


def read(p):
    with open(p, encoding='utf-8') as f:
        return f.read()


def laws():
    for c in CRATES:
        yield from sorted(glob.glob(f'crates/{c}/specs/**/*.antt', recursive=True))
        yield from sorted(glob.glob(f'crates/{c}/proofs/*.antt'))


def walks():
    for c in CRATES:
        for p in sorted(glob.glob(f'crates/{c}/proofs/**/*.antt', recursive=True)):
            if os.path.dirname(p) != f'crates/{c}/proofs':
                yield p


def sources():
    for c in CRATES:
        yield from sorted(glob.glob(f'crates/{c}/src/**/*.rt', recursive=True))


def snake(name):
    return LIBRARY.get(name) or re.sub(r'(?<=[a-z0-9])([A-Z])', lambda m: '_' + m[1].lower(), name)


def renamings():
    declared, foreign, tokens, functions = set(), set(), set(), set()
    for p in laws():
        t = re.sub(r'--[^\n]*', '', read(p))
        declared |= set(DECLARED.findall(t))
    for p in [*laws(), *walks(), *sources()]:
        t = re.sub(r'(--|//)[^\n]*', '', read(p))
        tokens |= set(TOKEN.findall(t))
        for module, names in re.findall(r'use ([^\s{};]+)\.\{([^{}]*)\}', t):
            crate = module.split('.')[1] if module.startswith('Rattle.') else ''
            if crate not in CRATES:
                foreign |= {it.split(' as ')[0].strip() for it in names.split(',')}
        if p.endswith('.rt'):
            functions |= set(re.findall(r'\bfn (\w+)', t))
    out, left = {}, []
    names = {snake(it) for it in declared if '-' not in it} | {snake(it) for it in foreign if '-' not in it} | WORDS
    for old in sorted(declared):
        if old in foreign:
            continue
        parts = [snake(it) for it in old.split('-')]
        new = parts[0]
        for before, part in zip(parts, parts[1:]):
            new += ('-' if part in names and before in names else '_') + part
        if new == old:
            continue
        out[old] = new
    by_new = {}
    for old, new in out.items():
        by_new.setdefault(new, []).append(old)
    for new, olds in list(by_new.items()):
        # A definition and a lemma about it that would have one name: the lemma's ends in _lem.
        dashed = [it for it in olds if '-' in it]
        if len(olds) == 2 and len(dashed) == 1:
            out[dashed[0]] = new + '_lem'
            by_new[new].remove(dashed[0])
    for new, olds in by_new.items():
        if len(olds) > 1 or (new in tokens and new not in functions) or new in foreign or new in declared:
            left += olds
            for it in olds:
                del out[it]
    out.update({it: new for it, new in OTHERWISE.items() if it in declared})
    return out, sorted(set(left) - set(OTHERWISE))


def turn(text, names):
    return TOKEN.sub(lambda m: names.get(m[0], m[0]), text)


def in_ticks(text, names):
    return re.sub(r'`[^`\n]*`', lambda m: turn(m[0], names), text)


def antt(text, names):
    out = []
    for line in text.split('\n'):
        m = re.search(r'(^|\s)--( |$)', line)
        code, comment = (line[: m.start()], line[m.start() :]) if m else (line, '')
        out.append(turn(code, names) + in_ticks(comment, names))
    return '\n'.join(out)


CLAUSE = re.compile(r'(ghost use [^;]*;|\b(?:requires|ensures|ghost|invariant)\b(?: \w+:?)?\s*\{(?:[^{}]|\{[^{}]*\})*\})')


def rt(text, names):
    parts = CLAUSE.split(text)
    return ''.join(turn(it, names) if i % 2 else in_ticks(it, names) for i, it in enumerate(parts))


def main():
    names, left = renamings()
    for it in left:
        print('left:', it)
    if '--list' in sys.argv:
        for old, new in sorted(names.items()):
            print(old, new)
        return
    for p in [*laws(), *walks()]:
        write(p, antt(read(p), names))
    for p in sources():
        write(p, rt(read(p), names))
    for p in glob.glob('crates/*/must-fail/*.edit'):
        write(p, turn(read(p), names))
    for p in ['README.md', 'CONTRIBUTING.md', *glob.glob('docs/*.md')]:
        write(p, in_ticks(read(p), names))


def write(p, text):
    if text != read(p):
        with open(p, 'w', encoding='utf-8') as f:
            f.write(text)


main()
