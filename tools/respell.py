#!/usr/bin/env python3
"""Turns the names of this repository's own definitions, lemmas, fields and constructors to snake case.

  respell.py [DIR]     DIR is the top of the repository (default: here)

A name that specs/ or proofs/ declare with dashes, as node-high, becomes node_high wherever it stands. Names that the
checker gives (of goals, loops and steps), names of std and names that begin with a capital stay as they are.
"""
import os
import re
import sys

TOP = sys.argv[1] if len(sys.argv) > 1 else '.'
NAME = r"[A-Za-z_][A-Za-z0-9_']*(?:-[A-Za-z0-9_']+)*"
TOKEN = re.compile(r"(?<![A-Za-z0-9_'◌-])" + NAME + r"(?![A-Za-z0-9_'◌-])")
DECLARED = re.compile(r"^\s*(?:abbrev |unfoldable |pub )*(?:pub )?((?:" + NAME + r")(?: " + NAME + r")*) :(?: |$)")
USED = re.compile(r"^\s*(?:pub |ghost )*use (Rattle\.)?([A-Za-z0-9_.'+-]+?)\.\{([^}]*)\}", re.M)


def files():
    for d, dirs, names in os.walk(os.path.join(TOP, 'crates')):
        dirs[:] = sorted(x for x in dirs if x not in ('out', 'target'))
        for n in sorted(names):
            if n.endswith(('.antt', '.rt')):
                yield os.path.join(d, n)


def own_crates():
    return set(os.listdir(os.path.join(TOP, 'crates')))


def of_the_checker(path, name, line):
    last = os.path.basename(path)
    return last in ('Answers.antt', 'Invariants.antt') and ('goal.' in line or 'goal ' in line)


def main():
    texts = {f: open(f, encoding='utf-8').read() for f in files()}
    own = own_crates()
    declared, plain = {}, set()
    for f, text in texts.items():
        if not f.endswith('.antt'):
            continue
        for line in text.split('\n'):
            if line.lstrip().startswith('--'):
                continue
            m = DECLARED.match(line)
            if not m:
                continue
            for name in m.group(1).split(' '):
                if name in ('pub', 'abbrev', 'unfoldable', 'record', 'data'):
                    continue
                plain.add(name)
                if '-' in name and name[0].islower() and not of_the_checker(f, name, line):
                    declared[name] = name.replace('-', '_')
    for old, new in sorted(declared.items()):
        if new in plain:
            print(f'falls together: {old} with {new}')
    for f, text in texts.items():
        foreign = set()
        for m in USED.finditer(text):
            if not (m.group(1) and m.group(2).split('.')[0] in own):
                foreign |= {x.strip().split(' as ')[0] for x in m.group(3).split(',')}
        def turn(m):
            name = m.group(0)
            return declared[name] if name in declared and name not in foreign else name
        new = TOKEN.sub(turn, text)
        if new != text:
            open(f, 'w', encoding='utf-8').write(new)
    print(f'{len(declared)} names')


main()
