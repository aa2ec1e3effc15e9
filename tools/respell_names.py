#!/usr/bin/env python3
"""Respell the names that this repository's specs/ and proofs/ declare: words in snake case, types in camel case.

Run once at the top of the repository, after /opt/rattle/port/port.py. It renames what is declared here and nothing
else: names of the library, of goals and of steps of generated proofs stay. A dash stays where it joins the names of
two functions, as in length-upward. With --list it prints the renamings and changes nothing.
"""
import glob
import re
import sys
from collections import Counter

# functions whose names a lemma joins by a dash
FUNCTIONS = {
    'length', 'append', 'take', 'drop', 'push', 'filter', 'joined', 'numbered', 'upward', 'map', 'size', 'widest',
    'cut_up', 'cons', '++', 'T', 'suc',
}
NAME = r"[^\s(){}\[\]:;.,λ«»]+"
HEAD = re.compile(
    r"^\s*(?:infix[lr]? \d+ )?(?:(?:unfoldable|abbrev|pub|data|record|module) )*(" + NAME + r")(?: [({].*)? :(?: |$)")
TOKEN = re.compile(r"(?<![^\s(){}\[\]:;.,λ«»])" + NAME)


def texts():
    return sorted(
        glob.glob('crates/*/specs/**/*.antt', recursive=True) + glob.glob('crates/*/proofs/**/*.antt', recursive=True))


def declared():
    """Each dashed name that some file declares; the goals of functions are not ours to name."""
    names = set()
    for path in texts():
        lines = open(path, encoding='utf-8').read().split('\n')
        for line in lines:
            m = HEAD.match(line)
            if not m or '-' not in m.group(1) or line.lstrip().startswith('--'):
                continue
            rest = line[m.end():]
            if re.match(r"\s*goal\.", rest):
                continue
            names.add(m.group(1))
    return {n for n in names if re.fullmatch(r"[A-Za-z0-9_'+*-]+", n)}


def respelled(name):
    parts = name.split('-')
    for cut in range(1, len(parts)):
        left, right = '_'.join(parts[:cut]), '_'.join(parts[cut:])
        if left in FUNCTIONS and right in FUNCTIONS or right == '++':
            return left + '-' + right
    if len(parts[0]) == 1 and name[0].isupper():
        return name
    if name[0].isupper():
        return ''.join(p[0].upper() + p[1:] for p in parts)
    return '_'.join(parts)


def main():
    names = {n: respelled(n) for n in declared()}
    names = {old: new for old, new in names.items() if old != new}
    twice = [n for n, c in Counter(names.values()).items() if c > 1]
    if twice:
        sys.exit('names that fall together: ' + ' '.join(twice))
    if '--list' in sys.argv:
        for old in sorted(names):
            print(old, names[old])
        return
    paths = texts() + sorted(glob.glob('crates/*/src/**/*.rt', recursive=True)) + sorted(
        glob.glob('crates/*/must-fail/*.edit'))
    for path in paths:
        old = open(path, encoding='utf-8').read()
        new = TOKEN.sub(lambda m: names.get(m.group(0), m.group(0)), old)
        if new != old:
            open(path, 'w', encoding='utf-8').write(new)


main()
