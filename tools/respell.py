#!/usr/bin/env python3
"""Brings the repository's own names to the spelling of today's Rattle. Run once, at the top, after the kit's port.py and before any
edit by hand; it is kept so that the step can be made again and compared.

A definition, lemma, field or constructor that begins with a small letter is in snake case (`badTable` is `bad_table`); a dash stands
only between two names (`slotsFrom-length` is `slots_from-length`, and `by-test`, which are plain words, `by_test`); the proof of a
function f is `f_spec`. Types, modules, functions of src/, exported names and strings stay. It turns .antt and .rt files, the edits
and, between backticks, the pages of docs/ and of the root. Two names of one module that fall together stop it; a lemma that would
have its definition's name gets `_lem`."""
import collections
import pathlib
import re
import sys

TOP = pathlib.Path('.')
# words of the library that a dash may join
LIBRARY = {'length', 'append', 'length_sets', 'sets', 'set', 'replicate', 'sum', 'get_or', 'map', 'perm', 'permᴰ', 'norepeat', 'natAbs', 'nat_abs', 'mag', 'le_z', 'lt_z', 'leb', 'eqb', 'reverse', 'zero', 'suc'}
# names of goals, of tactics' answers and of what rattle makes: a proof file's own, and not ours to spell
# lemmas that were in snake case already, whose definition was not
PLAIN = {'by_first', 'is_open', 'key_live', 'key_reads'}
MADE = re.compile(r"^(returns|invariant-|decreases-|loop-|overflow)")
TOKEN = re.compile(r"(?<![\w'′ᴰ◌·-])[A-Za-z+μ][\w'′ᴰ₀-₉-]*")
SIGNED = re.compile(r"^( *)(?:abbrev |unfoldable )*(?:pub )?([A-Za-z+μ][^\s(){};,.:]*) :(?= )", re.M)
LET = re.compile(r"\blet ([a-z][\w'-]*)(?= =| :)")


def snake(word):
    word = word.replace('′', "'")
    return re.sub(r'(?<=[a-z0-9])([A-Z])', lambda m: '_' + m.group(1).lower(), word)


def files(*patterns):
    found = sorted(f for p in patterns for f in TOP.glob(p))
    return [f for f in found if 'out' not in f.parts]


antt = files('crates/*/specs/**/*.antt', 'crates/*/proofs/**/*.antt')
rattle = files('crates/*/src/**/*.rt')
text = {f: f.read_text() for f in antt + rattle}

own, bare = collections.defaultdict(set), set()
for f in antt:
    for m in SIGNED.finditer(text[f]):
        name, rest = m.group(2), text[f][m.end():text[f].find('\n', m.end())]
        if name[0].isupper() or re.match(r' (tie|goal)\.', rest) and not name.endswith('-spec') or MADE.match(name):
            continue
        own[name].add(f)
    for m in LET.finditer(text[f]):
        own[m.group(1)].add(f)

# what a library other than ours hands out keeps its name
foreign = set()
for f in antt + rattle:
    for m in re.finditer(r'^(?:pub |ghost |open )*use ((?!Rattle\.(?!std\b|io\b|libc\b))[^\s{]+)\.\{([^}]*)\}', text[f], re.M):
        foreign |= {w.split(' as ')[0].strip() for w in m.group(2).split(',')}

words = {snake(m.group(2)) for f in antt for m in re.finditer(r"^( *)(?:abbrev|unfoldable) (?:pub )?([a-z][^\s(){};,.:-]*) :(?= )", text[f], re.M)} | LIBRARY


def turned(name):
    if name.endswith('-spec'):
        return snake(name).replace('-', '_')
    parts = [snake(p) for p in name.split('-')]
    made = parts[0]
    for before, part in zip(parts, parts[1:]):
        named = part in words and made in words
        made += ('-' if named else '_') + part
    return made


new = {n: turned(n) for n in own if n not in foreign and turned(n) != n}
fixed = {n for n in own if n not in new}

# names that fall together in one module, or that a file would bring in under one name
by_new = collections.defaultdict(set)
for old, now in new.items():
    by_new[now].add(old)
for now, olds in sorted(by_new.items()):
    all_of = olds | ({now} if now in fixed else set())
    if len(all_of) > 1 or now in foreign:
        lemmas = [o for o in olds if '-' in o]
        if len(all_of) - len(lemmas) <= 1 and len(lemmas) == 1 and now not in foreign:
            new[lemmas[0]] = now + '_lem'
        for plain in all_of & PLAIN:
            new[plain] = now + '_lem'
        print('together:', now, sorted(all_of), 'of the library' if now in foreign else '', '->', {o: new.get(o, o) for o in all_of}, file=sys.stderr)


def turn(t):
    return TOKEN.sub(lambda m: new.get(m.group(0), m.group(0)), t)


if '--dry' in sys.argv:
    for old in sorted(new):
        print(old, new[old])
    sys.exit()
for f in antt + rattle:
    f.write_text(turn(text[f]))
# the check tries its tactics in each crate
for f in files('crates/*/src/lib.rt', 'crates/*/src/main.rt'):
    lines = f.read_text().split('\n')
    first = next((i for i, line in enumerate(lines) if not line.startswith('//')), len(lines))
    f.write_text('\n'.join(lines[:first] + ['#![tactic(auto)]'] + ([''] if lines[first:] and lines[first] else []) + lines[first:]))
for f in files('crates/*/must-fail/*.edit', 'wrong-builds/*.edit'):
    f.write_text(turn(f.read_text()))
for f in files('*.md', 'docs/*.md', 'docs/landings/*.md', 'second/README.md'):
    f.write_text(re.sub(r'`[^`\n]+`', lambda m: turn(m.group(0)), f.read_text()))
