#!/usr/bin/env python3
"""Brings the repository's own definitions and lemmas to today's spelling: words in snake case.

Run once, at the top of the repository, right after port.py. A name in camel case gets underscores (`memoryOf` is
`memory_of`), and so does a name whose parts were joined by dashes (`put-crowded` is `put_crowded`); a dash stays where it
joins two names of functions (`length-spell`). Types, modules, constructors, functions of src/, strings and the names that
Rattle makes (goals, steps) stay. It stops, and writes nothing, if two names would fall together.
"""
import collections
import glob
import re
import sys

# Functions on lists and numbers whose names stand in lemmas about them, each before or behind a dash.
FUNCTIONS = {'length', 'take', 'drop', 'append', 'reverse', 'map', 'get_or', 'sum', 'spell', 'raised', 'encode'}
# A word of an older library within a name.
OLDER = {'getD': 'get_or'}

SIGNATURE = re.compile(r"^\s*(?:unfoldable |abbrev |pub )*([a-z][^\s:(){}]*)((?:\s+[^:=]*)?)\s*:\s+(.*)$")
TOKEN = re.compile(r"[^\s.(){},;:=@\"«»\[\]]+")
RECORD = re.compile(r"^(\s*)(?:pub |abbrev )*record ")
FIELD = re.compile(r"^\s+(?:pub )?([^\s:()]+)\s*:\s")


def snake(word):
    for old, new in OLDER.items():
        if word == old:
            return new
    return re.sub(r'(?<=[a-z0-9])[A-Z]', lambda m: '_' + m.group(0).lower(), word)


# Lemmas that would have the name of a definition, and a definition that would have that of a function.
APART = {'line-text': 'line_text_lem', 'number-fault': 'number_fault_lem', 'word-text': 'word_text_lem', 'sideText': 'text_of_side'}


def respelled(name):
    if name in APART:
        return APART[name]
    parts = [snake(p) for p in name.split('-')]
    text = parts[0]
    for before, part in zip(parts, parts[1:]):
        joins = before in FUNCTIONS and part in FUNCTIONS
        text += ('-' if joins else '_') + part
    return text


def is_answers(path):
    return path.endswith(('/Answers.antt', '/Invariants.antt'))


def definitions(path, lines):
    """The names that a file gives a signature; of a file of answers, not those of goals."""
    for line in lines:
        m = SIGNATURE.match(line)
        if not m or line.lstrip().startswith(('--', 'use ', 'let ')):
            continue
        if is_answers(path) and re.match(r'(goal|need)\.', m.group(3)):
            continue
        yield m.group(1)


def goals(path, lines):
    if not is_answers(path):
        return set()
    found = set()
    for line in lines:
        m = re.match(r"^(?:abbrev )?(?:pub )?(\S+) : (?:goal|need)\.", line)
        if m:
            found.add(m.group(1))
    return found


def fields(lines):
    inside = False
    for line in lines:
        if RECORD.match(line):
            inside = True
        elif inside:
            m = FIELD.match(line)
            if m:
                yield m.group(1)
            elif not line.strip():
                inside = False


def rewrite(line, names, own_fields, kept, steps):
    """One line with its names respelled, comments too; strings stay."""
    out = []
    for i, piece in enumerate(re.split(r'("(?:[^"\\]|\\.)*")', line)):
        if i % 2 == 1:
            out.append(piece)
            continue
        done, at = '', 0
        for m in TOKEN.finditer(piece):
            done += piece[at:m.start()]
            at = m.end()
            word = m.group(0)
            if word in names and word not in kept and not made(piece, m.start(), word, own_fields, steps):
                word = names[word]
            done += word
        out.append(done + piece[at:])
    return ''.join(out)


def made(piece, start, word, own_fields, steps):
    """Is the word at this place a name that Rattle makes, behind a dot: a step, in a file of answers, or a goal?"""
    if start == 0 or piece[start - 1] != '.':
        return False
    owner = re.search(r"[^\s(){},;]*$", piece[:start - 1]).group(0)
    return steps and owner in ('c', 'w', 'l', 'goal', 'need') or word not in own_fields


def main():
    antt = sorted(glob.glob('crates/*/specs/**/*.antt', recursive=True) + glob.glob('crates/*/proofs/**/*.antt', recursive=True))
    source = sorted(glob.glob('crates/*/src/**/*.rt', recursive=True))
    texts = {p: open(p, encoding='utf-8').read().split('\n') for p in antt + source}
    own, own_fields = set(), set()
    for p in antt:
        own.update(definitions(p, texts[p]))
        own_fields.update(fields(texts[p]))
    names = {n: respelled(n) for n in own | own_fields if respelled(n) != n}
    groups = collections.defaultdict(set)
    for n in own | own_fields:
        groups[respelled(n)].add(n)
    together = {k: sorted(v) for k, v in groups.items() if len(v) > 1}
    if together:
        sys.exit(f'fall together: {together}')
    imported = collections.defaultdict(set)
    for p in antt + source:
        for line in texts[p]:
            m = re.match(r'^\s*(?:ghost )?use (Rattle\.std\S*|borrow\S*|denote\S*|lib\S*)\{(.*)\}', line)
            if m:
                imported[p].update(x.strip() for x in m.group(2).split(','))
    for p in antt + source:
        used = {names[t] for line in texts[p] for t in TOKEN.findall(line) if t in names}
        both = used & imported[p]
        if both:
            sys.exit(f'{p}: falls together with a name of std: {sorted(both)}')
    for p in antt:
        kept = goals(p, texts[p])
        new = [rewrite(line, names, own_fields, kept, is_answers(p)) for line in texts[p]]
        if new != texts[p]:
            open(p, 'w', encoding='utf-8').write('\n'.join(new))
    # In source only names in camel case can be meant, but for ghost lines: elsewhere a dash is a minus.
    camel = {n: m for n, m in names.items() if '-' not in n}
    for p in source:
        new = [rewrite(line, names if line.lstrip().startswith('ghost ') else camel, own_fields, set(), False) for line in texts[p]]
        if new != texts[p]:
            open(p, 'w', encoding='utf-8').write('\n'.join(new))
    for n in sorted(names):
        print(n, names[n])


if __name__ == '__main__':
    main()
