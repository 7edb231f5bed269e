#!/usr/bin/env python3
"""Brings the repository's own definitions and lemmas to snake case: run once, at the top, right after port.py.

A definition of specs/ or proofs/, or a name that an import gives, is respelled where it is named with hyphens or with
humps (mostLines becomes most_lines).
Names that the check gives out (goals, hypotheses, invariants) and names of the libraries stay, and so do types and modules.
  respell.py          respells
  respell.py --list   prints the old and the new names and changes nothing
"""
import re, sys
from pathlib import Path

# where the plain spelling would fall together with another name in scope
APART = {
    'three-figures': 'three_figures_meet', 'unit-from': 'unit_from_is', 'if-touched': 'if_touched_is',
    'lines-in-range': 'lines_all_in_range', 'few-lines': 'few_lines_filed', 'standing-at': 'standing_at_place',
    'calculated-by': 'calculated_from_years', 'anew-of': 'anew_of_place', 'figures-of': 'figures_of_place',
}

WORD = re.compile(r"(?<![\w'·-])[^\W\d][\w']*(?:-[\w']+)*", re.U)
HEAD = re.compile(r"^(?:(?:abbrev|unfoldable|opaque|pub|private) )*(?!use\b|mod\b|record\b|data\b)([^\W\d][\w'-]*)\s*(?:[:({])")
ALIAS = re.compile(r"[\w◌'-]+ as ([a-z]+[A-Z]\w*)")
INNER = re.compile(r"^\s+(?:(?:abbrev|unfoldable|opaque|pub|private) )*([^\W\d][\w'-]*) : ")
IMPORT = re.compile(r'use (Rattle\.(std|core|logic|native)[\w.\-]*|[a-z]\w*\.[\w.\-]+)\.\{([^}]*)\}')


def snake(name):
    if name in APART: return APART[name]
    name = re.sub(r'([a-z0-9])([A-Z])', lambda m: m.group(1) + '_' + m.group(2).lower(), name)
    return name.replace('-', '_')


def odd(name):
    return name[0].islower() and ('-' in name or re.search('[A-Z]', name))


def sources():
    for top in sorted(Path('crates').iterdir()):
        yield from sorted((top / 'specs').rglob('*.antt'))
        yield from sorted((top / 'proofs').rglob('*.antt'))


def main():
    own, given, library, fields = {}, set(), set(), set()
    for path in [*sources(), *Path('crates').rglob('src/*.rt')]:
        for line in path.read_text().splitlines():
            if 'use ' in line:
                for alias in ALIAS.findall(line): own.setdefault(alias, set()).add(str(path))
    for path in sources():
        text = path.read_text()
        record = False
        for line in text.splitlines():
            if line[:1].strip(): record = line.startswith(('record ', 'pub record '))
            if path.name not in ('Answers.antt', 'Invariants.antt'):
                inner = INNER.match(line)
                if inner and odd(inner.group(1)):
                    own.setdefault(inner.group(1), set()).add(str(path))
                    if record: fields.add(inner.group(1))
            head = HEAD.match(line)
            if not head or ':' not in line: continue
            name = head.group(1)
            if path.name in ('Answers.antt', 'Invariants.antt'):
                if re.search(r'[:→] goal\.' + re.escape(name) + r"(?![\w'-])", line):
                    given.add(name)
                    continue
            if odd(name): own.setdefault(name, set()).add(str(path))
        for m in IMPORT.finditer(text):
            library |= {w.split(' as ')[0].strip() for w in m.group(3).split(',')}
    for n in library & set(own): del own[n]
    clash = sorted(n for n in own if n in library)
    new = {n: snake(n) for n in own}
    if '--list' in sys.argv:
        print('FIELDS', sorted(fields))
        for n in sorted(own): print(n, new[n], 'GIVEN' if n in given else '', 'LIBRARY' if n in clash else '')
        taken = {}
        words = set()
        for path in sources(): words |= set(WORD.findall(path.read_text()))
        for path in Path('crates').rglob('src/*.rt'): words |= set(WORD.findall(path.read_text()))
        for n in sorted(own):
            if new[n] in words: print('TOGETHER', n, new[n])
            taken.setdefault(new[n], []).append(n)
        for k, v in taken.items():
            if len(v) > 1: print('BOTH', k, v)
        return
    for path in [*sources(), *Path('crates').rglob('src/*.rt')]:
        text = path.read_text()
        out = []
        for line in text.splitlines(keepends=True):
            out.append(respell(line, new, path, fields))
        done = ''.join(out)
        if done != text: path.write_text(done)


def respell(line, new, path, fields):
    def one(m):
        before = line[:m.start()]
        name = m.group(0)
        if name not in fields and before.endswith('.') and not before.endswith('..'): return name
        if path.name in ('Answers.antt', 'Invariants.antt') and (
                before.strip() in ('', 'pub', 'abbrev pub') and re.search(r'goal\.' + re.escape(name) + r"(?![\w'-])", line)): return name
        return new.get(name, name)
    return WORD.sub(one, line)


main()
