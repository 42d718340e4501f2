#!/usr/bin/env python3
"""Brings the names of this repository's definitions and lemmas to the spelling of today's Rattle; run once, at the top, on what port.py left.

Words in camel case become snake case. A dash in the name of a lemma stays where it joins two names, as in `length-take`, and becomes `_` before
or behind a plain word, as in `stored_none`. Crate csv, whose name the kit has, becomes csv_fields. Laws and evaluated examples of the crates
whose definitions have must-fail edits move from specs/ to proofs/, so that a wrong definition is refused by a law and not by its own file.
Types, fields of src/, functions, strings, inputs and outputs keep their names. It ends with words where two names would fall together.
"""
import pathlib
import re
import subprocess
import sys

ROOT = pathlib.Path(sys.argv[1] if sys.argv[1:] else '.').resolve()
CRATES = ROOT / 'crates'
MOVED = ('rfc4180', 'planning', 'planfile', 'export', 'report')  # crates whose laws and examples move to proofs/
WORD = re.compile(r"(?<![\w'′-])[^\W\d][\w'′-]*")
STRING = re.compile(r'"(?:\\.|[^"\\\n])*"')
CAMEL = re.compile(r'[a-z][a-z0-9]*(?:[A-Z][a-z0-9]*)+$')
# words of the library that lemmas are named by
LIBRARY = set('add append cc cond cons div drop elim eq eqb false get get_or iff le leb length list lt ltb map max min mod mul ne nil none not '
              'or path pos replicate rev reverse set slice snoc some sub suc sum take true update zero'.split())

# lemmas whose names port.py made those of a definition in camel case
APART = {'none_left': 'none_left_lem', 'quiet_line': 'quiet_line_lem'}

# of one file, but a field or a projection beside a word: neither hides the other (the sizes stand in the unfinished own use alone)
BESIDE = {'deliveryNames', 'deliverySizes', 'engineNames', 'engineSizes', 'onlyHere'}


def snake(word):
    """`stateOf` as `state_of`, part by part between dashes."""
    def part(p):
        return re.sub(r'(?<=[a-z0-9])([A-Z])', lambda m: '_' + m[1].lower(), p) if CAMEL.match(p) else p
    return '-'.join(part(p) for p in word.split('-'))


def sources(suffixes=('.rt', '.antt')):
    return [p for p in sorted(CRATES.rglob('*')) if p.suffix in suffixes and 'out' not in p.relative_to(CRATES).parts[1:2]]


def words(text):
    return WORD.findall(STRING.sub('""', text))


def names():
    """What the old names become."""
    declared, fields, every = set(), set(), set()
    for path in sources():
        text = path.read_text()
        every.update(words(text))
        if path.suffix != '.antt' or path.name in ('Proof.antt', 'Answers.antt', 'Invariants.antt'):
            continue
        for line in text.splitlines():
            head = re.match(r"((?:unfoldable |abbrev )?(?:pub )?(?:data |record )?)([^\s:(){}]+)(?= [:(])", line)
            if head and line[0] not in ' -':
                declared.add(head[2])
            inner = re.match(r"\s+(?:pub )?([^\s:(){}]+) :(?= )", line)
            if inner:
                fields.add(inner[1])
    taken = {}
    for word in every:
        if any(CAMEL.match(p) for p in word.split('-')):
            taken[word] = snake(word)
    known = {taken.get(n, n) for n in declared | fields if '-' not in n} | LIBRARY
    imported = set()
    for path in sources():
        for line in path.read_text().splitlines():
            if re.match(r'(ghost )?use (Rattle\.std|mathlib|lib|Prim|native|Rattle\.core)', line):
                imported.update(words(line))
    for name in sorted(declared | fields):
        if '-' not in name or name in imported:
            continue
        parts = snake(name).split('-')
        new = parts[0]
        for left, right in zip(parts, parts[1:]):
            joins = left in known and right in known
            new += ('-' if joins else '_') + right
        if new != name:
            taken[name] = new
    # of two names that would fall together the lemma keeps its dash; a word in camel case may get the name of a function of src/, which stands
    # apart from the words of clauses, and no name that a file of its own also has
    owners = {}
    for old, new in sorted(taken.items()):
        owners.setdefault(new, []).append(old)
    faults = []
    for new, olds in owners.items():
        for old in olds:
            if '-' in old and (len(olds) > 1 or new in every):
                taken[old] = snake(old)
                if taken[old] != old and (taken[old] in every or sum(taken.get(o, o) == taken[old] for o in olds) > 1):
                    faults.append((old, taken[old]))
            elif '-' not in old and sum('-' not in o for o in olds) > 1:
                faults.append((old, new))
    taken |= APART
    for path in sources(('.antt',)):
        if path.name in ('Proof.antt', 'Answers.antt', 'Invariants.antt') or '/+' in str(path):
            continue
        here = set(words(re.sub(r'--.*', '', path.read_text())))
        faults += [(f'{path.relative_to(ROOT)}: {w}', taken[w]) for w in sorted(here) if w in taken and taken[w] in here and taken[w] not in taken and w not in BESIDE]
    return {o: n for o, n in taken.items() if o != n}, faults


def respelled(text, table):
    def outside(part):
        return WORD.sub(lambda m: table.get(m[0], m[0]), part)
    out, at = '', 0
    for s in STRING.finditer(text):
        out += outside(text[at:s.start()]) + s[0]
        at = s.end()
    return out + outside(text[at:])


def renamed_crate(text):
    text = text.replace('Rattle.csv.', 'Rattle.csv_fields.')
    return re.sub(r'\bcsv::', 'csv_fields::', text)


def moved(text):
    for crate in MOVED:
        text = re.sub(rf'Rattle\.{crate}\.specs\.(Laws|Examples)\b', rf'Rattle.{crate}.proofs.\1', text)
    return text


def move_laws():
    for crate in MOVED:
        specs, proofs = CRATES / crate / 'specs', CRATES / crate / 'proofs'
        proofs.mkdir(exist_ok=True)
        mods = []
        for name in ('Laws', 'Examples'):
            for part in (specs / name, specs / (name + '.antt')):
                if part.exists():
                    part.rename(proofs / part.name)
            if (proofs / (name + '.antt')).exists():
                mods.append(f'pub mod {name}')
        lib = specs / 'Lib.antt'
        lib.write_text(''.join(l for l in lib.read_text().splitlines(True) if l.strip() not in mods))
        there = proofs / 'Lib.antt'
        head = there.read_text() if there.exists() else '-- The laws of the definitions, and their evaluated examples. Assumes nothing.\n'
        there.write_text(head + '\n'.join(mods) + '\n')


def main():
    table, faults = names()
    for old, new in sorted(faults):
        print(f'falls together: {old} and {new}')
    if '--try' in sys.argv:
        for old, new in sorted(table.items()):
            print(old, new)
        return 0
    if faults:
        return 1
    if (CRATES / 'csv').exists():
        (CRATES / 'csv').rename(CRATES / 'csv_fields')
    for path in sources():
        text = path.read_text()
        new = moved(renamed_crate(respelled(text, table)))
        if new != text:
            path.write_text(new)
    move_laws()
    listing = ROOT / 'crates.txt'
    listing.write_text(re.sub(r'(?m)^csv:', 'csv_fields:', re.sub(r'(?<=[ :])csv(?= |$)', 'csv_fields', listing.read_text(), flags=re.M)))
    for crate in sorted(p for p in CRATES.iterdir() if (p / 'src').is_dir()):
        subprocess.run(['rt', 'fmt'], cwd=crate, stdout=subprocess.DEVNULL, check=False)
    print(f'{len(table)} names respelled')
    return 0


if __name__ == '__main__':
    sys.exit(main())
