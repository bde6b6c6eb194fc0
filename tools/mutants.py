#!/usr/bin/env python3
"""Small faults put into a crate's code, one at a time: the prover must refuse each.

    tools/mutants.py CRATE [--count N] [--seed S] [--file PART]     from the repository's root

Each fault changes one operand or one test on one line of src/ (a numeral by one, < and <=, == and !=, true and false, + and -), never a
contract; which ones is by chance, or by the seed. It says of each: refused at a fact; refused only because the proof file no longer
fits the code's shape, which shows nothing; or SURVIVED: the crate is still proved, so either the fault changes nothing that anyone
can see, or a promise is too weak. Each costs one check of the crate. It works on a copy, over what `rt check` kept here. `rt plant` puts
in other faults: whole bodies that do something else.
"""
import argparse
import pathlib
import random
import re
import shutil
import subprocess
import tempfile

NUMERAL = re.compile(r'(?<![\w.])(\d[\d_]*)(?![\w.])')
SWAPS = [(' < ', ' <= '), (' > ', ' >= '), (' == ', ' != '), (' + ', ' - '), ('true', 'false')]
SWAPPED = {**dict(SWAPS), **{new: old for old, new in SWAPS}}
SWAP = re.compile(r' (?:<=?|>=?|==|!=|\+|-) |\b(?:true|false)\b')
REMARK = ' // '
NO_CODE = ('//', 'ghost', 'use ', 'mod ', 'pub mod', '#', 'ensures', 'requires')
HEAD = re.compile(r'(pub )?(extern "C" )?(fn|struct|enum) ')


def is_code(line):
    """Whether a line is code that may be changed: no comment, no import, no contract, no head of a function."""
    text = line.strip()
    return bool(text) and not text.startswith(NO_CODE) and not HEAD.match(text) and not any(sign in line for sign in 'λ≡')


def faults(line, chance):
    """The line with one thing changed, in each way; what is said after it, ` // ..`, is no code."""
    end = (line + REMARK).index(REMARK)
    for found in NUMERAL.finditer(line, 0, end):
        number = int(found[1].replace('_', ''))
        other = number + chance.choice([1, -1] if number else [1])
        yield line[:found.start()] + str(other) + line[found.end():]
    for found in SWAP.finditer(line, 0, end):
        yield line[:found.start()] + SWAPPED[found[0]] + line[found.end():]


def all_faults(crate, part, chance):
    """File, line and changed line of each fault, in the order of chance; a second fault of a line comes after every line's first."""
    found = []
    for file in sorted((crate / 'src').rglob('*.rt')):
        text = file.read_text()
        lines = text.split('\n') if part in str(file) else []
        for line in lines:
            if is_code(line) and text.count(line) == 1:
                found += [(file.relative_to(crate), line, new) for new in faults(line, chance)]
    chance.shuffle(found)
    seen, first, more = set(), [], []
    for file, line, new in found:
        (more if (file, line) in seen else first).append((file, line, new))
        seen.add((file, line))
    return first + more


def verdict(said, label):
    """What became of an edit, by the line that rt wrote of it."""
    line = next((line for line in said if f'/{label}.edit: ' in line), '')
    if 'NOT REFUSED' in line:
        return 'SURVIVED'
    if 'refused, as it must be' not in line:
        return 'no verdict'
    return 'shape only' if 'only because a proof file names' in line else 'refused'


def main():
    parser = argparse.ArgumentParser(description=__doc__, formatter_class=argparse.RawDescriptionHelpFormatter)
    parser.add_argument('crate')
    parser.add_argument('--count', type=int, default=12, help='how many faults')
    parser.add_argument('--seed', type=int, help='the same faults again')
    parser.add_argument('--file', default='', metavar='PART', help='only files whose path has this in it')
    given = parser.parse_args()
    chosen = all_faults(pathlib.Path('crates', given.crate), given.file, random.Random(given.seed))[:given.count]
    counts = dict.fromkeys(['refused', 'shape only', 'SURVIVED', 'no verdict'], 0)
    with tempfile.TemporaryDirectory() as room:
        copy = pathlib.Path(room)
        shutil.copy('crates.txt', copy)
        shutil.copytree('crates', copy / 'crates', ignore=shutil.ignore_patterns('out', 'must-fail'))
        edits = copy / 'crates' / given.crate / 'must-fail'
        edits.mkdir()
        for at, (file, old, new) in enumerate(chosen):
            (edits / f'fault{at:03}.edit').write_text(f'file: {file}\nold: {old}\nnew: {new}\n')
        said = subprocess.run(['rt', 'must-fail', given.crate], cwd=copy, capture_output=True, text=True).stdout.splitlines()
        for at, (file, old, new) in enumerate(chosen):
            what = verdict(said, f'fault{at:03}')
            counts[what] += 1
            print(f'{what:10}  {file}: {old.strip()}   ->   {new.strip()}')
    print(', '.join(f'{count} {what}' for what, count in counts.items()))


if __name__ == '__main__':
    main()
