#!/usr/bin/env python3
"""Moves definitions or laws to another file or folder, with every mention of them.

    tools/move.py CRATE/specs/OLD CRATE/specs/FOLDER/NEW ..     pairs: each module, and where it goes
    tools/move.py --table FILE                                  the same from a file: a pair a line, `#` begins a comment;
                                                                a line `CRATE/specs/FOLDER: WORDS` says what a new folder holds
    tools/move.py --mirrors                                     every file of specs/ that is headed "A mirror" into specs/mirror/

From the repository's root. What follows the module: its `pub mod` line with the comment above it, which goes to the node file of its
folder (`specs/mirror.antt` for `specs/mirror/`, declared in turn where it is new); `use` paths in code, definitions, proofs and edits;
the path of an edited file; files that pages, comments and the lists' writer name. A pair that is done already is passed over, so that a
table may be run on any state of the tree, and twice. A paragraph of a page that grew too wide by it is wrapped again. Then run `rt fmt` in each crate's folder.
"""
import pathlib
import re
import sys
import textwrap

ROOT = pathlib.Path('.')
CRATES = ROOT / 'crates'
MODULE = re.compile(r'(?P<crate>\w+)/(?P<side>specs|proofs)/(?P<path>[\w/]+)$')
DECLARED = re.compile(r'((?:^--.*\n)*)^pub mod (\w+)\n', re.M)
WIDE = 100


class Fault(Exception):
    """A pair that can't be moved."""


def parsed(name):
    found = MODULE.match(name.removesuffix('.antt'))
    if not found:
        raise Fault(f'{name} is no CRATE/specs/NAME or CRATE/proofs/NAME')
    return found['crate'], found['side'], found['path']


def file_of(crate, side, path):
    return CRATES / crate / side / f'{path}.antt'


def node_of(crate, side, path):
    """The file that declares a module."""
    folder = path.rpartition('/')[0]
    return CRATES / crate / side / (f'{folder}.antt' if folder else 'Lib.antt')


def undeclare(node, name):
    """Takes a module's `pub mod` line out of its node file, and gives back the comment that stood above it."""
    text = node.read_text()
    for found in DECLARED.finditer(text):
        if found[2] == name:
            comment, head = found[1], ''
            if found.start() == 0:  # the file's own first line
                head, _, comment = comment.partition('\n')
                head += '\n'
            node.write_text(text[:found.start()] + head + text[found.end():])
            return comment
    raise Fault(f'{node}: no `pub mod {name}`')


def declare(crate, side, path, comment, said):
    """Puts a module's `pub mod` line, with its comment, at the end of its node file, which is made and declared where it is new."""
    node, name = node_of(crate, side, path), path.rpartition('/')[2]
    if not node.exists():
        folder = path.rpartition('/')[0]
        words = said.get(f'{crate}/{side}/{folder}', f'what is about {folder}')
        node.write_text(f'-- Of `{crate}`: {words}.\n')
        declare(crate, side, folder, f'-- {words}\n', said)
    node.write_text(node.read_text() + f'{comment}pub mod {name}\n')


def moved(pairs, said):
    """Moves the files of the pairs that are not done yet, and gives back every pair."""
    every = []
    for old, new in pairs:
        crate, side, path = parsed(old)
        other, its_side, target = parsed(new)
        if (crate, side) != (other, its_side):
            raise Fault(f'{old} and {new}: not of one crate and one side')
        here, there = file_of(crate, side, path), file_of(crate, side, target)
        if here.exists() and there.exists():
            raise Fault(f'{here} and {there} are both there')
        if here.exists():
            comment = undeclare(node_of(crate, side, path), path.rpartition('/')[2])
            declare(crate, side, target, comment, said)
            there.parent.mkdir(parents=True, exist_ok=True)
            here.rename(there)
            print(f'move: {crate}/{side}/{path} -> {target}')
        elif not there.exists():
            print(f'move: {old}: no such file, passed over')
            continue
        every.append((crate, side, path, target))
    return every


def mentions(every):
    """What is written in place of what, as one pattern and a table."""
    table = {}
    for crate, side, path, target in every:
        old, new = path.replace('/', '.'), target.replace('/', '.')
        library = f'Rattle.{crate}.{side}.'
        table[library + old] = library + new
        table[f'{crate}/{side}/{path}.antt'] = f'{crate}/{side}/{target}.antt'
    if not table:
        return None, table
    longest_first = sorted(table, key=len, reverse=True)
    return re.compile('(?<![\\w./])(?:crates/)?(?:' + '|'.join(map(re.escape, longest_first)) + r')(?!\w)'), table


def texts():
    """Every file that may mention a module."""
    for pattern in ('crates/**/*.rt', 'crates/**/*.antt', 'crates/**/*.edit', 'tools/**/*', '.ci/*', 'docs/**/*.md', 'README.md', 'bench/**/*.py'):
        yield from (file for file in ROOT.glob(pattern) if file.is_file() and '__pycache__' not in file.parts and file.suffix != '.pyc')


def rewritten(every):
    """Rewrites every mention; gives back how many files changed."""
    pattern, table = mentions(every)
    if not table:
        return 0
    own = {}  # in an edit, and in the lists' writer, a file is named without its crate
    for crate, side, path, target in every:
        own.setdefault(crate, {})[f'{side}/{path}.antt'] = f'{side}/{target}.antt'

    def full(found):
        crates = 'crates/' if found[0].startswith('crates/') else ''
        return crates + table[found[0].removeprefix('crates/')]

    count = 0
    for file in texts():
        text = before = file.read_text()
        text = pattern.sub(full, text)
        crate = file.parts[1] if file.suffix == '.edit' else 'list_house' if file.parts[:2] == ('tools', 'lists') else None
        for old, new in own.get(crate, {}).items():
            text = re.sub(r'(?<![\w/])' + re.escape(old), new, text)
        if text != before:
            file.write_text(wrapped(text) if file.suffix == '.md' else text)
            count += 1
    return count


def wrapped(page):
    """A page whose paragraphs and items with too wide a line are wrapped again; tables and commands are left as they are."""
    blocks = re.split(r'(\n(?=- )|\n\n+)', page)
    for at, block in enumerate(blocks):
        if any(len(line) > WIDE for line in block.split('\n')) and not block.lstrip('\n').startswith(('|', '    ')):
            blocks[at] = textwrap.fill(
                ' '.join(block.split()), WIDE, subsequent_indent='  ' * block.startswith('- '), break_long_words=False, break_on_hyphens=False)
    return ''.join(blocks)


def mirrors():
    """The files of specs/ that are headed so, and those that stand in their folder already, each with its old place, in the order in which
    they are declared."""
    for root in sorted(CRATES.glob('*/specs/Lib.antt')):
        crate, node = root.parts[1], root.parent / 'mirror.antt'
        text = root.read_text() + (node.read_text() if node.exists() else '')
        for name in (found[2] for found in DECLARED.finditer(text)):
            old, new = root.parent / f'{name}.antt', root.parent / 'mirror' / f'{name}.antt'
            if not old.exists() and new.exists() or old.exists() and re.match(r'-- A mirror\b', old.read_text()):
                yield f'{crate}/specs/{name}', f'{crate}/specs/mirror/{name}'


def table(file):
    """The pairs of a table, and what it says of folders."""
    pairs, said = [], {}
    for line in pathlib.Path(file).read_text().splitlines():
        folder, colon, words = line.partition(': ')
        if colon and MODULE.match(folder.strip()):
            said[folder.strip()] = words.strip()
        elif two := line.partition('#')[0].split():
            pairs.append(tuple(two))
    return pairs, said


def twins(every):
    """Files and folders of the crates that differ only in the case of their letters, which the kit refuses."""
    for crate in sorted({crate for crate, *_ in every}):
        seen = {}
        for file in sorted(CRATES.glob(f'{crate}/*/**/*')):
            name = file.with_suffix('') if file.suffix == '.antt' else file
            other = seen.setdefault(str(name).lower(), name)
            if other != name:
                yield f'{other} and {name} differ only in the case of their letters'


def main(words):
    said = {f'{crate.name}/specs/mirror': 'mirrors, which say how the code goes' for crate in CRATES.iterdir()}
    if words == ['--mirrors']:
        pairs = list(mirrors())
    elif len(words) == 2 and words[0] == '--table':
        pairs, said = table(words[1])
    elif words and len(words) % 2 == 0 and not words[0].startswith('-'):
        pairs = list(zip(words[::2], words[1::2]))
    else:
        sys.exit(__doc__)
    every = moved(pairs, said)
    print(f'move: {len(every)} modules in their places, {rewritten(every)} files changed')
    faults = list(twins(every))
    for fault in faults:
        print(f'move: {fault}')
    sys.exit(1 if faults else 0)


if __name__ == '__main__':
    try:
        main(sys.argv[1:])
    except (Fault, FileNotFoundError) as fault:
        sys.exit(f'move: {fault}')
