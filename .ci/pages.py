#!/usr/bin/env python3
"""The pages are held to the tree.

Every page but docs/PORT.md, which has what was beside what is: a file that it names is there, and prose is at most 100 columns wide.
docs/ARCHITECTURE.md has a row for each crate.
docs/DECISIONS.md has each decision once, and those that pages name. docs/RULES.md: a definition stands in a file of its section, and
each file of docs/BELIEVE.md but a mirror is in some section. docs/CODES.md: numbers and names are those of `answer`, of the C header, of
`grade` and of the Python module, and each example gets the code that examples/ANSWERS.txt says. docs/GLOSSARY.md: each word
once, the types and the number of rows as tools/lists has them.
"""
import pathlib
import re
import sys

sys.dont_write_bytecode = True
import believe  # noqa: E402

sys.path.insert(0, str(pathlib.Path(__file__).resolve().parent.parent / 'tools' / 'lists'))
import source  # noqa: E402

ROOT = pathlib.Path(__file__).resolve().parent.parent
CRATES = ROOT / 'crates'
DOCS = ROOT / 'docs'
WIDE = 100


def pages():
    return [ROOT / 'README.md', *(page for page in sorted(DOCS.glob('**/*.md')) if page != DOCS / 'PORT.md')]


def ticked(text):
    return re.findall(r'`([^`\n]+)`', text)


def rows(text):
    """The cells of each row of a page's tables."""
    return [[c.strip() for c in line.strip('|').split('|')] for line in text.splitlines() if line.startswith('|') and not line.startswith('|--')]


def paths(page):
    """Files that a page names and that are not there."""
    for word in ticked(page.read_text()) + re.findall(r'\bdocs/[\w/]+\.md\b', page.read_text()):
        m = re.fullmatch(r'(?:crates/)?(\w+)/(src|specs|proofs|must-fail)(/[\w./]+)?', word)
        at = CRATES / word.removeprefix('crates/') if m else ROOT / word
        if m or re.fullmatch(r'(docs|bench|examples|include|tests|crates|\.ci)(/[\w.-]+)+/?', word):
            if not at.exists():
                yield f'{word}: no such file'


def width(page):
    """Lines of prose that are too wide; tables and commands may be wider."""
    for number, line in enumerate(page.read_text().splitlines(), 1):
        if len(line) > WIDE and not line.startswith(('|', '    ')):
            yield f'line {number} has {len(line)} columns'


def architecture():
    listed = {word for cells in rows((DOCS / 'ARCHITECTURE.md').read_text()) if len(cells) == 3 for word in ticked(cells[1])}
    crates = {line.split(':')[0].split()[0] for line in (ROOT / 'crates.txt').read_text().splitlines() if line and not line.startswith('#')}
    yield from (f'{crate}: no row for this crate' for crate in sorted(crates - listed))


def decisions():
    made = re.findall(r'^\*\*D(\d+)\. ', (DOCS / 'DECISIONS.md').read_text(), re.M)
    yield from (f'D{n} stands there more than once' for n in sorted(set(made)) if made.count(n) > 1)
    for page in pages():
        for n in sorted(set(re.findall(r'\bD(\d+)\b', page.read_text())) - set(made)):
            yield f'D{n}, which {page.name} names, is not there'


def rules():
    text = (DOCS / 'RULES.md').read_text()
    named = set()
    for section in text.split('\n## ')[1:]:
        title, files = section.splitlines()[0], re.search(r'^Definitions: (.*?)\n\n', section, re.M | re.S)
        if not files:
            yield f'{title}: no line of definitions'
            continue
        here = [believe.File.at(CRATES / f) for f in ticked(files[1]) if (CRATES / f).exists()]
        named |= {f.name for f in here}
        for cells in rows(section):
            for word in ticked(cells[-1]):
                if not any(word in f.definitions or word in f.cases for f in here):
                    yield f'{title}: no definition {word} in its files'
    definitions, _ = believe.counted()
    mirrors = {d.file.name for d in believe.mirrors(definitions)}
    yield from (f'{name}: in no section' for name in sorted({d.file.name for d in definitions} - mirrors - named))


def codes():
    source = (CRATES / 'answer' / 'src' / 'lib.rt').read_text()
    known = {int(n): name for name, n in re.findall(r'pub const (\w+): u8 = (\d+);', source)}
    header = {int(n): name for name, n in re.findall(r'\bKTO_(?!\w*ROW_)(\w+) = (\d+)', (ROOT / 'include' / 'kto.h').read_text())}
    graded = {int(n): name for n, name in re.findall(r'\((\d+), "(\w+)"\)', (ROOT / 'bench/tools/src/grade/names.rs').read_text())}
    python = {int(n): name for n, name in re.findall(r"^    (\d+): '(\w+)',$", (ROOT / 'examples/python/kto.py').read_text(), re.M)}
    answers = dict(re.findall(r'^(\S+\.xml) +(\d+) ', (ROOT / 'examples' / 'ANSWERS.txt').read_text(), re.M))
    seen, shown = set(), set()
    for cells in rows((DOCS / 'CODES.md').read_text()):
        if not cells[0].isdigit():
            continue
        code, name = int(cells[0]), cells[1].strip('`')
        seen.add(code)
        if known.get(code) != name:
            yield f'{code} is {known.get(code)} in answer, not {name}'
        if header.get(code, name) != name:
            yield f'{code} is KTO_{header[code]} in include/kto.h, not KTO_{name}'
        if python.get(code, name) != name:
            yield f'{code} is {python[code]} in examples/python/kto.py, not {name}'
        if graded.get(code) != name:
            yield f'{code} is {graded.get(code)} in bench/tools/src/grade/names.rs, not {name}'
        for example in ticked(' '.join(cells[6:])):
            shown.add(example)
            if answers.get(example) != str(code):
                yield f'{example} gets {answers.get(example)}, not {code}'
    yield from (f'{code}: not in the tables' for code in sorted((set(known) | set(header) | set(graded) | set(python)) - seen))
    yield from (f'{file}: not in the tables' for file in sorted(answers) if file.startswith('damaged/') and file not in shown)


def glossary():
    meaning = {}
    for word, *rest in rows((DOCS / 'GLOSSARY.md').read_text()):
        for each in () if word == 'Word' else word.split(', '):
            if each in meaning:
                yield f'{each}: stands there more than once'
            meaning[each] = ' '.join(rest)
    house = source.read(ROOT / 'tools' / 'lists')[0]
    types = {kind.removesuffix('k') for kind in re.findall(r'[A-Z]+k?', meaning.get('type', '').partition(':')[2])}
    yield from (f'type: {kind} is not among them, or no type of tools/lists' for kind in sorted(types ^ set(source.KINDS[2:])))
    if f'{len(house.rows)} rows' not in meaning.get('list', ''):
        yield f'list: the house list has {len(house.rows)} rows'


def main():
    faults = [f'{page.relative_to(ROOT)}: {fault}' for page in pages() for check in (paths, width) for fault in check(page)]
    for name, check in (('ARCHITECTURE', architecture), ('DECISIONS', decisions), ('RULES', rules), ('CODES', codes), ('GLOSSARY', glossary)):
        faults += [f'docs/{name}.md: {fault}' for fault in check()]
    for fault in faults:
        print(f'pages: {fault}')
    print(f'pages: {len(pages())} pages, {len(faults)} faults')
    return 1 if faults else 0


if __name__ == '__main__':
    try:
        sys.exit(main())
    except believe.Fault as fault:
        sys.exit(f'pages: {fault}')
