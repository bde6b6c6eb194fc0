#!/usr/bin/env python3
"""Every public function of every crate has a promise and asks nothing, and docs/PROMISES.md is held to the code.

Reads crates/*/src/**/*.rt as text. A public function is `pub fn` or `pub extern "C" fn` (a `pub(crate) fn` is none); `main` is left
out. Its head, up to the brace of its body, must have an `ensures` and no `requires`, but for the one of ASKING. Its name stands in backquotes
on the page, as `crate::name` (a method as `crate::Type::name`), and so does every edit of must-fail/. What the page names is there: functions, edits,
laws. The section `Contracts that cite a mirror` lists exactly those that do. Every public function has an edit in its crate that must
fail, or stands in UNEDITED with a reason: an edit is a function's if it changes its code, a function or constant of the crate that this
code goes on to name, or a definition that its promise rests on.
"""
import pathlib
import re
import sys

sys.dont_write_bytecode = True
import believe  # noqa: E402

ROOT = pathlib.Path(__file__).resolve().parent.parent
CRATES = ROOT / 'crates'
PAGE = ROOT / 'docs' / 'PROMISES.md'
EXCEPTED = '### Contracts that cite a mirror'
FUNCTION = re.compile(r'^(?P<indent> *)pub (?:extern "C" )?fn (?P<name>\w+)', re.M)
ITEM = re.compile(r'^(?P<indent> *)(?:pub(?:\(crate\))? )?(?:extern "C" )?(?P<sort>fn|const) (?P<name>\w+)', re.M)
SNAKE = r'[a-z0-9]+(_[a-z0-9]+)+'
IMPL = re.compile(r'^impl(?:<[^>]*>)? (\w+)', re.M)

# Public functions that no edit of their crate is for, each with the reason.
UNEDITED = {
    'it hands on what a lower crate promises, and the edits for that are there':
        'unit::check unit::size unit::read unit::reading unit::pick unit::picked unit::items unit::item_at unit::write '
        'unit::tidy unit::kto_read '
        'unit_c::kto_size unit_c::kto_read unit_c::kto_count unit_c::kto_pick unit_c::kto_items unit_c::kto_item '
        'unit_c::kto_write unit_c::kto_tidy '
        'xml_skim::is_close xml_skim::text_end',
}


# The one public function that asks something, and what: that its closure may be called (docs/DECISIONS.md, D138).
ASKING = {'text::run_end': 'requires { F.IsAlwaysCallable class }'}
CLAUSE = re.compile(r'\b(?:ensures|requires)(?: \w+)? \{$')


def asked(full, head):
    """A head without the demand that it may have."""
    return head.replace(ASKING.get(full, ''), '', 1)


def body(text, start):
    """Where the body of a function begins, whose head begins at start: at the first brace that opens no clause."""
    depth = 0
    for at in range(start, len(text)):
        if text[at] == '{':
            if not depth and not CLAUSE.search(text, start, at + 1):
                return at
            depth += 1
        elif text[at] == '}':
            depth -= 1
    return len(text)


def functions(path):
    """Name, enclosing type or None, and head of each public function of a file."""
    text = path.read_text()
    for m in FUNCTION.finditer(text):
        head = text[m.start():body(text, m.end())]
        owner = None
        if m['indent']:
            owner = [i[1] for i in IMPL.finditer(text, 0, m.start())][-1:]
            owner = owner[0] if owner else None
        yield m['name'], owner, head


def public():
    """Every public function as `crate::name`, with its head."""
    for crate in sorted(p for p in CRATES.iterdir() if p.is_dir()):
        for path in sorted(crate.glob('src/**/*.rt')):
            for name, owner, head in functions(path):
                if name != 'main':
                    yield '::'.join(x for x in (crate.name, owner, name) if x), head


def named(text):
    """What stands in backquotes."""
    return set(re.findall(r'`([^`]+)`', text))


def words(pattern, files):
    return {w for f in files for w in re.findall(pattern, f.read_text(), re.M)}


def declared(side):
    """What the files of definitions, or those of laws, declare: with its cases and fields, which are declared as it is."""
    files = (f for f in CRATES.glob(f'*/{side}/**/*.antt') if f.name not in ('Proof.antt', 'Answers.antt', 'Invariants.antt'))
    return words(r'^ *(?:unfoldable |abbrev )*(?:pub )?(?:(?:data|record) )?(\S+)(?: [({][^:(){}]*:[^)}]*[)}])* :', files)


def claims(text):
    """The cells of the page where theorems are named: under `Theorem`, and under `Only one ..`."""
    columns = ()
    for line in text.splitlines():
        cells = [cell.strip() for cell in line.strip('|').split('|')] if line.startswith('|') else []
        heads = [at for at, cell in enumerate(cells) if cell == 'Theorem' or cell.startswith('Only one ')]
        columns = heads or (columns if cells else ())
        yield from (cells[at] for at in columns if at < len(cells) and not heads)


def unknown(text):
    """What the page names and nothing is called: calls; functions, edits, definitions and laws; and where theorems are named nothing but these two."""
    calls = {full for full, _ in public()}
    edits = {f.stem for f in CRATES.glob('*/must-fail/*.edit')}
    stated = declared('proofs') | declared('specs')
    known = edits | words(r'\bfn (\w+)', CRATES.glob('*/src/**/*.rt')) | {p.name for p in CRATES.iterdir()} | stated
    for word in sorted(named(text)):
        if re.fullmatch(r'\w+(::\w+)+', word) and word not in calls or re.fullmatch(SNAKE, word) and word not in known:
            yield f'{word}: named in docs/PROMISES.md, and nothing is called so'
    for word in sorted({word for cell in claims(text) for word in named(cell) if re.fullmatch(SNAKE, word)}):
        if word not in stated:
            yield f'{word}: named in docs/PROMISES.md as a theorem, and no law or definition is called so'
    yield from (f'{edit}: an edit that docs/PROMISES.md does not list' for edit in sorted(edits - named(text)))


def mirrored(text):
    """Where the section of contracts that cite a mirror is not right."""
    listed = {w for w in named(text[text.index(EXCEPTED):]) if '::' in w}
    citing = set()
    for crate in sorted(p.name for p in CRATES.iterdir() if (p / 'src' / 'lib.rt').exists()):
        for full, cited in believe.promises(crate):
            if believe.mirrors([what for _, what in cited if isinstance(what, believe.Definition)]):
                citing.add(full)
    yield from (f'{full}: cites a mirror, and is not listed as such' for full in sorted(citing - listed))
    yield from (f'{full}: listed as citing a mirror, and cites none' for full in sorted(listed - citing))


def named_in(crate):
    """Every function and constant of a crate's code, with all that its text goes on to name."""
    text, where = {}, []
    for path in sorted((CRATES / crate / 'src').glob('**/*.rt')):
        code = path.read_text()
        for m in ITEM.finditer(code):
            end = re.compile(r'^' + m['indent'] + r'\}' if m['sort'] == 'fn' else ';$', re.M).search(code, m.end())
            text[m['name']] = text.get(m['name'], '') + code[m.end():end.end()]
            where.append((path, m.start(), end.end(), m['name']))
    reached = {}
    for name in text:
        reached[name], waiting = {name}, [name]
        while waiting:
            more = set(re.findall(r'\w+', text[waiting.pop()])) & set(text) - reached[name]
            reached[name] |= more
            waiting += more
    return reached, where


def rested_on(cited):
    """The definitions that a promise rests on."""
    known, waiting = set(), [what for _, what in cited]
    while waiting:
        what = waiting.pop()
        if isinstance(what, believe.Definition) and what not in known:
            known.add(what)
            waiting += [what.file.meaning(*x) for x in what.names()]
    return known


def changed(crate, where):
    """What the edits of a crate change: names of its code, definitions."""
    for edit in sorted((CRATES / crate / 'must-fail').glob('*.edit')):
        path = None
        for line in edit.read_text().splitlines():
            if line.startswith('file: '):
                path = CRATES / crate / line[len('file: '):]
            elif line.startswith('old: '):
                at = path.read_text().find(line[len('old: '):])
                if 'src' in path.parts:
                    yield from (name for file, start, end, name in where if file == path and start <= at < end)
                elif 'specs' in path.parts:
                    number = path.read_text().count('\n', 0, at) + 1
                    yield from [d for d in believe.File.at(path).definitions.values() if d.number <= number][-1:]


def unedited():
    """Public functions without an edit, and reasons that are not needed."""
    lent = {full for names in UNEDITED.values() for full in names.split()}
    for crate in sorted(p.name for p in CRATES.iterdir() if (p / 'src' / 'lib.rt').exists()):
        reached, where = named_in(crate)
        hit = set(changed(crate, where))
        for full, cited in believe.promises(crate):
            has = bool(hit & (reached[full.split('::')[-1]] | rested_on(cited)))
            if not has and full not in lent:
                yield f'{full}: no edit of its crate is for it'
            if has and full in lent:
                yield f'{full}: no reason is needed, an edit is for it'


def main():
    text = PAGE.read_text()
    faults, count = [], 0
    for full, head in public():
        count += 1
        if 'ensures' not in head:
            faults.append(f'{full}: no promise')
        if re.search(r'\brequires\b', asked(full, head)):
            faults.append(f'{full}: a requires')
        if full not in named(text):
            faults.append(f'{full}: not listed in docs/PROMISES.md')
    faults += unknown(text)
    faults += mirrored(text)
    faults += unedited()
    for fault in faults:
        print(f'promises: {fault}')
    print(f'promises: {count} public functions, {len(faults)} faults')
    return 1 if faults else 0


if __name__ == '__main__':
    try:
        sys.exit(main())
    except believe.Fault as fault:
        sys.exit(f'promises: {fault}')
