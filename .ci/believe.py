#!/usr/bin/env python3
"""docs/BELIEVE.md: every definition that a promise of `unit`, `unit_c`, `image_hold`, `kto`, `write` or `tidy` rests on, so that a reader must believe it.

From the names in the contracts of these crates the definitions of specs/ are followed by name: a definition counts where a promise,
or a definition that counts, names it. The page has these contracts, and the files in reading order, each after those that it uses, with
the lines of what counts in it. `believe.py` writes the page; `believe.py --check` fails where the page is stale, where a mirror is among
what counts, where one name has two meanings there or in the three demands with what they name, or one meaning two names, and where an
exception of the tables below is no longer needed.
"""
import pathlib
import re
import sys

ROOT = pathlib.Path(__file__).resolve().parent.parent
CRATES = ROOT / 'crates'
PAGE = ROOT / 'docs' / 'BELIEVE.md'

# The crates whose promises count: the entries, their C exports, the held reader, the programs that make images and files.
PROMISING = ('unit', 'unit_c', 'image_hold', 'kto', 'write', 'tidy')

# Of these, the functions that document 01 asks for by itself: what they rest on is counted apart.
FIRST = (
    'unit::check unit::read unit::pick unit::picked unit_c::kto_check unit_c::kto_read unit_c::kto_pick '
    'image_hold::hold image_hold::next image_hold::next_at image_hold::pick image_hold::picked kto::said'
).split()

# The crate with the demands, which are read first: what they say of these promises has names of its own.
DEMANDS = 'demands'

# Reading order where the imports leave a choice: by floor.
FLOORS = ('answer', 'text', 'list', 'xml', 'value', 'image', 'file', 'unit', 'program', 'kto', 'write', 'tidy')

# Known exceptions, each with its reason: files of mirrors, and names with how many meanings each has. One that is not needed
# is a fault.
MIRRORS = {}
NAMES = {
    'a kind has one name for its case among values (`IsValue`) and, in the demands, among texts by one date-time rule or the other (`Form`, `FormBy`)':
        'account 2, count 2, currency 2, dated 2, either 2, listed 2, money 2, reference 2, timed 3, writing 2',
}

# A name is any run of characters but these (the kit's primer, 4.1); a comment begins at `--`, but not in a quoted text.
TOKEN = re.compile(r'"(?:\\.|[^"\\])*"|[(){};,@«»]|\.|[^\s(){}.;,@"«»]+')
CODE = re.compile(r'(?:"(?:\\.|[^"\\])*"|(?!(?:^|(?<=\s))--)[^"])*')
SIGNS = set('(){};,@«».') | {':', '=', '→', '×', 'λ', 'let', 'in', 'where', 'record', 'Type', 'Unit', '⊥'}
IMPORT = re.compile(r'^(?:unfoldable |abbrev )*(pub )?use (?P<path>\S+?)(?:\.\{(?P<names>[^}]*)\}| as (?P<alias>\S+))?;?$')
DECLARATION = re.compile(r'^(?:unfoldable |abbrev )*(?:pub )?(?:(data|record) )?(\S+)(.*)$')

# Cases of the library's types, which bind nothing in a pattern.
LIBRARY_CASES = {'[]', '∷', 'zero', 'suc', 'true', 'false', 'none', 'some', 'None', 'Some', 'inl', 'inr'}


class Fault(Exception):
    """What this script does not understand, or what must not be."""


class Token:
    """A word of a clause; joined, where nothing stands between it and the word before it."""

    def __init__(self, text, joined):
        self.text, self.joined = text, joined
        self.named = text not in SIGNS and not text.startswith('"')


def tokens(text):
    read, end = [], 0
    for m in TOKEN.finditer(text):
        read.append(Token(m[0], 0 < m.start() == end))
        end = m.end()
    return read


def run(ts, i):
    """The end of the names that stand one after the other from i on."""
    while i < len(ts) and ts[i].named:
        i += 1
    return i


def leads(ts, i):
    """Whether a dot stands there that leads to a name: a binder's dot has a blank behind it."""
    return i + 1 < len(ts) and ts[i].text == '.' and ts[i + 1].joined and ts[i + 1].named


def free(ts, bound=()):
    """The names that a clause uses and does not bind, each as (what stands before its dot or None, name). Fields of what is bound are left out."""
    frames, i = [(set(bound), set())], 0
    while i < len(ts):
        t, end = ts[i], run(ts, i + 1)
        after = ts[end].text if end < len(ts) else ''
        if t.text in '({':
            binder = end > i + 1 and after == ':'
            frames.append((set(), {x.text for x in ts[i + 1:end]} if binder else set()))
            i = end if binder else i + 1
        elif t.text in ')}':
            closed = frames.pop()
            frames[-1][0].update(closed[1])
            i += 1
        elif t.text == 'λ' and after == '.' or t.text == 'let' and after in ('=', ':'):
            frames[-1][0].update(x.text for x in ts[i + 1:end])
            i = end
        elif t.named and leads(ts, i + 1):
            path = [t.text]
            while leads(ts, i + 1):
                path.append(ts[i + 2].text)
                i += 2
            if not any(path[0] in frame for frame, _ in frames):  # else a field that is read
                yield '.'.join(path[:-1]), path[-1]
            i += 1
        elif leads(ts, i):
            i += 2  # a field that is read
        elif t.named and i > 0 and ts[i - 1].text in '{;' and after == '=' and end == i + 1:
            i += 1  # a field that is given
        else:
            if t.named and not any(t.text in frame for frame, _ in frames):
                yield None, t.text
            i += 1


class Definition:
    """A declaration of specs/: its clauses are its signature or head, then its equations, cases or fields."""

    def __init__(self, file, name, kind, number, indent, comment, around):
        self.file, self.name, self.kind, self.number, self.indent = file, name, kind, number, indent
        self.comment, self.around = comment, around
        self.clauses, self.lines, self.body = [], 1, None

    def add(self, text, indent):
        """One more line below its first."""
        self.lines += 1
        if self.kind == 'function':
            opens = indent == self.indent and not text.startswith('unfolding ') and text[0] not in ')}'
        else:
            self.body = indent if self.body is None and self.clauses[0].endswith('where') else self.body
            opens = indent == self.body
        if opens:
            self.clauses.append(re.sub(r'^pub ', '', text))
        elif not text.startswith('unfolding '):
            self.clauses[-1] += ' ' + text

    def cases(self):
        return [t.text for c in self.clauses[1:] for t in tokens(c.split(' : ')[0])] if self.kind == 'data' else []

    def names(self):
        """What it uses: the parameters' types of the modules around it, its clauses."""
        kept = set()
        for text in self.around + self.clauses[:1]:
            yield from free(tokens(text), kept)
            if text in self.around or self.kind != 'function':
                kept |= {x.text for t in re.findall(r'[({]([^:(){}]*) :', text) for x in tokens(t)}
        for clause in self.clauses[1:]:
            ts = tokens(clause)
            if self.kind == 'function':
                cut = next(i for i, t in enumerate(ts) if t.text == '=')
                left = list(free(ts[1:cut]))
                yield from (x for x in left if self.file.is_case(*x))
                yield from free(ts[cut:], kept | {n for q, n in left if q is None and not self.file.is_case(q, n)})
            else:
                start = run(ts, 0)
                yield from free(ts[start:], kept)
                kept |= {t.text for t in ts[:start]} if self.kind == 'record' else set()


class File:
    """A file of specs/: what it imports and what it defines."""

    loaded = {}

    def __init__(self, path):
        self.name = path.relative_to(CRATES).as_posix()
        self.crate = self.name.split('/')[0]
        self.imports, self.aliases, self.passed, self.definitions = {}, {}, {}, {}
        lines = path.read_text().splitlines()
        self.size = len(lines)
        self.head = self.read(lines)
        self.cases = {c: d for d in self.definitions.values() for c in d.cases()}

    @classmethod
    def at(cls, path):
        if path not in cls.loaded:
            cls.loaded[path] = cls(path)
        return cls.loaded[path]

    def read(self, lines):
        head, comment, modules, current = [], [], [], None
        for number, raw in enumerate(lines, 1):
            text = CODE.match(raw)[0].strip()
            if not text:
                begun = self.imports or self.definitions
                (comment if begun else head).append(raw.strip().lstrip('- '))
                comment = comment if raw.strip() else []
                continue
            indent = len(raw) - len(raw.lstrip())
            while modules and indent <= modules[-1][0] and text[0] not in ')}':
                modules.pop()
            if IMPORT.match(text):
                self.bring(IMPORT.match(text))
                current = None
            elif text.startswith('module _ ') and text.endswith(' where'):
                modules.append((indent, text[len('module _ '):-len(' where')]))
                current = None
            elif current and (indent > current.indent or text[0] in ')}' or text.startswith('unfolding ') or tokens(text)[0].text == current.name):
                current.add(text, indent)
            else:
                m = DECLARATION.match(text)
                if not m or not (m[1] or m[3].startswith(' :')):
                    raise Fault(f'{self.name}:{number}: not understood: {text[:60]}')
                current = Definition(self, m[2], m[1] or 'function', number, indent, ' '.join(comment), [p for _, p in modules])
                current.clauses.append(m[3])
                self.definitions[m[2]] = current
            comment = []
        return ' '.join(head)

    def bring(self, m):
        if m['names'] is None:
            self.aliases[m['alias'] or m['path'].rsplit('.', 1)[-1]] = m['path']
            return
        for item in re.split(r',\s*', m['names'].strip()):
            name, _, own = item.partition(' as ')
            self.imports[own or name] = (m['path'], name)
            if m[1]:
                self.passed[own or name] = (m['path'], name)

    def says(self):
        """The first sentence of its head."""
        return re.match(r'.*?[^.]\.(?= |$)|.*', self.head)[0]

    def meaning(self, qualifier, name):
        """What a name stands for here: a definition, or the path and the name of what is no file of specs/; None where nothing brings it."""
        if qualifier in self.aliases:
            return found(self.aliases[qualifier], name)
        if qualifier is not None:  # a field of what a name stands for
            return self.meaning(None, qualifier.partition('.')[0]) or (qualifier, name)
        if name in self.definitions or name in self.cases:
            return self.definitions.get(name) or self.cases[name]
        own = next((own for own in self.imports if own == name or own.strip('◌') == name), None)
        return found(*self.imports[own]) if own else None

    def is_case(self, qualifier, name):
        what = self.meaning(qualifier, name)
        return name in what.cases() if isinstance(what, Definition) else what is not None and name in LIBRARY_CASES


def found(path, name):
    """What an import names."""
    m = re.match(r'^Rattle\.(\w+)\.(specs|proofs)\.(.+)$', path)
    if not m or not (CRATES / m[1]).is_dir():
        return path, name
    if m[2] == 'proofs':
        raise Fault(f'{path}.{name}: a promise rests on what is no file of specs/')
    if m[3].startswith('declared.'):
        return f'`{m[1]}`, its code', name
    at = CRATES / m[1] / 'specs' / (m[3].replace('.', '/') + '.antt')
    if not at.exists():
        raise Fault(f'{path}.{name}: no such file')
    file = File.at(at)
    if name in file.passed:
        return found(*file.passed[name])
    if file.meaning(None, name) is None:
        raise Fault(f'{file.name}: no {name}')
    return file.meaning(None, name)


def clauses(text, start):
    """What a function's `ensures` say, whose head begins at start."""
    part = re.compile(r'\b(ensures|requires)(?: \w+)? \{|\{')
    while True:
        m = part.search(text, start)
        if not m or not m[1]:
            return
        depth, start = 1, m.end()
        while depth:
            depth += {'{': 1, '}': -1}.get(text[start], 0)
            start += 1
        if m[1] == 'ensures':
            yield text[m.end():start - 1]


def functions(crate):
    """The functions of a crate whose promises count: the public ones; of a program, which has none, those that `main` may call. Each with what its file names, its head and its `ensures`."""
    pub = r'pub\(crate\)' if (CRATES / crate / 'src' / 'main.rt').exists() else 'pub'
    for path in sorted((CRATES / crate / 'src').glob('**/*.rt')):
        text = path.read_text()
        brought = re.findall(r'^ghost use (\S+?)\.\{([^}]*)\};', text, re.M)
        ghost = {n.strip('◌'): (path, n) for path, names in brought for n in re.split(r',\s*', names.strip())}
        for m in re.finditer(rf'^ *{pub} (?:extern "C" )?fn (\w+)', text, re.M):
            head = re.match(r'.*?(?=\s+ensures\b)', text[m.end():], re.S)[0]
            yield f'{crate}::{m[1]}', ghost, re.sub(r'(?<=\()\s+|,?\s+(?=\))', '', head), list(clauses(text, m.end()))


def promises(crate):
    """These functions, with what their promises name."""
    for name, ghost, _, said in functions(crate):
        names = [q.partition('.')[0] if q else n for c in said for q, n in free(tokens(c))]
        cited = dict.fromkeys(n for n in names if n in ghost)
        yield name, [(n, found(*ghost[n])) for n in cited]


def demanded():
    """Every definition of the demands' own specs."""
    files = sorted(p for p in (CRATES / DEMANDS / 'specs').glob('*.antt') if p.name != 'Lib.antt')
    return [d for path in files for d in File.at(path).definitions.values()]


def counted():
    """Every definition that counts; and what is named besides, as {path: names}."""
    return reached(what for crate in PROMISING for _, cited in promises(crate) for _, what in cited)


def counted_first():
    """Every definition that the functions of FIRST rest on."""
    return reached(what for crate in PROMISING for name, cited in promises(crate) if name in FIRST for _, what in cited)[0]


def reached(start):
    """Every definition that these rest on, themselves among them; and what is named besides, as {path: names}."""
    waiting, known, besides = list(start), {}, {}
    while waiting:
        what = waiting.pop()
        if isinstance(what, tuple):
            besides.setdefault(what[0], set()).add(what[1])
        elif what and (what.file.name, what.name) not in known:
            known[what.file.name, what.name] = what
            waiting += [what.file.meaning(*x) for x in what.names()]
    return sorted(known.values(), key=lambda d: (d.file.name, d.number)), besides


def floor(crate):
    prefix = crate.split('_')[0]
    return FLOORS.index(prefix) if prefix in FLOORS else len(FLOORS)


def ordered(definitions):
    """Their files in reading order."""
    needs = {d.file: set() for d in definitions}
    for d in definitions:
        others = (d.file.meaning(*x) for x in d.names())
        needs[d.file] |= {o.file for o in others if isinstance(o, Definition) and o.file is not d.file}
    order = []
    while len(order) < len(needs):
        ready = [f for f in needs if f not in order and needs[f] <= set(order)]
        if not ready:
            raise Fault('files that use each other in a circle: ' + ', '.join(sorted(f.name for f in needs if f not in order)))
        order.append(min(ready, key=lambda f: (floor(f.crate), f.crate, f.name)))
    return order


def mirrors(definitions):
    """Those that say how the code goes, or compute what a relation says: by the head of the file, its folder, or the comment above."""
    head = re.compile(r'a (mirror|decision)\b', re.I)
    return [d for d in definitions if head.match(d.file.head) or head.match(d.comment) or '/mirror/' in d.file.name]


def doubles(definitions, besides):
    """Names with more than one meaning, as {name: [(where, line, what)]}. A field is none of them: it stands with its record."""
    where = {}
    for d in definitions:
        for name, what in [(d.name, '')] + [(c, f', a case of `{d.name}`') for c in d.cases()]:
            where.setdefault(name, []).append((f'`{d.file.name}`', f':{d.number}', what))
    for path, names in besides.items():
        for name in names & set(where):
            where[name].append((path if path.startswith('`') else f'`{path}`', '', ''))
    return {n: sorted(w) for n, w in sorted(where.items()) if len(w) > 1}


def faults(definitions, besides):
    """Mirrors and names with two meanings that are no known exception, and exceptions that are not needed."""
    lent = {file for files in MIRRORS.values() for file in files.split()}
    seen = {d.file.name for d in mirrors(definitions)}
    for d in mirrors(definitions):
        if d.file.name not in lent:
            yield f'{d.file.name}:{d.number}: {d.name} is a mirror'
    yield from (f'{file}: no exception is needed for it' for file in sorted(lent - seen))
    promised = {name for crate in PROMISING for name, _ in promises(crate)}
    yield from (f'{name}: counted apart, and there is no such function' for name in FIRST if name not in promised)
    spared = dict(item.split() for names in NAMES.values() for item in names.split(', '))
    double = doubles(*reached(definitions + demanded()))
    for name, where in double.items():
        if int(spared.get(name, 1)) != len(where):
            yield f'{name} has {len(where)} meanings: ' + '; '.join(file.strip('`') + line + what for file, line, what in where)
    yield from (f'{name}: no exception is needed for it' for name in sorted(set(spared) - set(double)))
    for name in sorted({d.file.name for d in definitions}):
        for line in (CRATES / name).read_text().split('\n'):
            found = IMPORT.match(line)
            for renamed in re.findall(r'(\S+) as \S+', found['names'] or '') if found else []:
                yield f'{name}: an import gives {renamed} a second name'
    for path in sorted(CRATES.glob('*/specs/**/*.antt')):
        if path.name != 'mirror.antt' and (path.parent.name == 'mirror') != path.read_text().startswith('-- A mirror'):
            yield f'{path.relative_to(CRATES)}: mirrors stand in specs/mirror/, headed "A mirror", and nothing else does'


def wrapped(text, first='', rest=''):
    """A paragraph of the page, at most 100 columns wide."""
    lines, line = [], first
    for word in text.split():
        if line.strip(' -') and len(line) + 1 + len(word) > 100:
            lines.append(line)
            line = rest
        line += word if line in (first, rest) else ' ' + word
    return '\n'.join(lines + [line])


def item(text):
    return wrapped(text, '- ', '  ')


def ticked(names):
    return ', '.join(f'`{n}`' for n in names)


def page(definitions, besides):
    files = ordered(definitions)
    first = counted_first()
    out = ['# What must be believed', '']
    out += [wrapped(
        f'A promise is worth what its words mean. Here are all definitions that the promises of {ticked(PROMISING)} rest on, in reading '
        f'order: **{len(files)} files, {sum(d.lines for d in definitions):,} lines of definitions** (no comments, blank lines or imports). '
        f'Of these, {sum(d.lines for d in first):,} lines in {len({d.file.name for d in first})} files are under the promises that document 01 asks '
        'for by itself: check, read, pick and picked with their calls for C, the held reader, and `kto`. '
        'What does not stand here, other definitions, laws and proofs, cannot change what these promises say. '
        '`.ci/believe.py` makes this page from the imports; the gate fails where it is stale, where a mirror of the code is among the '
        'files, and where one name has two meanings in them, but for the exceptions at the end.'), '']
    out += ['## The promises', '']
    out += [wrapped('Each function with what it ensures of its `result`: `x.now` is what a shared reference x refers to; of a lent one `x.old` is that before the call and `x.new` after it; `x.entry` is x itself as it was passed.'), '']
    out += ['```']
    for name, _, head, said in (f for crate in PROMISING for f in functions(crate)):
        out += [wrapped(name + head, '', '        ')] + [wrapped(c, '    ', '        ') for c in said]
    out += ['```', '', '## The files, in reading order', '']
    out += [wrapped('Each comes after those that it uses. Lines: of the definitions that count, and of the whole file.'), '']
    out += ['| | File of `crates/` | Lines | Of | What it says |', '|---|---|---|---|---|']
    parts = []
    for i, f in enumerate(files, 1):
        mine = [d for d in definitions if d.file is f]
        out.append(f'| {i} | `{f.name}` | {sum(d.lines for d in mine)} | {f.size} | {f.says()} |')
        others = [n for n in f.definitions if n not in {d.name for d in mine}]
        if others:
            parts.append(item(f'`{f.name}`: {ticked(others)}'))
    out += ['', 'These definitions of the same files do not count, since no promise rests on them:', ''] + parts
    out += ['', '## What else the definitions name', '']
    out += [item(f'{path if path.startswith("`") else f"`{path}` of the kit"}: {ticked(sorted(names))}') for path, names in sorted(besides.items())]
    out += ['', '## Exceptions', '']
    if not MIRRORS and not NAMES:
        out.append('None.')
    out += [item(f'Mirrors: {ticked(names.split())}, since {reason}.') for reason, names in MIRRORS.items()]
    double = doubles(*reached(definitions + demanded()))
    for reason, names in NAMES.items():
        out += [item(f'Names with more than one meaning; {reason}:')]
        for name in (x.split()[0] for x in names.split(', ')):
            out += [wrapped(f'`{name}`: ' + '; '.join(file + what for file, _, what in double.get(name, [])), '  - ', '    ')]
    return '\n'.join(out) + '\n'


def main():
    definitions, besides = counted()
    text = page(definitions, besides)
    wrong = list(faults(definitions, besides))
    if '--check' in sys.argv[1:]:
        if not PAGE.exists() or PAGE.read_text() != text:
            wrong.append('docs/BELIEVE.md is stale: run .ci/believe.py')
    else:
        PAGE.write_text(text)
    for fault in wrong:
        print(f'believe: {fault}')
    files = {d.file.name for d in definitions}
    print(f'believe: {len(files)} files, {sum(d.lines for d in definitions)} lines of definitions, {len(wrong)} faults')
    return 1 if wrong else 0


if __name__ == '__main__':
    try:
        sys.exit(main())
    except Fault as fault:
        sys.exit(f'believe: {fault}')
