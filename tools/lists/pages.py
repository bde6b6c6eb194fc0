"""The lists for people: kind bytes and names of rows in include/kto.h, the lists in examples/python/kto.py, and docs/LIST.md."""
import textwrap

BEGIN = '/* The kinds of messages and the rows of their lists (docs/LIST.md). Written by tools/lists/make, from here .. */'
END = '/* .. to here. */'
PYTHON_BEGIN = '# The lists by their kind bytes: the namespace; of each row its path, its kind, and of an ENUM its words. Written by tools/lists/make, from here ..'
PYTHON_END = '# .. to here.'

# How many bytes a value has in an image (document 01, "Content and its image").
BYTES = {'REF': '2 + 1 to 35', 'IBAN': '2 + 5 to 34', 'CCY': '2 + 3', 'BOOL': '1', 'NUM': '8', 'AMT': '12', 'DATE': '4', 'DTM': '13'}

WHAT = (
    'A row is an element at its place in a message. Its number stands in answers, in images and in the calls of the unit. '
    "Each kind of message has a list. A file's namespace chooses it, and an image's kind byte says which it was. "
    'C has both by name in `include/kto.h`: the kind bytes {kinds}, and a row by the path below the second element, in capitals, after {rows}. '
    'This page is written by `tools/lists/make`.'
)
COLUMNS = (
    'Count: how often the element stands in its parent, n without a limit; a child of a choice has none. '
    'Where files are asked more than stored images keep to, the count of files comes first and that of images after it; no file may have a row '
    'whose first count is 0. '
    'Kind: G is a group in sequence, C a group that is a choice of exactly one child, the others are types. '
    "Bytes: those of a value in an image, after its row byte. A text has two bytes of length before it, and each of a TXT's characters "
    'has one to three; an ENUM has the place of its word.'
)


def kind(row):
    return f'{row.kind}{row.most or ""}'


def count(row, asked):
    """How often a row stands in its parent; where files differ, that of files and that of images."""
    if not asked.name:
        return f'0; in images {row.count}'
    return (row.count or '-') if row.count == asked.count else f'{asked.count}; in images {row.count}'


def value(row):
    """How many bytes a row's value has in an image; which they are, where they say a word's place."""
    if row.kind == 'TXT':
        return f'2 + 1 to {3 * row.most}'
    if row.kind == 'ENUM':
        return '1: ' + ', '.join(f'{place} {word}' for place, word in enumerate(row.words, 1))
    return BYTES.get(row.kind, '')


def row_prefix(lists, found):
    """What the names of a list's rows begin with for C."""
    return 'KTO_ROW_' if found is lists[0] else f'KTO_{found.name.upper()}_ROW_'


def kind_name(found):
    """The name of a list's kind byte for C: KTO_CAMT053 of camt.053.001.08."""
    return 'KTO_' + ''.join(found.message().split('.')[:2]).upper()


def constants(found, prefix):
    """The rows with their names for C: the path below the message's element, so that a new row renames no other. A row without a name has none."""
    for row in found.rows:
        path = found.path(row.number)
        if all(path):
            yield row, prefix + '_'.join(path[2:] or path[-1:]).upper()


def header(lists, text):
    """include/kto.h with the kind bytes and the names of the rows between its two marks."""
    kinds = '\n'.join(f'#define {kind_name(found)} {found.byte}' for found in lists)
    blocks, names = [kinds], [kind_name(found) for found in lists]
    for found in lists:
        rows = list(constants(found, row_prefix(lists, found)))
        names += [name for _, name in rows]
        lines = [f'    {name} = {row.number}' + (',' if row is not rows[-1][0] else '') + (f' /* {kind(row)} */' if value(row) else '') for row, name in rows]
        blocks.append('\n'.join([f'/* {found.message()} */', 'enum {', *lines, '};']))
    if len(set(names)) < len(names):
        raise SystemExit('lists: two kinds or rows have one name for C')
    return between('include/kto.h', text, BEGIN, '\n\n'.join(blocks), END)


def between(name, text, begin, new, end):
    """A file's text with something new between its two marks."""
    before, _, rest = text.partition(begin)
    _, _, after = rest.partition(end)
    if not after:
        raise SystemExit(f'lists: {name} has lost the marks between which its rows stand')
    return before + '\n'.join([begin, new, end]) + after


def module(lists, text):
    """examples/python/kto.py with the lists between its two marks."""
    lines = ['SPACES = {', *(f'    {found.byte}: {found.space!r},' for found in lists), '}', 'ROWS = {']
    for found in lists:
        rows = (f'        {row.number}: {("/".join(found.path(row.number)), kind(row), *row.words)!r},' for row in found.rows)
        lines += [f'    {found.byte}: {{', *rows, '    },']
    return between('examples/python/kto.py', text, PYTHON_BEGIN, '\n'.join([*lines, '}']), PYTHON_END)


def paragraph(text):
    return textwrap.fill(text, 100, break_long_words=False, break_on_hyphens=False)


def page(lists):
    """docs/LIST.md"""
    kinds = ' and '.join(f'`{kind_name(found)}`' for found in lists)
    prefixes = ' or '.join(f'`{row_prefix(lists, found)}`' + ('' if found is lists[0] else f' ({found.message()})') for found in lists)
    parts = ['# The lists', paragraph(WHAT.format(kinds=kinds, rows=prefixes)), paragraph(COLUMNS)]
    for found in lists:
        lines = ['| Row | Path | Count | Kind | Bytes |', '|---|---|---|---|---|']
        for row, asked in zip(found.rows, found.of_files().rows):
            path = '/'.join(name or '-' for name in found.path(row.number))
            lines.append(f'| {row.number} | {path} | {count(row, asked)} | {kind(row)} | {value(row)} |'.replace('|  |', '| |'))
        parts += [f'## {found.message()}', f'Namespace: `{found.space}`. Kind byte: {found.byte}.', '\n'.join(lines)]
        parts += [paragraph(f'Row {group}: rows {one} and {two} are both present or both absent.') for group, one, two in found.rules]
    return '\n\n'.join(parts) + '\n'
