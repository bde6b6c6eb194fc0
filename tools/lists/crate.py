"""The files of crates/list_house: definitions, constants, the constants' mirror, and the proofs that these say those and are sound."""
import textwrap

MADE = 'Written by tools/lists/make.'

COUNTS = {'1..1': 'one', '0..1': 'optional', '1..n': 'several', '0..n': 'any', None: 'alternative'}
KINDS = {'G': 'group', 'C': 'choice'}


class Form:
    """A list as stored images keep to it or as files are asked, and what its things are called."""

    def __init__(self, found, stored, lists):
        own = found.name
        plain = own == lists[0].name
        self.found = found
        self.list = f'stored_{own}' if stored else own
        self.label = f'stored_{own}' if stored else own  # beside its rows
        self.said = found.message() + (' as images keep to it' if stored else ' as files are asked' if found.narrower else '')
        self.table = f'{self.list}_rows'
        self.function = ('stored_' if stored else '') + ('rows' if plain else f'{own}_rows')
        self.constant = self.function.upper()


def forms(lists):
    """Each list as stored images keep to it, then those of which files are asked more as files are asked."""
    kept = [Form(found, bool(found.narrower), lists) for found in lists]
    return kept + [Form(found.of_files(), False, lists) for found in lists if found.narrower]


def pool_name(lists):
    return f'{lists[0].name}_pool'


def rows_name(name, lists, what):
    """What the rows of a list are called, and those of them that are others in files."""
    return f'rows_{what}' if name == lists[0].name else f'{name}_{what}'


def kind(row):
    """A row's kind as the definition has it."""
    if row.kind in KINDS:
        return KINDS[row.kind]
    if row.kind == 'TXT':
        return f'(leaf (txt {row.most}))'
    if row.kind == 'ENUM':
        return '(leaf (enum (' + ''.join(f'ascii "{word}" ∷ ' for word in row.words) + '[])))'
    return f'(leaf {row.kind.lower()})'


def row(it):
    return f'row "{it.name}" {it.parent} {COUNTS[it.count]} {kind(it)}'


HOUSE = '''\
-- "The house list": its rows, with their numbers at the right, its rule, its namespace. Assumes nothing.
-- {made}
use Rattle.std.specs.Prelude.{{List, [], ◌∷◌, ℕ}}
use Prim.Native.String.{{String}}
use Rattle.text.specs.Bytes.{{ascii}}
use Rattle.list.specs.Listing.{{ref, iban, ccy, bool, num, amt, date, dtm, txt, enum, Kind, group, choice, leaf, Count, one, optional, several, any, alternative, Row, both, Listing}}
{also}
-- "name, parent row, count, kind"
abbrev row : String → ℕ → Count → Kind → Row
row n p c k = record {{ name = ascii n; parent = p; count = c; kind = k }}
'''

LISTED = '''
unfoldable {listed} : List Row
{listed} =
{rows}
'''

LISTED_LIKE = '''
-- {message}: the rows of `{base}`, but for these
unfoldable {listed} : List Row
unfolding {base}
{listed} = changed {base} (
{rows}
'''

NARROWER = '''
-- what files are asked of some of these rows; no file may have a row without a name
unfoldable pub {narrower} : List (ℕ × Row)
{narrower} =
{rows}
'''

ASKED = '''
unfoldable pub {list} : Listing
unfolding {stored} {narrower}
{list} = altered {stored} {narrower}
'''

LISTING = '''
{said}unfoldable pub {list} : Listing
unfolding {listed}
{list} = record {{ rows = {listed}; rules = {rules}[]; space = ascii "{space}"; byte = {byte} }}
'''


# How wide a line of rows is at most, before the rows' numbers.
WIDEST = 120


def lines_of(cells, end='', most=None):
    """The cells of a list, as many of them on a line as fit, at most so many; after the last, that the list ends."""
    lines, counts = [], []
    for i, cell in enumerate(cells):
        cell += ' ∷ []' + end if i + 1 == len(cells) else ' ∷'
        if lines and counts[-1] != most and len(lines[-1]) + 1 + len(cell) <= WIDEST:
            lines[-1] += ' ' + cell
            counts[-1] += 1
        else:
            lines.append('    ' + cell)
            counts.append(1)
    return lines, counts


def filled(numbers):
    """The numbers of a constant, as many on a line as `rt fmt` puts there."""
    return textwrap.fill(' '.join(f'{number},' for number in numbers), 100, initial_indent='    ', subsequent_indent='    ')


def listed_rows(rows):
    """Two rows a line, as document 01 prints them, with their numbers at the right."""
    lines, counts = lines_of([row(it) for it in rows], most=2)
    numbers = iter(rows)
    return '\n'.join(f'{line}  -- ' + ', '.join(str(next(numbers).number) for _ in range(n)) for line, n in zip(lines, counts))


def numbered(rows, end=''):
    return '\n'.join(lines_of([f'({it.number}, {row(it)})' for it in rows], end)[0])


def house(lists):
    """specs/House.antt"""
    also = [word for word, wanted in [('changed', any(found.like for found in lists)), ('altered', any(found.narrower for found in lists))] if wanted]
    text = HOUSE.format(made=MADE, also='use Rattle.list.specs.Changed.{' + ', '.join(also) + '}\n' if also else '')
    for found, form in zip(lists, forms(lists)):
        listed = rows_name(found.name, lists, 'listed')
        if found.like:
            base = rows_name(found.like, lists, 'listed')
            text += LISTED_LIKE.format(message=found.message(), base=base, listed=listed, rows=numbered(found.changed, ')'))
        else:
            text += LISTED.format(listed=listed, rows=listed_rows(found.rows))
        said = ''.join(f'-- "Rule on row {group} (..): rows {one} and {two} are both present or both absent"\n' for group, one, two in found.rules)
        rules = ''.join(f'both {group} {one} {two} ∷ ' for group, one, two in found.rules)
        text += LISTING.format(said=said, list=form.list, listed=listed, rules=rules, space=found.space, byte=found.byte)
        if found.narrower:
            narrower = rows_name(found.narrowed, lists, 'narrower')
            if found.narrowed == found.name:
                text += NARROWER.format(narrower=narrower, rows=numbered(found.narrower))
            text += ASKED.format(list=found.name, stored=form.list, narrower=narrower)
    return text


def house_table(lists, cells, pool):
    """specs/mirror/HouseTable.antt"""
    text = f'''\
-- A mirror: the numbers of the code's constants, sixteen a row (Table), and the pool. Assumes nothing.
-- {MADE}
use Rattle.std.specs.Prelude.{{List, [], ◌∷◌, ℕ}}
use Rattle.text.specs.Bytes.{{ascii}}
'''
    for form, table in zip(forms(lists), cells):
        said = ['the list', *(f'{it.number} {it.name}'.rstrip() for it in form.found.rows)]
        said += ['no row'] * (len(table) - len(said))
        if table is not cells[0]:
            said = [f'{form.label}: {what}' for what in said]
        lines = ['    ' + ''.join(f'{cell} ∷ ' for cell in line) + f' -- {what}' for line, what in zip(table, said)]
        text += f'\n-- {form.said}\nunfoldable pub {form.table} : List ℕ\n{form.table} =\n' + '\n'.join(lines) + '\n    []\n'
    name = pool_name(lists)
    return text + f'\nunfoldable pub {name} : List ℕ\n{name} =\n    ascii "{pool}"\n'


def tables(lists, cells, pool):
    """src/tables.rt"""
    mirrors = ', '.join([*(form.table for form in forms(lists)), pool_name(lists)])
    text = f'''\
// The house list as its two tables.
// {MADE}
ghost use Rattle.std.specs.Prelude.{{◌≡◌}};
ghost use Rattle.list_house.specs.mirror.HouseTable.{{{mirrors}}};

// Rows of sixteen cells (lookup's columns), row 0 the list's own.
pub type Rows = [u16; {sum(map(len, cells[0]))}];

// Names, words, namespace, one after the other.
pub type Pool = [u8; {len(pool)}];
'''
    for form, table in zip(forms(lists), cells):
        said = ['the list: its rows, its namespace, its kind byte', *(f'{row.number} {row.name}'.rstrip() for row in form.found.rows)]
        said += ['no row'] * (len(table) - len(said))
        lines = [f'    // {what}\n' + filled(line) for line, what in zip(table, said)]
        text += f'\nconst {form.constant}: Rows = [\n' + '\n'.join(lines) + '\n];\n'
    text += f'\nconst POOL: Pool =\n    *b"{pool}";\n'
    for form in forms(lists):
        text += f'''
// The rows of {form.said}. A constant is copied where it is named: bind this once, and lend it.
pub fn {form.function}() -> Rows
    ensures {{ result ≡ {form.table} }}
{{
    {form.constant}
}}
'''
    return text + f'''
// The names, words and {'namespace' if len(lists) == 1 else 'namespaces'}.
pub fn pool() -> Pool
    ensures {{ result ≡ {pool_name(lists)} }}
{{
    POOL
}}
'''


SOUND = '''
-- ---- {message}

pub {list}_is : list_of {table} {pool} ≡ {list}
unfolding {list} {table} {pool} cell words row_of rows_from rules_from list_of
{list}_is = refl

{list}_test : (well {list} && derived {list} {table}) ≡ true
unfolding {list} {table} cell same is_capital is_unmarked is_name_start is_name_part first_from row_at next_due next_child first_of second_of level_in every begins among words_ok row_tests rule_tests derived_tests well derived
{list}_test = refl

{list}_passes : sound {table} {pool} ≡ true
unfolding sound
{list}_passes = rw {list}_is {list}_test

pub {list}_sound : Sound {table} {pool}
{list}_sound = is_sound {table} {pool} {list}_passes

pub {list}_well : WellFormed {list}
{list}_well = rw {list}_is at {list}_sound.well

-- and so every row keeps to the rules
pub {list}_row : (p r : ℕ) → Child {list} p r → EachRow {list} p r
{list}_row p r c = each_row {list} {list}_well p r c
'''


def house_sound(lists):
    """proofs/HouseSound.antt"""
    listed = ', '.join(form.list for form in forms(lists))
    tabled = ', '.join([*(form.table for form in forms(lists)), pool_name(lists)])
    text = f'''\
-- The constants say the house list, and they are sound: two computed equations. Assumes nothing.
-- {MADE}
use mathlib.Core.Path.{{◌≡◌, refl}}
use mathlib.Core.Bool.{{true, ◌&&◌}}
use Prim.Native.Nat.{{ℕ}}
use Rattle.text.specs.Lists.{{same}}
use Rattle.text.specs.Bytes.{{is_capital, is_name_start, is_name_part, is_unmarked}}
use Rattle.list.specs.Words.{{first_from}}
use Rattle.list.specs.Listing.{{Child, row_at, next_due}}
use Rattle.list.specs.WellFormed.{{WellFormed}}
use Rattle.list.specs.tables.Table.{{cell, words, row_of, rows_from, rules_from, list_of}}
use Rattle.list.specs.tables.Sound.{{next_child, first_of, second_of, level_in, Sound}}
use Rattle.list.specs.tables.Test.{{every, begins, among, words_ok, row_tests, rule_tests, derived_tests, well, derived, sound}}
use Rattle.list.specs.EachRow.{{EachRow}}
use Rattle.list.proofs.sound.EachRow.{{each_row}}
use Rattle.list.proofs.sound.Sound.{{is_sound}}
use Rattle.list_house.specs.House.{{{listed}}}
use Rattle.list_house.specs.mirror.HouseTable.{{{tabled}}}
'''
    for form in forms(lists):
        text += SOUND.format(message=form.said, list=form.list, table=form.table, pool=pool_name(lists))
    return text


def constant(function, table, home='list_house', mirror='HouseTable', module='tables'):
    """proofs/MODULE/FUNCTION/Answers.antt: a function of a crate that hands back a constant."""
    return f'''\
-- `{module}::{function}` meets its contract. Assumes nothing.
-- {MADE}
use mathlib.Core.Path.{{refl}}
use Rattle.{home}.specs.mirror.{mirror}.{{{table}}}
use Rattle.{home}.proofs.{module}.{function}.Goals as goal

pub returns : goal.returns
unfolding {table}
returns c = refl
'''
