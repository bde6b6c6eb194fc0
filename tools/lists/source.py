"""The lists as their sources say them: tools/lists/*.txt, read in the order of their names.

A line is one of

    list NAME                   what the definitions and tables of the list are called
    space NAMESPACE
    byte NUMBER                 the kind byte of its images
    like NAME                   the rows and rules of an earlier list, but for the rows that stand here
    ROW NAME PARENT COUNT KIND  a row, numbered from 1; `-` is no name and no parent, and a child of a choice has no COUNT
    rule ROW both ROW ROW       of a group: two rows are both present or both absent
    files ROW NAME PARENT COUNT KIND    what files are asked of a row, where stored images keep to the row as it stands above; no file may have a row
                                without a name

and a `#` starts a comment. KIND is G, C, REF, TXTk, IBAN, CCY, ENUM with its words, BOOL, NUM, AMT, DATE or DTM.
Only the form is judged here; that a list is well formed is what the prover computes.
"""
import copy
import re

# in the order of their numbers in a table; the last count is that of a child of a choice
COUNTS = ('1..1', '0..1', '1..n', '0..n', None)
KINDS = ('G', 'C', 'REF', 'TXT', 'IBAN', 'CCY', 'ENUM', 'BOOL', 'NUM', 'AMT', 'DATE', 'DTM')


class Fault(Exception):
    """A source that can't be read."""


class Row:
    """A row from the words of its line; `most` is the k of TXTk, `words` those of an ENUM."""

    def __init__(self, number, name, parent, *rest):
        self.number = int(number)
        self.name = '' if name == '-' else name
        self.parent = 0 if parent == '-' else int(parent)
        counted = re.fullmatch(r'\d\.\.[\dn]', rest[0])
        self.count = rest[0] if counted else None
        kind, *self.words = rest[1:] if counted else rest
        self.kind, most = re.fullmatch(r'([A-Z]+)(\d*)', kind).groups()
        self.most = int(most or 0)
        if self.kind not in KINDS or self.count not in COUNTS:
            raise ValueError
        if bool(self.most) != (self.kind == 'TXT') or bool(self.words) != (self.kind == 'ENUM'):
            raise ValueError


class Listing:
    """A list: its rows, the rules of its groups as (group, row, row), its namespace, its kind byte; the list that it is like, and what it changes there;
    the rows of which files are asked more, and the list that says them."""

    def __init__(self):
        self.name = self.space = self.like = self.narrowed = ''
        self.byte = 0
        self.rows, self.rules, self.changed, self.narrower = [], [], [], []

    def path(self, number):
        """The names from the root down to a row."""
        row = self.rows[number - 1]
        return (self.path(row.parent) if row.parent else []) + [row.name]

    def of_files(self):
        """The list that files are asked to keep to: this one, or one with its narrower rows."""
        if not self.narrower:
            return self
        found = copy.copy(self)
        found.rows = list(self.rows)
        for row in self.narrower:
            found.rows[row.number - 1] = row
        return found

    def message(self):
        """The last part of the namespace, as camt.053.001.08."""
        return self.space.split(':')[-1]

    def take(self, words, earlier):
        """Adds what the words of a line say."""
        first, *rest = words
        if first == 'list':
            self.name, = rest
        elif first == 'space':
            self.space, = rest
        elif first == 'byte':
            self.byte = int(*rest)
        elif first == 'like':
            self.like, = rest
            base = next(other for other in earlier if other.name == self.like)
            self.rows, self.rules = list(base.rows), list(base.rules)
            self.narrower, self.narrowed = list(base.narrower), base.narrowed
        elif first == 'rule':
            group, both, one, other = rest
            if both != 'both':
                raise ValueError
            self.rules.append((int(group), int(one), int(other)))
        elif first == 'files':
            self.narrower.append(Row(*rest))
            self.narrowed = self.name
        else:
            self.take_row(Row(*words))

    def take_row(self, row):
        if self.like:
            self.rows[row.number - 1] = row
            self.changed.append(row)
        elif row.number == len(self.rows) + 1:
            self.rows.append(row)
        else:
            raise ValueError


def read(folder):
    """The lists of a folder."""
    lists = []
    for path in sorted(folder.glob('*.txt')):
        found = Listing()
        for at, line in enumerate(path.read_text().splitlines(), 1):
            words = line.partition('#')[0].split()
            try:
                if words:
                    found.take(words, lists)
            except (ValueError, TypeError, AttributeError, IndexError, StopIteration):
                raise Fault(f'{path.name}:{at}: what is this? {line.strip()}') from None
        if not (found.name and found.space and found.byte and found.rows):
            raise Fault(f'{path.name}: a list has a name, a namespace, a kind byte and rows')
        lists.append(found)
    return lists
