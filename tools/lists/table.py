"""The tables of the lists: sixteen cells for each row, and one pool of bytes for all of them.

crates/list/specs/tables/Table.antt says what each cell is. What follows from the rows is computed here; the prover computes it once more.
"""
from source import COUNTS, KINDS

COLUMNS = 16


class Pool:
    """Names, words and namespaces one after the other; a text that comes again has its first place."""

    def __init__(self):
        self.text = ''
        self.places = {}

    def place(self, sort, text):
        """Where a text starts and ends."""
        if text and (sort, text) not in self.places:
            self.places[sort, text] = len(self.text), len(self.text) + len(text)
            self.text += text
        return self.places.get((sort, text), (0, 0))


def first(numbers):
    """The first of some rows' numbers, 0 where there is none."""
    return next(iter(numbers), 0)


def derived(found, number, parent):
    """Columns 9 to 15 of a row, and of row 0, which stands above the root: what follows from the list."""
    due = [row for row in found.rows if row.count in ('1..1', '1..n')]
    return [
        first(row.number for row in found.rows if row.parent == number),
        first(row.number for row in found.rows if row.parent == parent and row.number > number),
        first(row.number for row in due if row.parent == number),
        first(row.number for row in due if row.parent == parent and row.number > number),
        first(second for _, one, second in found.rules if one == number),
        len(found.path(number)) if number else 0,
        len(found.rows[number - 1].words) if number else 0,
    ]


def tables(lists):
    """The cells of each list, row by row, and the pool. The tables have one length, so that a function can be lent any of them."""
    pool = Pool()
    longest = max(len(found.rows) for found in lists)
    cells = []
    for found in lists:
        names = [pool.place('name', row.name) for row in found.rows]
        words = [pool.place('words', ' '.join(row.words)) for row in found.rows]
        space = pool.place('space', found.space)
        table = [[len(found.rows), *space, found.byte, *[0] * 5, *derived(found, 0, 0)]]
        for row, name, word in zip(found.rows, names, words):
            mate = first(one for _, one, second in found.rules if second == row.number)
            own = [row.parent, COUNTS.index(row.count), KINDS.index(row.kind), row.most, *name, *word, mate]
            table.append(own + derived(found, row.number, row.parent))
        cells.append(table + [[0] * COLUMNS] * (longest - len(found.rows)))
    return cells, pool.text
