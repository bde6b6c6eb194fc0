"""The nodes of the fast lane, for each list as files are asked: which tag may come next, and what else may come if it does not stand there.

A node is an opening or a closing tag where it may be met. `next` is the node after it, `other` the one of what else may come in its place;
order, counts, required rows, choices and rules are all in these. crates/file_nodes/specs/Entries.antt says what an entry is, specs/mirror/Kept.antt what
its numbers are. That the entries say the list, and the numbers the entries, is what the prover computes.
"""
from crate import MADE
from source import KINDS, Fault

WIDTH = 11  # numbers of a node
PART = 16  # bytes of a tag that are compared at once
SINGLE, OVER, LONG = 12, 13, 1  # an amount in single quotes, the root's end, a tag whose rest is compared where a leaf's closing tag is


class Node:
    """The first of some rows that may come in an element of row `parent`, or its end. `ends`: whether it may end after the last of them; `single`: a currency
    in single quotes."""

    def __init__(self, parent, rows, ends, single=False):
        self.parent, self.rows, self.ends, self.single = parent, rows, ends, single

    def key(self):
        return (self.parent, self.rows, self.ends, self.single)

    def __eq__(self, other):
        return isinstance(other, Node) and self.key() == other.key()

    def __hash__(self):
        return hash(self.key())


class Nodes:
    """The nodes of a list, numbered from 1, the one after the root's tag first, each before its `other`."""

    def __init__(self, found):
        self.found = found
        met = self.reached()
        first, *rest = met
        self.order = [first] + sorted(rest, key=lambda node: -self.chain(node))
        self.number = {node: at for at, node in enumerate(self.order, 1)}
        if any(0 < self.at(self.other(node)) <= self.at(node) for node in self.order):
            raise Fault(f'{found.name}: a node comes before one that it is the other of')
        self.last = self.lasts(first)

    def row(self, number):
        return self.found.rows[number - 1]

    def is_group(self, number):
        return self.row(number).kind in ('G', 'C')

    def at(self, node):
        return self.number[node] if node else 0

    def after(self, parent, last):
        """What may come in an element after its child `last`, 0 for none yet; rows without a name are in no file."""
        kids = [row for row in self.found.rows if row.parent == parent and row.name]
        if self.row(parent).kind == 'C':
            return self.node(parent, () if last else tuple(row.number for row in kids), bool(last))
        may = [last] if last and self.row(last).count in ('1..n', '0..n') else []
        firsts = {second: first for _, first, second in self.found.rules}
        for row in kids:
            if row.number <= last or firsts.get(row.number, last) != last:
                continue
            may.append(row.number)
            if row.count in ('1..1', '1..n') or row.number in firsts:
                return self.node(parent, tuple(may), False)
        return self.node(parent, tuple(may), last > 0)

    def node(self, parent, rows, ends):
        return Node(parent, rows, ends) if rows or ends else None

    def next(self, node):
        if not node.rows:
            return self.after(self.row(node.parent).parent, node.parent) if node.parent > 1 else None
        return self.after(node.rows[0], 0) if self.is_group(node.rows[0]) else self.after(node.parent, node.rows[0])

    def other(self, node):
        if not node.rows:
            return None
        if self.row(node.rows[0]).kind == 'AMT' and not node.single:
            return Node(node.parent, node.rows, node.ends, True)
        return self.node(node.parent, node.rows[1:], node.ends)

    def reached(self):
        """Each node that may be met, the one after the root's tag first."""
        met, todo = [], [self.after(1, 0)]
        while todo:
            node = todo.pop(0)
            if node and node not in met:
                met.append(node)
                todo += [self.next(node), self.other(node)]
        return met

    def chain(self, node):
        return 1 + self.chain(self.other(node)) if node else 0

    def lasts(self, first):
        """Of each node the children of its element that may have come last, 0 for none."""
        last, todo = {node: set() for node in self.order}, [(first, 0)]
        while todo:
            node, came = todo.pop()
            if node and came not in last[node]:
                last[node].add(came)
                row = node.rows[0] if node.rows else node.parent
                todo += [(self.other(node), came), (self.next(node), 0 if node.rows and self.is_group(row) else row)]
        return last


def entry(nodes, node):
    """A node's line among the entries."""
    row = node.rows[0] if node.rows else node.parent
    form = 'shuts' if not node.rows else 'plain' if nodes.row(row).kind != 'AMT' else 'singly' if node.single else 'doubly'
    last = ''.join(f'{number} ∷ ' for number in sorted(nodes.last[node]))
    return f'{form} {row} {nodes.at(nodes.next(node))} {nodes.at(nodes.other(node))} ({last}[])'


def little(text):
    return int.from_bytes(text.encode(), 'little')


def masked(text):
    """Sixteen bytes as two numbers, each with the mask under which it is compared."""
    return [number for half in (text[:8], text[8:]) for number in (little(half), 256 ** len(half) - 1)]


def numbers(nodes, node):
    """The numbers of a node."""
    row = nodes.row(node.rows[0] if node.rows else node.parent)
    shut = f'</{row.name}>'
    leaf = node.rows and not nodes.is_group(row.number)
    tag = shut if not node.rows else f'<{row.name} Ccy=' + ("'" if node.single else '"') if row.kind == 'AMT' else f'<{row.name}>'
    end = shut if leaf else tag[PART:]
    if len(end) > PART or (leaf and len(tag) > PART) or any(len(word) != 4 for word in row.words) or len(row.words) > 4:
        raise Fault(f'{nodes.found.name}: the lane has no room for row {row.number}')
    sort = SINGLE if node.single else KINDS.index(row.kind) if leaf else OVER if not node.rows and row.number == 1 else LONG if end else 0
    parts = [len(tag[:PART]), sort, nodes.at(nodes.next(node)), nodes.at(nodes.other(node)), row.most if leaf else 0, row.number, len(end), 1 if node.rows else 0]
    words = [little(word) for word in (row.words + row.words[-1:] * 4)[:4]] if leaf and row.words else [0] * 4
    info = sum(part << 8 * at for at, part in enumerate(parts))
    return [*masked(tag[:PART]), info, *masked(end), words[0] + (words[1] << 32), words[2] + (words[3] << 32)]


def asked(lists):
    """The nodes of each list as files are asked, with the list's name; as many for each, the last again where there are fewer, so that a function can be
    lent the numbers of any."""
    made = [(found.name, Nodes(found.of_files())) for found in lists]
    longest = max(len(nodes.order) for _, nodes in made)
    return [(name, nodes, nodes.order + nodes.order[-1:] * (longest - len(nodes.order))) for name, nodes in made]


def entries(lists):
    """specs/mirror/Nodes.antt"""
    text = f'''\
-- A mirror: the nodes of each list, the one after the root's tag being 1. Assumes nothing.
-- {MADE}
use Rattle.std.specs.Prelude.{{List, [], ◌∷◌}}
use Rattle.file_nodes.specs.Entries.{{Entry, no_entry, plain, doubly, singly, shuts}}
'''
    for name, nodes, order in asked(lists):
        lines = ''.join(f'    {entry(nodes, node)} ∷  -- {name} {at}\n' for at, node in enumerate(order, 1))
        text += f'\n-- {nodes.found.message()}\nunfoldable pub {name}_entries : List Entry\n{name}_entries =\n    no_entry ∷\n{lines}    []\n'
    return text


def rows(lists):
    """The numbers of each list's nodes, node by node."""
    return [(name, [[0] * WIDTH] + [numbers(nodes, node) for node in order]) for name, nodes, order in asked(lists)]


def table(lists):
    """specs/mirror/Tables.antt"""
    text = f'''\
-- A mirror: the numbers of the code's constants, {WIDTH} a node. Assumes nothing.
-- {MADE}
use Rattle.std.specs.Prelude.{{List, [], ◌∷◌, ℕ}}

-- how many nodes a table has; the first is none
abbrev pub node_count : ℕ
node_count = {len(rows(lists)[0][1])}
'''
    for name, cells in rows(lists):
        lines = ''.join('    ' + ' ∷ '.join(map(str, line)) + f' ∷  -- {name} {at}\n' for at, line in enumerate(cells))
        text += f'\nunfoldable pub {name}_table : List ℕ\n{name}_table =\n{lines}    []\n'
    return text


def mask(name, at, k, cell):
    """Beside the mask of a tag's bytes: how many it keeps."""
    return f' // {name} {at}: bytes {4 * k - 3} to {4 * k - 4 + (cell.bit_length() + 7) // 8}' if k in (1, 3) and cell else ''


def constants(lists):
    """src/tables.rt"""
    made = rows(lists)
    mirrors = ', '.join(f'{name}_table' for name, _ in made)
    text = f'''\
// The nodes of the lists as numbers, {WIDTH} a node.
// {MADE}
ghost use Rattle.std.specs.Prelude.{{◌≡◌}};
ghost use Rattle.file_nodes.specs.mirror.Tables.{{{mirrors}}};

use crate::fields::WIDTH;

// How many nodes a table has; the first is none.
pub const NODES: usize = {len(made[0][1])};

const NUMBERS: usize = WIDTH * NODES;

pub type Table = [u64; NUMBERS];
'''
    for name, cells in made:
        lines = ''.join(f'    // {name} {at}\n' + ''.join(f'    {cell},{mask(name, at, k, cell)}\n' for k, cell in enumerate(line)) for at, line in enumerate(cells))
        text += f'\nconst {name.upper()}: Table = [\n{lines}];\n'
    for name, _ in made:
        text += f'''
pub(crate) fn {name}_table() -> Table
    ensures {{ result ≡ {name}_table }}
{{
    {name.upper()}
}}
'''
    return text


def spaces(lists):
    """specs/mirror/Spaces.antt of file_front"""
    text = f'''\
-- A mirror: the namespaces of the code's constants. Assumes nothing.
-- {MADE}
use Rattle.std.specs.Prelude.{{List, ℕ}}
use Rattle.text.specs.Bytes.{{ascii}}
'''
    for found in lists:
        text += f'\nunfoldable pub {found.name}_space : List ℕ\n{found.name}_space = ascii "{found.space}"\n'
    return text


def named(lists):
    """src/spaces.rt of file_front"""
    mirrors = ', '.join(f'{found.name}_space' for found in lists)
    text = f'''\
// The namespaces of the lists.
// {MADE}
ghost use Rattle.std.specs.Prelude.{{◌≡◌}};
ghost use Rattle.file_front.specs.mirror.Spaces.{{{mirrors}}};
'''
    for found in lists:
        text += f'''
pub(crate) fn {found.name}_space() -> [u8; {len(found.space)}]
    ensures {{ result ≡ {found.name}_space }}
{{
    *b"{found.space}"
}}
'''
    return text
