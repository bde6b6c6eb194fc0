"""The reconciliation unit for Python 3, with nothing but its own library.

    import kto
    image = kto.check(open('statement.xml', 'rb').read())   # bytes, or kto.Refused is raised
    kto.read(image)                                          # how long the image is that a run begins with
    kto.count(image)                                         # how many items it has, the closing byte among them
    kto.kind(image)                                          # 'statement' (camt.053) or 'report' (camt.052)
    kto.pick(image, kto.ROW['Document/BkToCstmrStmt/GrpHdr/MsgId'])
    for item in kto.items(image):
        print(item.path, item.value)

Files of both kinds are checked, and images of both kinds and both versions are read. The judging is the proved code's. Where KTO_LIBRARY names a shared library, or target/libkto.so is there, it is called through ctypes
(x86-64 Linux; README.md has the line that makes it from the archive). Elsewhere, and where KTO_LIBRARY is empty, the program `replay` is
asked, through `run` of the repository that this file stands in.

A value is a str (texts and the words of lists), int (NUM), bool, datetime.date, datetime.datetime with its offset, or an Amount: a
decimal.Decimal with its currency. docs/IMAGE.md says what stands in an image, docs/CODES.md what the codes say, docs/LIST.md which rows
there are.
"""
import ctypes
import datetime
import decimal
import os
import pathlib
import re
import struct
import subprocess
from typing import NamedTuple, Optional

ROOT = pathlib.Path(__file__).resolve().parent.parent.parent
LIMIT = 1_048_576

# What a message is called, by the kind byte of its image.
KINDS = {1: 'statement', 2: 'report'}

# The codes, with the names that docs/CODES.md gives them.
CODES = {
    0: 'ACCEPTED',
    1: 'TOO_LONG',
    2: 'NOT_UTF8',
    3: 'NOT_HOUSE_XML',
    4: 'WRONG_ROOT',
    5: 'NOT_A_CHILD',
    6: 'OUT_OF_ORDER',
    7: 'TOO_MANY',
    8: 'ABSENT',
    9: 'WRONG_ATTRIBUTES',
    10: 'TEXT_IN_GROUP',
    11: 'EMPTY',
    12: 'BAD_VALUE',
    13: 'RULE_BROKEN',
    14: 'NO_ROOM',
    15: 'NO_HEADER',
    16: 'WRONG_VERSION',
    17: 'BROKEN_IMAGE',
    18: 'NO_SUCH_LEAF',
}

# The lists by their kind bytes: the namespace; of each row its path, its kind, and of an ENUM its words. Written by tools/lists/make, from here ..
SPACES = {
    1: 'urn:iso:std:iso:20022:tech:xsd:camt.053.001.08',
    2: 'urn:iso:std:iso:20022:tech:xsd:camt.052.001.08',
}
ROWS = {
    1: {
        1: ('Document', 'G'),
        2: ('Document/BkToCstmrStmt', 'G'),
        3: ('Document/BkToCstmrStmt/GrpHdr', 'G'),
        4: ('Document/BkToCstmrStmt/GrpHdr/MsgId', 'REF'),
        5: ('Document/BkToCstmrStmt/GrpHdr/CreDtTm', 'DTM'),
        6: ('Document/BkToCstmrStmt/Stmt', 'G'),
        7: ('Document/BkToCstmrStmt/Stmt/Id', 'REF'),
        8: ('Document/BkToCstmrStmt/Stmt/ElctrncSeqNb', 'NUM'),
        9: ('Document/BkToCstmrStmt/Stmt/Acct', 'G'),
        10: ('Document/BkToCstmrStmt/Stmt/Acct/Id', 'C'),
        11: ('Document/BkToCstmrStmt/Stmt/Acct/Id/IBAN', 'IBAN'),
        12: ('Document/BkToCstmrStmt/Stmt/Acct/Id/Othr', 'G'),
        13: ('Document/BkToCstmrStmt/Stmt/Acct/Id/Othr/Id', 'TXT34'),
        14: ('Document/BkToCstmrStmt/Stmt/Acct/Ccy', 'CCY'),
        15: ('Document/BkToCstmrStmt/Stmt/Bal', 'G'),
        16: ('Document/BkToCstmrStmt/Stmt/Bal/Tp', 'G'),
        17: ('Document/BkToCstmrStmt/Stmt/Bal/Tp/CdOrPrtry', 'G'),
        18: ('Document/BkToCstmrStmt/Stmt/Bal/Tp/CdOrPrtry/Cd', 'ENUM', 'OPBD', 'CLBD', 'PRCD'),
        19: ('Document/BkToCstmrStmt/Stmt/Bal/Amt', 'AMT'),
        20: ('Document/BkToCstmrStmt/Stmt/Bal/CdtDbtInd', 'ENUM', 'CRDT', 'DBIT'),
        21: ('Document/BkToCstmrStmt/Stmt/Bal/Dt', 'G'),
        22: ('Document/BkToCstmrStmt/Stmt/Bal/Dt/Dt', 'DATE'),
        23: ('Document/BkToCstmrStmt/Stmt/Ntry', 'G'),
        24: ('Document/BkToCstmrStmt/Stmt/Ntry/Amt', 'AMT'),
        25: ('Document/BkToCstmrStmt/Stmt/Ntry/CdtDbtInd', 'ENUM', 'CRDT', 'DBIT'),
        26: ('Document/BkToCstmrStmt/Stmt/Ntry/RvslInd', 'BOOL'),
        27: ('Document/BkToCstmrStmt/Stmt/Ntry/Sts', 'G'),
        28: ('Document/BkToCstmrStmt/Stmt/Ntry/Sts/Cd', 'ENUM', 'BOOK'),
        29: ('Document/BkToCstmrStmt/Stmt/Ntry/BookgDt', 'G'),
        30: ('Document/BkToCstmrStmt/Stmt/Ntry/BookgDt/Dt', 'DATE'),
        31: ('Document/BkToCstmrStmt/Stmt/Ntry/ValDt', 'G'),
        32: ('Document/BkToCstmrStmt/Stmt/Ntry/ValDt/Dt', 'DATE'),
        33: ('Document/BkToCstmrStmt/Stmt/Ntry/AcctSvcrRef', 'REF'),
        34: ('Document/BkToCstmrStmt/Stmt/Ntry/BkTxCd', 'G'),
        35: ('Document/BkToCstmrStmt/Stmt/Ntry/BkTxCd/Domn', 'G'),
        36: ('Document/BkToCstmrStmt/Stmt/Ntry/BkTxCd/Domn/Cd', 'TXT4'),
        37: ('Document/BkToCstmrStmt/Stmt/Ntry/BkTxCd/Domn/Fmly', 'G'),
        38: ('Document/BkToCstmrStmt/Stmt/Ntry/BkTxCd/Domn/Fmly/Cd', 'TXT4'),
        39: ('Document/BkToCstmrStmt/Stmt/Ntry/BkTxCd/Domn/Fmly/SubFmlyCd', 'TXT4'),
        40: ('Document/BkToCstmrStmt/Stmt/Ntry/BkTxCd/Prtry', 'G'),
        41: ('Document/BkToCstmrStmt/Stmt/Ntry/BkTxCd/Prtry/Cd', 'TXT35'),
        42: ('Document/BkToCstmrStmt/Stmt/Ntry/NtryDtls', 'G'),
        43: ('Document/BkToCstmrStmt/Stmt/Ntry/NtryDtls/TxDtls', 'G'),
        44: ('Document/BkToCstmrStmt/Stmt/Ntry/NtryDtls/TxDtls/Refs', 'G'),
        45: ('Document/BkToCstmrStmt/Stmt/Ntry/NtryDtls/TxDtls/Refs/EndToEndId', 'REF'),
        46: ('Document/BkToCstmrStmt/Stmt/Ntry/NtryDtls/TxDtls/Refs/MndtId', 'REF'),
        47: ('Document/BkToCstmrStmt/Stmt/Ntry/NtryDtls/TxDtls/Amt', 'AMT'),
        48: ('Document/BkToCstmrStmt/Stmt/Ntry/NtryDtls/TxDtls/CdtDbtInd', 'ENUM', 'CRDT', 'DBIT'),
        49: ('Document/BkToCstmrStmt/Stmt/Ntry/NtryDtls/TxDtls/RltdPties', 'G'),
        50: ('Document/BkToCstmrStmt/Stmt/Ntry/NtryDtls/TxDtls/RltdPties/Dbtr', 'G'),
        51: ('Document/BkToCstmrStmt/Stmt/Ntry/NtryDtls/TxDtls/RltdPties/Dbtr/Pty', 'G'),
        52: ('Document/BkToCstmrStmt/Stmt/Ntry/NtryDtls/TxDtls/RltdPties/Dbtr/Pty/Nm', 'TXT140'),
        53: ('Document/BkToCstmrStmt/Stmt/Ntry/NtryDtls/TxDtls/RltdPties/DbtrAcct', 'G'),
        54: ('Document/BkToCstmrStmt/Stmt/Ntry/NtryDtls/TxDtls/RltdPties/DbtrAcct/Id', 'G'),
        55: ('Document/BkToCstmrStmt/Stmt/Ntry/NtryDtls/TxDtls/RltdPties/DbtrAcct/Id/IBAN', 'IBAN'),
        56: ('Document/BkToCstmrStmt/Stmt/Ntry/NtryDtls/TxDtls/RmtInf', 'G'),
        57: ('Document/BkToCstmrStmt/Stmt/Ntry/NtryDtls/TxDtls/RmtInf/Ustrd', 'TXT140'),
    },
    2: {
        1: ('Document', 'G'),
        2: ('Document/BkToCstmrAcctRpt', 'G'),
        3: ('Document/BkToCstmrAcctRpt/GrpHdr', 'G'),
        4: ('Document/BkToCstmrAcctRpt/GrpHdr/MsgId', 'REF'),
        5: ('Document/BkToCstmrAcctRpt/GrpHdr/CreDtTm', 'DTM'),
        6: ('Document/BkToCstmrAcctRpt/Rpt', 'G'),
        7: ('Document/BkToCstmrAcctRpt/Rpt/Id', 'REF'),
        8: ('Document/BkToCstmrAcctRpt/Rpt/ElctrncSeqNb', 'NUM'),
        9: ('Document/BkToCstmrAcctRpt/Rpt/Acct', 'G'),
        10: ('Document/BkToCstmrAcctRpt/Rpt/Acct/Id', 'C'),
        11: ('Document/BkToCstmrAcctRpt/Rpt/Acct/Id/IBAN', 'IBAN'),
        12: ('Document/BkToCstmrAcctRpt/Rpt/Acct/Id/Othr', 'G'),
        13: ('Document/BkToCstmrAcctRpt/Rpt/Acct/Id/Othr/Id', 'TXT34'),
        14: ('Document/BkToCstmrAcctRpt/Rpt/Acct/Ccy', 'CCY'),
        15: ('Document/BkToCstmrAcctRpt/Rpt/Bal', 'G'),
        16: ('Document/BkToCstmrAcctRpt/Rpt/Bal/Tp', 'G'),
        17: ('Document/BkToCstmrAcctRpt/Rpt/Bal/Tp/CdOrPrtry', 'G'),
        18: ('Document/BkToCstmrAcctRpt/Rpt/Bal/Tp/CdOrPrtry/Cd', 'ENUM', 'OPBD', 'CLBD', 'PRCD', 'ITBD'),
        19: ('Document/BkToCstmrAcctRpt/Rpt/Bal/Amt', 'AMT'),
        20: ('Document/BkToCstmrAcctRpt/Rpt/Bal/CdtDbtInd', 'ENUM', 'CRDT', 'DBIT'),
        21: ('Document/BkToCstmrAcctRpt/Rpt/Bal/Dt', 'G'),
        22: ('Document/BkToCstmrAcctRpt/Rpt/Bal/Dt/Dt', 'DATE'),
        23: ('Document/BkToCstmrAcctRpt/Rpt/Ntry', 'G'),
        24: ('Document/BkToCstmrAcctRpt/Rpt/Ntry/Amt', 'AMT'),
        25: ('Document/BkToCstmrAcctRpt/Rpt/Ntry/CdtDbtInd', 'ENUM', 'CRDT', 'DBIT'),
        26: ('Document/BkToCstmrAcctRpt/Rpt/Ntry/RvslInd', 'BOOL'),
        27: ('Document/BkToCstmrAcctRpt/Rpt/Ntry/Sts', 'G'),
        28: ('Document/BkToCstmrAcctRpt/Rpt/Ntry/Sts/Cd', 'ENUM', 'BOOK', 'PDNG'),
        29: ('Document/BkToCstmrAcctRpt/Rpt/Ntry/BookgDt', 'G'),
        30: ('Document/BkToCstmrAcctRpt/Rpt/Ntry/BookgDt/Dt', 'DATE'),
        31: ('Document/BkToCstmrAcctRpt/Rpt/Ntry/ValDt', 'G'),
        32: ('Document/BkToCstmrAcctRpt/Rpt/Ntry/ValDt/Dt', 'DATE'),
        33: ('Document/BkToCstmrAcctRpt/Rpt/Ntry/AcctSvcrRef', 'REF'),
        34: ('Document/BkToCstmrAcctRpt/Rpt/Ntry/BkTxCd', 'G'),
        35: ('Document/BkToCstmrAcctRpt/Rpt/Ntry/BkTxCd/Domn', 'G'),
        36: ('Document/BkToCstmrAcctRpt/Rpt/Ntry/BkTxCd/Domn/Cd', 'TXT4'),
        37: ('Document/BkToCstmrAcctRpt/Rpt/Ntry/BkTxCd/Domn/Fmly', 'G'),
        38: ('Document/BkToCstmrAcctRpt/Rpt/Ntry/BkTxCd/Domn/Fmly/Cd', 'TXT4'),
        39: ('Document/BkToCstmrAcctRpt/Rpt/Ntry/BkTxCd/Domn/Fmly/SubFmlyCd', 'TXT4'),
        40: ('Document/BkToCstmrAcctRpt/Rpt/Ntry/BkTxCd/Prtry', 'G'),
        41: ('Document/BkToCstmrAcctRpt/Rpt/Ntry/BkTxCd/Prtry/Cd', 'TXT35'),
        42: ('Document/BkToCstmrAcctRpt/Rpt/Ntry/NtryDtls', 'G'),
        43: ('Document/BkToCstmrAcctRpt/Rpt/Ntry/NtryDtls/TxDtls', 'G'),
        44: ('Document/BkToCstmrAcctRpt/Rpt/Ntry/NtryDtls/TxDtls/Refs', 'G'),
        45: ('Document/BkToCstmrAcctRpt/Rpt/Ntry/NtryDtls/TxDtls/Refs/EndToEndId', 'REF'),
        46: ('Document/BkToCstmrAcctRpt/Rpt/Ntry/NtryDtls/TxDtls/Refs/MndtId', 'REF'),
        47: ('Document/BkToCstmrAcctRpt/Rpt/Ntry/NtryDtls/TxDtls/Amt', 'AMT'),
        48: ('Document/BkToCstmrAcctRpt/Rpt/Ntry/NtryDtls/TxDtls/CdtDbtInd', 'ENUM', 'CRDT', 'DBIT'),
        49: ('Document/BkToCstmrAcctRpt/Rpt/Ntry/NtryDtls/TxDtls/RltdPties', 'G'),
        50: ('Document/BkToCstmrAcctRpt/Rpt/Ntry/NtryDtls/TxDtls/RltdPties/Dbtr', 'G'),
        51: ('Document/BkToCstmrAcctRpt/Rpt/Ntry/NtryDtls/TxDtls/RltdPties/Dbtr/Pty', 'G'),
        52: ('Document/BkToCstmrAcctRpt/Rpt/Ntry/NtryDtls/TxDtls/RltdPties/Dbtr/Pty/Nm', 'TXT140'),
        53: ('Document/BkToCstmrAcctRpt/Rpt/Ntry/NtryDtls/TxDtls/RltdPties/DbtrAcct', 'G'),
        54: ('Document/BkToCstmrAcctRpt/Rpt/Ntry/NtryDtls/TxDtls/RltdPties/DbtrAcct/Id', 'G'),
        55: ('Document/BkToCstmrAcctRpt/Rpt/Ntry/NtryDtls/TxDtls/RltdPties/DbtrAcct/Id/IBAN', 'IBAN'),
        56: ('Document/BkToCstmrAcctRpt/Rpt/Ntry/NtryDtls/TxDtls/RmtInf', 'G'),
        57: ('Document/BkToCstmrAcctRpt/Rpt/Ntry/NtryDtls/TxDtls/RmtInf/Ustrd', 'TXT140'),
    },
}
# .. to here.

# The row of a path. The paths of the two kinds differ from the second name on, so that each has one row.
ROW = {path: row for rows in ROWS.values() for row, (path, *_) in rows.items()}


class Refused(Exception):
    """The one refusal: code with its name, row and place, and the path of the row (None for row 0). Of a file also the line of the place and,
    from code 5 on, the kind of message that its namespace chose; else these are None."""

    def __init__(self, code: int, row: int, place: int, file: Optional[bytes] = None):
        self.code, self.row, self.place = code, row, place
        self.name = CODES.get(code, '')
        byte = _kind_of_file(file) if file is not None and code > 4 else None
        self.kind = KINDS.get(byte)
        self.path = ROWS[byte or 1][row][0] if row else None
        self.line = None if file is None else file.count(b'\n', 0, place) + 1
        words = [f'refused {code} {self.name}', self.path and f'row {row} {self.path}', f'byte {place}', self.line and f'line {self.line}']
        super().__init__(', '.join(word for word in words if word))


class Amount(NamedTuple):
    """An amount of money; its value has the scale of the image, which is the smallest."""
    value: decimal.Decimal
    currency: str


class Item(NamedTuple):
    """An element: its row and path, the place of its value's own bytes in the run, and the value, None of a group."""
    row: int
    path: str
    place: int
    value: object


def check(file: bytes) -> bytes:
    """The image of a file, a statement or a report: of version 2."""
    code, row, place, image = _unit().check(bytes(file))
    if code:
        raise Refused(code, row, place, file)
    return image


def read(run: bytes) -> int:
    """How long the image is that a run begins with. Of a long run what can be taken is looked at: no image that check gives is longer."""
    code, place = _unit().read(bytes(run[:LIMIT]))
    if code:
        raise Refused(code, 0, place)
    return place


def count(run: bytes) -> int:
    """How many items the image has that a run begins with, the closing byte among them."""
    code, place, taken = _unit().count(bytes(run[:LIMIT]))
    if code:
        raise Refused(code, 0, place)
    return taken


def kind(run: bytes) -> str:
    """What the image is that a run begins with: 'statement' or 'report'."""
    return KINDS[_unit().items(bytes(run[:read(run)]))[1]]


def pick(run: bytes, row: int, n: int = 0):
    """The value of the n-th leaf, from 0, of a row in the image that a run begins with."""
    if row < 0 or n < 0:
        raise ValueError('rows and n count from 0')
    run = bytes(run[:LIMIT])
    code, place, part = _unit().pick(run, row, n)
    if code:
        raise Refused(code, 0, place)
    return value_of(_unit().items(run)[1], row, part)


def items(run: bytes):
    """The items of the image that a run begins with, one after the other; the image is read first, then gone over once."""
    image = bytes(run[:read(run)])
    start, byte = _unit().items(image)
    at = _unit().item_at(image)
    while True:
        code, row, place, size = at(start)
        if code:
            raise Refused(code, row, place)
        if not row:
            return
        yield Item(row, ROWS[byte][row][0], place, value_of(byte, row, image[place:place + size]))
        start = place + size


def value_of(byte: int, row: int, part: bytes):
    """What the bytes of a row's value say, in a message of this kind byte; None of a group."""
    _, type_, *words = ROWS[byte][row]
    if type_ in ('G', 'C'):
        return None
    if type_ == 'ENUM':
        return words[part[0] - 1]
    if type_ == 'BOOL':
        return part[0] == 1
    if type_ == 'NUM':
        return int.from_bytes(part, 'big')
    if type_ == 'AMT':
        currency, scale, coefficient = struct.unpack('>3sBQ', part)
        return Amount(decimal.Decimal((0, tuple(map(int, str(coefficient))), -scale)), currency.decode())
    if type_ == 'DATE':
        return datetime.date(*struct.unpack('>HBB', part))
    if type_ == 'DTM':
        year, month, day, hour, minute, second, micro, offset = struct.unpack('>HBBBBBIH', part)
        zone = datetime.timezone(datetime.timedelta(minutes=offset - 840))
        return datetime.datetime(year, month, day, hour, minute, second, micro, zone)
    return part.decode()


# ---- which kind of file was refused

# A root up to the end of its attributes. A value may hold `>`, and a schema hint any text: each attribute is passed as a whole.
_ATTRIBUTE = rb'[ \t\r\n]+([\w.:-]+)[ \t\r\n]*=[ \t\r\n]*("[^"]*"|\'[^\']*\')'
_ROOT = re.compile(rb'(?:<\?xml[^>]*\?>)?[ \t\r\n]*<Document((?:' + _ATTRIBUTE + rb')*)')


def _kind_of_file(file):
    """The kind byte of the list that the namespace of a file chooses, whose root is good: code 4 is not given."""
    space = dict(re.findall(_ATTRIBUTE, _ROOT.match(file)[1]))[b'xmlns'][1:-1].decode()
    return next(byte for byte in SPACES if SPACES[byte] == space)


# ---- who answers

def _unit():
    """The shared library, where there is one, or the program."""
    if not _found:
        named = os.environ.get('KTO_LIBRARY')
        path = ROOT / 'target/libkto.so' if named is None else named
        _found.append(Library(path) if named or named is None and path.exists() else Program([str(ROOT / 'run'), 'replay']))
    return _found[0]


_found = []


class Library:
    """The calls of include/kto.h."""

    def __init__(self, path):
        self.calls = ctypes.CDLL(str(path))
        for name in ('kto_check', 'kto_size', 'kto_read', 'kto_count', 'kto_pick', 'kto_items', 'kto_item'):
            getattr(self.calls, name).restype = ctypes.c_uint64

    def ask(self, name, lent, *numbers, out=3):
        """Calls with lent bytes and with numbers: the code, and the numbers that come out."""
        outs = [ctypes.c_uint64() for _ in range(out)]
        words = [word for each in lent for word in (each, ctypes.c_uint64(len(each)))]
        code = getattr(self.calls, name)(*words, *map(ctypes.c_uint64, numbers), *map(ctypes.byref, outs))
        return code, *(each.value for each in outs)

    def check(self, file):
        code, row, place = self.ask('kto_size', [file], out=2)
        if code:
            return code, row, place, b''
        image = ctypes.create_string_buffer(place)
        code, row, place = self.ask('kto_check', [file, image], out=2)
        return code, row, place, image.raw

    def read(self, run):
        return self.ask('kto_read', [run], out=1)

    def count(self, run):
        return self.ask('kto_count', [run], out=2)

    def pick(self, run, row, n):
        code, place, size = self.ask('kto_pick', [run], row, n, out=2)
        return code, place, run[place:place + size]

    def items(self, image):
        return self.ask('kto_items', [image], out=1)

    def item_at(self, image):
        return lambda start: self.ask('kto_item', [image], start)


class Program:
    """The program `replay`: a case on its standard input, a line on its standard output (bench/cases/src/feed.rs)."""

    def __init__(self, command):
        self.command = command

    def ask(self, op, first, second, lent):
        feed = struct.pack('<BIII', op, first, second, len(lent)) + lent
        line = subprocess.run(self.command, input=feed, stdout=subprocess.PIPE, check=True).stdout.decode()
        code, row, place, written = line.rstrip('\n').split(' ')
        return int(code), int(row), int(place), bytes.fromhex(written)

    def check(self, file):
        return self.ask(0, LIMIT, 0, file[:LIMIT + 1])

    def read(self, run):
        code, _, place, _ = self.ask(1, 0, 0, run)
        return code, place

    def count(self, run):
        code, _, place, taken = self.ask(6, 0, 0, run)
        return code, place, int.from_bytes(taken, 'big')

    def pick(self, run, row, n):
        most = 2 ** 32 - 1
        code, _, place, part = self.ask(2, min(row, most), min(n, most), run)
        return code, place, part

    def items(self, image):
        """The program does not say where items begin. The image has been read, so that its version is 1 or 2, and a kind byte comes after 2;
        version 1 is of statements alone."""
        return (6, image[5]) if image[4] == 2 else (5, 1)

    def item_at(self, image):
        """Nor does it know items. They are whole, each its row byte and the value of its type."""
        rows = ROWS[self.items(image)[1]]

        def at(start):
            row, place = image[start], start + 1
            type_ = rows[row][1] if row else 'G'
            if type_ in SIZES:
                return 0, row, place, SIZES[type_]
            return 0, row, place + 2, int.from_bytes(image[place:place + 2], 'big')
        return at


# How many bytes a value has, where that does not hang on it; a text has two bytes of length before it.
SIZES = {'G': 0, 'C': 0, 'ENUM': 1, 'BOOL': 1, 'NUM': 8, 'AMT': 12, 'DATE': 4, 'DTM': 13}
