"""Tests of kto.py: document 01's example, the files of examples/ against their table, and the entries against Python's own XML parser.

    python3 examples/python/test_kto.py

KTO_LIBRARY names the shared library; where it is empty the program `replay` is asked.
"""
import datetime
import decimal
import os
import pathlib
import sys
import unittest
import xml.etree.ElementTree

sys.path.insert(0, str(pathlib.Path(__file__).resolve().parent))
import kto  # noqa: E402

EXAMPLES = pathlib.Path(__file__).resolve().parent.parent
SPACE = 'urn:iso:std:iso:20022:tech:xsd:camt.053.001.08'
STMT = 'Document/BkToCstmrStmt/Stmt'
RPT = 'Document/BkToCstmrAcctRpt/Rpt'

# Document 01: "A whole one", and its image: as it was stored, in version 1, and "as 68 bytes, version 2 and kind byte 1"
WHOLE = (
    f'<Document xmlns="{SPACE}"><BkToCstmrStmt>'
    '<GrpHdr><MsgId>M1</MsgId><CreDtTm>2024-03-01T06:00:00Z</CreDtTm></GrpHdr>'
    '<Stmt><Id>S1</Id><Acct><Id><Othr><Id>9</Id></Othr></Id></Acct>'
    '<Bal><Tp><CdOrPrtry><Cd>CLBD</Cd></CdOrPrtry></Tp><Amt Ccy="EUR">5.00</Amt><CdtDbtInd>CRDT</CdtDbtInd>'
    '<Dt><Dt>2024-02-29</Dt></Dt></Bal></Stmt></BkToCstmrStmt></Document>'
).encode()
FORMER = bytes.fromhex(
    '4B544F0001 01 02 03 0400024D31 0507E80301060000000000000348 06 0700025331 09 0A 0C 0D000139 0F 10 11 1202'
    '13455552000000000000000005 1401 15 1607E8021D 00'
)
IMAGE = b'KTO\0\2\1' + FORMER[5:]

# A report: "Root child BkToCstmrAcctRpt with Rpt in place of Stmt", with a word that no statement has
REPORT = WHOLE.replace(b'camt.053', b'camt.052').replace(b'BkToCstmrStmt', b'BkToCstmrAcctRpt').replace(b'Stmt>', b'Rpt>').replace(b'CLBD', b'ITBD')


def read(name):
    return (EXAMPLES / name).read_bytes()


def plain(path, element):
    """What Python's own parser says of a leaf, as kto.py would say it."""
    name, text = path.rsplit('/', 1)[-1], element.text.strip(' \t\r\n')
    if name == 'Amt':
        return kto.Amount(decimal.Decimal(text), element.get('Ccy'))
    if name == 'Dt':
        return datetime.date.fromisoformat(text)
    if name == 'CreDtTm':
        return datetime.datetime.fromisoformat(text.replace('Z', '+00:00'))
    if name == 'ElctrncSeqNb':
        return int(text)
    if name == 'RvslInd':
        return text in ('true', '1')
    return element.text


def elements(element, above=''):
    """The elements of a message in document order: path, and value of a leaf."""
    path = above + element.tag.rpartition('}')[2]
    yield path, None if len(element) else plain(path, element)
    for child in element:
        yield from elements(child, path + '/')


class Kto(unittest.TestCase):
    def refused(self, call, *words):
        with self.assertRaises(kto.Refused) as caught:
            call(*words)
        return caught.exception

    def test_the_example_of_document_01(self):
        self.assertEqual(kto.check(WHOLE), IMAGE)
        for image, more in ((FORMER, 0), (IMAGE, 1)):
            self.assertEqual((kto.read(image), kto.count(image), kto.kind(image)), (67 + more, 20, 'statement'))
            self.assertEqual(kto.pick(image, kto.ROW['Document/BkToCstmrStmt/GrpHdr/MsgId']), 'M1')
            self.assertEqual(kto.pick(image, kto.ROW[f'{STMT}/Bal/Amt']), kto.Amount(decimal.Decimal(5), 'EUR'))
            self.assertEqual(kto.pick(image, kto.ROW[f'{STMT}/Bal/Tp/CdOrPrtry/Cd']), 'CLBD')
            utc = datetime.timezone.utc
            self.assertEqual(kto.pick(image, 5), datetime.datetime(2024, 3, 1, 6, tzinfo=utc))
            places = [(item.row, item.place - more) for item in kto.items(image)]
            self.assertEqual(places, [
                (1, 6), (2, 7), (3, 8), (4, 11), (5, 14), (6, 28), (7, 31), (9, 34), (10, 35), (12, 36), (13, 39), (15, 41), (16, 42), (17, 43),
                (18, 44), (19, 46), (20, 59), (21, 61), (22, 62),
            ])

    def test_a_report(self):
        image = kto.check(REPORT)
        self.assertEqual((image[:6], kto.read(image), kto.kind(image)), (b'KTO\0\2\2', 68, 'report'))
        self.assertEqual(kto.pick(image, kto.ROW[f'{RPT}/Bal/Tp/CdOrPrtry/Cd']), 'ITBD')
        told = {item.path: item.value for item in kto.items(image)}
        self.assertEqual((told[f'{RPT}/Id'], told[f'{RPT}/Bal/Tp/CdOrPrtry/Cd']), ('S1', 'ITBD'))
        self.assertEqual(kto.kind(image + FORMER), 'report', 'of the first image')
        self.assertEqual([kto.ROW[path.replace(STMT, RPT)] for path in (f'{STMT}/Ntry', f'{STMT}/Bal')], [23, 15])

    def test_items_are_what_another_parser_says(self):
        for name in ('rent-account.xml', 'several-statements.xml', 'intraday.xml'):
            expected = list(elements(xml.etree.ElementTree.fromstring(read(name))))
            self.assertEqual([(item.path, item.value) for item in kto.items(kto.check(read(name)))], expected, name)

    def test_stored_images_are_read_in_either_version(self):
        images = sorted((EXAMPLES / 'written').glob('*.kto'))
        self.assertEqual({image.read_bytes()[4] for image in images}, {1, 2})
        for image in images:
            expected = list(elements(xml.etree.ElementTree.fromstring(image.with_suffix('.xml').read_bytes())))
            self.assertEqual([(item.path, item.value) for item in kto.items(image.read_bytes())], expected, image.name)
            self.assertEqual(kto.count(image.read_bytes()), len(expected) + 1, image.name)

    def test_stored_images_with_old_transaction_codes_are_read(self):
        images = sorted((EXAMPLES / 'stored').glob('*.kto'))
        self.assertEqual([image.read_bytes()[4] for image in images], [2, 1])
        path = f'{STMT}/Ntry/BkTxCd/Prtry/Cd'
        for image, codes in zip(images, (['RLS-SPESEN', 'HABENZINSEN', 'KTOFUEHR'], ['KAUTION'])):
            run = image.read_bytes()
            self.assertEqual([item.value for item in kto.items(run) if item.path == path], codes)
            self.assertEqual([kto.pick(run, kto.ROW[path], n) for n in range(len(codes))], codes)
            self.assertEqual(self.refused(kto.pick, run, kto.ROW[path], len(codes)).code, 18)

    def test_files_get_the_answers_of_their_table(self):
        lines = (EXAMPLES / 'ANSWERS.txt').read_text().splitlines()
        table = [line.split()[:4] for line in lines if line and not line.startswith('#')]
        table = [line for line in table if line[0].endswith('.xml')]
        self.assertTrue(table)
        for name, *numbers in table:
            code, row, place = map(int, numbers)
            if code == 0:
                self.assertEqual(len(kto.check(read(name))), place, name)
            else:
                refused = self.refused(kto.check, read(name))
                self.assertEqual((refused.code, refused.row, refused.place), (code, row, place), name)

    def test_a_refusal_says_where(self):
        file = read('damaged/12-bad-value.xml')
        line = next(n for n, text in enumerate(file.splitlines(), 1) if b'2024-02-30' in text)
        refused = self.refused(kto.check, file)
        self.assertEqual((refused.path, refused.line), (f'{STMT}/Ntry/BookgDt/Dt', line))
        self.assertEqual(str(refused), f'refused 12 BAD_VALUE, row 30 {refused.path}, byte 20007, line {line}')
        self.assertEqual(self.refused(kto.check, b'').path, None)

    def test_a_refusal_says_the_kind(self):
        hints = b"<Document xmlns:xsi='>' xsi:schemaLocation = \"xmlns='camt.053.001.08'\" "
        hinted = REPORT.replace(b'<Document ', hints).replace(b'ITBD', b'x')
        path = f'{RPT}/Bal/Tp/CdOrPrtry/Cd'
        declared = b'<?xml version="1.0" encoding="UTF-8"?>\n' + hinted
        for file in (REPORT.replace(b'ITBD', b'x'), hinted, declared, declared.replace(b' xmlns="', b'\n xmlns\t=\r"')):
            refused = self.refused(kto.check, file)
            self.assertEqual((refused.code, refused.row, refused.kind, refused.path), (12, 18, 'report', path))
        refused = self.refused(kto.check, WHOLE.replace(b'CLBD', b'ITBD'))
        self.assertEqual((refused.code, refused.kind, refused.path), (12, 'statement', path.replace(RPT, STMT)))
        refused = self.refused(kto.check, WHOLE.replace(b'camt.053', b'camt.054'))
        self.assertEqual((refused.code, refused.kind, refused.path), (4, None, 'Document'))
        self.assertEqual(self.refused(kto.read, b'').kind, None)

    def test_runs(self):
        self.assertEqual(kto.read(IMAGE + b'rest'), 68)
        self.assertEqual(kto.read(IMAGE * 20000), 68, 'a run of more than 1 MiB')
        self.assertEqual(kto.read(FORMER * 20000), 67)
        runs = (
            (b'', 15, 0), (b'KTO\0\3', 16, 3), (b'KTO\0\0', 16, 3), (b'KTO\1\2\1', 16, 3), (b'KTO\0\2', 17, 5), (b'KTO\0\2\0', 17, 5),
            (b'KTO\0\2\3', 17, 5), (b'KTO\0\2\2', 17, 6), (b'KTO\0\1', 17, 5), (IMAGE[:67], 17, 67), (FORMER[:66], 17, 66),
        )
        for run, code, place in runs:
            for call in (kto.read, kto.count, kto.kind, lambda run: list(kto.items(run)), lambda run: kto.pick(run, 4)):
                refused = self.refused(call, run)
                self.assertEqual((refused.code, refused.row, refused.place, refused.line), (code, 0, place, None))
        for row, n in ((4, 1), (6, 0), (0, 0), (58, 0), (2 ** 40, 2 ** 40)):
            self.assertEqual(self.refused(kto.pick, IMAGE, row, n).code, 18)
        self.assertRaises(ValueError, kto.pick, IMAGE, -1)


class Who(unittest.TestCase):
    def test_the_one_that_was_named_answers(self):
        named = os.environ.get('KTO_LIBRARY')
        if named is not None:
            self.assertIsInstance(kto._unit(), kto.Library if named else kto.Program)


if __name__ == '__main__':
    unittest.main()
