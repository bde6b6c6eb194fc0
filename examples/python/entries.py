"""Prints the entries of a statement or an intraday report. The first line says which of them it is, then comes a line for each entry: booking
day, amount, currency, credit or debit, `pending` where it is not booked yet, payer, text.

    python3 examples/python/entries.py FILE

A file that begins with `KTO` is read as an image, of either version; any other is checked. The same lines as examples/c/entries.c prints.
Ends with 1 where the file is refused, and with 2 where it can't be read.
"""
import signal
import sys

import kto

ENTRIES = {'statement': 'Document/BkToCstmrStmt/Stmt/Ntry', 'report': 'Document/BkToCstmrAcctRpt/Rpt/Ntry'}
DETAILS = 'NtryDtls/TxDtls'


def entries(image):
    """The leaves of each entry by their paths below it; of a leaf that comes more than once the first."""
    at, entry = ENTRIES[kto.kind(image)], None
    for item in kto.items(image):
        if item.path == at:
            if entry is not None:
                yield entry
            entry = {}
        elif entry is not None and item.path.startswith(at + '/'):
            if item.value is not None:
                entry.setdefault(item.path[len(at) + 1:], item.value)
        elif entry is not None:
            yield entry
            entry = None
    if entry is not None:
        yield entry


def line(entry):
    amount = entry['Amt']
    digits = max(2, -amount.value.as_tuple().exponent)
    day = entry.get('BookgDt/Dt', '-')
    words = [f'{day!s:10}', f'{amount.value:{digits + 9}.{digits}f} {amount.currency}', entry['CdtDbtInd']]
    words.append('pending' if entry['Sts/Cd'] == 'PDNG' else None)
    words += [entry.get(f'{DETAILS}/RltdPties/Dbtr/Pty/Nm'), entry.get(f'{DETAILS}/RmtInf/Ustrd')]
    return '  '.join(word for word in words if word)


def image_of(file):
    """The image of a file: its own, or the one that it begins with."""
    return file[:kto.read(file)] if file.startswith(b'KTO') else kto.check(file)


def main(words):
    if len(words) != 1:
        sys.exit(__doc__)
    try:
        with open(words[0], 'rb') as file:
            image = image_of(file.read())
    except OSError as error:
        print(error, file=sys.stderr)
        return 2
    except kto.Refused as refused:
        print(f'{words[0]}: {refused}')
        return 1
    print(kto.kind(image))
    for entry in entries(image):
        print(line(entry))
    return 0


if __name__ == '__main__':
    # whoever reads no further (`| head`) ends it without a word
    signal.signal(signal.SIGPIPE, signal.SIG_DFL)
    sys.exit(main(sys.argv[1:]))
