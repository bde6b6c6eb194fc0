#!/usr/bin/env python3
"""Numerals without a name: "no numeral without a name but those that document 01 prints".

    tools/numerals.py [CRATE..]             names each numeral of specs/ and src/ that the table below allows, with its reason
    tools/numerals.py --check [CRATE..]     names each that it does not allow, and fails where there is one; over all crates also where a
                                            row of the table is no longer needed

0, 1 and 2 need no name. A numeral has one where it is all that a definition or a constant says (`limit = 1048576`, `const MOST: usize = 35;`),
and a character's is `code "."` or `b'.'`. Left out are inputs and outputs written out (Example, Stars), and what tools/lists/make writes.
"""
import fnmatch
import pathlib
import re
import sys

# Why numerals may stand, the code in which they do (an expression), and the files of crates/ where that is so. Documents 01 and 02 are quoted.
ALLOWED = (
    ('base of decimal digits', r'[/%*<-]=? 10\b|\b10 ([\^*≤]|<=)|(nat_lt|ltb) n 10\b', '*'),
    ('base of two decimal digits', r'[/%*] 100\b|≤ 99\b|≤ 9\b', 'value/*'),
    ('base of bytes', r'[/%*<]=? 256\b|\b256 \*|(nat_lt|ltb) x 256\b', '*'),
    ('words of four bytes, of eight, and of two times eight', r'(Loaded|at \+|j ≤) (4|8|12)\b|result < 4294967296\b', '*chunk*'),
    ('words of eight bytes', r'(Loaded|at \+|i \+) 8\b', 'text/src/span.rt'),
    ('words of eight bytes', r'(i \+|q ≤) 8\b|256 \^', 'text/specs/mirror/Zeros.antt'),
    ('base of hexadecimal digits', r'[/%<] 16\b', 'program_line/*'),
    ('UTF-8 (RFC 3629), "XML 1.0 characters"', r'\b0x[0-9A-F]{1,6}\b|kept [34]\b', '*'),
    ('"Replace the inside by a lookup": words of 64 bits', r'\b0x[0-9A-F]{16}\b', 'value/specs/mirror/Pages.antt'),
    ('the codes of "Numbers handed back"', r'= answer \d+( \d+)*|CodeFrom 4 13|(nat_eq|eqb) code 4\b|\.code\)? ([≡≢] )?\d+', '*'),
    ('"at most 255 rows and 16 levels", "one to 255 different words"', r'\b(255|16)\b', 'list/*'),
    ('"at most 255 rows and 16 levels", "one to 255 different words"', r'(p <|row ≤) 255\b|(t|rows\.now|n <|nat_lt|ltb) 16\b', '[fi]*/*'),
    ('"k at most 140"', r'\b140\b', 'list/*'),
    ('"At most four attributes"', r'(GoodAttrs|tail_step|Held|tail|n ≤) 4\b|\(4 -', 'xml*/*'),
    ('"Nesting is at most 16, the root being 1"', r'(GoodMarkup|Held) 16\b|\(16 -|(count|self\.old) [<≤] 16\b', 'xml*/*'),
    ('"REF: 1 to 35"', r'(is_ref|true|(nat_le|leb) \(length b\)) 35\b', 'value/*'),
    ('"IBAN: two capitals, two digits, 1 to 30"', r'2 \+ 2 \+ 30\b', 'value/*'),
    ('"CCY: three capitals", "three currency letters"', r'length (cs ≡|t\)|b\)) 3\b|take 3 b|i \+ 3\b', '*'),
    ('"NUM: 1 to 18 digits", "coefficient below 10^18"', r'length t ≤ 18\b|in_range 1 18\b|10 \^ 18\b', 'value*/*'),
    ('"scale is at most 5"', r'(k ≤|z <|10 \^|(nat_le|leb) (k|\(get_or b stored_scale 0\))) 5\b', 'value*/*'),
    ('"a real Gregorian day, year 0001 to 9999"', r'\b\d+\b', 'value*/[Dd]ay.*'),
    ('"`YYYY-MM-DD`"', r'three_raw 4\b', 'value/*'),
    ('"up to 23:59:59", "24:00:00", "minutes at most 59, up to 14:00", "offset minutes plus 840"', r'\b(23|24|59|60|840)\b', 'value/*'),
    ('"three or six digits", "one to three digits", "fractions count in microseconds"',
     r'k [≡≤] [36]\b|in_range 1 3\b|\(6 - (k|\d)\)|10 \^ [36]\b|(padded|decimals) [36]\b|get_or l 3\b', '*'),
    ('"NUM: 64 bits", "coefficient in 64 bits", "32-bit microseconds"', r'big_endian [48]\b|take [48] \(drop|(w|W|s\.now) ≤ 8\b|at \+ 4 ≤', '*'),
    ('"`KTO`, version 1 in 16 bits", "fewer than five bytes", "place 5", "count from 6"',
     r'take [356] (run|s)\b|length \w+ < 5\b|\b5 ≤ length|broken_image 5\b|get_or s [345]\b', 'image*/*'),
    ('a head\'s numbers have 32 bits', r'(length s\.now|take|drop|<|≤) 4\b|\(4 ≤', 'program_feed/src/case.rt'),
    ('the bench\'s feed: "3 write, 6 count, 8 tidy"', r'(nat_eq|eqb) op [368]\b', 'program_feed/*'),
    ('the rows of "The house list"', r'\b\d+\b', 'list_house/src/kinds.rt'),
    ('the programs of the gate: hexadecimal digits, the bytes of a head, numbers of 16 and of 32 bits',
     r'\d+ =>|head\[\d+\]|< (65536|4294967296)\b', 'gate_*/*'),
)

SHOWN = ('Example.antt', 'Stars.antt')
WRITTEN = 'Written by tools/lists/make.'
PASSED = re.compile(r'''b?"(?:\\.|[^"\\])*"|b'(?:\\.|[^'\\])'|(?:^|(?<=\s))(?:--|//).*''')
IMPORT = re.compile(r'\s*(?:(?:unfoldable|abbrev|ghost|pub) )*(?:use|mod) ')
CONSTANT = re.compile(r'\s*(?:pub(?:\(\w+\))? )?const ')
NAMED = re.compile(r'\S+ = [\d\s^*+()-]+$')
NUMERAL = re.compile(r"(?<![\w\-'.])(?:0x[0-9A-Fa-f_]+|\d[\d_]*)(?:[ui](?:8|16|32|64|size))?(?![\w\-'])")


def files(crates):
    """The files that are judged, each with its lines; of an import, a quoted text and a comment nothing is left."""
    for crate in crates:
        root = pathlib.Path('crates', crate)
        for file in sorted([*root.glob('specs/**/*.antt'), *root.glob('src/**/*.rt')]):
            text = file.read_text()
            if file.name not in SHOWN and WRITTEN not in text:
                yield file, ['' if IMPORT.match(line) else PASSED.sub('', line) for line in text.split('\n')]


def numerals(file, lines):
    """Line number, numeral and the table's row for each numeral above 2 that has no name; None where no row allows it."""
    rows = [row for row in ALLOWED if fnmatch.fnmatch(str(file.relative_to('crates')), row[2])]
    constant = False
    for number, line in enumerate(lines, 1):
        constant = constant or bool(CONSTANT.match(line))
        for found in () if constant or NAMED.match(line) else NUMERAL.finditer(line):
            if int(re.sub(r'[ui]\w+$', '', found[0]).replace('_', ''), 0) > 2:
                yield number, found[0], next((row for row in rows if any(
                    part.start() <= found.start() and found.end() <= part.end() for part in re.finditer(row[1], line))), None)
        constant = constant and not line.rstrip().endswith(';')


def main():
    check = sys.argv[1:2] == ['--check']
    crates = sys.argv[1 + check:]
    wanted, faults = set(ALLOWED), 0
    for file, lines in files(crates or sorted(path.name for path in pathlib.Path('crates').iterdir())):
        for number, numeral, row in numerals(file, lines):
            wanted.discard(row)
            if check == (row is None):
                faults += check
                print(f'{file}:{number}: {numeral}' + (' has no name' if check else f': {row[0]}'))
    for row in wanted if check and not crates else ():
        faults += 1
        print(f'tools/numerals.py: not needed any more: {row[0]}')
    sys.exit(1 if faults else 0)


if __name__ == '__main__':
    main()
