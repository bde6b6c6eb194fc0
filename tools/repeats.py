#!/usr/bin/env python3
"""Where Rattle and antt files repeat themselves.

    tools/repeats.py [DIR] [--min N] [--most M] [--shape]

Lists pairs of places below DIR (default: crates) that share N or more lines in a row (default 7), the longest first. Blank lines,
comments, imports and the lines that the checker prints itself (a goal's signature, `.. = search rules`) are passed over. With --shape,
lines count as equal when they differ in names and numbers only: two proofs of one shape are often one lemma over what differs. A pair is
a place to look, not a verdict.
"""
import argparse
import collections
import pathlib
import re

PASSED_OVER = re.compile(r'^(--|//|use |pub use |mod |pub mod |ghost use |unfolding |\{|\}|\)|$)')
PRINTED = re.compile(
    r'(: goal\.\S+$|= search rules$|= omega arith$)'
)
COMMENT = re.compile(r'\s*(--|//) .*$')
NAME = re.compile(r"[A-Za-zα-ωΑ-Ωκμλ₀-₉][\w\-'₀-₉]*")
MOST_PLACES = 12  # lines that stand in more places than this are a form, not a repeat


def lines_of(path, shape):
    """Number and text of each line that counts."""
    found = []
    for number, line in enumerate(path.read_text(errors='replace').split('\n'), 1):
        text = COMMENT.sub('', re.sub(r'\s+', ' ', line.strip()))
        if PASSED_OVER.match(text) or PRINTED.search(text) or len(text) < 4 or re.fullmatch(r'[\w\-]+\)?', text):
            continue
        if shape:
            text = NAME.sub('x', re.sub(r'\b\d+\b', '0', text))
        found.append((number, text))
    return found


def shared(one, other, at, behind, same_file):
    """How many lines in a row are equal, from a place of each file on; within one file the two rows do not overlap."""
    count = 0
    while at + count < len(one) and behind + count < len(other) and one[at + count][1] == other[behind + count][1]:
        if same_file and at + count >= behind:
            break
        count += 1
    return count


def pairs(texts, least):
    """Length and places of each pair."""
    starts = collections.defaultdict(list)
    for path, lines in texts.items():
        for at in range(len(lines) - least + 1):
            starts[tuple(text for _, text in lines[at:at + least])].append((path, at))
    seen = set()
    for places in starts.values():
        if not 2 <= len(places) <= MOST_PLACES:
            continue
        for first, (path, at) in enumerate(places):
            for other, behind in places[first + 1:]:
                same_file = path == other
                if (path, at, other, behind) in seen or same_file and abs(at - behind) < least:
                    continue
                one, two = texts[path], texts[other]
                count = shared(one, two, at, behind, same_file)
                seen.update((path, at + k, other, behind + k) for k in range(count))
                yield count, f'{path}:{one[at][0]}-{one[at + count - 1][0]} ~ {other}:{two[behind][0]}-{two[behind + count - 1][0]}'


def main():
    parser = argparse.ArgumentParser(description=__doc__, formatter_class=argparse.RawDescriptionHelpFormatter)
    parser.add_argument('dir', nargs='?', default='crates')
    parser.add_argument('--min', type=int, default=7, metavar='N')
    parser.add_argument('--most', type=int, default=20, metavar='M', help='how many pairs are shown')
    parser.add_argument('--shape', action='store_true')
    given = parser.parse_args()
    files = [path for path in sorted(pathlib.Path(given.dir).rglob('*')) if path.suffix in ('.rt', '.antt') and 'out' not in path.parts]
    found = sorted(pairs({path: lines_of(path, given.shape) for path in files}, given.min), reverse=True)
    print(f'{len(found)} pairs in {len(files)} files' + (' (by shape)' if given.shape else ''))
    for count, places in found[:given.most]:
        print(f'{count:4} lines  {places}')


if __name__ == '__main__':
    main()
