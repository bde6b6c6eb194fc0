#!/usr/bin/env python3
"""The proof loop: rt check, with its output cut down to what one works on.

    tools/dev.py CRATE [-s] [-v] [WORDS..]

    -s      writes each Invariants.antt and Answers.antt that the check prints and that does not exist yet; without it they are only named
    -v      leaves in what rt says of libraries, and its help and notes that name no goal
    WORDS   go to rt check, as --allow-holes or --only FUNCTION

Run it from the repository's root. It cuts the printed lines of proof files, the general notes, and the paths in front of names.
"""
import argparse
import pathlib
import re
import subprocess

WRITE = re.compile(r'help: write (\S+\.antt) with these lines')
MODULE = re.compile(r'(?:mathlib|Prim|lib|borrow|denote|native|Rattle)\.(?:[\w+]+\.)+(?=[^\s.])')
ASIDE = re.compile(r'(?:logic|statements|library|axioms|crate) \S+[: ]|checked |help: |note: (?!`)|rt: ')
LONGEST = 1800


class Loop:
    """Goes over the lines of a check, and keeps those that are to be shown."""

    def __init__(self, folder, scaffold, whole):
        self.folder = folder
        self.scaffold = scaffold
        self.whole = whole
        self.shown = []
        self.file = None  # the proof file whose lines are being printed, and the lines so far
        self.lines = []

    def end_file(self):
        """The lines of a proof file are over: it is written, or named."""
        if self.file is None:
            return
        if self.scaffold and not self.file.exists():
            self.file.parent.mkdir(parents=True, exist_ok=True)
            self.file.write_text('\n'.join(self.lines).rstrip() + '\n')
            self.shown.append(f'WROTE {self.file}')
        else:
            self.shown.append(f'SCAFFOLD for {self.file}')
        self.file = None

    def take(self, line):
        begins = WRITE.match(line)
        if begins:
            self.end_file()
            self.file, self.lines = self.folder / begins[1], []
        elif self.file is not None and (line.startswith('    ') or not line.strip()):
            self.lines.append(line[4:])
        else:
            self.end_file()
            if self.whole or not ASIDE.match(line):
                self.shown.append(MODULE.sub('', line)[:LONGEST])


def main():
    parser = argparse.ArgumentParser(usage='tools/dev.py CRATE [-s] [-v] [WORDS..]')
    parser.add_argument('crate')
    parser.add_argument('-s', dest='scaffold', action='store_true')
    parser.add_argument('-v', dest='whole', action='store_true')
    given, words = parser.parse_known_args()
    folder = pathlib.Path('crates', given.crate)
    done = subprocess.run(['rt', 'check', *words], cwd=folder, stdout=subprocess.PIPE, stderr=subprocess.STDOUT, text=True)
    loop = Loop(folder, given.scaffold, given.whole)
    for line in done.stdout.split('\n'):
        loop.take(line)
    loop.end_file()
    print('\n'.join(loop.shown))
    raise SystemExit(done.returncode)


if __name__ == '__main__':
    main()
