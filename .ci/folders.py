#!/usr/bin/env python3
"""Says which folders of definitions or laws have more than a dozen files, and which folders of code have more than a dozen modules.

Files that only declare what is in a folder (Lib.antt, and FOLDER.antt beside FOLDER/) are not counted, nor are the invariants and answers of
functions (FUNCTION/Invariants.antt, FUNCTION/Answers.antt), of which a folder holds those of one module.
"""
import pathlib
import sys

MOST = 12
PROOFS = ('Invariants', 'Answers', 'Proof')


def counted(folder):
    """The files of a folder that hold something."""
    for file in folder.iterdir():
        if file.suffix == '.rt' or file.suffix == '.antt' and file.stem not in ('Lib', *PROOFS) and not file.with_suffix('').is_dir():
            yield file


def main():
    folders = [folder for side in ('specs', 'proofs', 'src') for root in pathlib.Path('crates').glob(f'*/{side}') for folder in (root, *root.rglob('*'))]
    full = [(folder, len(list(counted(folder)))) for folder in folders if folder.is_dir()]
    faults = [f'{folder}: {files} files' for folder, files in full if files > MOST]
    for fault in faults:
        print(f'folders: {fault}')
    print(f'folders: {len(full)} folders, {len(faults)} faults')
    return 1 if faults else 0


if __name__ == '__main__':
    sys.exit(main())
