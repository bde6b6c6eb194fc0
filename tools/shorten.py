#!/usr/bin/env python3
"""Lines of proofs that are too long to review.

    tools/shorten.py --check [CRATE..]      names each line of proofs/ with more than 400 characters; fails where there is one in a file that
                                            is no exception of the table below, and where an exception is no longer needed
    tools/shorten.py FILE..                 in an Answers.antt breaks such an answer between arguments

An `unfolding` line, which can't be broken, is left as it is. Where several answers cite the same facts, a record of what was told on the way
says them once (docs/PROVING.md).
"""
import pathlib
import re
import sys

LONGEST = 400

BROKEN = 150
HEAD = re.compile(r"([\w\-']+ c(?: \S+)* =) ")


def too_long(crates):
    """File, line and length of each line that is too long."""
    for crate in crates:
        for file in sorted(pathlib.Path('crates', crate, 'proofs').glob('**/*.antt')):
            for number, line in enumerate(file.read_text().split('\n'), 1):
                if len(line) > LONGEST:
                    yield file, number, len(line)


def split(text, mark):
    """The parts of a term at a mark that stands in no bracket of it."""
    parts, depth = [''], 0
    for sign in text:
        depth += (sign in '([{') - (sign in ')]}')
        parts[-1] += sign
        if depth == 0 and parts[-1].endswith(mark):
            parts[-1] = parts[-1].rstrip()
            parts.append('')
    return list(filter(None, parts))


def arguments(text):
    """A term's words, each with what stands in its brackets. Of a tuple its members."""
    members = split(text, ', ')
    if len(members) > 1:
        return members
    return split(text, ' ')


def broken(words):
    """Lines of words, none longer than it must be; a word in brackets that is too long by itself is broken inside."""
    lines = ['']
    for word in words:
        if len(word) > BROKEN and word.startswith('('):
            inner = broken(arguments(word[1:-1]))
            lines += ['(' + inner[0], *inner[1:-1], inner[-1] + ')'] if len(inner) > 1 else [word]
        elif lines[-1] and len(lines[-1]) + 1 + len(word) > BROKEN:
            lines.append(word)
        else:
            lines[-1] = f'{lines[-1]} {word}'.strip()
    return list(filter(None, lines))


def shortened(line):
    """The lines in place of one: the answer's name stays on a line of its own, and what closes brackets of lines above stays last."""
    head = HEAD.match(line)
    if head:
        return [head[1], *shortened('    ' + line[head.end():])]
    indent, body, tail = line[:len(line) - len(line.lstrip())], line.strip(), ''
    while body[-1:] in ',)' and (body.endswith(',') or body.count('(') < body.count(')')):
        body, tail = body[:-1], body[-1] + tail
    facts = re.fullmatch(r'omega \(arith, (.*)\)', body)
    lines = hinted(split(facts[1], ', ')) if facts else laid(body)
    return [*(indent + part for part in lines[:-1]), indent + lines[-1] + tail]


def laid(body):
    """A term in lines."""
    return broken(arguments(body))


def hinted(facts):
    """A call of omega with a fact a line."""
    lines = ['omega (', '  arith,']
    for fact in facts:
        inner = laid(fact.rstrip(',')) if len(fact) > LONGEST else [fact.rstrip(',')]
        lines += ['  (' + inner[0], *('  ' + line for line in inner[1:-1]), '  ' + inner[-1] + '),'] if len(inner) > 1 else [f'  {inner[0]},']
    return [*lines, ')']


def terms(lines):
    """The lines of a file by terms: one that goes on with what the line before it began belongs to that."""
    term = []
    for line in lines:
        goes_on = term and line.startswith('    ') and term[-1].startswith('    ') and not term[-1].endswith((',', '(', '{', ' in', ' ='))
        if term and not goes_on:
            yield term
            term = []
        term.append(line)
    yield term


def main(words):
    if not words:
        sys.exit(__doc__)
    if words[0] == '--check':
        crates = words[1:] or sorted(crate.name for crate in pathlib.Path('crates').iterdir())
        found = list(too_long(crates))
        for file, number, length in found:
            print(f'shorten: {file}:{number} has {length} characters')
        print(f'shorten: {len(found)} lines of proofs are longer than {LONGEST} characters')
        sys.exit(1 if found else 0)
    for file in map(pathlib.Path, words):
        lines = []
        for term in terms(file.read_text().split('\n')):
            if any(len(line) > LONGEST for line in term):
                term = shortened(' '.join([term[0], *(line.strip() for line in term[1:])]))
            lines += term
        file.write_text('\n'.join(lines))


if __name__ == '__main__':
    main(sys.argv[1:])
