#!/usr/bin/env python3
"""Brings the names of definitions and lemmas to the spelling of today's library, once, after its own script has run.

usage: tools/respell.py [--list]      at the top of the repository

Words are in snake case: isRoot becomes is_root, a-piece becomes a_piece. Types keep their capitals, what the library or Rattle names keeps its
spelling, and so do names of src/ (functions, fields, constants). Where two names would fall together, the lemma takes `_lem`.
"""
import collections
import os
import re
import sys

TOKEN = r"(?<![\w'])[A-Za-z_\u03b1-\u03c9\u0391-\u03a9\u2080-\u2089][\w'\u2080-\u2089]*(?:-[\w'\u2080-\u2089]+)*"
CAMEL = re.compile(r"^[a-z][a-z0-9]*[A-Z]")
USE = re.compile(r"\buse\s+([^\s;{}]+?)\.\{([^}]*)\}", re.S)
MADE = re.compile(r"\.(Tie|Statement|Given|Goals|Lts|declared|Model)(\.|$)")
# Lemmas in snake case already that a definition's new name would hide, everywhere and in one file.
TAKEN = ("all_in", "is_ascii", "fresh_in", "root_in", "raw_of", "same_answer")
TAKEN_IN = {"file_write/proofs/Tagging.antt": ("name_in",), "file_check/proofs/Checking.antt": ("no_room",), "file_check/proofs/exact/Proof.antt": ("no_room",), "file_walk/proofs/bytes/Root.antt": ("found_in",), "file_check/proofs/Going.antt": ("goes_on",)}


def files(root):
    for folder, dirs, names in os.walk(os.path.join(root, "crates")):
        dirs[:] = sorted(d for d in dirs if d != "out")
        for name in sorted(names):
            if name.endswith((".rt", ".antt")):
                yield os.path.join(folder, name)


def walked(path):
    return os.path.basename(path) == "Proof.antt"


def read(path):
    with open(path, encoding="utf-8") as f:
        return f.read()


def snake(name):
    """isRoot-here to is_root_here; a name that begins with a capital keeps what stands before its first dash."""
    parts = name.split("-")
    out = []
    for k, part in enumerate(parts):
        if k == 0 and part[:1].isupper():
            out.append(part)
            continue
        out.append(re.sub(r"(?<=[a-z0-9'])[A-Z]|(?<=[A-Z])[A-Z](?=[a-z])", lambda m: "_" + m.group(0).lower(), part))
    if parts[0][:1].isupper():
        return name if len(parts) == 1 else out[0] + "-" + "_".join(out[1:])
    return "_".join(out)


def imported(text, crates):
    """The names that a file brings in: from this repository's own definitions and lemmas, and from elsewhere."""
    own, other = set(), set()
    for path, names in USE.findall(text):
        head = path.split(".")
        ours = head[0] == "Rattle" and len(head) > 1 and head[1] in crates and not MADE.search(path)
        for item in names.split(","):
            item = item.strip()
            if not item:
                continue
            name = item.split(" as ")[0].strip()
            (own if ours else other).add(name)
    return own, other


def candidates(root):
    crates = set(os.listdir(os.path.join(root, "crates")))
    tokens, other, source = collections.Counter(), set(), set()
    for path in files(root):
        text = read(path)
        own, theirs = imported(text, crates)
        other |= theirs
        if path.endswith(".rt"):
            # code's own names, outside clauses
            source |= set(re.findall(r"\b(?:fn|let|const|static|mod|struct|enum)\s+(?:mut\s+)?(\w+)", text))
            tokens.update(own)
        elif walked(path):
            tokens.update(own)
        else:
            body = re.sub(r"--(?=\s).*", "", text)
            body = re.sub(r'"[^"\n]*"', '""', body)
            tokens.update(t for t in re.findall(TOKEN, body))
    found = {}
    for token in tokens:
        if token in other or token in source:
            continue
        if "-" in token or CAMEL.match(token):
            new = snake(token)
            if new != token:
                found[token] = new
    # a lemma gives way to a definition, and to a name that stands already
    defined = {new for old, new in found.items() if "-" not in old} | {t for t in tokens if re.fullmatch(r"[a-z][\w']*", t)}
    for old, new in found.items():
        if "-" in old and new in defined:
            found[old] = new + "_lem"
    return found, other


def respelled(text, path, names, crates):
    if walked(path):
        own, other = imported(text, crates)
        local = {k: v for k, v in names.items() if k in own or CAMEL.match(k)}
    else:
        own, other = imported(text, crates)
        local = names
    local = {k: v for k, v in local.items() if k not in other}
    if path.endswith(".antt"):
        taken = TAKEN + next((v for k, v in TAKEN_IN.items() if path.endswith(k)), ())
        local.update({k: k + "_lem" for k in taken})

    def one(m):
        return local.get(m.group(0), m.group(0))

    out = []
    for line in text.split("\n"):
        if path.endswith(".rt"):
            head, mark, tail = line, "", ""
            at = line.find("//")
            if at >= 0:
                head, mark, tail = line[:at], "//", line[at + 2 :]
            out.append(re.sub(TOKEN, one, head) + mark + tail)
            continue
        m = re.search(r"--(?=\s|$)", line)
        head, tail = (line[: m.start()], line[m.start() :]) if m else (line, "")
        pieces = re.split(r'("[^"\n]*")', head)
        pieces = [p if k % 2 else re.sub(TOKEN, one, p) for k, p in enumerate(pieces)]
        out.append("".join(pieces) + re.sub(r"`([^`]*)`", lambda q: "`" + re.sub(TOKEN, one, q.group(1)) + "`", tail))
    return "\n".join(out)


def together(root, names, crates):
    """Names that would fall together in one file."""
    said = collections.defaultdict(list)
    for path in files(root):
        text = read(path)
        here = set(re.findall(TOKEN, re.sub(r"--(?=\s).*", "", text) if path.endswith(".antt") else text))
        by = collections.defaultdict(set)
        taken = TAKEN + next((v for k, v in TAKEN_IN.items() if path.endswith(k)), ()) if path.endswith(".antt") else ()
        for token in here:
            by[token + "_lem" if token in taken else names.get(token, token)].add(token)
        for new, olds in by.items():
            if len(olds) > 1:
                said[(new, tuple(sorted(olds)))].append(os.path.relpath(path, root))
    return said


def main(argv):
    root = "."
    crates = set(os.listdir("crates"))
    names, other = candidates(root)
    if "--list" in argv:
        for old in sorted(names):
            print(old, names[old])
        return 0
    if "--together" in argv:
        for (new, olds), where in sorted(together(root, names, crates).items()):
            print(new, " ".join(olds), len(where), " ".join(where[:4]))
        return 0
    n = 0
    for path in files(root):
        text = read(path)
        new = respelled(text, path, names, crates)
        if new != text:
            with open(path, "w", encoding="utf-8") as f:
                f.write(new)
            n += 1
    print(f"{len(names)} names, {n} files")
    return 0


if __name__ == "__main__":
    raise SystemExit(main(sys.argv[1:]))
