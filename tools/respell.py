#!/usr/bin/env python3
"""Brings the repository's own definitions and lemmas to the spelling of today's Rattle: words in snake case, as `same_ia` for `sameIa` and `every_at` for
`every-at`. It was run once, at the top of the repository, after the kit's port.py; tools/respell.tsv has the names, old and new. Types, modules and the names
of Rust stay, and so do the names of the libraries. In a Proof.antt a name behind a dot is mostly a step that Rattle names: there only fields of records turn.

usage: python3 tools/respell.py
"""

import os
import re

NAME = r"[^\s(){}.;,@\"«»]+"
GHOST_USE = re.compile(r"ghost\s+use\b[^;]*;")
CLAUSE = re.compile(r"(?:requires|ensures)\s*\*?\s*(?:\w+\s*)?\{|ghost\s*(?:\w+\s*(?::\s*|=\s*))?\{")
RECORD = re.compile(r"^( *)(?:pub )?record .*?(?=^\1\S|\Z)", re.M | re.S)


def files(suffix):
    for folder, dirs, names in os.walk("crates"):
        dirs[:] = sorted(d for d in dirs if d != "out")
        for name in sorted(names):
            if name.endswith(suffix):
                yield os.path.join(folder, name)


def read(path):
    with open(path, encoding="utf-8") as f:
        return f.read()


def write(path, old, new):
    if new != old:
        with open(path, "w", encoding="utf-8") as f:
            f.write(new)


def made(text):
    """The names of goals that a proof answers, and of its theorem: Rattle makes them."""
    return set(re.findall(rf"^({NAME}) : tie\.", text, re.M)) | set(re.findall(rf"^pub ({NAME}) : .*statement M$", text, re.M))


def clauses(text):
    """The spans of a source text that antt reads: its clauses and its ghost uses."""
    spans = [m.span() for m in GHOST_USE.finditer(text)]
    for m in CLAUSE.finditer(text):
        depth, at = 1, m.end()
        while depth and at < len(text):
            depth += {"{": 1, "}": -1}.get(text[at], 0)
            at += 1
        spans.append((m.end(), at))
    return sorted(spans)


def turn(text, table, keep=frozenset(), dotted=None):
    def one(m):
        if m[0] in keep or m[0] not in table:
            return m[0]
        if dotted is not None and text[m.start() - 1 : m.start()] == "." and m[0] not in dotted:
            return m[0]
        return table[m[0]]

    return re.sub(NAME, one, text)


def main():
    table = dict(line.split("\t") for line in read("tools/respell.tsv").splitlines())
    texts = {path: read(path) for path in files(".antt")}
    functions = {name for path in files(".rt") for name in re.findall(r"\bfn (\w+)", read(path))}
    fields = {name for text in texts.values() for record in RECORD.finditer(text) for name in re.findall(rf"^ +pub ({NAME}) :", record[0], re.M)}
    fields -= {name for name in fields if name.replace("-", "_") in functions}
    for path, text in texts.items():
        if path.endswith("/Proof.antt"):
            write(path, text, turn(text, table, made(text), fields))
        else:
            write(path, text, turn(text, table))
    for path in files(".rt"):
        text, out, at = read(path), "", 0
        for start, end in clauses(text):
            if start >= at:
                out += text[at:start] + turn(text[start:end], table)
                at = end
        write(path, text, out + text[at:])


if __name__ == "__main__":
    main()
