#!/usr/bin/env python3
"""own_names.py [ROOT]: after port.py, brings the repository's own names to the kit's spelling, by the list own_names.txt beside this file.

It changes specs/ and proofs/ (*.antt), and in src/ (*.rt) what no code of Rust can be: names with a dash, and names of the list in
ghost items and clauses. Comments and strings stay, and so do names that Rattle makes: in the files of a function's proof
(proofs/F/Answers.antt, Invariants.antt, Proof.antt) a name behind a dot is one of these, unless it is a field of the list.
It stops before it writes anything where two names of the list would become one, or where a new name is defined already.
"""

import glob
import os
import re
import sys

HERE = os.path.dirname(os.path.abspath(__file__))
NAME = re.compile(r"[^\W\d][\w']*(?:-[\w']+)*")
COMMENT_ANTT = re.compile(r"(?m)(?:^|(?<=\s))--(?=\s|$).*$")
COMMENT_OR_STRING_RT = re.compile(r"//.*|b?\"(?:\\.|[^\"\\])*\"|b?'(?:\\.[^']*|[^'\\])'")
HEAD = re.compile(r"(?m)^\s*(?:(?:abbrev|unfoldable|pub|record|data)\s+)*([^\W\d][\w']*(?:-[\w']+)*)(?=[^=\n]*\s:\s)")


def the_list():
    names, part, fields = {}, "", set()
    for line in open(os.path.join(HERE, "own_names.txt"), encoding="utf-8"):
        if line.startswith("#"):
            part = line[1:].strip()
        elif line.strip():
            old, new = line.split()
            if old in names:
                sys.exit(f"{old} stands twice in the list")
            names[old] = new
            if part == "fields":
                fields.add(old)
    taken = {}
    for old, new in names.items():
        if new in taken:
            sys.exit(f"{old} and {taken[new]} would both become {new}")
        taken[new] = old
    return names, fields


def files(root):
    for path in sorted(glob.glob(f"{root}/crates/*/**/*.antt", recursive=True) + glob.glob(f"{root}/crates/*/src/**/*.rt", recursive=True)):
        if "/out/" not in path:
            yield path


def of_a_function(path):
    return "/proofs/" in path and os.path.basename(path) in ("Answers.antt", "Invariants.antt", "Proof.antt")


def renamed(path, text, names, fields):
    hidden = COMMENT_ANTT if path.endswith(".antt") else COMMENT_OR_STRING_RT
    kept = [m.span() for m in hidden.finditer(text)]

    def new(m):
        if m[0] not in names or any(a <= m.start() < b for a, b in kept):
            return m[0]
        if of_a_function(path) and text[m.start() - 1 : m.start()] == "." and m[0] not in fields:
            return m[0]
        return names[m[0]]

    return NAME.sub(new, text)


def main():
    root = sys.argv[1] if len(sys.argv) > 1 else "."
    names, fields = the_list()
    for path in files(root):
        if path.endswith(".antt") and not of_a_function(path):
            text = COMMENT_ANTT.sub("", open(path, encoding="utf-8").read())
            for name in HEAD.findall(text):
                if name in names.values():
                    sys.exit(f"{path} defines {name} already")
    changed = 0
    for path in files(root):
        text = open(path, encoding="utf-8").read()
        now = renamed(path, text, names, fields)
        if now != text:
            changed += 1
            open(path, "w", encoding="utf-8").write(now)
    print(f"{len(names)} names, {changed} files changed")


if __name__ == "__main__":
    main()
