#!/usr/bin/env python3
"""Respells this repository's own definitions and lemmas, by the rows of respell.tsv beside this script: old, a tab, new.

usage: tools/respell.py     at the top of a checkout, once, right after the kit's port.py

In specs/ and proofs/ each whole word of the table turns, but in comments outside back quotes. A word right after a dot is
a field: it turns only behind a path 'Rattle.' or where this repository declares a field of that name. In src/ the words
turn in lines of 'ghost' items and in clauses; a name of Rust code keeps its spelling.
"""

import os
import re

HERE = os.path.dirname(os.path.realpath(__file__))
STOPS = r"\s(){}.;,@\"«»"
WORD = re.compile(r"[^%s]+" % STOPS)
PATH = re.compile(r"Rattle(?:\.[^%s]+)*\.$" % STOPS)
FIELD = re.compile(r"^\s+(?:pub )?([^%s:]+) :" % STOPS)
GHOST = re.compile(r"^\s*(?:pub )?ghost\b")
CLAUSE = re.compile(r"^\s*(?:requires|ensures|invariant)\b")


def table():
    with open(os.path.join(HERE, "respell.tsv"), encoding="utf-8") as rows:
        return dict(row.rstrip("\n").split("\t") for row in rows)


def texts(suffix, folders):
    for folder, inner, files in os.walk("crates"):
        inner[:] = sorted(name for name in inner if name != "out")
        parts = folder.split(os.sep)
        if len(parts) > 2 and parts[2] in folders:
            for name in sorted(files):
                if name.endswith(suffix):
                    yield os.path.join(folder, name)


def fields(names):
    """The names that a record of specs/ or proofs/ declares."""
    found = set()
    for path in texts(".antt", ("specs", "proofs")):
        record = False
        for line in open(path, encoding="utf-8"):
            if re.match(r"(?:pub )?record ", line):
                record = True
            elif line.strip() and not line.startswith(" "):
                record = False
            match = FIELD.match(line)
            if record and match and match.group(1) in names:
                found.add(match.group(1))
    return found


def respelled(text, names, own):
    def turn(match):
        word = match.group()
        before = text[: match.start()]
        if before.endswith(".") and word not in own and not PATH.search(before):
            return word
        return names.get(word, word)

    return WORD.sub(turn, text)


def turned(line, names, own):
    code, dashes, comment = line.partition("--")
    if dashes and code.strip(" ") and not code.endswith(" "):
        code, dashes, comment = line, "", ""
    spans = re.sub(r"`[^`]*`", lambda m: "`" + respelled(m.group()[1:-1], names, own) + "`", comment)
    return respelled(code, names, own) + dashes + spans


def turned_source(lines, names, own):
    """Ghost items and clauses, to the end of the line where their braces close."""
    depth = 0
    inside = False
    for line in lines:
        if not inside and (GHOST.match(line) or CLAUSE.match(line)):
            inside, depth = True, 0
        if inside:
            depth += line.count("{") - line.count("}")
            yield respelled(line, names, own)
            inside = depth > 0
        else:
            yield line


def main():
    names = table()
    own = fields(names)
    for path in texts(".antt", ("specs", "proofs")):
        with open(path, encoding="utf-8") as old:
            lines = old.readlines()
        new = [turned(line, names, own) for line in lines]
        if new != lines:
            with open(path, "w", encoding="utf-8") as out:
                out.writelines(new)
    for path in texts(".rt", ("src",)):
        with open(path, encoding="utf-8") as old:
            lines = old.readlines()
        new = list(turned_source(lines, names, own))
        if new != lines:
            with open(path, "w", encoding="utf-8") as out:
                out.writelines(new)


if __name__ == "__main__":
    main()
