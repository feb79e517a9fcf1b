#!/usr/bin/env python3
"""Plant bugs in a crate, one at a time, and see that the prover refuses each.

Usage: tools/plant.py tools/planted/CRATE.txt

The file has blocks of lines, an empty line between them:
    what: the bug in words
    file: src/lib.rt
    old: TEXT
    new: TEXT
`old` stands once in the file; `\\n` in either stands for a new line. Works in a copy of the repository.
Prints a line a bug: refused, by a fact; weak, if all that the check says is that a proof file lost a name or a
field of the code, which shows nothing; BAD, if the code did not compile; or ACCEPTED. Exit status 1 unless all are refused.
"""
import os
import re
import shutil
import subprocess
import sys
import tempfile


LOST = re.compile(r"has no field|has no `|can be named from here|is not in scope|was not admitted")


def blocks(path):
    with open(path) as f:
        for block in f.read().strip().split("\n\n"):
            yield dict(re.findall(r"^(what|file|old|new): ?(.*)$", block, re.M))


def verdict_of(lines):
    """The verdict on a check that printed these lines, and the line that tells why."""
    said = [l for l in lines if l.startswith("logic=")]
    told = [l for l in lines if re.match(r"(note: )?\S+:\d+:\d+:", l) and (": error" in l or l.startswith("note: "))]
    facts = [l for l in told if not LOST.search(l)]
    told = (facts or told or [""])[0]
    # A check also tells of the libraries that it builds first; the crate's own verdict is the last.
    if said and said[-1].startswith("logic=proved"):
        return "ACCEPTED", told
    if not said or any(": error[" in l for l in lines):
        return "BAD", told
    return "refused" if facts else "weak", told


def main():
    plan = sys.argv[1]
    crate = os.path.splitext(os.path.basename(plan))[0]
    repo = os.path.dirname(os.path.dirname(os.path.abspath(__file__)))
    accepted = 0
    with tempfile.TemporaryDirectory() as tmp:
        copy = os.path.join(tmp, "repo")
        shutil.copytree(repo, copy, ignore=shutil.ignore_patterns(".git"))
        for bug in blocks(plan):
            path = os.path.join(copy, "crates", crate, bug["file"])
            with open(path) as f:
                text = f.read()
            old, new = (bug[k].replace("\\n", "\n") for k in ("old", "new"))
            if text.count(old) != 1:
                print("BAD      %s: the old text stands %d times" % (bug["what"], text.count(old)), flush=True)
                accepted += 1
                continue
            with open(path, "w") as f:
                f.write(text.replace(old, new))
            folder = os.path.join(copy, "crates", crate)
            run = subprocess.run(["rt", "check"], cwd=folder, capture_output=True, text=True)
            verdict, told = verdict_of((run.stdout + run.stderr).splitlines())
            print("%-8s %s (%s)" % (verdict, bug["what"], told.replace(copy + "/", "")[:200]), flush=True)
            accepted += verdict != "refused"
            with open(path, "w") as f:
                f.write(text)
    return 1 if accepted else 0


if __name__ == "__main__":
    sys.exit(main())
