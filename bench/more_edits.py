#!/usr/bin/env python3
"""Tries the edits that crates keep in more-edits/, which the gate does not try.

    python3 bench/more_edits.py NAME..            each edit of crates/NAME/more-edits
    python3 bench/more_edits.py NAME/EDIT..       these alone, by their file names without the ending

Run it at the root. It clones what is committed into a scratch folder, has the edits stand there in must-fail/ in place of the
crate's own, runs `rt must-fail NAME`, and prints a line for each: `refused` with what refused it, `passed` where the crate is
still proved with the wrong body, or `bad` where the edit can't be applied, compiled or read, or nothing is known of it. One
that is refused by no clause and by no loop's invariant (by a measure, an overflow, or since a proof file names what the edit
took away) says little of the contract: rewrite it, or remove it. The status is 1 where one is not refused. A crate takes the
time of its check, and of a check for each edit.
"""

import os
import re
import shutil
import subprocess
import sys
import tempfile

ROOT = os.path.dirname(os.path.dirname(os.path.abspath(__file__)))
TOLD = re.compile(r"must-fail (\w+)/(\S+)\.edit: (refused, as it must be|NOT REFUSED|BAD EDIT|NOT TRIED)(.*)")
KINDS = {"refused, as it must be": "refused", "NOT REFUSED": "passed", "BAD EDIT": "bad", "NOT TRIED": "bad"}


def asked(words):
    """Returns the names of the edits to try, by crate."""
    wanted = {}
    for word in words:
        name, _, edit = word.partition("/")
        folder = f"{ROOT}/crates/{name}/more-edits"
        if not os.path.isdir(folder):
            sys.exit(f"there is no folder crates/{name}/more-edits")
        there = sorted(it[: -len(".edit")] for it in os.listdir(folder) if it.endswith(".edit"))
        if edit and edit not in there:
            sys.exit(f"there is no file crates/{name}/more-edits/{edit}.edit")
        wanted.setdefault(name, []).extend([edit] if edit else there)
    return wanted


def placed(scratch, name, edits):
    """Has these edits of the crate stand in must-fail/ of the scratch clone, and no others."""
    crate = f"{scratch}/crates/{name}"
    shutil.rmtree(f"{crate}/must-fail", ignore_errors=True)
    os.mkdir(f"{crate}/must-fail")
    for edit in edits:
        shutil.copy(f"{ROOT}/crates/{name}/more-edits/{edit}.edit", f"{crate}/must-fail")


def tried(scratch, name, edits):
    """Tries the crate's edits, prints a line for each, and returns how many were not refused."""
    ran = subprocess.run(["rt", "must-fail", name], cwd=scratch, stdout=subprocess.PIPE, stderr=subprocess.STDOUT, errors="replace")
    told = {found[2]: (KINDS[found[3]], found[4].strip(" :")) for found in TOLD.finditer(ran.stdout)}
    for edit in edits:
        kind, why = told.get(edit, ("bad", "rt says nothing of it: " + " | ".join(ran.stdout.strip().split("\n")[-2:])))
        print(f"{kind:8}{name}/{edit}: {why}", flush=True)
    return sum(told.get(edit, ("bad",))[0] != "refused" for edit in edits)


def main():
    wanted = asked(sys.argv[1:])
    if not wanted:
        sys.exit(__doc__)
    with tempfile.TemporaryDirectory(prefix="more-edits-") as room:
        scratch = f"{room}/clone"
        subprocess.run(["git", "clone", "-q", ROOT, scratch], check=True)
        for name, edits in wanted.items():
            placed(scratch, name, edits)
        lost = sum(tried(scratch, name, edits) for name, edits in wanted.items())
    return 1 if lost else 0


if __name__ == "__main__":
    sys.exit(main())
