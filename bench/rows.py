"""Tries the rows of the answer tables on the built program, through the root script, with the printed line, the exit status and the files
that are left; bench/rows.py PROGRAM tries that program.

The rows are those of crates/answer_tables/data, where they were written by hand. Of the rows with calls that fail, a put that
fails is tried with a full device; a read that fails, a sink without room and an outside that never fails are in memory only. A
word that is no text is tried here alone. Run it at the root, once the program is built.
"""

import os
import re
import subprocess
import sys
import tempfile

ROOT = os.path.dirname(os.path.dirname(os.path.abspath(__file__)))
PROGRAM = os.path.abspath(sys.argv[1]) if sys.argv[1:] else f"{ROOT}/lazic"
DATA = f"{ROOT}/crates/answer_tables/data"
HEAD = (
    "extern void abort(void);\nextern int __VERIFIER_nondet_int(void);\nvoid reach_error() {}\nint main() {\n"
)
ESCAPES = {"n": b"\n", "t": b"\t", "s": b" ", "e": b"", "\\": b"\\", "h": HEAD.encode()}


def plain(text):
    """Returns the bytes of a text of a table in which nothing is repeated."""
    parts = re.findall(r"\\x[0-9A-F]{2}|\\.|[^\\]+", text)
    return b"".join(
        bytes([int(it[2:], 16)]) if it.startswith("\\x") else ESCAPES[it[1]] if it[0] == "\\" else it.encode()
        for it in parts
    )


def bytes_of(text):
    """Returns the bytes of a text of a table."""
    first, *behind = text.split("«")
    whole = plain(first)
    for part in behind:
        count, again, rest = re.fullmatch("(\\d+)×([^»]*)»(.*)", part).groups()
        whole += plain(again) * int(count) + plain(rest)
    return whole


def rows():
    """Returns the rows that can be tried on files: label, status, text, words, files, files that are to be left, and where the text goes."""
    for table in sorted(os.listdir(DATA)):
        for number, line in enumerate(open(f"{DATA}/{table}", encoding="utf-8").read().split("\n"), 1):
            if not line or line.startswith("#"):
                continue
            status, text, _kept, words, outside, *files = line.split("\t")
            if outside not in ("-", "put=0"):
                continue
            words = [bytes_of(word) for word in words.split(" ")] if words else []
            files = [file.split("=", 1) for file in files]
            given = [(name, bytes_of(content)) for name, content in files if not name.endswith(":")]
            # A witness names the moment and chance of the program that wrote it, so its text is tried in memory alone.
            left = [(name[:-1], content) for name, content in files if name.endswith(":") and "creation_time" not in content]
            yield f"{table} {number}", int(status), bytes_of(text), words, given, left, outside == "put=0"


def is_left(room, name, content):
    """Returns whether a file holds this text, in which `«?»` stands for any."""
    try:
        held = open(f"{room}/{name}", "rb").read()
    except FileNotFoundError:
        return False
    front, *back = content.split("«?»")
    return held == bytes_of(front) if not back else held.startswith(bytes_of(front)) and held.endswith(bytes_of(back[0]))


def answer(words, files, left, full):
    """Returns the status and the text of the program on these words, in a folder of its own with these files, and whether it left those."""
    with tempfile.TemporaryDirectory() as room:
        for name, content in files:
            with open(f"{room}/{name}", "wb") as it:
                it.write(content)
        out = open("/dev/full", "w") if full else subprocess.PIPE
        ran = subprocess.run([PROGRAM, *words], cwd=room, stdout=out, stderr=subprocess.PIPE)
        are_left = all(is_left(room, *it) for it in left)
    return ran.returncode, (ran.stdout or b"") + ran.stderr, are_left


def main():
    tried = failed = 0
    for label, status, text, words, files, left, full in [
        *rows(),
        ("no text", 16, b"", [b"replay", b"\xff", b"a.run"], [], [], False),
    ]:
        tried += 1
        told = answer(words, files, left, full)
        if told != (status, text, True):
            failed += 1
            print(f"{label}: wants {(status, text)} and its files, tells {told}")
    print(f"{tried - failed} of {tried} rows as written")
    return 1 if failed else 0


if __name__ == "__main__":
    sys.exit(main())
