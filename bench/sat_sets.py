#!/usr/bin/env python3
"""Makes a dozen sets of clauses with a fixed seed, and compares what `dimacs` answers with what MiniSat answers.

Usage: python3 bench/sat_sets.py
It wants crates/dimacs/out/dimacs, which `rt run` in crates/dimacs makes, and Debian's package minisat. Each satisfying
assignment that `dimacs` prints is evaluated here. The last line is 'N passed, M failed'.
"""
import itertools
import pathlib
import random
import subprocess
import sys
import tempfile

ROOT = pathlib.Path(__file__).resolve().parent.parent
PROGRAM = ROOT / "crates" / "dimacs" / "out" / "dimacs"


def random_3sat(seed, variables, clauses):
    chance = random.Random(seed)
    rows = []
    for _ in range(clauses):
        picked = chance.sample(range(1, variables + 1), 3)
        rows.append([v if chance.random() < 0.5 else -v for v in picked])
    return rows


def pigeonhole(pigeons, holes):
    at = lambda p, h: p * holes + h + 1
    rows = [[at(p, h) for h in range(holes)] for p in range(pigeons)]
    for h in range(holes):
        rows += [[-at(p, h), -at(q, h)] for p, q in itertools.combinations(range(pigeons), 2)]
    return rows


def parity(variables, flipped):
    """x1 + .. + xn is even, and one variable less is odd or even: a chain of exclusive ors, each of three variables."""
    rows, fresh = [], variables + 1

    def xor(a, b, c):
        for signs in itertools.product([1, -1], repeat=3):
            if signs[0] * signs[1] * signs[2] < 0:
                continue
            rows.append([-signs[0] * a, -signs[1] * b, -signs[2] * c])

    ends = []
    for order in (range(1, variables + 1), range(variables, 0, -1)):
        order = list(order)
        last = order[0]
        for v in order[1:]:
            xor(last, v, fresh)
            last, fresh = fresh, fresh + 1
        ends.append(last)
    rows.append([ends[0]])
    rows.append([-ends[1] if flipped else ends[1]])
    return rows


SETS = [
    ("random 20/91 a", random_3sat(1, 20, 91)),
    ("random 20/91 b", random_3sat(2, 20, 91)),
    ("random 40/170 a", random_3sat(3, 40, 170)),
    ("random 40/170 b", random_3sat(4, 40, 170)),
    ("random 50/215", random_3sat(5, 50, 215)),
    ("random 60/240", random_3sat(6, 60, 240)),
    ("pigeonhole 4/4", pigeonhole(4, 4)),
    ("pigeonhole 5/4", pigeonhole(5, 4)),
    ("pigeonhole 6/5", pigeonhole(6, 5)),
    ("parity 8 even", parity(8, False)),
    ("parity 8 odd", parity(8, True)),
    ("empty clause", [[1, 2], [], [-1]]),
    ("no clause", []),
]


def text(rows):
    most = max((abs(n) for row in rows for n in row), default=0)
    return f"p cnf {most} {len(rows)}\n" + "".join(" ".join(map(str, row + [0])) + "\n" for row in rows)


def satisfies(rows, values):
    return all(any(n in values for n in row) for row in rows)


def main():
    good = bad = 0
    with tempfile.TemporaryDirectory() as folder:
        file = pathlib.Path(folder, "set.cnf")
        for name, rows in SETS:
            file.write_text(text(rows))
            ours = subprocess.run([PROGRAM, file], capture_output=True, text=True)
            theirs = subprocess.run(["minisat", "-verb=0", file], capture_output=True, text=True)
            values = {int(line[2:]) for line in ours.stdout.splitlines() if line.startswith("v ")}
            same = ours.returncode == theirs.returncode and (ours.returncode != 10 or satisfies(rows, values))
            print(f"{name:16} {ours.returncode} {theirs.returncode} {'same' if same else 'DIFFERENT'}")
            good, bad = good + same, bad + (not same)
    print(f"{good} passed, {bad} failed")
    return 1 if bad else 0


if __name__ == "__main__":
    sys.exit(main())
