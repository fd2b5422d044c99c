#!/usr/bin/env python3
"""Asks the solver many small questions and prints a row of a table for each kind: what one costs, its requests for memory, and how many
could be met.

    bench/native/native.py OUT bench/native/questions.rs cdcl_solver clause_learning prop resolution_log
    bench/questions.py OUT/questions [COUNT]

A question has 50 clauses over 26 variables. What stands in the way of small questions is what does not grow with them, so their variables
are drawn from few numbers, and from as many as a graph of 10,000 cells of 64 bits has.
"""
import re
import subprocess
import sys

BOUNDS = (26, 64, 1_000, 640_000)
FORM = re.compile(r"(\w+) seconds (\S+) requests (\d+) met (\d+) refuted (\d+)")


def main(program, count="100000"):
    print("| Numbers of variables below | microseconds a question | requests for memory | met | refuted |\n|---|---|---|---|---|")
    for bound in BOUNDS:
        said = subprocess.run([program, count, str(bound)], stdout=subprocess.PIPE, text=True, check=True).stdout
        (_, before, asked_before, _, _), (_, took, asked, met, refuted) = FORM.findall(said)
        each = (float(took) - float(before)) * 1e6 / int(count)
        requests = (int(asked) - int(asked_before)) / int(count)
        print(f"| {bound:,} | {each:.0f} | {requests:.0f} | {int(met):,} | {int(refuted):,} |")


if __name__ == "__main__":
    main(*sys.argv[1:])
