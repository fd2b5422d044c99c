#!/usr/bin/env python3
"""Times the checker of logs: the measures `check` and `walk` of the program speed, interleaved, and the difference as pairs a second.

Run `rt run` in crates/speed first; this script runs out/speed.
"""
import pathlib
import resource
import subprocess
import sys

program = pathlib.Path(__file__).resolve().parent.parent / "crates/speed/out/speed"
chains = sys.argv[1] if len(sys.argv) > 1 else "100000"


def seconds(mode):
    before = resource.getrusage(resource.RUSAGE_CHILDREN).ru_utime
    out = subprocess.run([program, f"{mode}={chains}"], capture_output=True, text=True, check=True).stdout
    return resource.getrusage(resource.RUSAGE_CHILDREN).ru_utime - before, int(out.split()[1])


best = {"check": None, "walk": None}
for _ in range(5):
    for mode in best:
        spent, pairs = seconds(mode)
        best[mode] = spent if best[mode] is None else min(best[mode], spent)
print(f"pairs {pairs}")
print(f"check {best['check']:.3f} s, walk {best['walk']:.3f} s, ratio {best['check'] / max(best['walk'], 0.001):.2f}")
print(f"checked a second: {pairs / max(best['check'] - best['walk'], 0.001):,.0f} pairs")
