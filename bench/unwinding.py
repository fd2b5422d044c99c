#!/usr/bin/env python3
"""Times unwindings: the program speed with rising numbers of units, the user time and the memory of each, and the time of a
unit as a ratio to that of the first row.

Run `rt run` in crates/speed first; this script runs out/speed. Words are numbers of units.
"""
import os
import pathlib
import subprocess
import sys

program = pathlib.Path(__file__).resolve().parent.parent / "crates/speed/out/speed"
counts = [int(word) for word in sys.argv[1:]] or [12500, 25000, 50000, 100000]


def measured(units):
    """The line that the program prints, its user time in seconds and its greatest memory in megabytes."""
    with subprocess.Popen([program, f"units={units}"], stdout=subprocess.PIPE, text=True) as child:
        line = child.stdout.read().strip()
        _, status, usage = os.wait4(child.pid, 0)
        child.returncode = os.waitstatus_to_exitcode(status)
    if child.returncode != 0:
        sys.exit(f"{program} {units} ended with {child.returncode}")
    return line, usage.ru_utime, usage.ru_maxrss / 1024


first = None
for units in counts:
    best = min((measured(units) for _ in range(3)), key=lambda row: row[1])
    line, seconds, megabytes = best
    each = seconds / units
    first = first or each
    print(f"units {units}: {line}: {seconds:.3f} s, {megabytes:.0f} MB, {each * 1e6:.2f} µs a unit, ratio {each / max(first, 1e-9):.2f}")
