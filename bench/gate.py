#!/usr/bin/env python3
"""Runs the gate and prints where its time goes: a table of crates with the processor seconds of their proofs, of the proofs of their
tests, and of their must-fail edits, dearest first.

    bench/gate.py [--anew] [NAME..]      runs `rt ci` with these words at the root of the checkout, prints what it prints, then the table
    bench/gate.py --watch SECONDS        runs nothing: watches the gates that run on this machine for so long, then prints the table

It looks at the prover's processes once a second (/proc, so Linux alone) and adds up what each took. Processes shorter than a second are
lost, and so are a run's tests and programs, which take a second each. Of a run that it starts it counts the run's own processes alone.
"""
import os
import pathlib
import subprocess
import sys
import threading
import time

ROOT = pathlib.Path(__file__).resolve().parent.parent
TICK = os.sysconf("SC_CLK_TCK")
KINDS = ("proof", "tests", "edits")


def is_below(pid, top):
    """Whether a process was started by that one, or by one that it started."""
    while pid not in ("0", "1"):
        if pid == top:
            return True
        pid = pathlib.Path(f"/proc/{pid}/stat").read_text().rsplit(")", 1)[1].split()[1]
    return False


def crate_and_kind(pid, top):
    """The crate that this process proves, and as what, or None where it is no prover's of the run."""
    words = pathlib.Path(f"/proc/{pid}/cmdline").read_bytes().decode(errors="replace").split("\0")
    if not words[0].endswith("/rattle") or "--crate-name" not in words or (top and not is_below(pid, top)):
        return None
    name = words[words.index("--crate-name") + 1]
    if "--test" in words:
        return name, "tests"
    return name, "edits" if "/rt-edit-" in os.readlink(f"/proc/{pid}/cwd") else "proof"


def seconds(pid):
    """The processor seconds that this process and its ended children have taken."""
    fields = pathlib.Path(f"/proc/{pid}/stat").read_text().rsplit(")", 1)[1].split()
    return sum(int(it) for it in fields[11:15]) / TICK


def look(seen, top):
    for pid in filter(str.isdigit, os.listdir("/proc")):
        try:
            found = crate_and_kind(pid, top)
            if found:
                born = pathlib.Path(f"/proc/{pid}/stat").read_text().rsplit(")", 1)[1].split()[19]
                seen[pid, born] = (*found, seconds(pid))
        except OSError:
            pass


def watch(seen, is_over, top):
    while not is_over.wait(1):
        look(seen, top)


def table(seen, minutes):
    rows = {}
    for name, kind, took in seen.values():
        rows.setdefault(name, dict.fromkeys(KINDS, 0.0))[kind] += took
    print(f"\n{minutes:.0f} minutes; processor seconds by crate\n\n| Crate | proof | tests | edits |\n|---|---|---|---|")
    for name, row in sorted(rows.items(), key=lambda it: -sum(it[1].values())):
        print(f"| {name} | " + " | ".join(f"{row[kind]:.0f}" for kind in KINDS) + " |")
    whole = {kind: sum(row[kind] for row in rows.values()) for kind in KINDS}
    print("| all | " + " | ".join(f"{whole[kind]:.0f}" for kind in KINDS) + " |")


def main(words):
    seen, is_over, begun = {}, threading.Event(), time.monotonic()
    run = None if words[:1] == ["--watch"] else subprocess.Popen(["rt", "ci", *words], cwd=ROOT)
    watcher = threading.Thread(target=watch, args=(seen, is_over, run and str(run.pid)))
    watcher.start()
    try:
        status = run.wait() if run else time.sleep(float(words[1])) or 0
    finally:
        is_over.set()
        watcher.join()
        table(seen, (time.monotonic() - begun) / 60)
    return status


if __name__ == "__main__":
    sys.exit(main(sys.argv[1:]))
