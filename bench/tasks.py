#!/usr/bin/env python3
"""Verifies a set of C programs with known verdicts, and prints a line for each and a table by tier.

    bench/tasks.py PROGRAM FOLDER [SECONDS [JOBS [WORD..]]]

FOLDER has tasks.json: a list of objects with `name`, `file` (below FOLDER), `tier`, `model`, `verdict` (SAFE or UNSAFE), and for UNSAFE
`errors`, the permitted kinds and places. PROGRAM is lazic; it is run as `PROGRAM verify FILE --model MODEL WORD..` for so many seconds at
most (60). The certificate of each program that it calls safe is checked by `PROGRAM check`, which has to accept it, and the run of each
that it calls unsafe is replayed by `PROGRAM replay`, which has to print the same line. A verdict is right, wrong or none; of the set a
wrong one is a failure (status 1), and so is a certificate or a run that is not confirmed.
"""
import collections
import concurrent.futures
import json
import pathlib
import subprocess
import sys
import tempfile
import time


def said(command, seconds=None):
    ran = subprocess.run(command, capture_output=True, text=True, timeout=seconds)
    return ran.stdout.strip() or f"no line, status {ran.returncode}: {ran.stderr.strip()[-160:]}"


def judged(task, line):
    if line == "SAFE":
        return "right" if task["verdict"] == "SAFE" else "wrong"
    if line.startswith("UNSAFE"):
        wanted = [f"UNSAFE {it['kind']} at {it['line']}:{it['column']}" for it in task.get("errors", [])]
        return "right" if task["verdict"] == "UNSAFE" and line in wanted else "wrong"
    return "none"


def confirmed(program, file, model, cert, values, line):
    """Whether the certificate or the run of an answer is what it is to be, and what is said of it."""
    begun = time.monotonic()
    if line == "SAFE":
        answer = said([program, "check", file, cert, "--model", model])
        return answer == "ACCEPTED", f"{answer} {pathlib.Path(cert).stat().st_size} bytes in {time.monotonic() - begun:.1f} s"
    if line.startswith("UNSAFE"):
        answer = said([program, "replay", file, values, "--model", model, "--turns", "1000000000"])
        return answer == line, f"replayed: {answer}"
    return True, ""


def run(program, folder, seconds, words, task):
    file, model, begun = str(folder / task["file"]), task["model"], time.monotonic()
    with tempfile.TemporaryDirectory() as room:
        cert, values = f"{room}/cert", f"{room}/run"
        try:
            line = said([program, "verify", file, "--model", model, "--cert", cert, "--run", values, *words], seconds)
        except subprocess.TimeoutExpired:
            line = "no line in time"
        took = time.monotonic() - begun
        is_confirmed, more = confirmed(program, file, model, cert, values, line)
    return task, judged(task, line) if is_confirmed else "wrong", f"{took:.1f} s\t{line}\t{more}"


def main(program, folder, seconds="60", jobs="2", *words):
    folder, seconds = pathlib.Path(folder), float(seconds)
    tasks = json.loads((folder / "tasks.json").read_text())
    found = collections.defaultdict(collections.Counter)
    with concurrent.futures.ThreadPoolExecutor(int(jobs)) as pool:
        for task, judgement, line in pool.map(lambda it: run(program, folder, seconds, words, it), tasks):
            found[task["tier"]][judgement] += 1
            print(f"{judgement:5} {task['name']}\t{line}", flush=True)
    print("\n| Tier | programs | right | wrong | none |\n|---|---|---|---|---|")
    for tier, counts in sorted(found.items()):
        print(f"| {tier} | {sum(counts.values())} | {counts['right']} | {counts['wrong']} | {counts['none']} |")
    return 1 if any(counts["wrong"] for counts in found.values()) else 0


if __name__ == "__main__":
    sys.exit(main(*sys.argv[1:]))
