#!/usr/bin/env python3
"""Proves and builds a program of this repository, its libraries side by side.

    tools/build.py PROGRAM STATUS

Libraries whose own libraries are built are proved together, those with the most work above them first. The first of them takes all
processors that it can use, the others what it leaves. A command of the kit locks all crates that its own stands on, so each is proved in
one of a few copies of the repository; the kit takes from one checkout what another has built of the same text, so each copy goes on from
what the others have, and what stands from an earlier build is not proved again.
Progress goes to standard error, each library's own lines to its out/build.log. At the end the program runs once without words and must end
with STATUS.
"""
import os
import pathlib
import shutil
import subprocess
import sys
import tempfile
import time

ROOT = pathlib.Path(__file__).resolve().parent.parent
CRATES = ROOT / "crates"


def read_crates():
    """The crates of crates.txt, each with those of the repository that it stands on."""
    rows = (line.split("#")[0] for line in (ROOT / "crates.txt").read_text().splitlines())
    named = {row.partition(":")[0].split()[0]: row.partition(":")[2].split() for row in rows if ":" in row}
    return {name: [it for it in below if it in named] for name, below in named.items()}


def closure(crates, name):
    found, open_ones = set(), [name]
    while open_ones:
        one = open_ones.pop()
        if one not in found:
            found.add(one)
            open_ones += crates[one]
    return found


def size(name):
    """How much there is to prove, by the bytes of code: what is searched for takes long, a proof that is written is only checked."""
    return sum(it.stat().st_size for it in (CRATES / name / "src").rglob("*") if it.is_file())


def chains(crates, wanted):
    """The work of the longest chain of crates that begins at each crate and leads upwards."""
    above = {name: [it for it in wanted if name in crates[it]] for name in wanted}
    found = {}

    def chain(name):
        if name not in found:
            found[name] = size(name) + max(map(chain, above[name]), default=0)
        return found[name]

    for name in wanted:
        chain(name)
    return found


def copy_to(folder):
    """Copies what the kit reads of the repository, without what it made."""
    for name in ("crates.txt", "HANDLES"):
        shutil.copy(ROOT / name, folder / name)
    shutil.copytree(CRATES, folder / "crates", ignore=shutil.ignore_patterns("out"))
    return folder


def start(lane, name, jobs, is_first):
    log = CRATES / name / "out" / "build.log"
    log.parent.mkdir(exist_ok=True)
    words = ["rt", "lib", "--jobs", str(jobs)]
    with log.open("w") as out:
        return subprocess.Popen(words if is_first else ["nice", "-n", "10", *words], cwd=lane / "crates" / name, stdout=out, stderr=subprocess.STDOUT)


def say(text):
    print(f"lazic: {text}", file=sys.stderr, flush=True)


def build(crates, libraries, lanes, begun):
    """Builds the libraries, and answers the one that could not be built, if any."""
    weights, ready, running, idle = chains(crates, libraries), set(), {}, list(lanes)
    while len(ready) < len(libraries):
        open_ones = sorted((it for it in libraries - ready - running.keys() if ready.issuperset(crates[it])), key=weights.get, reverse=True)
        for number, name in enumerate(open_ones[: len(idle)]):
            is_first = all(weights[name] >= weights[it] for it in running)
            jobs = len(lanes) if is_first else max(1, len(idle) // (len(open_ones) - number))
            lane = idle.pop()
            running[name] = start(lane, name, jobs, is_first), lane
        time.sleep(0.2)
        for name in [it for it, (process, _) in running.items() if process.poll() is not None]:
            process, lane = running.pop(name)
            idle.append(lane)
            if process.returncode:
                for other, _ in running.values():
                    other.terminate()
                return name
            ready.add(name)
            say(f"{len(ready)} of {len(libraries)} crates are proved, {(time.monotonic() - begun) / 60:.0f} minutes: {name}")
    return None


def main(program, status):
    crates, begun = read_crates(), time.monotonic()
    with tempfile.TemporaryDirectory(prefix="lazic-build-") as room:
        lanes = [copy_to(pathlib.Path(tempfile.mkdtemp(dir=room))) for _ in range(os.cpu_count() or 1)]
        failed = build(crates, closure(crates, program) - {program}, lanes, begun)
        if failed:
            say(f"{failed} could not be built; {CRATES / failed / 'out' / 'build.log'} says why")
            return 1
        say(f"proving and linking {program}")
        ran = subprocess.run(["rt", "run"], cwd=CRATES / program, stdout=sys.stderr)
    return 0 if ran.returncode == int(status) else 1


if __name__ == "__main__":
    sys.exit(main(*sys.argv[1:]))
