#!/usr/bin/env python3
"""Times the lexer on a generated source of 1 MiB against one look at each byte, and prints the ratio.

Run it at the root after `rt run` in crates/speed. Each mode runs 15 times, the two interleaved; the least user time
of each counts.
"""
import os, resource, subprocess, sys, tempfile

ROOT = os.path.dirname(os.path.dirname(os.path.abspath(__file__)))
PROGRAM = os.path.join(ROOT, "crates/speed/out/speed")
LINE = "  unsigned int value_%d = 0x%xu + other_%d * 3; /* a note */ // and one more\n"


def user_time(mode, name):
    before = resource.getrusage(resource.RUSAGE_CHILDREN).ru_utime
    subprocess.run([PROGRAM, f"{mode}={name}"], check=True, stdout=subprocess.DEVNULL)
    return resource.getrusage(resource.RUSAGE_CHILDREN).ru_utime - before


def main():
    if not os.path.exists(PROGRAM):
        sys.exit("build it first: rt run in crates/speed")
    text, i = [], 0
    while sum(map(len, text[-1:])) + i * 80 < 1_040_000:
        text.append(LINE % (i, i * 7919, i))
        i += 1
    source = "".join(text)[:1_048_576].rsplit("\n", 1)[0] + "\n"
    with tempfile.NamedTemporaryFile("w", suffix=".c", delete=False) as file:
        file.write(source)
    times = {"lex": [], "bytes": []}
    for _ in range(15):
        for mode in times:
            times[mode].append(user_time(mode, file.name))
    os.unlink(file.name)
    lex, plain = min(times["lex"]), min(times["bytes"])
    print(f"source {len(source)} bytes")
    print(f"lex   {lex * 1000:.1f} ms of user time")
    print(f"bytes {plain * 1000:.1f} ms of user time")
    print(f"ratio {lex / max(plain, 0.0005):.1f}")


main()
