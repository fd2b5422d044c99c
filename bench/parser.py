#!/usr/bin/env python3
"""Times the parser, through the built program, on generated sources near the limits, and prints time and memory of each.

Run it at the root after `rt run` in crates/lazic_program. Each source is replayed five times; the least user time counts, and the
most memory that was resident. Most of the sources have no `main`, so that the answer comes from the layer behind the parser,
and its time is that of both.
"""
import os, resource, subprocess, sys, tempfile

ROOT = os.path.dirname(os.path.dirname(os.path.abspath(__file__)))
PROGRAM = os.path.join(ROOT, "crates/lazic_program/out/lazic_program")


def used(count):
    """Typedef names, each used at once and once more after all are declared."""
    half = count // 2
    names = [f"T{i}" for i in range(half)]
    return "".join(f"typedef int {n};" for n in names) + "".join(f"{n} x{n};" for n in names)


def scopes(count):
    """Blocks that declare a name each, which falls at the block's end."""
    return "void f(void){" + "".join("{typedef int T%d;}" % (i % 10) for i in range(count)) + "}"


def expressions(count):
    return "int x=" + "+".join(f"a{i % 100}*{i % 10}" for i in range(count)) + ";"


SOURCES = {
    "49,999 typedefs": "".join(f"typedef int T{i};" for i in range(49_999)),
    "28,000 typedefs, each used": used(56_000),
    "99,000 names of one typedef": "typedef int " + ",".join(f"T{i}" for i in range(99_000)) + ";",
    "33,000 blocks with a typedef": scopes(33_000),
    "199,990 tokens of statements": "void f(void){" + "a=b+1;" * 33_330 + "}",
    "a comma list of 49,900 products": "int f(){" + "x=" + ",".join("a*b" for _ in range(49_900)) + ";}",
    "products in 98 brackets, 500 times": "".join("int x=" + "(a*" * 98 + "1" + ")" * 98 + ";" for _ in range(500)),
    "99,990 brackets": "int x=" + "(" * 99_990 + "1" + ")" * 99_990 + ";",
    "99,990 brackets that may be skipped": "extern int a[" + "(" * 99_990 + "1" + ")" * 99_990 + "];",
    "33,000 extern items": "".join("extern int a[2];" if i % 2 else "extern int *p;" for i in range(33_000)),
    "60,000 labels": "void f(void){" + "".join(f"L{i}:;" for i in range(60_000)) + "}",
}


def run(name, run_file):
    """The line, the user time in seconds and the most memory in KB of one run."""
    process = subprocess.Popen([PROGRAM, "replay", name, run_file], stdout=subprocess.PIPE)
    line = process.stdout.read().decode().strip()
    _, status, usage = os.wait4(process.pid, 0)
    process.returncode = os.waitstatus_to_exitcode(status)
    return line, usage.ru_utime, usage.ru_maxrss


def main():
    if not os.path.exists(PROGRAM):
        sys.exit("build it first: rt run in crates/lazic_program")
    with tempfile.TemporaryDirectory() as folder:
        run_file = os.path.join(folder, "a.run")
        with open(run_file, "w") as file:
            file.write("run 1\n")
        for what, source in SOURCES.items():
            name = os.path.join(folder, "a.c")
            with open(name, "w") as file:
                file.write(source)
            runs = [run(name, run_file) for _ in range(5)]
            time, memory = min(r[1] for r in runs), max(r[2] for r in runs)
            print(f"{what}: {len(source):,} bytes, {time:.2f} s, {memory / 1024:.0f} MB, {runs[0][0]}")


main()
