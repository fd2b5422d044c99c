#!/usr/bin/env python3
"""Makes sources of several shapes as large as the limits on cells and nodes allow, and prints a row of a table for each: how large the graph
of its instructions is, with each call a copy, how large that of its blocks, and what making them takes.

    bench/native/native.py OUT bench/native/graphs.rs source_graphs block_join cfg_build lv_base c_graph c_rules bv_term
    bench/graphs.py OUT/graphs [SHAPE..]
"""
import os
import pathlib
import subprocess
import sys
import tempfile

ARRAY = 1000
CALLED = "unsigned f(unsigned a) { if (a > 3u) { a = a * 5u; } return a + 1u; }\n"


def main_of(body, before=""):
    return f"{before}extern void reach_error(void);\nint main(void) {{ {body} if (x == 7u) {{ reach_error(); }} return 0; }}\n"


def arrays(n):
    before = "".join(f"int a{k}[{ARRAY}];\n" for k in range(n)) + "unsigned x;\n"
    return main_of("".join(f"a{k}[x % {ARRAY}u] = 1; " for k in range(n)), before)


SHAPES = {
    "sums": lambda n: main_of("x = x + 1u; " * n, "unsigned x;\n"),
    "checked sums": lambda n: main_of("y = y + 1; " * n, "unsigned x;\nint y;\n"),
    "branches": lambda n: main_of("if (y > 3u) { x = x + y; } else { y = y + 1u; } " * n, "unsigned x;\nunsigned y;\n"),
    "loops": lambda n: main_of("while (x < 9u) { x = x + 1u; } " * n, "unsigned x;\n"),
    "calls": lambda n: main_of("x = f(x); " * n, CALLED + "unsigned x;\n"),
    "arrays": arrays,
    "tokens": lambda n: main_of(";" * n, "unsigned x;\n"),
}


def run(program, source):
    """What the program prints of a source, and the most memory that it takes, in MB."""
    with tempfile.TemporaryDirectory() as folder:
        name = pathlib.Path(folder) / "source.c"
        name.write_text(source)
        child = subprocess.Popen([program, name], stdout=subprocess.PIPE, text=True)
        said = child.stdout.read()
        _, status, used = os.wait4(child.pid, 0)
        child.returncode = os.waitstatus_to_exitcode(status)
    if child.returncode:
        sys.exit(f"{program} ended with {child.returncode}")
    return said, used.ru_maxrss // 1024


def largest(program, make):
    """The most repetitions that pass all limits, up to 195,000 and to one in 500, and what the program prints of the first that do not."""
    good, bad = 1, 2
    while bad < 195_000 and "refused" not in run(program, make(bad))[0]:
        good, bad = bad, 2 * bad
    bad = min(bad, 195_000)
    while bad - good > max(1, good // 500):
        middle = (good + bad) // 2
        if "refused" in run(program, make(middle))[0]:
            bad = middle
        else:
            good = middle
    return good, run(program, make(bad))[0]


def part(said, what):
    words = next(line for line in said.splitlines() if line.startswith(what)).split()[1:]
    return dict(zip(words[::2], words[1::2]))


def main(program, *shapes):
    print("| shape, times | nodes | edges | operations | saved cells | build and inline, s | nodes with edges | edges | operations | saved cells | blocks, s | MB |")
    print("|---|---|---|---|---|---|---|---|---|---|---|---|")
    for shape in shapes or SHAPES:
        times, refused = largest(program, SHAPES[shape])
        said, memory = run(program, SHAPES[shape](times))
        whole, blocks = part(said, "whole"), part(said, "blocks")
        row = [f"{shape}, {times}"] + [whole[it] for it in ("nodes", "edges", "operations", "saved", "seconds")]
        row += [blocks[it] for it in ("with-edges", "edges", "operations", "saved", "seconds")] + [str(memory)]
        print("| " + " | ".join(row) + " |")
        why = next((line for line in refused.splitlines() if line.startswith("refused")), "none")
        print(f"{shape}, beyond: {why}", file=sys.stderr)


main(*sys.argv[1:])
