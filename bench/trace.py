#!/usr/bin/env python3
"""Compares what the program `trace` prints with what gcc's programs print of the same runs.

    bench/trace.py [rows]

Each program of bench/trace/ is one of bench/tasks/ (or bench/trace/words_source.c) with each event printed by hand: SAY prints a line, in
which @LINE:TOKEN@ stands for the place of a token in the source (@LINE:TOKEN:N@ for its N-th occurrence), LINE the source's line with a
mark below a token, NEXT is the next value. It is built by gcc and run on the values below. With the word `rows` the rows of
crates/trace_tables/data/runs.txt are printed, from what gcc's programs say; without it the built program crates/trace/out/trace is tried.
"""
import pathlib
import re
import subprocess
import sys
import tempfile

ROOT = pathlib.Path(__file__).resolve().parent.parent
TASKS = ROOT / "bench" / "tasks"
HEAD = r"""
#include <stdio.h>
#include <stdlib.h>
#include <string.h>
static long long next_value(void) { long long v; if (scanf("%%lld", &v) != 1) exit(3); return v; }
#define NEXT next_value()
#define TRUTH(t) ((t) ? "true" : "false")
#define SAY(...) (printf(__VA_ARGS__), printf("\n"))
#define LINE(n, token) show_line(n, token)
static const char *source_lines[] = {%s};
static void show_line(int n, const char *token) {
  const char *line = source_lines[n];
  printf("%%s\n%%*s^\n", line, (int)(strstr(line, token) - line), "");
}
#line 1
"""
# the program, its source, the values, how many events are told, and the lines behind the last event, with the status
RUNS = [
    ("calls", TASKS / "calls_swapped_bounds_unsafe_reach.c", [7], 1000, 4, 1),
    ("gate", TASKS / "parking_gate_below_zero_unsafe_index.c", [5, 4, 3, 2, 1, 0, -1, -2, 2147483647, -2147483648, 1, 7, 2, 2, 2], 1000, 4, 1),
    ("gain", TASKS / "gain_without_limit_unsafe_overflow.c", [], 12, 4, 1),
    ("sign", TASKS / "missing_return_unsafe_missing.c", [0], 1000, 4, 1),
    ("sign", TASKS / "missing_return_unsafe_missing.c", [-3], 1000, 1, 0),
    ("words", ROOT / "bench" / "trace" / "words_source.c", [0, 0, -5, 7, 255, 9, 12], 1000, 1, 0),
    ("words", ROOT / "bench" / "trace" / "words_source.c", [90, 2, 40], 1000, 4, 1),
    ("words", ROOT / "bench" / "trace" / "words_source.c", [3, 3, 40], 1000, 4, 1),
]


def place(lines, found):
    number, token, nth = re.fullmatch(r"(\d+):(.*?)(?::(\d+))?", found.group(1)).groups()
    line, at = lines[int(number) - 1], -1
    for _ in range(int(nth or 1)):
        at = line.index(token, at + 1)
    return f"{number}:{at + 1}"


def expected(name, source, values, last, tail):
    """The lines that gcc's program prints, without the events before the last ones."""
    lines = source.read_text().split("\n")
    listed = ", ".join('"' + line.replace("\\", "\\\\").replace('"', '\\"') + '"' for line in ["", *lines])
    text = re.sub(r"@(\d+:[^@]*)@", lambda found: place(lines, found), (ROOT / "bench" / "trace" / f"{name}.c").read_text())
    with tempfile.TemporaryDirectory() as folder:
        file = pathlib.Path(folder) / "logged.c"
        file.write_text(HEAD % listed + text)
        subprocess.run(["gcc", "-w", "-fwrapv", "-o", f"{folder}/logged", str(file)], check=True)
        printed = subprocess.run([f"{folder}/logged"], input=" ".join(map(str, values)), capture_output=True, text=True, timeout=10)
    if printed.returncode == 3:
        raise SystemExit(f"{name}: the values are too few")
    told = printed.stdout.splitlines()
    events, rest = told[:len(told) - tail], told[len(told) - tail:]
    if len(events) > last:
        events = [f"{len(events) - last} events before these are left out", *events[len(events) - last:]]
    return "\n".join([*events, *rest]) + "\n"


def run_text(values):
    return "".join(f"{line}\n" for line in ["run 1", *values])


def escaped(text):
    return text.replace("\\", "\\\\").replace("\n", "\\n").replace("\t", "\\t") or "\\e"


def rows():
    print("# Runs of programs, told: what gcc's programs print of the same runs (bench/trace.py).")
    for name, source, values, last, tail, status in RUNS:
        words = f"p.c run --last {last}"
        columns = [words, str(status), escaped(source.read_text()), escaped(run_text(values)), escaped(expected(name, source, values, last, tail))]
        print("\t".join(columns))


def main():
    if sys.argv[1:] == ["rows"]:
        return rows()
    program, wrong = ROOT / "crates" / "trace" / "out" / "trace", 0
    for name, source, values, last, tail, status in RUNS:
        with tempfile.NamedTemporaryFile("w", suffix=".run") as run:
            run.write(run_text(values))
            run.flush()
            came = subprocess.run([str(program), str(source), run.name, "--last", str(last)], capture_output=True, text=True)
        wanted = expected(name, source, values, last, tail)
        if came.stdout != wanted or came.returncode != status:
            wrong += 1
            print(f"{name} {values}: another text or status ({came.returncode})")
    print(f"{len(RUNS)} runs, {wrong} not so")
    return 1 if wrong else 0


if __name__ == "__main__":
    sys.exit(main())
