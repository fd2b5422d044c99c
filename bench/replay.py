#!/usr/bin/env python3
"""Times `lazic replay` against the same program as gcc -O0 compiles it, with its sanitizers of undefined behaviour and bounds and
without, and prints the ratios.

Run it at the root after `rt run` in crates/lazic_program. The programs draw nothing and end without an
error. Each is run with many turns and with few, and the difference counts, so that reading, compiling and starting do not. Each
run is made three times, the kinds interleaved; the least user time of each counts.
"""
import os, resource, subprocess, sys, tempfile

ROOT = os.path.dirname(os.path.dirname(os.path.abspath(__file__)))
LAZIC = os.path.join(ROOT, "crates/lazic_program/out/lazic_program")
HEAD = "extern void abort(void);\nvoid reach_error() {}\n"
MANY, FEW = 9_000_000, 1_000

# name, body with N turns of the loop, how many turns of ours one turn of the loop takes
PROGRAMS = [
    ("sums of int", 1, "int main() { int i = 0; int s = 0; for (i = 0; i < N; i = i + 1) { s = (s * 31 + i) % 1000003; } if (s < 0) reach_error(); return 0; }"),
    ("sums of unsigned long long", 1, "int main() { unsigned long long i = 0; unsigned long long s = 1; for (i = 0; i < N; i++) { s = s * 6364136223846793005ULL + (i ^ (s >> 7)); } if (i != N) reach_error(); return 0; }"),
    ("sums of long long", 1, "int main() { long long i = 0; long long s = 0; for (i = 0; i < N; i++) { s = (s * 31 + (i ^ 5)) % 1000003LL; } if (s < 0) reach_error(); return 0; }"),
    ("kinds that are converted", 1, "int main() { int i = 0; unsigned char c = 0; short h = 0; for (i = 0; i < N; i++) { c = c + i; h = h ^ c; } if (h > 1000) reach_error(); return 0; }"),
    ("calls", 2, "int f(int x, int y) { return (x ^ y) & 1023; } int main() { int i = 0; int s = 0; for (i = 0; i < N; i++) { s = f(s, i); } if (s < 0) reach_error(); return 0; }"),
    ("an array", 1, "int main() { int a[1024] = {0}; int i = 0; for (i = 0; i < N; i++) { a[i & 1023] = a[(i + 7) & 1023] + 1; a[i & 1023] = a[i & 1023] & 4095; } if (a[0] < 0) reach_error(); return 0; }"),
    ("a switch", 1, "int main() { int i = 0; int s = 0; for (i = 0; i < N; i++) { switch (i & 7) { case 0: s = s + 1; break; case 1: s = s ^ 3; break; case 2: case 3: s = s & 65535; break; default: s = s + 2; } } if (s < 0) reach_error(); return 0; }"),
    ("gotos", 1, "int main() { int i = 0; int s = 0; L: s = s ^ i; i++; if (i < N) goto L; if (i != N) reach_error(); return 0; }"),
    ("logic", 1, "int main() { int i = 0; int s = 0; for (i = 0; i < N; i++) { if ((i & 1 && i & 2) || !(i & 4)) s = s < 1000 ? s + 1 : 0; } if (s < 0) reach_error(); return 0; }"),
]


def user_time(words, wanted):
    before = resource.getrusage(resource.RUSAGE_CHILDREN).ru_utime
    got = subprocess.run(words, stdout=subprocess.PIPE, stderr=subprocess.PIPE)
    if wanted is not None and got.stdout.decode().strip() != wanted:
        sys.exit(f"{words}: {got.stdout!r} {got.stderr[-300:]!r}")
    return resource.getrusage(resource.RUSAGE_CHILDREN).ru_utime - before


def compiled(folder, source, name, flags):
    out = os.path.join(folder, name)
    subprocess.run(["gcc", "-O0", *flags, "-o", out, source], check=True, stderr=subprocess.DEVNULL)
    return out


def kinds_of(folder, text, count, per_turn):
    """The words that run this program with so many turns, by kind."""
    source = os.path.join(folder, f"p{count}.c")
    with open(source, "w") as file:
        file.write(HEAD + text.replace("N", str(count)))
    run = os.path.join(folder, "p.run")
    with open(run, "w") as file:
        file.write("run 1\n")
    turns = str(count * per_turn + 100)
    checks = ["-fsanitize=undefined,bounds", "-fno-sanitize-recover=all"]
    return {
        "lazic": ([LAZIC, "replay", source, run, "--model", "lp64", "--turns", turns], "ENDED"),
        "checked": ([compiled(folder, source, f"checked{count}", checks)], None),
        "plain": ([compiled(folder, source, f"plain{count}", [])], None),
    }


def least(kinds):
    times = {kind: [] for kind in kinds}
    for _ in range(3):
        for kind, (words, wanted) in kinds.items():
            times[kind].append(user_time(words, wanted))
    return {kind: min(them) for kind, them in times.items()}


def main():
    if not os.path.exists(LAZIC):
        sys.exit(f"build it first: {LAZIC}")
    print("program                      turns/s of lazic   / checked   / plain")
    with tempfile.TemporaryDirectory() as folder:
        for name, per_turn, text in PROGRAMS:
            many = least(kinds_of(folder, text, MANY, per_turn))
            few = least(kinds_of(folder, text, FEW, per_turn))
            took = {kind: max(many[kind] - few[kind], 0.0005) for kind in many}
            turns = (MANY - FEW) * per_turn / took["lazic"]
            print(f"{name:28} {turns / 1e6:12.1f} M   {took['lazic'] / took['checked']:9.1f} {took['lazic'] / took['plain']:9.1f}")


main()
