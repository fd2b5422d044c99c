#!/usr/bin/env python3
"""Makes the sources of seeds from the words of their format (docs/FORMATS.md), and tries what the program says of them.

    python3 bench/generated.py source SEED                          prints the source
    python3 bench/generated.py rows SEED..                          prints rows of crates/tables/data/number_tables/generated.txt
    python3 bench/generated.py try PROGRAM FIRST LAST [JOBS]        runs `PROGRAM generate SEED` for each of these seeds

The first block decides what is said. The value that it tests is a number masked with a constant, so it is never greater than the
constant, and it is the constant where the number is: a source is safe, or where its seed is odd its first block's `>=` is reached. Each
line of an answer is compared with that, and the status; the last lines are how many seeds were tried, how many answers are others, the
seconds on the average, the most memory that a run took, and the slowest seeds. The status is 1 where an answer is another one.
"""
import concurrent.futures
import itertools
import resource
import subprocess
import sys
import time

MODULUS = 2**32


def numbers(seed):
    """The numbers behind the seed, each made of the one before."""
    while True:
        seed = (1664525 * seed + 1013904223) % MODULUS
        yield seed


def blocks(seed):
    """How many blocks the source has."""
    return 32 + seed % 32


def source(seed):
    lines = ["extern unsigned int __VERIFIER_nondet_uint(void);", "void reach_error() {}", "int main() {"]
    for i, c in enumerate(itertools.islice(numbers(seed), blocks(seed))):
        sign = ">=" if i == 0 and seed % 2 == 1 else ">"
        lines.append(f"  unsigned int x{i} = __VERIFIER_nondet_uint() & {c}u;")
        lines.append(f"  if (x{i} {sign} {c}u) reach_error();")
    return "".join(f"{line}\n" for line in [*lines, "}"])


def answer(seed):
    """The status and the text of the answer."""
    behind = f"SEED {seed} BLOCKS {blocks(seed)}\n"
    if seed % 2 == 0:
        return 0, "SAFE\n" + behind
    test = source(seed).splitlines()[4]
    return 1, f"UNSAFE reach at 5:{test.index('reach_error') + 1}\n" + behind


def row(seed):
    return f"source\t{seed}\t" + source(seed).replace("\n", "\\n")


def tried(program, seed):
    """Whether the answer is as it is to be, what it is, and its seconds."""
    begun = time.monotonic()
    ran = subprocess.run([program, "generate", str(seed)], capture_output=True, text=True)
    taken = time.monotonic() - begun
    return (ran.returncode, ran.stdout) == answer(seed), (ran.returncode, ran.stdout), taken


def try_all(program, seeds, jobs):
    with concurrent.futures.ThreadPoolExecutor(jobs) as pool:
        answers = list(pool.map(lambda seed: (seed, *tried(program, seed)), seeds))
    for seed, good, said, taken in answers:
        if not good:
            print(f"seed {seed}: {said} after {taken:.2f} s")
    others = sum(not good for _, good, _, _ in answers)
    seconds = sorted((taken, seed) for seed, _, _, taken in answers)
    print(f"{len(answers)} seeds, {others} other answers")
    most = resource.getrusage(resource.RUSAGE_CHILDREN).ru_maxrss // 1024
    print(f"{sum(taken for taken, _ in seconds) / len(seconds):.3f} s on the average, {most} MB at most, the slowest:")
    for taken, seed in reversed(seconds[-5:]):
        print(f"  seed {seed}: {taken:.3f} s")
    return 1 if others else 0


def main(words):
    match words:
        case ["source", seed]:
            print(source(int(seed)), end="")
        case ["rows", *seeds]:
            print("\n".join(row(int(seed)) for seed in seeds))
        case ["try", program, first, last, *jobs] if len(jobs) < 2:
            return try_all(program, range(int(first), int(last) + 1), int(jobs[0]) if jobs else 1)
        case _:
            print(__doc__, end="")
            return 2
    return 0


if __name__ == "__main__":
    sys.exit(main(sys.argv[1:]))
