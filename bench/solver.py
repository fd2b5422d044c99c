#!/usr/bin/env python3
"""Makes sets of clauses with a fixed seed, runs `dimacs` and MiniSat on each, and prints a table of ratios.

Usage: python3 bench/solver.py [WORD ..]
It wants crates/dimacs/out/dimacs, which `rt run` in crates/dimacs makes, and Debian's packages minisat, without
preprocessing (-no-pre, -no-elim), and time. Words choose the sets whose names have one of them. The programs run in turn,
RUNS times each; the least user time counts, and the most memory that was resident. The column "log" is what the pairs and
chains of our refutation take, and "memory" the ratio of all but that. Where MiniSat is missing only our columns are printed.
An answer that differs from MiniSat's is an error, and the status is then 1.

Linux counts with a program what its process had before it became that program. So each is started by `time`, which is small
itself (about 2 MB, the least that is seen), and not by this process.
"""
import itertools
import math
import os
import pathlib
import random
import re
import resource
import shutil
import sys
import tempfile

# (the folder keeps its sources alone)
sys.dont_write_bytecode = True
from sat_sets import pigeonhole, random_3sat

ROOT = pathlib.Path(__file__).resolve().parent.parent
PROGRAM = os.environ.get("DIMACS", str(ROOT / "crates" / "dimacs" / "out" / "dimacs"))
MINISAT = shutil.which("minisat")
TIME = shutil.which("time")
RUNS = int(os.environ.get("RUNS", "3"))
SECONDS = int(os.environ.get("SECONDS", "60"))
LOW, HIGH = 10_000, 40_000
# Bytes: a pair is two numbers of 32 bits; a chain is a number, where its pairs lie, how many they are, and for how many there
# is room.
PAIR, CHAIN = 8, 32


class Net:
    """Gates over literals, as clauses. Literal 1 is true."""

    def __init__(self):
        self.rows, self.count = [[1]], 1

    def fresh(self):
        self.count += 1
        return self.count

    def word(self, width):
        return [self.fresh() for _ in range(width)]

    def both(self, a, b):
        if a == -1 or b == -1 or a == -b:
            return -1
        if a == 1 or a == b:
            return b
        if b == 1:
            return a
        c = self.fresh()
        self.rows += [[-a, -b, c], [a, -c], [b, -c]]
        return c

    def either(self, a, b):
        return -self.both(-a, -b)

    def differ(self, a, b):
        if abs(a) == 1:
            return b if a == -1 else -b
        if abs(b) == 1:
            return a if b == -1 else -a
        if abs(a) == abs(b):
            return -1 if a == b else 1
        c = self.fresh()
        self.rows += [[-a, -b, -c], [a, b, -c], [a, -b, c], [-a, b, c]]
        return c

    def choose(self, test, a, b):
        if abs(test) == 1:
            return a if test == 1 else b
        if a == b:
            return a
        c = self.fresh()
        self.rows += [[-test, -a, c], [-test, a, -c], [test, -b, c], [test, b, -c]]
        return c

    def full(self, a, b, c):
        known = [x for x in (a, b, c) if abs(x) == 1]
        if known:
            total = self.differ(self.differ(a, b), c)
            return total, self.either(self.both(a, b), self.both(c, self.either(a, b)))
        total, carry = self.fresh(), self.fresh()
        for x, y, z in itertools.product((1, -1), repeat=3):
            self.rows.append([-x * a, -y * b, -z * c, total if x * y * z > 0 else -total])
        for x, y in ((a, b), (a, c), (b, c)):
            self.rows += [[-x, -y, carry], [x, y, -carry]]
        return total, carry

    def plus(self, a, b, carry=-1):
        out = []
        for x, y in zip(a, b):
            bit, carry = self.full(x, y, carry)
            out.append(bit)
        return out, carry

    def minus(self, a, b):
        return self.plus(a, [-x for x in b], 1)

    def constant(self, n, width):
        return [1 if n >> i & 1 else -1 for i in range(width)]

    def times(self, a, b, width):
        total = self.constant(0, width)
        for i, y in enumerate(b[:width]):
            row = self.constant(0, i) + [self.both(x, y) for x in a]
            total, _ = self.plus(total, (row + self.constant(0, width))[:width])
        return total

    def below(self, a, b):
        return -self.minus(a, b)[1]

    def select(self, test, a, b):
        return [self.choose(test, x, y) for x, y in zip(a, b)]

    def equal(self, a, b):
        out = 1
        for x, y in zip(a, b):
            out = self.both(out, -self.differ(x, y))
        return out

    def divided(self, a, b):
        """Quotient and rest, bit by bit from the highest."""
        width = len(a)
        rest, out = self.constant(0, width + 1), []
        wide = b + [-1]
        for bit in reversed(a):
            rest = [bit] + rest[:-1]
            less, fits = self.minus(rest, wide)
            out.append(fits)
            rest = self.select(fits, less, rest)
        return out[::-1], rest[:width]

    def ask(self, literal):
        self.rows.append([literal])
        return self.rows


def parity(seed, variables):
    """The parity of the variables in two orders differs."""
    net, chance = Net(), random.Random(seed)
    word = net.word(variables)
    ends = []
    for _ in range(2):
        chance.shuffle(word)
        last = word[0]
        for v in word[1:]:
            last = net.differ(last, v)
        ends.append(last)
    return net.ask(net.differ(*ends))


def adders(width):
    net = Net()
    a, b, c = net.word(width), net.word(width), net.word(width)
    return net.ask(-net.equal(net.plus(net.plus(a, b)[0], c)[0], net.plus(a, net.plus(b, c)[0])[0]))


def multipliers(width):
    net = Net()
    a, b = net.word(width), net.word(width)
    return net.ask(-net.equal(net.times(a, b, 2 * width), net.times(b, a, 2 * width)))


def dividers(width):
    net = Net()
    a, b = net.word(width), net.word(width)
    q, r = net.divided(a, b)
    some = -net.equal(b, net.constant(0, width))
    wide = lambda w: w + net.constant(0, width)
    back = net.plus(net.times(q, b, 2 * width), wide(r))[0]
    return net.ask(net.both(some, -net.both(net.equal(back, wide(a)), net.below(r, b))))


def factoring(product, width):
    net = Net()
    a, b = net.word(width), net.word(width)
    one = net.constant(1, width)
    net.rows += [[-net.equal(a, one)], [-net.equal(b, one)]]
    return net.ask(net.equal(net.times(a, b, 2 * width), net.constant(product, 2 * width)))


def sum_of_squares(width, turns):
    """s += 2 i + 1 for i = 0, 1, ..: is s the square of the number of turns, with a start that is bounded only?"""
    net = Net()
    first = net.word(width)
    net.rows.append([net.below(first, net.constant(1 << (width // 2 - 2), width))])
    i, s = first, net.times(first, first, width)
    for _ in range(turns):
        s, _ = net.plus(s, net.plus([-1] + i[:-1], net.constant(1, width))[0])
        i, _ = net.plus(i, net.constant(1, width))
    return net.ask(-net.equal(s, net.times(i, i, width)))


def bounds(seed, width, steps):
    """Straight-line sums, differences and choices of bounded words: can the last pass its bound?"""
    net, chance = Net(), random.Random(seed)
    small = 1 << (width - 8)
    words, tops = [], []
    for _ in range(6):
        word = net.word(width)
        net.rows.append([net.below(word, net.constant(small, width))])
        words.append(word)
        tops.append(small - 1)
    for _ in range(steps):
        i, j, k = (chance.randrange(len(words)) for _ in range(3))
        test = net.below(words[i], words[j])
        high, low = net.select(test, words[j], words[i]), net.select(test, words[i], words[j])
        if chance.random() < 0.5:
            words.append(net.minus(high, low)[0])
            tops.append(max(tops[i], tops[j]))
        elif tops[i] + tops[k] < 1 << (width - 1):
            words.append(net.plus(words[i], words[k])[0])
            tops.append(tops[i] + tops[k])
        else:
            words.append(low)
            tops.append(min(tops[i], tops[j]))
    return net.ask(net.below(net.constant(tops[-1], width), words[-1]))


def sorted_words(width, count):
    """A network that sorts: is there an input that it leaves unsorted, or whose sum it changes?"""
    net = Net()
    words = [net.word(width) for _ in range(count)]
    total = lambda ws: [net.plus(t, w)[0] for t, w in [(ws[0], ws[1])]][0] if len(ws) == 2 else net.plus(total(ws[:-1]), ws[-1])[0]
    before = total(words)
    for end in range(count - 1, 0, -1):
        for i in range(end):
            test = net.below(words[i + 1], words[i])
            words[i], words[i + 1] = net.select(test, words[i + 1], words[i]), net.select(test, words[i], words[i + 1])
    wrong = -net.equal(before, total(words))
    for i in range(count - 1):
        wrong = net.either(wrong, net.below(words[i + 1], words[i]))
    return net.ask(wrong)


def mean(width):
    """(a & b) + ((a ^ b) >> 1) is (a + b) >> 1 in one more bit."""
    net = Net()
    a, b = net.word(width), net.word(width)
    total, carry = net.plus(a, b)
    left = net.plus([net.both(x, y) for x, y in zip(a, b)], [net.differ(x, y) for x, y in zip(a, b)][1:] + [-1])[0]
    return net.ask(-net.equal(left, total[1:] + [carry]))


def scaled(width, factor):
    """x * factor / factor is x where nothing overflows."""
    net = Net()
    x = net.word(width)
    net.rows.append([net.below(x, net.constant((1 << width) // factor, width))])
    f = net.constant(factor, width)
    return net.ask(-net.equal(net.divided(net.times(x, f, width), f)[0], x))


# The name of a set, whether it is of bits of words, and what makes its clauses.
SETS = (
    [(f"random 3-SAT {n}, {s}", False, random_3sat, (s, n, round(n * 4.26))) for n, s in ((100, 1), (150, 2), (150, 3), (175, 4))]
    + [(f"pigeons {n + 1} in {n}", False, pigeonhole, (n + 1, n)) for n in (5, 6, 7)]
    + [(f"parity {n}", False, parity, (n, n)) for n in (10, 14, 18)]
    + [(f"adders {w}", True, adders, (w,)) for w in (6, 8, 9)]
    + [(f"multipliers {w}", True, multipliers, (w,)) for w in (4, 5, 6)]
    + [(f"dividers {w}", True, dividers, (w,)) for w in (4, 5, 6)]
    + [(f"factoring {p}", True, factoring, (p, w)) for p, w in ((36863, 9), (65521, 9), (1042961, 11), (4088467, 12))]
    + [(f"squares {w}, {t} turns", True, sum_of_squares, (w, t)) for w, t in ((10, 4), (16, 6), (32, 8))]
    + [(f"bounds {w}, {n} steps", True, bounds, (s, w, n)) for s, w, n in ((1, 16, 20), (2, 32, 40), (3, 32, 100), (4, 64, 100))]
    + [(f"sorting {n} words of {w}", True, sorted_words, (w, n)) for w, n in ((4, 3), (6, 3), (8, 3))]
    + [(f"mean {w}", True, mean, (w,)) for w in (16, 32, 64)]
    + [(f"scaled {w} by {f}", True, scaled, (w, f)) for w, f in ((12, 5), (16, 10), (20, 7))]
)


def text(rows):
    most = max((abs(n) for row in rows for n in row), default=0)
    return f"p cnf {most} {len(rows)}\n" + "".join(" ".join(map(str, row + [0])) + "\n" for row in rows)


def made(make, words):
    """The name of a new file with the clauses, and how many they are."""
    rows = make(*words)
    with tempfile.NamedTemporaryFile("w", suffix=".cnf", delete=False) as file:
        file.write(text(rows))
    return file.name, len(rows)


def run(words):
    """The status, what was printed, the user time in seconds and the most memory in MB of one run."""
    with tempfile.TemporaryFile() as out, tempfile.NamedTemporaryFile("r") as said:
        child = os.fork()
        if child == 0:
            resource.setrlimit(resource.RLIMIT_CPU, (SECONDS, SECONDS))
            os.dup2(out.fileno(), 1)
            os.dup2(os.open(os.devnull, os.O_WRONLY), 2)
            os.execv(TIME, [TIME, "--quiet", "--format=%M", f"--output={said.name}", *words])
        _, status, used = os.wait4(child, 0)
        out.seek(0)
        return os.waitstatus_to_exitcode(status), out.read().decode(), used.ru_utime, int(said.read() or 0) / 1024


def best(runs):
    return runs[0][0], runs[0][1], min(r[2] for r in runs), max(r[3] for r in runs)


def found(pattern, printed):
    hit = re.search(pattern, printed)
    return int(hit.group(1)) if hit else -1


def mean_of(ratios):
    return math.exp(sum(map(math.log, ratios)) / len(ratios)) if ratios else float("nan")


def main():
    if not os.path.exists(PROGRAM):
        sys.exit("build it first: rt run in crates/dimacs")
    if not TIME:
        sys.exit("it wants the program time")
    wanted = [s for s in SETS if not sys.argv[1:] or any(word in s[0] for word in sys.argv[1:])]
    print("| set | clauses | chains kept | pairs | ours s | MB | log | MiniSat conflicts | s | MB | time | memory |")
    print("|---|---|---|---|---|---|---|---|---|---|---|---|")
    wrong, ratios, memory = 0, [], []
    for name, bits, make, words in wanted:
        file, count = made(make, words)
        ours, theirs = [], []
        for _ in range(RUNS):
            ours.append(run([PROGRAM, file]))
            if MINISAT:
                theirs.append(run([MINISAT, "-no-pre", "-no-elim", "-verb=1", file]))
        os.unlink(file)
        status, printed, seconds, megabytes = best(ours)
        answer = {10: "SAT", 20: "UNSAT"}.get(status, f"status {status}")
        chains, pairs = found(r"c chains (\d+)", printed), found(r"c pairs (\d+)", printed)
        log = max(0, PAIR * pairs + CHAIN * chains) / 2**20
        line = f"| {name}, {answer} | {count} | {chains} | {pairs} | {seconds:.3f} | {megabytes:.1f} | {log:.1f} "
        if not theirs:
            print(line + "| | | | | |", flush=True)
            continue
        status2, printed2, seconds2, megabytes2 = best(theirs)
        conflicts = found(r"conflicts\s*:\s*(\d+)", printed2)
        if status != status2 and status2 in (10, 20):
            wrong += 1
            line += "WRONG "
        ratio, more = max(seconds, 0.002) / max(seconds2, 0.002), (megabytes - log) / megabytes2
        if bits:
            ratios.append((conflicts, ratio))
            memory.append(more)
        print(line + f"| {conflicts} | {seconds2:.3f} | {megabytes2:.1f} | {ratio:.2f} | {more:.2f} |", flush=True)
    for low, high in ((0, LOW), (LOW, HIGH)):
        part = [r for c, r in ratios if low <= c < high]
        if part:
            print(f"sets of bits with {low} to {high} conflicts: {len(part)}, geometric mean {mean_of(part):.2f}, worst {max(part):.2f}")
    if memory:
        print(f"memory of sets of bits, apart from the log: geometric mean {mean_of(memory):.2f}, worst {max(memory):.2f}")
    print(f"answers that differ: {wrong}")
    sys.exit(1 if wrong else 0)


if __name__ == "__main__":
    main()
