#!/usr/bin/env python3
"""Tries the witnesses that `lazic verify --witness` writes: invariants on random runs of gcc's programs, targets by their places.

    bench/witness.py PROGRAM [FOLDER..] [--seconds N] [--runs N] [--visits N] [--seed N] [--jobs N]

PROGRAM is lazic. Each C program below the folders (bench/tasks where none is named) is verified under the model lp64, so that gcc's types
are those of the verification, for so many seconds at most (20). The witness is read by PyYAML and has to be of this source. An invariant
has to stand at a `while` or `for`; gcc compiles the source with each invariant tested where its loop's condition begins, that is at each
visit of the loop, and the program is run so often (20), each time on random values and over so many visits at most (20,000). A target has
to stand at the word `reach_error`. It prints a line for each invariant that was false, and how many were tried; it ends with status 1 where
something is otherwise. It wants gcc and PyYAML.
"""
import argparse
import collections
import concurrent.futures
import hashlib
import pathlib
import random
import re
import subprocess
import sys
import tempfile

import yaml

ROOT = pathlib.Path(__file__).resolve().parent.parent
TYPES = {
    "bool": "_Bool", "char": "char", "uchar": "unsigned char", "short": "short", "ushort": "unsigned short", "int": "int",
    "uint": "unsigned int", "unsigned": "unsigned int", "long": "long", "ulong": "unsigned long", "longlong": "long long",
    "ulonglong": "unsigned long long",
}  # fmt: skip
# Before the source: the test of an invariant. The names of the host's library are left to the source.
FRONT = """#define lazic_visit(number, expression) lazic_count(number, (expression) ? 1 : 0)
int lazic_count(int number, int holds);
"""
BEHIND = """
extern int printf(const char *, ...);
extern void _exit(int);
extern int atoi(const char *);
extern char *getenv(const char *);
static unsigned long long lazic_state, lazic_visits, lazic_most;
__attribute__((constructor)) static void lazic_begin(void) {
  lazic_state = 88172645463325252ull + 7919ull * atoi(getenv("LAZIC_SEED"));
  lazic_most = atoi(getenv("LAZIC_VISITS"));
}
static unsigned long long lazic_random(void) {
  lazic_state ^= lazic_state << 13; lazic_state ^= lazic_state >> 7; lazic_state ^= lazic_state << 17;
  return lazic_state * 2685821657736338717ull;
}
unsigned long long lazic_value(void) {
  unsigned long long chance = lazic_random();
  switch (chance >> 61) {
    case 0: return (chance >> 8) % 2;
    case 1: return (chance >> 8) % 5;
    case 2: return (chance >> 8) % 33;
    case 3: return 0 - (chance >> 8) % 17;
    case 4: return (1ull << (chance >> 8) % 64) - (chance >> 20) % 2;
    default: return lazic_random();
  }
}
int lazic_count(int number, int holds) {
  if (!holds) { printf("FALSE %d after %llu\\n", number, lazic_visits); __builtin_trap(); }
  if (++lazic_visits > lazic_most) _exit(0);
  return 1;
}
"""
found = collections.Counter()


def offset_of(text, line, column):
    return sum(len(it) for it in text.split(b"\n")[: line - 1]) + line - 1 + column - 1


def behind_word(text, at):
    """The place behind the `(` that follows a keyword."""
    return text.index(b"(", at) + 1


def first_semicolon(text, at):
    """The place behind the first `;` of a `for` whose `(` stands before this place."""
    masked = re.sub(rb"//[^\n]*|/\*.*?\*/|'(\\.|[^'\\])*'|\"(\\.|[^\"\\])*\"", lambda it: b" " * len(it.group()), text, flags=re.S)
    depth = 0
    while masked[at : at + 1] != b";" or depth:
        depth += {b"(": 1, b"[": 1, b"{": 1, b")": -1, b"]": -1, b"}": -1}.get(masked[at : at + 1], 0)
        at += 1
    return at + 1


def with_tests(text, invariants):
    """The source with each invariant tested where its loop's condition begins."""
    places = []
    for number, it in enumerate(invariants):
        at = offset_of(text, it["location"]["line"], it["location"]["column"])
        test = f"lazic_visit({number}, ({it['value']}))".encode()
        if re.match(rb"while\b", text[at:]):
            places.append((behind_word(text, at), test + b", "))
        elif re.match(rb"for\b", text[at:]):
            start = first_semicolon(text, behind_word(text, at))
            is_empty = re.match(rb"\s*;", text[start:])
            places.append((start, test + (b"" if is_empty else b", ")))
        else:
            raise ValueError(f"no loop at {it['location']}")
    for at, test in sorted(places, reverse=True):
        text = text[:at] + test + text[at:]
    return text


def drawn(text):
    """Definitions of the functions that draw values, as the source declares them."""
    lines = []
    for result, name in sorted(set(re.findall(r"(\w[\w ]*?)\s*\b__VERIFIER_nondet_(\w+)\s*\(\s*(?:void)?\s*\)\s*;", text.decode(errors="replace")))):
        result = re.sub(r"\b(extern|return|__extension__)\b", "", result).strip()
        if name in TYPES and result and re.fullmatch(r"[\w ]+", result):
            lines.append(f"{result} __VERIFIER_nondet_{name}(void) {{ return ({TYPES[name]}) lazic_value(); }}\n")
    return "".join(lines)


def tried(room, text, invariants, args, complain):
    source, built = f"{room}/tested.c", f"{room}/tested"
    abort = "void abort(void) { _exit(0); }\n"
    fails = "void __assert_fail(const char *a, const char *b, unsigned int c, const char *d) { _exit(3); }\n" if b"__assert_fail" in text else ""
    pathlib.Path(source).write_bytes(FRONT.encode() + with_tests(text, invariants) + (BEHIND + abort + fails + drawn(text)).encode())
    made = subprocess.run(["gcc", "-w", "-O0", "-fwrapv", "-fsigned-char", "-fno-builtin", "-o", built, source], capture_output=True, text=True)
    if made.returncode:
        found["not compiled by gcc"] += 1
        return complain("gcc: " + made.stderr[:300])
    for number in range(args.runs):
        seed = random.Random(args.seed * 1000 + number).randrange(1 << 30)
        try:
            ran = subprocess.run([built], env={"LAZIC_SEED": str(seed), "LAZIC_VISITS": str(args.visits)}, capture_output=True, text=True, timeout=20)
        except subprocess.TimeoutExpired:
            found["runs out of time"] += 1
            continue
        found["runs"] += 1
        if "FALSE" in ran.stdout:
            found["invariants that were false"] += 1
            return complain(f"seed {seed}: {ran.stdout.strip()}")


def is_of(entry, kind, file, text):
    task = entry["metadata"]["task"]
    hashes = {str(file): hashlib.sha256(text).hexdigest()}
    return entry["entry_type"] == kind and task["input_files"] == [str(file)] and task["input_file_hashes"] == hashes and task["data_model"] == "LP64"


def judge(args, file):
    text, wrong = file.read_bytes(), []
    complain = lambda what: wrong.append(f"{file}: {what}")
    with tempfile.TemporaryDirectory() as room:
        witness = pathlib.Path(room, "witness.yml")
        try:
            ran = subprocess.run([args.program, "verify", file, "--model", "lp64", "--witness", witness], capture_output=True, text=True, timeout=args.seconds)
        except subprocess.TimeoutExpired:
            found["no answer in time"] += 1
            return wrong
        line = ran.stdout.strip()
        found[re.sub(r"\d+", "N", line)] += 1
        if line != "SAFE" and not line.startswith("UNSAFE reach"):
            if witness.exists():
                complain(f"a witness of {line}")
            return wrong
        (entry,) = yaml.safe_load(witness.read_text())
        if not is_of(entry, "invariant_set" if line == "SAFE" else "violation_sequence", file, text):
            complain("another witness")
        elif line == "SAFE":
            invariants = [it["invariant"] for it in entry["content"]]
            found["invariants"] += len(invariants)
            found["invariants other than 1"] += sum(it["value"] != "1" for it in invariants)
            tried(room, text, invariants, args, complain)
        else:
            at = entry["content"][0]["segment"][0]["waypoint"]["location"]
            if not re.match(rb"reach_error\b", text[offset_of(text, at["line"], at["column"]) :]) or line != f"UNSAFE reach at {at['line']}:{at['column']}":
                complain(f"a target at {at}")
            found["targets"] += 1
    return wrong


def main():
    parser = argparse.ArgumentParser()
    parser.add_argument("program")
    parser.add_argument("folders", nargs="*", default=[str(ROOT / "bench" / "tasks")])
    parser.add_argument("--seconds", type=float, default=20)
    parser.add_argument("--runs", type=int, default=20)
    parser.add_argument("--visits", type=int, default=20000)
    parser.add_argument("--seed", type=int, default=1)
    parser.add_argument("--jobs", type=int, default=1)
    args = parser.parse_args()
    files = sorted(file for folder in args.folders for file in pathlib.Path(folder).rglob("*.[ci]"))
    with concurrent.futures.ThreadPoolExecutor(args.jobs) as pool:
        wrong = [it for some in pool.map(lambda file: judge(args, file), files) for it in some]
    for it in wrong:
        print(it)
    for what, count in sorted(found.items()):
        print(f"{count}\t{what}")
    print(f"{len(files)}\tprograms, {len(wrong)} complaints")
    sys.exit(1 if wrong else 0)


if __name__ == "__main__":
    main()
