#!/usr/bin/env python3
"""Replays deep and long programs by the built program on a stack of 8 MB, and compares each line and status with the one that
is written here. It prints time and memory of each, and ends with status 1 where an answer is another one.

Run it at the root after `rt run` in crates/lazic_program.
"""
import os, resource, subprocess, sys, tempfile

ROOT = os.path.dirname(os.path.dirname(os.path.abspath(__file__)))
PROGRAM = os.path.join(ROOT, "crates/lazic_program/out/lazic_program")
STACK = 8 << 20

# As many functions as 200,000 tokens hold, where each of them calls the one before.
CHAIN = 19_999


def chain(first):
    """Line k + 1 has the function fk, which calls the one on the line before; the first one's body is given."""
    lines = ["void f0(){" + first + "}"]
    lines += [f"void f{k}(){{f{k - 1}();}}" for k in range(1, CHAIN)]
    return "\n".join(lines) + f"\nint main(){{f{CHAIN - 1}();}}\n"


def turned_chain():
    """The callers stand before the functions that they call, which are declared at first: half as many."""
    half = CHAIN // 2
    lines = [f"void f{k}();" for k in range(half)]
    lines += [f"void f{k}(){{f{k + 1}();}}" for k in range(half - 1)] + [f"void f{half - 1}(){{}}"]
    return "\n".join(lines) + "\nint main(){f0();}\n"


def blocks(depth, times):
    """Line k + 2 has so many blocks in each other, the last line's with the error inside."""
    line = "{" * depth + ";" + "}" * depth
    last = "{" * depth + "reach_error();" + "}" * depth
    return "void reach_error(){}\nint main(){\n" + (line + "\n") * times + last + "\n}\n"


def conditions(depth, times):
    line = "if(x)" * depth + "y=y+1;"
    return "int main(){int x=1;int y=0;\n" + (line + "\n") * times + f"return 1/(y-{times});}}\n"


def brackets(depth, times):
    line = "x=" + "(x+" * depth + "1" + ")" * depth + ";"
    return "unsigned x=1;int main(){\n" + (line + "\n") * times + "}\n"


def loop(turns):
    return f"void reach_error(){{}}\nint main(){{unsigned i=0;\nwhile(i<{turns - 1})i++;\nreach_error();}}\n"


# The exclusive or of a million values is 7 where they are a 6, half of a million zeros, and an odd number of ones.
DRAWS = """int __VERIFIER_nondet_int();void reach_error(){}
int main(){int i=0;int s=0;
while(i<1000000){s=s^__VERIFIER_nondet_int();i++;}
if(s==7)reach_error();}
"""

# The program, the words behind its names, the values, the status and the line.
ROWS = {
    "a chain of 20,000 functions, with main": (chain(""), [], [], 0, "ENDED"),
    "the same, with an error in the first one": (chain("1/0;"), [], [], 1, "UNSAFE zero at 1:12"),
    "the same, out of turns in the last one": (chain(""), ["--turns", str(CHAIN - 1)], [], 2, f"UNKNOWN turns {CHAIN - 1}"),
    "a chain of functions that are called before they are defined": (turned_chain(), [], [], 0, "ENDED"),
    "180 blocks in each other, 500 times": (blocks(180, 500), [], [], 1, "UNSAFE reach at 503:181"),
    "180 conditions in each other, 250 times": (conditions(180, 250), [], [], 1, "UNSAFE zero at 252:9"),
    "90 brackets in each other, 500 times": (brackets(90, 500), [], [], 0, "ENDED"),
    "10,000,000 turns of a loop": (loop(10_000_000), [], [], 1, "UNSAFE reach at 4:1"),
    "10,000,001 turns of a loop": (loop(10_000_001), [], [], 2, "UNKNOWN turns 10000000"),
    "a loop without end": ("int main(){for(;;);}\n", [], [], 2, "UNKNOWN turns 10000000"),
    "a million values": (
        DRAWS,
        [],
        [6] + [k % 2 for k in range(999_999)],
        1,
        "UNSAFE reach at 4:9",
    ),
}


def small_stack():
    resource.setrlimit(resource.RLIMIT_STACK, (STACK, STACK))


def run(name, run_file, words):
    """The line, the status, the user time in seconds and the most memory in KB of one run."""
    process = subprocess.Popen([PROGRAM, "replay", name, run_file] + words, stdout=subprocess.PIPE, preexec_fn=small_stack)
    line = process.stdout.read().decode().strip()
    _, status, usage = os.wait4(process.pid, 0)
    process.returncode = os.waitstatus_to_exitcode(status)
    return line, process.returncode, usage.ru_utime, usage.ru_maxrss


def main():
    if not os.path.exists(PROGRAM):
        sys.exit("build it first: rt run in crates/lazic_program")
    others = 0
    with tempfile.TemporaryDirectory() as folder:
        name, run_file = os.path.join(folder, "a.c"), os.path.join(folder, "a.run")
        for what, (source, words, values, status, line) in ROWS.items():
            with open(name, "w") as file:
                file.write(source)
            with open(run_file, "w") as file:
                file.write("run 1\n" + "".join(f"{v}\n" for v in values))
            said, ended, time, memory = run(name, run_file, words)
            print(f"{what}: {len(source):,} bytes, {time:.2f} s, {memory / 1024:.0f} MB, {said}")
            if (said, ended) != (line, status):
                print(f"    wanted {line!r} with status {status}, not {said!r} with status {ended}")
                others += 1
    sys.exit(1 if others else 0)


main()
