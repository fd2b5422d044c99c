#!/usr/bin/env python3
"""Hostile use of the built program: damaged files, want of memory, faults of the outside, small stacks, generated and mutated sources.

    bench/hostile.py PROGRAM [PART..] [--tries N] [--seed N] [--jobs N]

PROGRAM is lazic; the parts are `damage`, `damage_by_hand`, `memory`, `outside`, `stack`, `made` and `mutated`, all of them where none is named. Whatever is
done to it, the program ends by itself, with one line of the manual's forms on standard output and its status, and nothing on standard
error; no certificate of an insecure source is accepted, however one of a source like it is damaged; want of memory changes no answer but
to NO MEMORY; a made program's verdict agrees with its replays, and with what gcc's sanitizers say of it on random inputs, or clang's, where
there are these. It prints the tries by kind with their answers, and ends with status 1 where something is otherwise.
"""
import argparse
import collections
import concurrent.futures
import hashlib
import os
import pathlib
import random
import re
import resource
import shutil
import subprocess
import sys
import tempfile
import threading

ROOT = pathlib.Path(__file__).resolve().parent.parent

# The line and the status of each answer.
FORMS = [
    (0, r"ENDED|SAFE|ACCEPTED"),
    (1, r"UNSAFE (reach|overflow|zero|shift|index|missing) at \d+:\d+"),
    (2, r"UNKNOWN (turns|units|learn) \d+"),
    (3, r"REJECTED \d \w+( [\w-]+)*"),
    (4, r"NEEDS MORE"),
    (5, r"BAD VALUE \d+"),
    (6, r"BAD RUN FILE byte \d+"),
    (10, r"USAGE"),
    (11, r"SOURCE FAULT \d+ \w+ at \d+:\d+"),
    (12, r"LIMIT \d"),
    (13, r"READ FAULT"),
    (14, r""),
    (15, r"NO MEMORY"),
]
SECONDS = 20

HEAD = """extern void abort(void);
extern int __VERIFIER_nondet_int(void);
void reach_error() {}
"""
SAFE = HEAD + """int main() {
  int locked = 0;
  int opened = 0;
  while (__VERIFIER_nondet_int()) {
    if (locked) { locked = 0; opened = 1; }
    else { locked = 1; opened = 0; }
  }
  if (locked && opened) reach_error();
}
"""
# The same over cells of eight bits, since each byte of its certificate is tried.
NARROW = SAFE.replace("  int ", "  unsigned char ")
# As a producer of tasks writes it: a loop to 4, and an assertion behind it.
COUNT = '''# 1 "count.c"
extern void abort(void);
extern void __assert_fail (const char *__assertion, const char *__file,
      unsigned int __line, const char *__function)
     __attribute__ ((__nothrow__ , __leaf__)) __attribute__ ((__noreturn__));
void reach_error() { ((void) sizeof ((0) ? 1 : 0), __extension__ ({ if (0) ; else __assert_fail ("0", "count.c", 3, __extension__ __PRETTY_FUNCTION__); })); }
void __VERIFIER_assert(int cond) {
  if (!(cond)) {
    ERROR: {reach_error();abort();}
  }
  return;
}
int main() {
  unsigned int i = 0;
  while (i < 4) {
    i++;
  }
  __VERIFIER_assert(i == 4);
  return 0;
}
'''
# The same condition for all values, which needs no unit but those of one path.
UNSIGNED = HEAD + """int main() {
  unsigned int x = __VERIFIER_nondet_int();
  x = x + 1;
}
"""
# A run of this one meets the error: its certificates are those of the other one with its hash.
INSECURE = NARROW.replace("opened = 0; }", "opened = 1; }")
UNSAFE = HEAD + """int main() {
  int x = __VERIFIER_nondet_int();
  int y = __VERIFIER_nondet_int();
  if (x == 7 && y == x + 5) reach_error();
}
"""
CALLS = HEAD + """int table[4] = {1, 2, 3, 4};
int clamp(int v) { if (v < 0) return 0; if (v > 3) return 3; return v; }
int main() {
  int i = clamp(__VERIFIER_nondet_int());
  if (table[i] > 4) reach_error();
}
"""

found = collections.defaultdict(collections.Counter)
wrong = []
lock = threading.Lock()


def note(kind, answer):
    with lock:
        found[kind][re.sub(r"\d+", "N", re.sub(r"[0-9a-f]{64}", "HASH", answer))] += 1


def complain(kind, what, source=None):
    with lock:
        wrong.append(f"{kind}: {what}" + (f"\n{source}" if source else ""))


Answer = collections.namedtuple("Answer", "line status")


def answered(kind, command, source=None, seconds=SECONDS, out=None, **more):
    """Runs the program, and complains where it does not end by itself with a line of the manual; time is no fault."""
    try:
        ran = subprocess.run(command, stdin=subprocess.DEVNULL, stdout=out or subprocess.PIPE, stderr=subprocess.PIPE, timeout=seconds, **more)
    except subprocess.TimeoutExpired:
        note(kind, "no answer in time")
        return None
    text = (ran.stdout or b"").decode(errors="replace")
    line = text.removesuffix("\n")
    told = out is not None or any(ran.returncode == status and re.fullmatch(form, line) for status, form in FORMS) and (text == line + "\n" or not text)
    if ran.returncode < 0 or not told or ran.stderr:
        complain(kind, f"{command[1:3]}: status {ran.returncode}, line {line!r}, {ran.stderr[-200:]!r}", source)
    note(kind, line or f"status {ran.returncode}")
    return Answer(line, ran.returncode)


def in_all(jobs, call, items):
    with concurrent.futures.ThreadPoolExecutor(jobs) as pool:
        for ran in [pool.submit(call, *it) for it in items]:
            ran.result()


# ---- Damaged files


def damaged(content):
    """Each byte changed in two ways, and each shorter beginning."""
    for at in range(len(content)):
        for byte in {content[at] ^ 1, 48 if content[at] != 48 else 57} - {content[at]}:
            yield content[:at] + bytes([byte]) + content[at + 1 :]
    for end in range(len(content)):
        yield content[:end]


def by_hand(lines):
    """A certificate's lines damaged by hand in five ways, each with the answer that it has to have."""
    terms, formulas, logs = (next(k for k, line in enumerate(lines) if line.startswith(word)) for word in ("terms ", "map ", "logs "))
    count = int(lines[logs].split()[1])
    begins = [k for k, line in enumerate(lines) if line.startswith("log ")]
    yield lines[: terms + 1] + ["~ 4294967295"] + lines[terms + 2 :], "REJECTED 4 WrongMap term 0"
    yield lines[: formulas + 1] + ["4294967295"] + lines[formulas + 2 :], "REJECTED 4 WrongMap formula 0"
    yield lines[:logs] + [f"logs {count - 1}"] + lines[logs + 1 : begins[-1]] + ["end", ""], f"REJECTED 5 Count {count - 1} {count}"
    yield lines[: begins[0]] + ["log 1", "4294967295"] + lines[begins[1] :], "REJECTED 6 BadStep 0 0"
    yield lines[: begins[0]] + ["log 0"] + lines[begins[1] :], "REJECTED 7 NoEmpty 0"


def without_pivots(lines):
    """A certificate's lines with the first pivot changed in the first two logs that have one, the number of the first of these, and of its chain."""
    changed, found, log, chain = list(lines), [], -1, 0
    for k in range(next(k for k, line in enumerate(lines) if line.startswith("logs ")) + 1, len(lines)):
        words = lines[k].split()
        if words[:1] == ["log"]:
            log, chain = log + 1, 0
        elif words and words[0].isdigit():
            if len(words) > 1 and len(found) < 2 and log not in [it[0] for it in found]:
                found.append((log, chain))
                changed[k] = " ".join([words[0], "4294967295", *words[2:]])
            chain += 1
    assert len(found) == 2, "too few logs with pivots"
    return changed, *found[0]


def count_by_hand(program, args):
    """The certificate of a loop: accepted, cut off, of another source, and with two bad steps, by any number of workers."""
    with tempfile.TemporaryDirectory() as room:
        file, other, cert, bad = (f"{room}/{it}" for it in ("count.c", "b.c", "cert", "bad"))
        pathlib.Path(file).write_text(COUNT)
        pathlib.Path(other).write_text(UNSIGNED)
        answered("damage by hand: verify", [program, "verify", file, "--cert", cert])
        content = pathlib.Path(cert).read_bytes()
        own, its = (hashlib.sha256(it.encode()).hexdigest() for it in (COUNT, UNSIGNED))
        lines, log, chain = without_pivots(content.decode().split("\n"))
        tries = [
            (file, content, "ACCEPTED"),
            (file, content[:-1], f"REJECTED 1 Format {len(content) - 1}"),
            (other, content, f"REJECTED 2 OtherSource {own} {its}"),
            (file, b"lac 3\n", "REJECTED 1 Format 4"),
            (file, "\n".join(lines).encode(), f"REJECTED 6 BadStep {log} {chain}"),
        ]
        for checked, written, wanted in tries:
            pathlib.Path(bad).write_bytes(written)
            for workers in ("1", "2", "8", "64"):
                answer = answered("damage by hand: count", [program, "check", checked, bad, "--workers", workers])
                if answer and answer.line != wanted:
                    complain("damage by hand", f"{answer.line!r}, not {wanted!r}, by {workers} workers")


def damage_by_hand(program, args):
    count_by_hand(program, args)
    with tempfile.TemporaryDirectory() as room:
        file, cert, bad = (f"{room}/{it}" for it in ("a.c", "cert", "bad"))
        pathlib.Path(file).write_text(SAFE)
        answered("damage by hand: verify", [program, "verify", file, "--cert", cert])
        for lines, wanted in by_hand(pathlib.Path(cert).read_text().split("\n")):
            pathlib.Path(bad).write_text("\n".join(lines))
            answer = answered("damage by hand: check", [program, "check", file, bad])
            if answer and answer.line != wanted:
                complain("damage by hand", f"{answer.line!r}, not {wanted!r}")


def damage(program, args):
    for name, source, insecure in (("safe", NARROW, INSECURE), ("unsafe", UNSAFE, None), ("calls", CALLS, None)):
        with tempfile.TemporaryDirectory() as room:
            file, other, cert, values = (f"{room}/{it}" for it in ("a.c", "b.c", "cert", "run"))
            pathlib.Path(file).write_text(source)
            answered("damage: verify", [program, "verify", file, "--cert", cert, "--run", values])

            def tried(number, verb, written, content):
                bad = f"{written}{number}"
                pathlib.Path(bad).write_bytes(content)
                checked = other if verb == "check insecure" else file
                answer = answered(f"damage: {verb} {name}", [program, verb.split()[0], checked, bad])
                pathlib.Path(bad).unlink()
                if verb == "check insecure" and answer and answer.line == "ACCEPTED":
                    complain("damage", f"{name}: a certificate of an insecure source is accepted: {content[:60]!r}..")

            for verb, written in (("check", cert), ("replay", values)):
                if pathlib.Path(written).exists():
                    content = pathlib.Path(written).read_bytes()
                    in_all(args.jobs, tried, [(k, verb, written, it) for k, it in enumerate(damaged(content))])
            if insecure and pathlib.Path(cert).exists():
                pathlib.Path(other).write_text(insecure)
                answer = answered(f"damage: verify insecure {name}", [program, "verify", other])
                if not answer or not answer.line.startswith("UNSAFE"):
                    complain("damage", f"{name}: the insecure source is not unsafe")
                own, its = (hashlib.sha256(it.encode()).hexdigest().encode() for it in (source, insecure))
                content = pathlib.Path(cert).read_bytes().replace(own, its)
                in_all(args.jobs, tried, [(k, "check insecure", cert, it) for k, it in enumerate([content, *damaged(content)])])


# ---- Want of memory

SHIM = r"""
#define _GNU_SOURCE
#include <dlfcn.h>
#include <stdlib.h>
#include <errno.h>
static long left = -2;
static int fails(void) {
  if (left == -2) { char *s = getenv("FAIL_AT"); left = s ? atol(s) : -1; }
  return left >= 0 && left-- == 0;
}
void *malloc(size_t n) { static void *(*f)(size_t); if (!f) f = dlsym(RTLD_NEXT, "malloc"); return fails() ? 0 : f(n); }
void *realloc(void *p, size_t n) { static void *(*f)(void *, size_t); if (!f) f = dlsym(RTLD_NEXT, "realloc"); return fails() ? 0 : f(p, n); }
int posix_memalign(void **p, size_t a, size_t n) { static int (*f)(void **, size_t, size_t); if (!f) f = dlsym(RTLD_NEXT, "posix_memalign"); return fails() ? ENOMEM : f(p, a, n); }
void *aligned_alloc(size_t a, size_t n) { static void *(*f)(size_t, size_t); if (!f) f = dlsym(RTLD_NEXT, "aligned_alloc"); return fails() ? 0 : f(a, n); }
"""


def memory(program, args):
    """Each request in turn is refused, by a preloaded library; and the room for all is bounded."""
    if not shutil.which("gcc"):
        return
    with tempfile.TemporaryDirectory() as room:
        pathlib.Path(f"{room}/shim.c").write_text(SHIM)
        subprocess.run(["gcc", "-shared", "-fPIC", "-O1", "-o", f"{room}/shim.so", f"{room}/shim.c", "-ldl"], check=True)
        for name, source in (("safe", SAFE), ("unsafe", UNSAFE), ("calls", CALLS)):
            file = f"{room}/{name}.c"
            pathlib.Path(file).write_text(source)
            cert, values = f"{room}/{name}.cert", f"{room}/{name}.run"
            usual = answered("memory: all there", [program, "verify", file, "--cert", cert, "--run", values])
            verbs = [(["verify", file], usual)]
            for verb, written in (("check", cert), ("replay", values)):
                if pathlib.Path(written).exists():
                    verbs.append(([verb, file, written], answered("memory: all there", [program, verb, file, written])))

            def tried(words, wanted, env, limit):
                bound = (lambda: resource.setrlimit(resource.RLIMIT_AS, (limit, limit))) if limit else None
                answer = answered(f"memory: {words[0]}", [program, *words], env=env, preexec_fn=bound)
                if answer and answer.line not in (wanted.line, "NO MEMORY"):
                    complain("memory", f"{words} with {env or limit}: {answer.line!r}, not {wanted.line!r}")

            for words, wanted in verbs:
                requests = [(words, wanted, {"LD_PRELOAD": f"{room}/shim.so", "FAIL_AT": str(n)}, 0) for n in range(args.tries // 10)]
                in_all(args.jobs, tried, requests + [(words, wanted, {}, mebi << 20) for mebi in range(8, 136, 4)])


# ---- Faults of the outside


def forbidden(program, room, file):
    """A source that may not be read, and a folder that may not be written into. Root may do both, so the program is nobody's then."""
    others = {"user": 65534} if os.geteuid() == 0 else {}
    hidden, closed = f"{room}/hidden.c", f"{room}/closed"
    pathlib.Path(hidden).write_text(SAFE)
    os.mkdir(closed)
    for path, mode in ((room, 0o755), (file, 0o644), (hidden, 0o000), (closed, 0o555)):
        os.chmod(path, mode)
    for kind, words, status in (("no permission to read", ["verify", hidden], 13), ("no permission to write", ["verify", file, "--cert", f"{closed}/cert"], 14)):
        answer = answered(f"outside: {kind}", [program, *words], **others)
        if answer and answer.status != status:
            complain("outside", f"{kind}: status {answer.status}, not {status}")


def outside(program, args):
    with tempfile.TemporaryDirectory() as room:
        file = f"{room}/a.c"
        pathlib.Path(file).write_text(SAFE)
        with open("/dev/full", "wb") as full:
            if answered("outside: a full device", [program, "verify", file], out=full).status != 14:
                complain("outside", "a full device is not status 14")
        closed = subprocess.run(["sh", "-c", f'exec "$1" verify "$2" >&-', "sh", program, file], stderr=subprocess.PIPE)
        note("outside: a closed output", f"status {closed.returncode}")
        if closed.returncode != 14:
            complain("outside", f"a closed output is status {closed.returncode}")
        wanted = [
            ("a folder as a source", ["verify", room], 13),
            ("no such source", ["verify", f"{room}/none.c"], 13),
            ("a folder as a certificate", ["check", file, room], 13),
            ("a certificate into a folder", ["verify", file, "--cert", room], 14),
            ("a certificate into no folder", ["verify", file, "--cert", f"{room}/none/cert"], 14),
            ("a name through a file", ["verify", f"{file}/a.c"], 13),
            ("a device without end", ["verify", "/dev/zero"], 12),
            ("an empty device", ["verify", "/dev/null"], 11),
        ]
        for kind, words, status in wanted:
            answer = answered(f"outside: {kind}", [program, *words])
            if answer and answer.status != status:
                complain("outside", f"{kind}: status {answer.status}, not {status}")
        forbidden(program, room, file)
        pipe = f"{room}/pipe"
        subprocess.run(["mkfifo", pipe], check=True)
        writer = subprocess.Popen(["sh", "-c", f'cat "$1" > "$2"', "sh", file, pipe])
        answer = answered("outside: a pipe as a source", [program, "verify", pipe])
        writer.wait()
        if answer and answer.line != "SAFE":
            complain("outside", f"a pipe as a source: {answer.line!r}")


# ---- Small stacks, and sources at the limits


def large():
    deep = "(" * 199 + "1" + ")" * 199
    yield "brackets", f"int main(){{int x={deep};}}"
    yield "one bracket more", f"int main(){{int x=({deep});}}"
    yield "blocks", "int main(){" + "{" * 190 + "}" * 190 + "}"
    yield "open brackets", "int main(){int x=" + "(" * 190_000
    yield "ifs without end", "int main(){" + "if(1)" * 60_000 + ";}"
    yield "a chain of functions", "\n".join(["int f0(){return 1;}"] + [f"int f{k}(){{return f{k - 1}();}}" for k in range(1, 15_000)]) + "\nint main(){return f14999();}"
    yield "a long sum", "int main(){unsigned x=0;x=" + "+".join(["x"] * 60_000) + ";}"
    yield "many statements", "int main(){unsigned x=0;" + "x=x+1;" * 30_000 + "}"
    yield "most tokens", "int main(){" + ";" * 199_990 + "}"
    yield "too many tokens", "int main(){" + ";" * 200_001 + "}"
    arrays = "".join(f"int a{k}[1024];" for k in range(63))
    yield "most elements", f"{arrays}int b[1023];int main(){{int x=a3[3];return x;}}"
    yield "too many elements", f"{arrays}int b[1024];int main(){{int x=a3[3];return x;}}"
    yield "an array too long", "int a[1025];int main(){return a[3];}"
    yield "most bytes", "int main(){}" + " " * ((1 << 20) - 12)
    yield "too many bytes", "int main(){}" + " " * ((1 << 20) - 11)
    yield "many cases", "int main(){int x=0;switch(x){" + "".join(f"case {k}:x={k};" for k in range(20_000)) + "}}"
    yield "nothing", ""
    yield "zeros", "\0" * 1000


def stack(program, args):
    with tempfile.TemporaryDirectory() as room:

        def tried(name, source, verb, mebi):
            file = f"{room}/{verb}{mebi}{name.replace(' ', '_')}.c"
            pathlib.Path(file).write_text(source)
            pathlib.Path(f"{file}.run").write_text("run 1\n")
            words = [verb, file, f"{file}.run"] if verb == "replay" else [verb, file, "--units", "200"]
            bound = lambda: resource.setrlimit(resource.RLIMIT_STACK, (mebi << 20, mebi << 20))
            answered(f"stack of {mebi} MiB: {verb}", [program, *words], seconds=60, preexec_fn=bound)

        in_all(args.jobs, tried, [(name, source, verb, mebi) for name, source in large() for verb in ("verify", "replay") for mebi in (8, 1)])


# ---- Made and mutated sources


class Maker:
    """Programs of the profile: no loop runs more than a few times unless an input says so."""

    def __init__(self, seed):
        self.dice = random.Random(seed)
        self.kinds = ["int", "unsigned", "signed char", "unsigned char", "short", "long", "_Bool", "long long"]

    def expression(self, depth):
        pick = self.dice.randrange
        if depth == 0 or pick(5) == 0:
            return self.dice.choice(["x", "y", "z", "a[%d]" % pick(4), str(pick(12)), "-%d" % pick(9), "2147483647", "7u", "3L", "'c'"])
        one, two = self.expression(depth - 1), self.expression(depth - 1)
        form = pick(12)
        if form < 7:
            return f"({one} {self.dice.choice('+ - * & | ^ < > <= >= == != && ||'.split())} {two})"
        if form == 7:
            return f"({one} {self.dice.choice('/ % << >>'.split())} {two})"
        if form == 8:
            return f"({self.dice.choice('! ~ -'.split())}{one})"
        if form == 9:
            return f"(({self.dice.choice(self.kinds)}){one})"
        if form == 10:
            return f"({one} ? {two} : {self.expression(depth - 1)})"
        return f"pick({one}, {two})"

    def target(self):
        return self.dice.choice(["x", "y", "z", "a[%d]" % self.dice.randrange(4), "a[x & 3]"])

    def statement(self, depth):
        pick = self.dice.randrange
        form = pick(13) if depth else pick(4)
        if form == 0:
            return f"{self.target()} {self.dice.choice(['+=', '-=', '^=', '|=', '&='])} {self.expression(1)};"
        if form == 1:
            return f"{self.dice.choice(['x', 'y', 'z'])}{self.dice.choice(['++', '--'])};"
        if form < 4:
            return f"{self.target()} = {self.expression(2)};"
        if form == 4:
            return f"x = __VERIFIER_nondet_int() & {self.dice.choice([1, 3, 7, 15])};"
        if form == 5:
            return f"if ({self.expression(2)}) reach_error();"
        if form < 9:
            return f"if ({self.expression(2)}) {{ {self.statements(depth - 1)} }}" + (f" else {{ {self.statements(depth - 1)} }}" if pick(2) else "")
        if form == 9:
            name = f"i{pick(1000)}"
            return f"for (int {name} = 0; {name} < {pick(5)}; {name}++) {{ {self.statements(depth - 1)} }}"
        if form == 10:
            return f"switch ({self.expression(1)}) {{ case 1: {self.statements(depth - 1)} case 2: {self.statements(depth - 1)} break; default: {self.statements(depth - 1)} }}"
        if form == 11:
            return f"while (__VERIFIER_nondet_int() & 1) {{ {self.statements(depth - 1)} }}"
        return f"do {{ {self.statements(depth - 1)} }} while (0);"

    def statements(self, depth):
        return " ".join(self.statement(depth) for _ in range(1 + self.dice.randrange(3)))

    def program(self):
        kinds = [self.dice.choice(self.kinds) for _ in range(4)]
        return (
            HEAD
            + f"{kinds[3]} a[4] = {{1, 2}};\nint pick(int v, int w) {{ if (v > w) return v; return w; }}\nint main() {{\n"
            + f"  {kinds[0]} x = 1; {kinds[1]} y = 2; {kinds[2]} z = 3;\n  "
            + "\n  ".join(self.statement(2) for _ in range(2 + self.dice.randrange(5)))
            + "\n  return 0;\n}\n"
        )


# What a compiler's program draws, and how it says that it met an error.
DRIVER = """#include <stdio.h>
#include <stdlib.h>
int __VERIFIER_nondet_int(void) { int v; if (scanf("%d", &v) != 1) exit(3); return v; }
"""


def sanitizer_says(compiler, room, source, inputs):
    """Whether the compiler's program, with its sanitizers, reaches an error on these inputs; nothing where it says neither."""
    c = source.replace("void reach_error() {}", "#include <stdlib.h>\nvoid reach_error() { exit(9); }").replace("extern void abort(void);\n", "")
    pathlib.Path(f"{room}/g.c").write_text(DRIVER + c)
    made = subprocess.run([compiler, "-fsanitize=undefined", "-fno-sanitize-recover=all", "-o", f"{room}/g", f"{room}/g.c"], capture_output=True)
    # An overflow between constants is folded away by gcc with a warning, and its sanitizer sees none.
    if made.returncode or (compiler == "gcc" and b"-Woverflow" in made.stderr):
        return None
    try:
        ran = subprocess.run([f"{room}/g"], input="\n".join(map(str, inputs)).encode(), capture_output=True, timeout=5)
    except subprocess.TimeoutExpired:
        return None
    return True if ran.returncode in (9, 1) else False if ran.returncode == 0 else None


def beside_sanitizers(room, source, inputs, meets):
    """Which sanitizer says as replay does whether the run meets an error. What gcc computes in the narrower type that it is stored in
    overflows unseen, so clang's is asked where gcc's says otherwise."""
    says = sanitizer_says("gcc", room, source, inputs)
    if says is None or says == meets:
        return None if says is None else "as gcc's says"
    second = sanitizer_says("clang", room, source, inputs) if shutil.which("clang") else None
    return "as clang's says, not gcc's" if second == meets else "otherwise"


def made(program, args):
    def tried(seed):
        source = Maker(seed).program()
        dice = random.Random(-seed)
        with tempfile.TemporaryDirectory() as room:
            file, cert, values = (f"{room}/{it}" for it in ("a.c", "cert", "run"))
            pathlib.Path(file).write_text(source)
            words = [program, "verify", file, "--model", "lp64", "--units", "300", "--learn", "2000", "--cert", cert, "--run", values]
            verdict = answered("made: verify", words, source)
            if verdict is None:
                return
            if verdict.line == "SAFE":
                check = answered("made: check", [program, "check", file, cert, "--model", "lp64", "--workers", str(dice.choice([1, 2, 8]))], source, 60)
                if check and check.line != "ACCEPTED":
                    complain("made", f"seed {seed}: its own certificate is {check.line!r}", source)
            if verdict.line.startswith("UNSAFE"):
                replay = answered("made: replay", [program, "replay", file, values, "--model", "lp64"], source)
                if replay and replay.line != verdict.line:
                    complain("made", f"seed {seed}: {verdict.line!r} replays as {replay.line!r}", source)
            for _ in range(3):
                inputs = [dice.choice([0, 1, 2, 7, -1, 2147483647, -2147483648, dice.randrange(-100, 100)]) for _ in range(40)]
                pathlib.Path(values).write_text("run 1\n" + "".join(f"{it}\n" for it in inputs))
                replay = answered("made: random inputs", [program, "replay", file, values, "--model", "lp64"], source)
                if replay is None:
                    continue
                if replay.line.startswith("UNSAFE") and verdict.line == "SAFE":
                    complain("made", f"seed {seed}: SAFE, but {replay.line!r} on {inputs}", source)
                if seed % 10 == 0 and shutil.which("gcc") and replay.line.split()[0] in ("ENDED", "UNSAFE"):
                    found_by = beside_sanitizers(room, source, inputs, replay.line.startswith("UNSAFE"))
                    if found_by:
                        note("made: beside sanitizers", found_by)
                    if found_by == "otherwise":
                        complain("made", f"seed {seed}: the sanitizers say otherwise than replay, {replay.line!r}, on {inputs}", source)

    in_all(args.jobs, tried, [(args.seed + k,) for k in range(args.tries)])


TOKEN = re.compile(rb"\w+|\s+|[^\w\s]")


def mutated_text(dice, texts):
    tokens = TOKEN.findall(dice.choice(texts))
    for _ in range(1 + dice.randrange(4)):
        at = dice.randrange(len(tokens))
        form = dice.randrange(6)
        if form == 0:
            del tokens[at]
        elif form == 1:
            tokens.insert(at, tokens[at])
        elif form == 2:
            other = dice.randrange(len(tokens))
            tokens[at], tokens[other] = tokens[other], tokens[at]
        elif form == 3:
            tokens[at] = dice.choice(dice.choice([tokens, TOKEN.findall(dice.choice(texts))]))
        elif form == 4:
            tokens[at] = bytes([dice.randrange(256)])
        else:
            tokens[at] = dice.choice([b"0", b"1", b"-1", b"2147483647", b"4294967296", b"18446744073709551615", b"goto", b"switch", b"[", b"}", b"\\", b"'", b'"', b"#"])
        if not tokens:
            break
    return b"".join(tokens)


def mutated(program, args):
    texts = [it.read_bytes() for folder in ("examples", "bench/tasks") for it in sorted((ROOT / folder).glob("*.c"))]

    def tried(seed):
        source = mutated_text(random.Random(seed), texts)
        with tempfile.TemporaryDirectory() as room:
            file, values = f"{room}/a.c", f"{room}/run"
            pathlib.Path(file).write_bytes(source)
            verdict = answered("mutated: verify", [program, "verify", file, "--units", "300", "--learn", "2000", "--run", values], source)
            if verdict and verdict.line.startswith("UNSAFE"):
                replay = answered("mutated: replay", [program, "replay", file, values], source)
                if replay and replay.line != verdict.line:
                    complain("mutated", f"seed {seed}: {verdict.line!r} replays as {replay.line!r}", source)

    in_all(args.jobs, tried, [(args.seed + k,) for k in range(args.tries)])


PARTS = {it.__name__: it for it in (damage, damage_by_hand, memory, outside, stack, made, mutated)}


def main():
    words = argparse.ArgumentParser(description=__doc__.splitlines()[0])
    words.add_argument("program")
    words.add_argument("parts", nargs="*", help=", ".join(PARTS))
    words.add_argument("--tries", type=int, default=10_000)
    words.add_argument("--seed", type=int, default=1)
    words.add_argument("--jobs", type=int, default=2)
    args = words.parse_args()
    program = str(pathlib.Path(args.program).resolve())
    if unknown := [it for it in args.parts if it not in PARTS]:
        words.error(f"no such part: {unknown[0]}")
    for name in args.parts or PARTS:
        PARTS[name](program, args)
    for kind in sorted(found):
        print(f"{kind}: {sum(found[kind].values())} tries: " + ", ".join(f"{line} {count}" for line, count in found[kind].most_common()))
    for it in wrong[:40]:
        print(f"OTHERWISE {it}")
    print(f"{sum(sum(it.values()) for it in found.values())} tries, {len(wrong)} otherwise")
    return 1 if wrong else 0


if __name__ == "__main__":
    sys.exit(main())
