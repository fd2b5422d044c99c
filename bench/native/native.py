#!/usr/bin/env python3
"""Compiles a program crate and its libraries as plain Rust, without contracts and proofs: for measuring, profiling and trying ideas.

    bench/native/native.py OUT PROGRAM             compiles crates/PROGRAM into OUT/PROGRAM
    bench/native/native.py OUT SKETCH.rs CRATE..   compiles a program in plain Rust over these crates into OUT/SKETCH

What it makes is no product: nothing is proved of it, and the gate doesn't know it. It wants rustc. Rattle is Rust but for its clauses and
ghost items, which are cut out here, and for its standard library, whose calls that take memory answer results: `standard.rs` has those
that the crates use, and a file of its name each crate of the kit. A whole program takes a minute; later runs compile what changed and what stands above it.
"""
import pathlib
import re
import subprocess
import sys

HERE = pathlib.Path(__file__).resolve().parent
ROOT = HERE.parent.parent
RUSTC = ["rustc", "--edition", "2021", "-O", "-g"]
# Crates of the kit that are written anew here, and crates of the repository that stand on others of the kit.
KIT = ("clap", "sha2", "hex", "uuid", "jiff", "memchr")
OWN = ("work_claims",)
CLAUSE = re.compile(r"^[ \t]*(?:requires|ensures)\b[^{\n]*\{", re.M)
MODEL = re.compile(r"^[ \t]*impl(?:<[^>]*>)? (?:std::marker::)?Model for [^{]*\{", re.M)
GHOST = re.compile(r"^[ \t]*(?:pub(?:\([a-z]+\))? )?ghost \w+(?: =|:) \{", re.M)


def behind(text, at):
    """The place behind the block whose brace opens here."""
    depth = 0
    while True:
        depth += {"{": 1, "}": -1}.get(text[at], 0)
        at += 1
        if depth == 0:
            return at


def without(text, form, ends=()):
    """The text without the blocks that begin so, each with one of these characters that may stand behind it."""
    kept, at = [], 0
    while found := form.search(text, at):
        kept.append(text[at : found.start()])
        at = behind(text, text.index("{", found.end() - 1))
        at += text[at : at + 1] in ends
    return "".join([*kept, text[at:]])


def derive(found):
    names = [it.strip() for it in found.group(1).split(",")]
    names = [it for it in names if it not in ("Drop", "Error")]
    return f"#[derive({', '.join(names)})]" if names else ""


def translated(text, is_root, is_main):
    """A file of Rattle as one of Rust."""
    text = re.sub(r"^[ \t]*ghost use [^;]*;\n?", "", text, flags=re.M)
    text = without(without(without(text, MODEL), GHOST, (";", ",")), CLAUSE)
    text = re.sub(r"^[ \t]*#!?\[(?:tactic|cycle|error)\([^\]]*\)\]\n", "", text, flags=re.M)
    text = re.sub(r"^use thiserror::Error;\n", "", text, flags=re.M)
    text = re.sub(r"#\[derive\(([^)]*)\)\]", derive, text)
    text = re.sub(r"\s*\+ Drop\b", "", text)
    text = re.sub(r"(<(?:\w+, )*\w+): Drop>", r"\1>", text)
    text = re.sub(r"(\btype \w+): Drop;", r"\1;", text)
    text = re.sub(r"\+ Clone\b", "+ CloneR", text)
    text = text.replace("Box::new(", "rstd::box_new(").replace("Box::into_inner(", "rstd::box_into(")
    text = re.sub(r"\.to_vec\(", ".to_vec_r(", text)
    text = re.sub(r"\.collect\((\w)", r".collect_r(\1", text)
    text = text.replace("fmt<W: fmt::Write>(", "fmt(").replace("fmt::Formatter<W>", "fmt::Formatter<'_>")
    text = re.sub(r"\bstd::", "rstd::", text)
    text = re.sub(r"(?<![:\w])(vec|println|eprintln|format|prove)!", r"rstd::\1!", text)
    if is_main:
        text = re.sub(
            r"fn main\((\w+): HostRuntime\)( -> [\w:]+)?",
            r"fn main()\2 { run_main(HostRuntime) }\nfn run_main(\1: HostRuntime)\2",
            text,
        )
    lines = text.split("\n")
    head = next((at for at, line in enumerate(lines) if line.strip() and not line.startswith(("//!", "#!["))), len(lines))
    docs = [line for line in lines[:head] if not line.startswith("#![")]
    allowed = ["#![allow(warnings)]"] if is_root else []
    return "\n".join([*allowed, *docs, "#[allow(unused_imports)] use rstd::prelude::*;", *lines[head:]])


def read_crates():
    rows = (line.split("#")[0] for line in (ROOT / "crates.txt").read_text().splitlines())
    named = {row.partition(":")[0].split()[0]: row.partition(":")[2].split() for row in rows if ":" in row}
    return {name: [it for it in below if it in named] for name, below in named.items()}


def in_order(crates, names, found=None):
    """The crates with all below them, lowest first."""
    found = [] if found is None else found
    for name in names:
        if name not in found:
            in_order(crates, crates[name], found)
            found.append(name)
    return found


def written(crate, out):
    """Translates a crate, and answers whether a file of it changed."""
    changed = False
    source = ROOT / "crates" / crate / "src"
    for file in source.rglob("*.rt"):
        to = out / "src" / crate / file.relative_to(source).with_suffix(".rs")
        to.parent.mkdir(parents=True, exist_ok=True)
        is_root = file.parent == source and file.stem in ("lib", "main")
        text = translated(file.read_text(), is_root, is_root and file.stem == "main")
        if not to.exists() or to.read_text() != text:
            to.write_text(text)
            changed = True
    return changed


def compile_one(root, to, kind, name, libraries, out):
    externs = [word for it in ["rstd", *(() if name in KIT else KIT), *libraries] for word in ("--extern", f"{it}={out}/lib{it}.rlib")]
    ran = subprocess.run([*RUSTC, "--crate-type", kind, "--crate-name", name, "-L", out, *externs, "-o", to, root], capture_output=True, text=True)
    if ran.returncode:
        sys.exit(f"{name}:\n{ran.stderr[:4000]}")


def main(out, program, *libraries):
    out = pathlib.Path(out)
    out.mkdir(parents=True, exist_ok=True)
    crates, fresh = read_crates(), set()
    standard = out / "librstd.rlib"
    if not standard.exists() or standard.stat().st_mtime < (HERE / "standard.rs").stat().st_mtime:
        subprocess.run([*RUSTC, "--crate-type", "rlib", "--crate-name", "rstd", "-o", standard, HERE / "standard.rs"], check=True)
        fresh.add("rstd")
    is_sketch = program.endswith(".rs")
    for kept in KIT:
        if not (out / f"lib{kept}.rlib").exists() or "rstd" in fresh:
            compile_one(HERE / f"{kept}.rs", out / f"lib{kept}.rlib", "rlib", kept, [], out)
    for crate in in_order(crates, libraries if is_sketch else [program]):
        is_main = (ROOT / "crates" / crate / "src" / "main.rt").exists()
        to = out / (crate if is_main else f"lib{crate}.rlib")
        root = HERE / f"{crate}.rs" if crate in OWN else out / "src" / crate / ("main.rs" if is_main else "lib.rs")
        if written(crate, out) or not to.exists() or fresh.intersection(["rstd", *crates[crate]]):
            fresh.add(crate)
            compile_one(root, to, "bin" if is_main else "rlib", crate, crates[crate], out)
            print(f"compiled {crate}", flush=True)
    if is_sketch:
        name = pathlib.Path(program).stem
        compile_one(program, out / name, "bin", name, in_order(crates, libraries), out)


if __name__ == "__main__":
    main(*sys.argv[1:])
