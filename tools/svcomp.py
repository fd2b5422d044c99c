#!/usr/bin/env python3
"""Verifies the tasks of a folder that are written as SV-COMP writes them, and prints a line for each and a table by property.

    tools/svcomp.py PROGRAM FOLDER.. [--seconds N] [--jobs N] [--options WORDS]

A task is a `.yml` file with `input_files`, `properties` (each with `property_file` and `expected_verdict`) and `options` with a
`data_model`. PROGRAM is lazic. Of a property the answer SAFE is true, and UNSAFE is false where the error is one that the property
forbids: `unreach-call` calls of `reach_error`, `no-overflow` signed overflow, `no-error` all errors that lazic looks for; else it is
unknown. The certificate of a program that it calls safe is to be accepted by `check`, and the run of one that it calls unsafe is to
replay to the same line. It ends with status 1 where a verdict is wrong.
"""
import argparse
import collections
import concurrent.futures
import pathlib
import re
import subprocess
import sys
import tempfile
import time

sys.path.insert(0, str(pathlib.Path(__file__).resolve().parent))
from lazic import FORBIDDEN, verdict


def value_of(text):
    """A scalar: a quoted or plain word."""
    text = text.strip()
    if text[:1] in ("'", '"') and text[-1:] == text[:1]:
        return text[1:-1]
    return {"true": True, "false": False}.get(text, text)


def read_task(text):
    """The input file, the data model, and the expected verdict of each property, of a task's text. It reads what task files have of YAML:
    one mapping with scalars, lists of scalars and lists of mappings, by their indents."""
    inputs, model, properties, above = [], None, [], None
    for raw in text.splitlines():
        line = raw.split(" #")[0].rstrip()
        if not line.strip() or line.lstrip().startswith("#"):
            continue
        key, _, value = line.strip().removeprefix("- ").partition(":")
        is_item = line.strip().startswith("- ")
        if not line.startswith((" ", "-")):
            above = key
            if above == "input_files" and value.strip():
                inputs = [str(value_of(it)) for it in value.strip().strip("[]").split(",")]
        elif above == "input_files" and is_item:
            inputs.append(str(value_of(line.strip()[2:])))
        elif above == "properties":
            if is_item:
                properties.append({})
            if properties:
                properties[-1][key] = value_of(value)
        elif above == "options" and key == "data_model":
            model = str(value_of(value))
    wanted = {pathlib.PurePath(str(it["property_file"])).stem: it["expected_verdict"] for it in properties if isinstance(it.get("expected_verdict"), bool)}
    return inputs, model, wanted


def said(command, seconds):
    try:
        ran = subprocess.run(command, capture_output=True, text=True, timeout=seconds)
    except subprocess.TimeoutExpired:
        return "no line in time", None
    return ran.stdout.strip(), ran.returncode


def confirmed(program, file, options, cert, values, line):
    """Whether the certificate or the run of an answer is what it is to be."""
    if line == "SAFE":
        return said([program, "check", file, cert, *options], None)[0] == "ACCEPTED"
    if line.startswith("UNSAFE"):
        return said([program, "replay", file, values, *options, "--turns", "1000000000"], None)[0] == line
    return True


def tried(program, task, seconds, words):
    inputs, model, wanted = read_task(task.read_text())
    options = ["--model", model.lower()] if model else []
    if len(inputs) != 1:
        return task, [(name, "none", "not one input file") for name in wanted]
    file, begun = str(task.parent / inputs[0]), time.monotonic()
    with tempfile.TemporaryDirectory() as room:
        cert, values = f"{room}/cert", f"{room}/run"
        line, status = said([program, "verify", file, *options, *words, "--cert", cert, "--run", values], seconds)
        is_confirmed = confirmed(program, file, options, cert, values, line)
    found = []
    for name, expected in wanted.items():
        if name not in FORBIDDEN:
            found.append((name, "none", "a property that lazic does not look at"))
            continue
        answer = verdict(line, status, name)
        right = "true" if expected else f"false({name})"
        judged = "right" if answer == right else "wrong" if re.match("true|false", answer) else "none"
        found.append((name, judged if is_confirmed else "wrong", f"{time.monotonic() - begun:.1f} s {line}"))
    return task, found


def main():
    words = argparse.ArgumentParser(description=__doc__.splitlines()[0])
    words.add_argument("program")
    words.add_argument("folders", nargs="+", metavar="FOLDER")
    words.add_argument("--seconds", type=float, default=60)
    words.add_argument("--jobs", type=int, default=2)
    words.add_argument("--options", default="", help="further words for verify")
    args = words.parse_args()
    tasks = sorted(it for folder in args.folders for it in pathlib.Path(folder).rglob("*.yml"))
    counts = collections.defaultdict(collections.Counter)
    with concurrent.futures.ThreadPoolExecutor(args.jobs) as pool:
        for task, found in pool.map(lambda it: tried(args.program, it, args.seconds, args.options.split()), tasks):
            for name, judged, more in found:
                counts[name][judged] += 1
                print(f"{judged:5} {task.stem}\t{name}\t{more}", flush=True)
    print("\n| Property | tasks | right | wrong | none |\n|---|---|---|---|---|")
    for name, it in sorted(counts.items()):
        print(f"| {name} | {sum(it.values())} | {it['right']} | {it['wrong']} | {it['none']} |")
    return 1 if any(it["wrong"] for it in counts.values()) else 0


if __name__ == "__main__":
    sys.exit(main())
