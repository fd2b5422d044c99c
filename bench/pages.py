#!/usr/bin/env python3
"""Lists the definitions that a reader of the top call's clauses has to believe, by file, with their lines.

    bench/pages.py [CLAUSE..] [--files] [--names]

Begins with the names in these clauses of `run_words` (where none is named, those that speak of `replay`), and follows the imports: a
definition reaches what its text names, and no more of a file. Lines of a definition are those of its text and of the comment
above it; a type that is declared in code counts as its declaration there. `Rattle.std` and the kit's crates are not the repository's, so they
don't count. It prints a row for each crate; with --files one for each file, with --names the names too.
"""
import argparse
import collections
import pathlib
import re

ROOT = pathlib.Path(__file__).resolve().parent.parent
TOP = ROOT / "crates/lazic/src/top.rt"
# Clauses that speak of checks, verifications and seeds.
BESIDE = ("told", "headline", "seeds", "differ")
USE = re.compile(r"^\s*(?:pub\s+|unfoldable\s+|ghost\s+)*use\s+Rattle\.([\w.]+?)(?:\.\{([^}]*)\})?(?:\s+as\s+(\w+))?;?\s*$", re.M)
START = re.compile(r"^(?:(?:pub|abbrev|unfoldable|opaque)\s+)*(?:(?:record|data)\s+(?:pub\s+)?)?([^\s:(){},]+)\s*(?:[({][^=]*)?:(?=\s)")
WORD = re.compile(r"[^\s(){}\[\],;.:λ\"]+(?:\.[^\s(){}\[\],;.:λ\"]+)?")


class Module:
    """A file of definitions: its items by name, each with its lines, and what it imports."""

    def __init__(self, path):
        self.items, self.owner, self.imports, self.others = collections.defaultdict(list), {}, {}, {}
        text = path.read_text()
        for to, names, other in USE.findall(text):
            if other:
                self.others[other] = to
            for name in filter(None, (it.strip() for it in names.split(","))):
                name, _, renamed = name.partition(" as ")
                self.imports[renamed or name] = (to, name)
        self.read(text)

    def read(self, text):
        item, above, depth = None, [], 0
        for line in text.splitlines():
            bare = line.strip()
            if not bare:
                above, item = [], item
                continue
            if re.match(r"\s*(?:(?:pub|unfoldable)\s+)*(use|mod)\s", line):
                continue
            if re.match(r"module\s", line):
                depth, above = 2, []
                continue
            indent = len(line) - len(line.lstrip())
            if indent == 0 and not bare.startswith("--"):
                depth = 0
            if bare.startswith("--"):
                above.append(line)
                continue
            found = START.match(line[depth:]) if indent == depth else None
            if found:
                item = found[1]
            if item:
                self.items[item] += [*above, line]
                inner = re.match(r"\s+(?:pub\s+)?([^\s:(){}=]+)\s*:", line)
                if inner and not found:
                    self.owner.setdefault(inner[1], item)
            above = []

    def item_of(self, name):
        return name if name in self.items else self.owner.get(name)


class Declared:
    """A type of the code: its declaration is its only item."""

    def __init__(self, path, name):
        self.items, self.imports, self.others, lines, taken = {}, {}, {}, [], False
        for line in path.read_text().splitlines():
            taken = taken or bool(re.match(rf"pub(?:\([a-z]+\))? (?:enum|struct) {name}\b", line))
            if taken:
                lines.append(line)
                if line.startswith("}") or line.endswith(";"):
                    break
        self.items[name], self.name = lines, name

    def item_of(self, _name):
        return self.name


class Reader:
    def __init__(self):
        self.modules, self.seen = {}, {}

    def module(self, to):
        to = to.removesuffix(".TheVariants")
        if to not in self.modules:
            self.modules[to] = self.load(to)
        return self.modules[to]

    def load(self, to):
        crate, _, rest = to.partition(".")
        parts = rest.split(".")
        if not (ROOT / "crates" / crate).is_dir() or parts[0] != "specs":
            return None
        if parts[1:2] == ["declared"]:
            names = [it for it in parts[2:] if it != "TheVariants"]
            for source in (f"{'/'.join(names[:-1]) or 'lib'}.rt", f"{'/'.join(names[:-1])}/mod.rt"):
                path = ROOT / "crates" / crate / "src" / source
                if path.is_file():
                    return Declared(path, names[-1])
            return None
        path = ROOT / "crates" / crate / f"{'/'.join(parts)}.antt"
        return Module(path) if path.is_file() else None

    def follow(self, to, name, above):
        """Takes a definition with all that it reaches, iteratively."""
        waits = [(to, name, above)]
        while waits:
            to, name, above = waits.pop()
            module = self.module(to)
            item, to = module and module.item_of(name), to.removesuffix(".TheVariants")
            if not item or (to, item) in self.seen:
                continue
            self.seen[to, item] = (len(module.items[item]), above)
            text = "\n".join(it for it in module.items[item] if not it.strip().startswith("--"))
            for word in set(WORD.findall(text)):
                for found in named(module, to, word):
                    waits.append((*found, item))


def named(module, to, word):
    """What a word of a module's text may stand for: an import, a name of another module, an operator, or an item beside it."""
    head, _, tail = word.partition(".")
    if tail and head in module.others:
        return [(module.others[head], tail)]
    found = []
    for it in (word, head, f"◌{word}◌", f"{word}◌", f"◌{word}"):
        if it in module.imports:
            found.append(module.imports[it])
        elif module.item_of(it) and isinstance(module, Module):
            found.append((to, it))
    return found


def clauses():
    """The clauses of `run_words`, by name."""
    text = TOP.read_text()
    text = text[text.index("pub fn run_words") :]
    return {name: line for name, line in re.findall(r"^\s*ensures (\w+) \{(.*)\}$", text[: text.index("\n{")], re.M)}


def main():
    words = argparse.ArgumentParser(description=__doc__.splitlines()[0])
    words.add_argument("clauses", nargs="*")
    words.add_argument("--files", action="store_true")
    words.add_argument("--names", action="store_true")
    args = words.parse_args()
    every = clauses()
    if unknown := [it for it in args.clauses if it not in every]:
        words.error(f"run_words has no clause {unknown[0]}")
    top, reader = Module(TOP), Reader()
    top.items.clear()
    for clause in args.clauses or [it for it in every if it not in BESIDE]:
        for word in set(WORD.findall(every[clause])):
            for found in named(top, "", word):
                reader.follow(*found, clause)
    rows = collections.defaultdict(list)
    for (to, item), (lines, above) in reader.seen.items():
        rows[to if args.files or args.names else to.split(".")[0]].append((item, lines, above))
    order = [line.split(":")[0] for line in (ROOT / "crates.txt").read_text().splitlines() if re.match(r"\w+:", line)]
    print("| Definitions of | Number | Lines |\n|---|---|---|")
    for to in sorted(rows, key=lambda it: (order.index(it.split(".")[0]), it)):
        names = " " + ", ".join(f"{it[0]} (from {it[2]})" for it in rows[to]) if args.names else ""
        print(f"| {to} | {len(rows[to])} | {sum(it[1] for it in rows[to])} |{names}")
    print(f"| all | {len(reader.seen)} | {sum(lines for lines, _ in reader.seen.values())} |")


if __name__ == "__main__":
    main()
