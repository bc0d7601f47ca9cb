#!/usr/bin/env python3
"""Counts the definitions that a clause of a contract rests on, and lists their files in an order to read them.

    tools/reach.py [CRATE FUNCTION CLAUSE]      without words: rl_cli run headline

It reads the clause in crates/CRATE/src, follows each name to its definition in the `specs/` of the repository's crates, and
so on to the end. What the kit defines (lists, numbers, maps) is not counted, and no proof is read.
"""
import os
import re
import sys
from collections import Counter
from pathlib import Path

TOP = Path(__file__).resolve().parent.parent
HEAD = re.compile(r"^(?:abbrev pub|unfoldable pub|pub record|pub data|pub)\s+(\S+)")
WORD = re.compile(r"[^\s(){},;λ.]+(?:\.[^\s(){},;λ.]+)*")
NAMES = re.compile(r"^\s*(?:ghost )?use Rattle\.(\w+)\.specs\.([\w.]+)\.\{(.*)\}")
ALIAS = re.compile(r"^\s*(?:ghost )?use Rattle\.(\w+)\.specs\.([\w.]+) as (\w+)")


class File:
    """A file of definitions: its imports, and the lines of each definition."""

    def __init__(self, text):
        self.names, self.modules, self.bodies, self.parts = {}, {}, {}, {}
        name = None
        for line in text.split("\n"):
            if self.read_import(line) or line.startswith("--") or not line.strip():
                continue
            head = HEAD.match(line)
            if head and head[1] not in ("use", "mod"):
                name = head[1]
            if name:
                self.bodies.setdefault(name, []).append(line)
        for name, lines in self.bodies.items():
            if lines[0].startswith(("pub data", "pub record")):
                for line in lines[1:]:
                    part = re.match(r"^\s+(?:pub )?(\w+(?: \w+)*) :", line)
                    for word in part[1].split() if part else []:
                        self.parts[word] = name

    def read_import(self, line):
        """Keeps what an import brings in, and says whether the line is one."""
        names = NAMES.match(line)
        if names:
            for word in names[3].split(","):
                here = word.split(" as ")
                self.names[here[-1].strip()] = (names[1], names[2], here[0].strip())
            return True
        alias = ALIAS.match(line)
        if alias:
            self.modules[alias[3]] = (alias[1], alias[2])
        return bool(alias) or line.startswith(("use ", "ghost use "))


class Definitions:
    def __init__(self):
        self.files = {}
        for path in sorted((TOP / "crates").glob("*/specs/**/*.antt")):
            at = path.relative_to(TOP / "crates").parts
            module = ".".join(at[2:])[: -len(".antt")]
            self.files[(at[0], module)] = File(path.read_text(encoding="utf-8"))

    def find(self, crate, module, name):
        """The definition that a file has under a name, or the type of which it is a constructor or a field."""
        file = self.files.get((crate, module))
        if file is None:
            return None
        if name in file.bodies:
            return (crate, module, name)
        if name in file.parts:
            return (crate, module, file.parts[name])
        # handed on from another file
        return self.find(*file.names[name]) if name in file.names else None

    def named(self, text, file, crate, module):
        """The definitions that a text names, with the imports of its file."""
        for word in WORD.findall(text):
            first, *rest = word.split(".")
            if first in file.names:
                found = self.find(*file.names[first])
            elif first in file.modules and rest:
                found = self.find(*file.modules[first], rest[0])
            else:
                found = self.find(crate, module, first) if module else None
            if found:
                yield found

    def reach(self, begin):
        """All definitions that these rest on, themselves included; each stands after those that it rests on."""
        seen, order = set(), []

        def visit(key):
            if key in seen:
                return
            seen.add(key)
            crate, module, name = key
            file = self.files[(crate, module)]
            for below in self.named("\n".join(file.bodies[name]), file, crate, module):
                visit(below)
            order.append(key)

        for key in begin:
            visit(key)
        return order


def clause_of(crate, function, clause):
    """The text of a clause, and the imports of its file."""
    for path in sorted((TOP / "crates" / crate / "src").glob("**/*.rt")):
        text = path.read_text(encoding="utf-8")
        found = re.search(r"\bfn " + re.escape(function) + r"\b(.*?)^\s*\{$", text, re.S | re.M)
        said = found and re.search(r"ensures " + re.escape(clause) + r" \{(.*?)\}\s*(?=ensures |requires |//|\Z)", found[1], re.S)
        if said:
            return said[1], File(text)
    sys.exit(f"reach.py: {crate} has no function {function} with a clause {clause}")


def main():
    sys.setrecursionlimit(10000)
    crate, function, clause = sys.argv[1:] if len(sys.argv) == 4 else ("rl_cli", "run", "headline")
    text, imports = clause_of(crate, function, clause)
    definitions = Definitions()
    order = definitions.reach(list(definitions.named(text, imports, crate, None)))
    lines = Counter()
    names = {}
    for at, module, name in order:
        lines[(at, module)] += len(definitions.files[(at, module)].bodies[name])
        names.setdefault((at, module), []).append(name)
    of_all = sum(len(file.bodies) for file in definitions.files.values())
    print(f"{crate} {function}, clause {clause}: {len(order)} of {of_all} definitions, {sum(lines.values())} lines")
    for (at, module), words in names.items():
        path = os.path.join("crates", at, "specs", module.replace(".", "/") + ".antt")
        print(f"{path} ({lines[(at, module)]} lines): {', '.join(words)}")


main()
