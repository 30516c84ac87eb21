#!/usr/bin/env python3
"""Respells the repository's own definitions, fields and lemmas in snake case, once, after the kit's port.py of 2026-11.

usage: tools/respell.py [--list]     at the top of the repository

Words become snake case, and types and facts keep their capital. A dash stays where it joins two names of functions or stands beside a fact;
elsewhere it becomes an underscore. A lemma that would fall together with a definition gets `_lem`. Names of src/, strings and paths of generated
modules stay. It rewrites .antt, .rt and .edit files below crates/. --list prints the names and writes nothing.
"""
import collections
import os
import re
import sys

SIGNATURE = re.compile(r"^(\s*)((?:(?:pub|abbrev|unfoldable|opaque)\s+)*)([^\s(){}\[\],;:]+)((?:\s+[({].*?[)}])*)\s*:\s")
BLOCK = re.compile(r"^\s*(?:pub\s+)?(record|data)\s+([^\s{]+)")
NOT_NAMES = {"use", "module", "let", "where", "in"}
# Functions of std that a dash may join to a name of ours.
FUNCTIONS = set("length append take drop get_or set view map replicate reverse filter sum min max cond ltb leb eqb not".split())
# A field and a lemma whose name would fall together with a definition that stands beside them.
APART = {"no-lanes": "without_lanes"}
# What a name is made of: all but blanks, brackets, commas, semicolons, and the dots and colons between names.
TOKEN = re.compile(r"[^\s(){}\[\],;.:«»`\"]+")


def files(endings):
    for folder, dirs, names in os.walk("crates"):
        dirs[:] = sorted(d for d in dirs if d != "out")
        for name in sorted(names):
            if name.endswith(endings):
                yield os.path.join(folder, name)


def declared():
    """Each name that is declared, with its kinds: spec, lemma, field, local (in the proof of a function)."""
    found = collections.defaultdict(set)
    for path in files(".antt"):
        parts = path.split("/")
        top = "spec" if parts[2] == "specs" else "lemma" if len(parts) == 4 else "local"
        block = None
        for line in open(path, encoding="utf-8"):
            if not line.strip() or line.strip().startswith("--"):
                continue
            indent = len(line) - len(line.lstrip())
            if block is not None and indent <= block:
                block = None
            head = BLOCK.match(line)
            if head:
                block = indent
                found[head.group(2)].add("type")
                continue
            it = SIGNATURE.match(line)
            if it and it.group(3) not in NOT_NAMES:
                found[it.group(3)].add(("field" if top != "local" else "local") if block is not None else top)
    return found


def snake(word):
    if re.match(r"[A-Z]", word):
        return word
    word = re.sub(r"(?<=[a-z0-9])([A-Z])", r"_\1", word)
    return word.lower() if re.search(r"[A-Z]", word) else word


def respelled(name, functions):
    parts = [snake(p) for p in name.split("-")]
    text = parts[0]
    for a, b in zip(parts, parts[1:]):
        joined = a in functions and b in functions and (a in FUNCTIONS or b in FUNCTIONS)
        fact = re.match(r"[A-Z]", a) or re.match(r"[A-Z]", b)
        text += ("-" if not a or not b or joined or fact else "_") + b
    return text


def names():
    found = declared()
    kinds = {n: k - {"local"} for n, k in found.items() if k - {"local"}}
    functions = FUNCTIONS | {snake(n) for n, k in kinds.items() if "spec" in k and "-" not in n}
    turned = {}
    for n in kinds:
        if "type" in kinds[n] or "→" in n or re.match(r"[A-Z]", n) and "-" not in n:
            continue
        turned[n] = respelled(n, functions)
    groups = collections.defaultdict(list)
    for n, to in turned.items():
        groups[to].append(n)
    out = {}
    for n, to in APART.items():
        if n in turned:
            groups[turned[n]].remove(n)
            out[n] = to
    for to, group in groups.items():
        # the definition of specs/ has the plain name, fields share it, and of several lemmas the one that is spelled so
        holders = [n for n in group if "spec" in kinds[n]]
        lemmas = sorted((n for n in group if kinds[n] == {"lemma"}), key=lambda n: (n != to, "-" in n, n))
        fields = [n for n in group if "field" in kinds[n]]
        for n in group:
            out[n] = to
        rest = lemmas if holders or fields else lemmas[1:]
        for i, n in enumerate(rest if len(group) > 1 else []):
            out[n] = to + "_lem" + ("" if i == 0 else str(i + 1))
        if len(holders) > 1:
            print(f"left: {to}: {holders}", file=sys.stderr)
    fields = {n for n, k in kinds.items() if "field" in k}
    return {a: b for a, b in out.items() if a != b}, fields


def turned(text, table, fields):
    def one(m):
        word = m.group(0)
        if word not in table:
            return word
        before = text[m.start() - 1] if m.start() else " "
        if before == "." and word not in fields and "-" in word:
            # a step of a generated record, unless a path names the module of a lemma
            return word
        return table[word]

    return TOKEN.sub(one, text)


def main(argv):
    table, fields = names()
    if argv == ["--list"]:
        for a, b in sorted(table.items()):
            print(f"{a}\t{b}")
        return 0
    changed = 0
    for path in files((".antt", ".rt", ".edit")):
        with open(path, encoding="utf-8") as f:
            text = f.read()
        new = turned(text, table, fields)
        if new != text:
            changed += 1
            with open(path, "w", encoding="utf-8") as f:
                f.write(new)
    print(f"respell: {len(table)} names, {changed} files")
    return 0


if __name__ == "__main__":
    sys.exit(main(sys.argv[1:]))
