#!/usr/bin/env python3
"""Counts, in crates/*/src, the places of forms that a newer one may serve better, as docs/DESIGN-PASS.md tables them.

    tools/forms.py              how many of each kind
    tools/forms.py KIND...      the places of these kinds, one a line
"""
import glob
import os
import re
import sys

os.chdir(os.path.join(os.path.dirname(os.path.abspath(__file__)), ".."))

FN = re.compile(r"^ *(?:pub(?:\([a-z]+\))? )?(?:extern \"C\" )?fn (\w+)(?:<[^(]*>)?\(([^)]*)\)(?: -> ([^\n{]+))?((?:\n +(?:requires|ensures)[^\n]*(?:\n[^\n{}]*→[^\n]*)*)*)", re.M)


def sources():
    for path in sorted(glob.glob("crates/*/src/*.rt")):
        text = open(path, encoding="utf-8").read()
        at = text.find("#[cfg(test)]")
        yield path, text if at < 0 else text[:at]


def lines(pattern, keep=lambda line: True):
    for path, text in sources():
        for number, line in enumerate(text.split("\n"), 1):
            if not line.strip().startswith("//") and re.search(pattern, line) and keep(line):
                yield f"{path}:{number}: {line.strip()}"


def functions():
    for path, text in sources():
        for m in FN.finditer(text):
            number = text.count("\n", 0, m.start()) + 1
            params = [p.strip() for p in " ".join(m.group(2).split()).split(",") if p.strip()]
            yield path, number, m.group(1), params, (m.group(3) or "").strip(), m.group(4)


def enums():
    """1: every enum; which of them have the shape of Option or Result is told by reading."""
    return lines(r"^ *(pub(\([a-z]+\))? )?enum \w+")


def flags():
    """1: a bool in a struct beside what it tells of, and a bool that a function takes beside numbers."""
    yield from lines(r"^ +pub \w+: bool,")


def kinds():
    """1: kinds, roles and parts by number, and refusals by number."""
    yield from lines(r"^ *(pub(\([a-z]+\))? )?const (KIND|CLASS|ROLE|PART|PORT_LAYOUT|DECIMAL|COORDINATE|NUMBER:|LETTER)\w*")
    yield from lines(r"\b(number|refusal): [1-9]\b|refuse[d]?\([1-9]|tell_refusal\(out, [1-9]")


def twins():
    """2: functions whose bodies are the same but for names, numbers and types (see `stem`)."""
    seen = {}
    for path, text in sources():
        for m in re.finditer(r"^ *(?:pub(?:\([a-z]+\))? )?(?:extern \"C\" )?fn (\w+)", text, re.M):
            start = body_start(text, m.end())
            end = text.find("\n}\n", start)
            body = text[start : end if end >= 0 else len(text)]
            if body.count("\n") >= 4:
                seen.setdefault(stem(body), []).append(f"{path}:{text.count(chr(10), 0, m.start()) + 1}: {m.group(1)}")
    for group in seen.values():
        if len(group) > 1:
            yield "; ".join(group)


def body_start(text, at):
    m = re.compile(r"^\{$|\{$", re.M).search(text, at)
    return m.end() if m else at


def stem(body):
    """A body with every name, number and type taken out, so that twins read alike."""
    body = re.sub(r"//[^\n]*", "", body)
    keep = {"let", "mut", "if", "else", "while", "for", "in", "return", "match", "true", "false", "as"}
    return re.sub(r"\w+", lambda m: m.group(0) if m.group(0) in keep else "x", " ".join(body.split()))


def loops():
    """3: every `while` and `loop`."""
    return lines(r"^ *(while |.*\bloop \{)")


def for_loops():
    """3: every `for`, beside them."""
    return lines(r"^ *for ")


def hands():
    """4: what a derive or the library gives: the lesser and the greater, equality, order and conversion by hand."""
    yield from lines(r"\bfn (lesser|greater|larger|less|number|told|report|\w+_before|same_\w+|shortest_of|distance|is_near|lifted|below|counting_pays|wide|list|from_list|port_of|refused|fine|bytes_written|without_counts|served_at|is_kept|is_own|end_node|end_port)\(")


def wide():
    """5: functions with ten parameters or more."""
    for path, number, name, params, _, _ in functions():
        if len(params) >= 10:
            yield f"{path}:{number}: {name}, {len(params)} parameters"


def together():
    """5: three or more parameters that stand side by side in three functions or more."""
    groups = {}
    for path, number, name, params, _, _ in functions():
        names = [" ".join(p.split()) for p in params]
        for i in range(len(names) - 2):
            groups.setdefault(tuple(names[i : i + 3]), []).append(name)
    for group, where in sorted(groups.items(), key=lambda g: -len(g[1])):
        if len(where) > 2:
            yield f"{len(where)}: {', '.join(group)}"


def lengths():
    """6: a function that takes a slice and, as a parameter of its own, how much of it counts."""
    for path, number, name, params, _, clauses in functions():
        pairs = set()
        for i, param in enumerate(params):
            n = param.split(":")[0].strip()
            if not param.endswith(": usize"):
                continue
            before = params[i - 1] if i else ""
            if n in ("n", "m", "k", "u", "s", "p", "e", "count", "nodes", "chip_count") and re.search(r": &(mut )?\[", before):
                pairs.add((n, before.split(":")[0].strip()))
            for q in params:
                s = q.split(":")[0].strip()
                if re.search(r": &(mut )?\[", q) and re.search(rf"\b{n} ≤ length {s}\.(now|old)", clauses):
                    pairs.add((n, s))
            # A place among the elements is no length.
            if re.search(rf"\b{n} < length|\b{n} \+ 1\) [a-z]|{n} < [0-9]", clauses) and not re.search(rf"\b{n} ≤ length", clauses):
                pairs = {(m, s) for m, s in pairs if m != n}
        if pairs:
            yield f"{path}:{number}: {name}: " + ", ".join(f"{n} of {s}" for n, s in sorted(pairs))


def kept():
    """Places that stay, each with its line."""
    return lines_with_comments(r"// Stays \(")


def lines_with_comments(pattern):
    for path, text in sources():
        for number, line in enumerate(text.split("\n"), 1):
            if re.search(pattern, line):
                yield f"{path}:{number}: {line.strip()}"


KINDS = {f.__name__: f for f in (enums, flags, kinds, twins, loops, for_loops, hands, wide, together, lengths, kept)}


def main(names):
    unknown = [n for n in names if n not in KINDS]
    if unknown or "--help" in names:
        print(__doc__)
        for name, find in KINDS.items():
            print(f"    {name:10} {find.__doc__}")
        return 2 if unknown else 0
    if not names:
        for name, find in KINDS.items():
            print(f"{name:10} {len(list(find())):4}  {find.__doc__}")
    for name in names:
        for place in KINDS[name]():
            print(place)
    return 0


if __name__ == "__main__":
    sys.exit(main(sys.argv[1:]))
