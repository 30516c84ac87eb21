#!/usr/bin/env python3
"""run_rules.py [LIMIT] < CASES: run the definitions of document 01 on boards with known plans.

CASES is what program_replay's data/boards.txt holds: a board sheet, a line '%%plan', its plan sheet or E line, a line '%%'. LIMIT is program_most
(the default) or library_most. Each case becomes an equation between the text that the definitions give and the text recorded, in a crate in a
folder of its own; checking that crate computes both sides. Run it from the repository's root:
tools/run_rules.py < crates/program_replay/data/boards.txt
"""
import os
import re
import shutil
import subprocess
import sys
import tempfile

CRATES = ["base", "sheet", "lanes", "board", "routes"]


def definitions():
    """The definitions that a run has to open, a (module, name) each."""
    found = []
    for crate in CRATES:
        folder = os.path.join("crates", crate, "specs")
        for name in sorted(os.listdir(folder)):
            text = open(os.path.join(folder, name)).read()
            for m in re.finditer(r"^\s*unfoldable pub (\S+)", text, re.M):
                found.append(("Rattle.%s.specs.%s" % (crate, name[:-5]), m.group(1)))
    return found


def numbers(text):
    return " ∷ ".join(str(b) for b in text.encode()) + " ∷ []" if text else "[]"


def write(root, limit, found):
    """The crate of equations, over the crates of the rules."""
    os.makedirs(root + "/crates/rules/src")
    os.makedirs(root + "/crates/rules/specs")
    for crate in CRATES:
        for part in ("src", "specs", "proofs"):
            shutil.copytree("crates/%s/%s" % (crate, part), "%s/crates/%s/%s" % (root, crate, part))
    listed = {l.split(":")[0]: l for l in open("crates.txt").read().splitlines() if ":" in l}
    open(root + "/crates.txt", "w").write("\n".join([listed[c] for c in CRATES] + ["rules: base sheet lanes board routes"]) + "\n")
    open(root + "/crates/rules/src/lib.rt", "w").write("// Only theorems.\n#![tactic(auto)]\n")
    per = 8
    files = []
    names = definitions()
    unfold = " ".join("%s.%s" % d for d in names)
    for k in range(0, len(found), per):
        name = "Part%d" % (k // per)
        files.append(name)
        out = ["use Rattle.std.specs.Prelude.{◌≡◌, ℕ, List, [], ◌∷◌, refl}",
               "use Rattle.sheet.specs.Table.{%s}" % limit, "use Rattle.routes.specs.Route.{answer_to}", ""]
        for j, (board, plan) in enumerate(found[k:k + per]):
            n = k + j
            out += ["unfoldable board_%d : List ℕ" % n, "board_%d = %s" % (n, numbers(board)), "",
                    "unfoldable plan_%d : List ℕ" % n, "plan_%d = %s" % (n, numbers(plan)), "",
                    "case_%d : answer_to %s board_%d ≡ plan_%d" % (n, limit, n, n),
                    "unfolding board_%d plan_%d %s" % (n, n, unfold), "case_%d = refl" % n, ""]
        open("%s/crates/rules/specs/%s.antt" % (root, name), "w").write("\n".join(out))
    open(root + "/crates/rules/specs/Lib.antt", "w").write("".join("pub mod %s\n" % f for f in files))


def main():
    limit = sys.argv[1] if len(sys.argv) > 1 else "program_most"
    parts = re.split(r"^%%\n", sys.stdin.read(), flags=re.M)
    found = [part.split("%%plan\n") for part in parts if "%%plan\n" in part]
    with tempfile.TemporaryDirectory() as root:
        write(root, limit, found)
        run = subprocess.run(["rt", "check"], cwd=root + "/crates/rules", capture_output=True, text=True)
    output = run.stdout + run.stderr
    bad = sorted(set(int(n) for n in re.findall(r"`case_(\d+)`", output)))
    print("boards %d, differ %d %s" % (len(found), len(bad), bad[:10]))
    if bad or run.returncode:
        print(output[:3000])
        for n in bad[:1]:
            print(found[n][0])
            print(found[n][1])
    sys.exit(1 if bad or run.returncode else 0)


main()
