#!/usr/bin/env bash
# Makes a package of the proved static library and the Rust crate over it, for a machine without the Rattle kit: see usage.
set -eu -o pipefail

usage() {
    cat <<'END'
tools/package.sh [--ungated] [--library FOLDER] OUT: a package to build a server from

Makes the folder OUT and OUT.tar.gz with the static library, the C header, the Rust
crate without what needs the oracle, examples, rules, licence, and MADE-FROM: the
commit, the kit and what the gate said. No `rt` is needed to make it or to build
from it; OUT must not be there.

The library is crates/panzhyqur/out/libpanzhyqur.a, which the gate (.ci/run) proves
and writes. The package is refused where the gate has not passed on just this commit
with a clean tree and this library (target/gate.txt).

--ungated         makes it all the same; MADE-FROM then says `gate: not run`
--library FOLDER  takes libpanzhyqur.a from there; with --ungated alone
--help            prints this

Status 0, 1 where it is refused, 2 for wrong words.
END
}

fail() { echo "package: $*" >&2; exit 1; }
wrong() { echo "package: $*" >&2; usage >&2; exit 2; }

out='' library='' ungated=''
while [ $# -gt 0 ]; do
    case $1 in
    --help | -h) usage; exit 0 ;;
    --ungated) ungated=1 ;;
    --library)
        [ $# -ge 2 ] || wrong "--library asks for a folder"
        library=$2
        shift
        ;;
    -*) wrong "no such word: $1" ;;
    *)
        [ -z "$out" ] || wrong "one folder is asked for"
        out=${1%/}
        ;;
    esac
    shift
done
[ -n "$out" ] || wrong "a folder is asked for"
[ -z "$library" ] || [ -n "$ungated" ] || wrong "the gate knows crates/panzhyqur/out alone: --library goes with --ungated"
root=$(cd "$(dirname "$0")/.." && pwd)
archive=${library:-$root/crates/panzhyqur/out}/libpanzhyqur.a
[ -f "$archive" ] || fail "no $archive: run bash .ci/run, or rt lib in crates/panzhyqur"
for file in "$out" "$out.tar.gz"; do [ ! -e "$file" ] || fail "$file is there already"; done

digest() { sha256sum "$1" | cut -d' ' -f1; }

# A line of target/gate.txt: what stands behind its first word.
gate() { sed -n "s/^$1: //p" "$root/target/gate.txt" 2>/dev/null || true; }

commit=$(git -C "$root" rev-parse HEAD 2>/dev/null) || commit=unknown
changed=$(git -C "$root" status --porcelain 2>/dev/null) || changed='not known'
tree=clean
[ -z "$changed" ] || tree="changed since the commit"

# Why the gate's word does not hold of this package; nothing where it does.
doubt() {
    if [ -n "$library" ]; then
        echo "the library is not the gate's"
    elif [ -z "$(gate said)" ]; then
        echo "no target/gate.txt"
    elif [ "$(gate commit)" != "$commit" ]; then
        echo "it passed on another commit, $(gate commit)"
    elif [ "$(gate tree)" != clean ] || [ "$tree" != clean ]; then
        echo "the tree is not that of the commit"
    elif [ "$(gate library)" != "$(digest "$archive")" ]; then
        echo "the library is another than the one it proved"
    fi
}

# The commit, the library and what the gate said of them.
made_from() { # DOUBT
    echo "commit: $commit"
    echo "tree: $tree"
    if [ -z "$1" ]; then echo "kit: $(gate kit)"; else echo "kit: not known, at hand is: $(rt version 2>/dev/null || echo none)"; fi
    echo "library: $(digest "$archive")"
    if [ -z "$1" ]; then echo "gate: $(gate said)"; else echo "gate: not run ($1)"; fi
}

# The crate without what needs the oracle or the original.
crate() { # FOLDER
    mkdir -p "$1"
    cp -R "$root/rust/src" "$root/rust/build.rs" "$root/rust/README.md" "$1"
    rm -r "$1/src/beside" "$1/src/bin/differ.rs" "$1/src/bin/soak.rs" "$1/src/bin/bench.rs" "$1/src/bin/route/check.rs"
    sed '/^# From here on: of the repository alone/,$d' "$root/rust/Cargo.toml" >"$1/Cargo.toml"
}

why=$(doubt)
[ -z "$why" ] || [ -n "$ungated" ] || fail "the gate has not passed on this: $why (--ungated makes the package all the same)"
mkdir -p "$out/lib"
cp "$archive" "$out/lib/"
crate "$out/rust"
[ ! -d "$root/rust/include" ] || cp -R "$root/rust/include" "$out/include"
mkdir "$out/docs"
cp "$root/docs/RULES.md" "$out/docs/"
cp -R "$root/examples" "$root/NOTICE" "$out/"
cp "$root/tools/package/README.md" "$out/README.md"
made_from "$why" >"$out/MADE-FROM"
# The same files give the same bytes, whenever and by whom it is made.
(cd "$(dirname "$out")" && tar --sort=name --owner=0 --group=0 --numeric-owner --mtime=@0 -cf - "$(basename "$out")") | gzip -n9 >"$out.tar.gz"
echo "package: $out and $out.tar.gz; $(tail -n 1 "$out/MADE-FROM")"
