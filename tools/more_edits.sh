#!/usr/bin/env bash
# Tries the edits under crates/*/more-edits, wrong programs and definitions that the gate leaves out to stay quick: the prover must refuse each.
#   tools/more_edits.sh [CRATE...]     those of the named crates, or of all that have some (an hour and more on two cores)
# It works in a copy, so that nothing here changes; rt begins there with what `rt check` kept here. It says of each edit where it was refused; status 1 where one is not, or is bad.
set -u
cd "$(dirname "$0")/.." || exit 1
if [ "${1:-}" = --help ]; then
    sed -n '2,4s/^# \{0,1\}//p' "$0"
    exit 0
fi
names=("$@")
if [ ${#names[@]} -eq 0 ]; then
    for folder in crates/*/more-edits; do names+=("$(basename "$(dirname "$folder")")"); done
fi
copy=$(mktemp -d) || exit 1
trap 'rm -rf "$copy"' EXIT
# What rt keeps in out/ is much, and rt links it there by itself.
tar -cf - --anchored --no-wildcards-match-slash --exclude='crates/*/out' --exclude='crates/*/must-fail' crates crates.txt | tar -xf - -C "$copy" || exit 1
for name in "${names[@]}"; do
    [ -d "crates/$name/more-edits" ] || { echo "more_edits: crates/$name has no more-edits" >&2; exit 2; }
    mv "$copy/crates/$name/more-edits" "$copy/crates/$name/must-fail"
done
cd "$copy" && rt must-fail "${names[@]}"
