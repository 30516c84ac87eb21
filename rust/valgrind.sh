#!/usr/bin/env bash
# The library under valgrind on a sample of boards, good and damaged. `differ --anew` makes the text and every buffer of each sheet anew on the heap with
# just its length, one of them now and then a row short or long: an access outside of what was lent is one outside of a block of the heap, and is told. Status 0
# where none is and no plan differs.
set -eu
cd "$(dirname "$0")"
cargo build --release --offline --all-features --bin differ
watched() {
    valgrind --quiet --error-exitcode=9 --leak-check=no target/release/differ "$@" --anew
}
seed="${1:-1}"
watched "$seed" 2000 tiny
watched "$seed" 2000 damaged
watched "$seed" 2000 scratched
watched "$seed" 300 program
watched "$seed" 20 to-the-most
watched "$seed" 5 full
watched "$seed" 5 many-lanes
watched "$seed" 1 full-typical
watched "$seed" 300 lanes
watched "$seed" 1000 handed
watched "$seed" 500 boxed
echo "valgrind: no access outside of what was lent"
