#!/usr/bin/env bash
# fuzz.sh [CALLS] [SEED]: random calls on whole and damaged tables through the archive, every slice against a guard page; a tenth as many under valgrind.
# Each prints how often each function answered each number. The status is not 0 where a pair of function and number that include/gossip.h names was
# never met, a refused call changed a byte, or a byte outside a slice was touched.
set -eu
cd "$(dirname "$0")/.."
calls=${1:-100000} seed=${2:-1}
(cd crates/gossip && rt lib) >/dev/null
mkdir -p target
rustc --edition 2024 -O -o target/bench-fuzz bench/network/fuzz.rs -L crates/gossip/out -l static=gossip
for place in before behind; do
    if bash -c "ulimit -c 0; target/bench-fuzz touch $place; exit \$?" >/dev/null 2>&1; then
        echo "the guard pages do not hold: a read $place a slice went through"
        exit 1
    fi
done
echo "guard pages: a read of one element before a slice, or behind it, ends the program"
target/bench-fuzz "$calls" "$seed"
if command -v valgrind >/dev/null; then
    echo "under valgrind:"
    valgrind -q --error-exitcode=1 target/bench-fuzz $((calls / 10)) $((seed + 1))
else
    echo "valgrind is not installed: that part was left out"
fi
