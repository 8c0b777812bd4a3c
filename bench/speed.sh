#!/usr/bin/env bash
# speed.sh [ROUNDS [MESSAGES]]: this network beside the original Rust, in one process, case by case in turn. For each case: microseconds of CPU
# time a message here and in the Rust (the least of the rounds) and their ratio; then instructions a message here and in the Rust, by callgrind,
# where valgrind is installed. Callgrind knows no AVX-512, so it counts the AVX2 form of the Rust's digest. Says at its end what it met.
# The status is 1 where the two sides count differently, and 3 where the original is not there: bench/oracle/README.md.
set -eu
cd "$(dirname "$0")/.."
counted=200
. bench/oracle.sh
deps=$oracle/target/release/deps
(cd crates/gossip && rt lib) >/dev/null
mkdir -p target
rustc --edition 2024 -O -o target/bench-speed bench/network/speed.rs -L crates/gossip/out -l static=gossip \
    -L "dependency=$deps" --extern "hyperscale_network_memory=$(ls "$deps"/libhyperscale_network_memory-*.rlib)"
target/bench-speed "$@" >"$work/said" || { cat "$work/said"; exit 1; }
grep -v '^met:' "$work/said" >"$work/times"
: >"$work/counts"
if command -v valgrind >/dev/null; then
    valgrind --tool=callgrind --toggle-collect=measured --dump-after=measured --callgrind-out-file="$work/out" \
        target/bench-speed count "$counted" >/dev/null 2>"$work/errors" || { cat "$work/errors"; exit 1; }
    # a file for each case on each side, in order
    for i in $(seq $((2 * $(wc -l <"$work/times")))); do sed -n 's/^totals: //p' "$work/out.$i"; done |
        awk -v n="$counted" 'NR % 2 { ours = $1; next } { printf "%10.0f %10.0f %6.2f\n", ours / n, $1 / n, ours / $1 }' >"$work/counts"
fi
echo "case                     here us  Rust us  ratio | here ins.  Rust ins.  ratio"
paste -d'|' "$work/times" "$work/counts" | sed 's/|/ | /'
sed -n 's/^met: //p' "$work/said"
