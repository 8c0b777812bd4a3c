#!/usr/bin/env bash
# run.sh [CASES] [SEED]: how far simulated delays lie from the exact ones (document 02, M-106): random bases, fractions and draws through `simulate`,
# each distance worked out in whole numbers. Says at its end how many were met and the largest distance; the status is 1 where one is 1 ns or more.
set -eu
cd "$(dirname "$0")/../.."
(cd crates/simulate && rt run </dev/null) >/dev/null
mkdir -p target
rustc --edition 2024 -O -o target/bench-delay bench/delay/main.rs
exec target/bench-delay crates/simulate/out/simulate "${1:-10000000}" "${2:-1}"
