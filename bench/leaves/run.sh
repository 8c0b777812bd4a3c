#!/usr/bin/env bash
# Builds the archive of the crate bench_leaves, links the benchmark and runs it.
set -eu
cd "$(dirname "$0")/../.."
(cd crates/bench_leaves && rt lib) >/dev/null
mkdir -p target
rustc --edition 2024 -O -o target/bench-leaves bench/leaves/main.rs -L crates/bench_leaves/out -l static=bench_leaves
exec target/bench-leaves
