#!/bin/sh
# Builds the archive of the tables and the benchmark over it, and runs it: ratios beside Rust's own collections.
set -e
cd "$(dirname "$0")/../.."
(cd crates/bench_tables && rt lib) >/dev/null
mkdir -p target/bench
rustc -O --edition 2021 bench/tables/main.rs -L native=crates/bench_tables/out -l static=bench_tables -o target/bench/tables
exec target/bench/tables
