#!/usr/bin/env bash
# run.sh: draws on stream records that Rust lends by `&mut` to the archive's function, against the original's answers in crates/simulate.
# Says at its end what was met; the status is 1 where a line differs.
set -eu
cd "$(dirname "$0")/../.."
(cd crates/gossip && rt lib) >/dev/null
mkdir -p target
rustc --edition 2024 -O -o target/bench-stream bench/stream/main.rs -L crates/gossip/out -l static=gossip
answers=target/bench-stream.answers
grep '^draw long ' crates/simulate/stdin | target/bench-stream >$answers
grep '^draw long ' crates/simulate/stdout | diff - $answers >$answers.diff && differ=0 || differ=$(grep -c '^[<>]' $answers.diff)
head -n 10 $answers.diff
most=$(sed 's/.* words=//' $answers | sort -n | tail -n 1)
echo "$(wc -l <$answers) streams, $(tr ' ' '\n' <$answers | grep -cE '^[0-9a-f]{16}$') draws, word counts up to $most, $differ lines differ"
[ "$differ" -eq 0 ]
