#!/usr/bin/env bash
# compare.sh [FIRST] [COUNT] [CALLS] [TILLS]: COUNT scripts from the seeds FIRST on, each of CALLS calls, through the original Rust, through the
# archive's C functions and through `simulate`; TILLS is 64 or small (fewer than 64) to take only such scripts. Then, through the archive and
# `simulate`, the examples of docs/SCRIPTS.md, and the refusals and bad lines of crates/simulate/stdin, which the Rust does not know.
# Shows differences, and says at its end what was met.
# The status is 1 where something differs, and 3 where the original is not there: bench/oracle/README.md.
set -eu
cd "$(dirname "$0")/.."
first=${1:-1} count=${2:-1000} calls=${3:-200} tills=${4:-any}
. bench/oracle.sh
(cd crates/gossip && rt lib) >/dev/null
(cd crates/simulate && rt run </dev/null) >/dev/null
mkdir -p target
rustc --edition 2024 -O -o target/bench-network bench/network/main.rs -L crates/gossip/out -l static=gossip
# lines that no C function answers
leaves='^(latency|draw|should|linkkey|wire|nanos|secs|times) '

wanted() { # SCRIPT
    case $tills in
    64) grep -q '^open tills=64 ' "$1" ;;
    small) ! grep -q '^open tills=64 ' "$1" ;;
    *) true ;;
    esac
}

differ=0
same() { # SCRIPT WHO EXPECTED: are the answers in $work/answers the expected ones?
    cmp -s "$work/answers" "$3" && return
    differ=$((differ + 1))
    [ "$differ" -gt 3 ] && return
    echo "differs: $(basename "$1"), $2"
    diff "$work/answers" "$3" | head -n 10
}

run() { # SCRIPT EXPECTED: through simulate and the archive
    crates/simulate/out/simulate <"$1" >"$work/answers" || true
    same "$1" simulate "$2"
    target/bench-network <"$1" >"$work/answers" || true
    grep -Ev "$leaves" "$2" >"$work/expected"
    same "$1" 'C functions' "$work/expected"
    lines=$((lines + $(wc -l <"$2")))
    grep -oE '^[a-z]+' "$1" >>"$work/calls"
    grep -E '^[a-z]+ refused [0-9]+$|^err ' "$2" | sed 's/^err .*/err/' >>"$work/refused" || true
}

scripts=0 lines=0 seed=$first
: >"$work/calls"
: >"$work/refused"
while [ "$scripts" -lt "$count" ]; do
    rm -rf "$work/scripts"
    "$oracle/target/release/scripts" "$seed" 20 "$work/scripts" "$calls" >/dev/null
    seed=$((seed + 20))
    for script in "$work"/scripts/*.script; do
        [ "$scripts" -lt "$count" ] || break
        wanted "$script" || continue
        run "$script" "${script%.script}.expected"
        scripts=$((scripts + 1))
    done
    echo "$scripts of $count scripts, seeds up to $((seed - 1))" >&2
done

sed -n 's/^    > //p' docs/SCRIPTS.md >"$work/examples"
sed -n -e '/^    > /d' -e 's/^    //p' docs/SCRIPTS.md >"$work/told"
run "$work/examples" "$work/told"
# part 2 of the program's own script begins on the last network of part 1
own=crates/simulate/stdin
{ sed '/^# Part 2/,$d' $own | grep '^open ' | tail -n 1; sed -n '/^# Part 2/,/^# Part 3/p' $own; } >"$work/refusals"
crates/simulate/out/simulate <"$work/refusals" >"$work/told" || true
run "$work/refusals" "$work/told"

told() { sort "$1" | uniq -c | awk '{ n = $1; $1 = ""; printf "%s%s %d", (NR > 1 ? "," : ""), $0, n }'; }
echo "calls:$(told "$work/calls")"
echo "refused:$(told "$work/refused")"
echo "$scripts scripts, the examples and the refusals: $lines answer lines, $differ differ"
[ "$differ" -eq 0 ]
