#!/usr/bin/env bash
# scenarios/prove.sh CRATE: proves the program CRATE and what it stands on, builds it as crates/CRATE/out/CRATE, and shows one line of progress.
# The whole log stands in target/log/check.
set -u
cd "$(dirname "${BASH_SOURCE[0]}")/.." || exit 1
crate=$1
mkdir -p target/log
log=$PWD/target/log/check

(cd "crates/$crate" && exec rt run </dev/null >"$log" 2>&1) &
check=$!
while kill -0 "$check" 2>/dev/null; do
    if [ -t 2 ]; then printf '\r\033[K%s' "$(grep -a '^checked ' "$log" 2>/dev/null | tail -n 1)" >&2; fi
    sleep 1
done
wait "$check"
status=$?
if [ -t 2 ]; then printf '\r\033[K' >&2; fi
if [ "$status" -ne 0 ]; then
    grep -aE 'error|not proved|no proof' "$log" | head -n 20 >&2
    echo "the whole log: target/log/check" >&2
fi
exit "$status"
