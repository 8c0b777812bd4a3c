#!/usr/bin/env bash
# Every function that include/gossip.h declares stands in the archive of README's link line, and the archive exports no other.
set -eu
cd "$(dirname "$0")/.."
(cd crates/gossip && rt lib) >/dev/null
declared=$(mktemp)
defined=$(mktemp)
trap 'rm -f "$declared" "$defined"' EXIT
sed 's,/\*.*\*/,,' include/gossip.h | grep -oE '^(struct Gossip[A-Za-z]+|uint64_t) gossip_[a-z0-9_]+\(' | grep -oE 'gossip_[a-z0-9_]+' | sort >"$declared"
nm --defined-only --extern-only crates/gossip/out/libgossip.a | awk 'NF == 3 { print $3 }' | sort >"$defined"
if ! diff "$declared" "$defined"; then
    echo "include/gossip.h and crates/gossip/out/libgossip.a differ (<: declared only; >: in the archive only)"
    exit 1
fi
echo "$(wc -l <"$declared") functions declared in include/gossip.h, each in crates/gossip/out/libgossip.a, and no other"
