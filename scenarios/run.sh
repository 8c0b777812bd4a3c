#!/usr/bin/env bash
# scenarios/run.sh [NAME]: runs a scenario (the morning, where none is named) and prints its answers, checklist and slips.
cd "$(dirname "${BASH_SOURCE[0]}")/.." || exit 1
[ -x crates/simulate/out/simulate ] || scenarios/prove.sh simulate || exit 1
exec crates/simulate/out/simulate checklist <"crates/simulate_scenarios/data/${1:-morning}.script"
