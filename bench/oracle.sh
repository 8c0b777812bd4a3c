# Sourced by the others. Sets `work`, a folder that goes when they end, and `oracle`, a build of the original Rust: the folder that ORACLE names, or a
# new build by bench/oracle/build.sh, which looks for the original in RUST_SRC.
work=$(mktemp -d)
trap 'rm -rf "$work"' EXIT
oracle=${ORACLE:-}
if [ -z "$oracle" ]; then
    oracle=$work/oracle
    bench/oracle/build.sh "$oracle" >/dev/null
fi
if [ ! -x "$oracle/target/release/answers" ]; then
    echo "there is no build of the original Rust in $oracle: bench/oracle/build.sh makes one" >&2
    exit 3
fi
