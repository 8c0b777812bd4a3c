# Sourced: sets `original`, the folder of the original Rust, which is no part of this repository; ends where it is not there.
original=${RUST_SRC:-$(cd "$(dirname "${BASH_SOURCE[0]}")/../.." && pwd)/../shared/docs/src}
if [ ! -f "$original/crates/network-memory/src/network.rs" ]; then
    echo "the original Rust is not in $original: RUST_SRC=FOLDER names the folder with its crates/network and crates/network-memory" >&2
    exit 3
fi
original=$(cd "$original" && pwd)
