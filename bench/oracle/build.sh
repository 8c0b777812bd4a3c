#!/usr/bin/env bash
# build.sh OUT: builds the original Rust and the programs that run scripts on it in the folder OUT (about a minute and a half).
# The original is looked for in RUST_SRC, or in ../shared/docs/src beside this repository. README.md names the Debian packages that it needs.
set -eu
[ $# -eq 1 ] || { sed -n 2p "$0" >&2; exit 2; }
here=$(cd "$(dirname "$0")" && pwd)
. "$here/original.sh"
mkdir -p "$1"
cd "$1"
rm -rf Cargo.toml Cargo.lock stubs programs crates
cp -R "$here/Cargo.toml" "$here/stubs" "$here/programs" .
mkdir crates
for crate in network network-memory; do
    cp -R "$original/crates/$crate" crates/
    chmod -R u+w "crates/$crate"
    cp -R "$here/beside/$crate" crates/
done
# All that is added to the original's text: a line at the end of four of its files.
echo 'mod view;' >>crates/network/src/fault/engine.rs
echo 'mod view;' >>crates/network-memory/src/streams.rs
echo 'pub mod driver;' >>crates/network-memory/src/network.rs
echo 'pub use network::driver;' >>crates/network-memory/src/lib.rs
debian() {
    cargo build --release --offline --quiet --config 'source.crates-io.replace-with="debian"' \
        --config 'source.debian.directory="/usr/share/cargo/registry"' --package programs "$@"
}
debian --bin answers --bin scripts --bin floats
debian --bin edges --features set --target-dir target-set
echo "built: answers, scripts and floats in target/release, edges in target-set/release"
