#!/bin/sh
# The tests of the Rust crate in rust/, over the proved library, with nothing downloaded.
# Usage: tools/rust.sh        (BAZKONDUR_LIB names another folder that has libbazkondur.a)
# Exit status: 0 they pass; 77 they were skipped, as cargo is not at hand; any other, some fail.
set -eu
cd "$(dirname "$0")/.."
if ! command -v cargo >/dev/null; then
    echo "the tests of the Rust crate were skipped: no cargo"
    exit 77
fi
if [ -z "${BAZKONDUR_LIB:-}" ] && ! [ -f target/staticlib/libbazkondur.a ]; then
    tools/archive.sh >/dev/null
fi
cargo test --offline --quiet --manifest-path rust/Cargo.toml --target-dir target/rust
echo "the crate's tests pass"
