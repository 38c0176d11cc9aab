#!/bin/sh
# Proves the static library, the crate bazkondur_c, with all below it, and puts its archive where C and Rust look for it:
# target/staticlib/libbazkondur.a. What `rt` kept of earlier checks on this machine saves time; nothing is built of what is not proved.
# Usage: tools/archive.sh
set -eu
cd "$(dirname "$0")/.."
out=target/staticlib
mkdir -p "$out"
rm -f "$out/libbazkondur.a"
(cd crates/bazkondur_c && rt lib) >"$out/log" 2>&1 || {
    tail -n 20 "$out/log"
    exit 1
}
tail -n 1 "$out/log"
cp crates/bazkondur_c/out/libbazkondur_c.a "$out/libbazkondur.a"
