#!/bin/sh
# Runs the session as programs link it, by the crate in rust/, on every stored list of session calls (session/linked.rs), and compares what
# it prints with what the reference printed.
# Usage: tools/linked.sh        (BAZKONDUR_LIB names another folder that has libbazkondur.a)
# The last line is 'stored lists: N agree, 0 differ'. Exit status: 0 all agree; 77 nothing was compared, as there is no rustc; any other,
# some differ or it broke.
set -eu
cd "$(dirname "$0")/.."
lib=${BAZKONDUR_LIB:-target/staticlib}
out=target/linked
if ! command -v rustc >/dev/null; then
    echo "the comparison of the linked session was skipped: no rustc"
    exit 77
fi
if [ -z "${BAZKONDUR_LIB:-}" ] && ! [ -f "$lib/libbazkondur.a" ]; then
    tools/archive.sh >/dev/null
fi
mkdir -p "$out"
compile() {
    rustc --edition 2021 -O --out-dir "$out" -L "$out" "$@"
}
compile --crate-type rlib tools/session/list.rs
compile --crate-type rlib --crate-name bazkondur -L "native=$lib" -l static=bazkondur rust/src/lib.rs
compile --extern list --extern bazkondur -L "native=$lib" tools/session/linked.rs
DAPSESSION=$out/linked tools/session/stored.sh
