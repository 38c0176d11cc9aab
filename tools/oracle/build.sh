#!/bin/sh
# Builds the oracle, the generator and the runner from the unchanged Rust.
# Usage: tools/oracle/build.sh [SRC]
# SRC holds arm-debug/src/lib.rs; default $ARM_DEBUG_SRC, then ../shared/docs/src.
set -eu
cd "$(dirname "$0")/../.."
src=${1:-${ARM_DEBUG_SRC:-../shared/docs/src}}
rust=$src/arm-debug/src/lib.rs
out=target/oracle
mkdir -p "$out"

# Nothing to do when the last build is newer than its sources.
if [ "$(cat "$out/built" 2>/dev/null)" = "$src" ] &&
    [ -z "$(find tools/oracle "$rust" -newer "$out/built")" ]; then
    exit 0
fi

# The Rust's address arithmetic wraps; a spent budget unwinds out of it.
compile() {
    rustc --edition 2021 -O -C overflow-checks=off -C panic=unwind \
        --out-dir "$out" -L "$out" "$@"
}
compile --crate-type rlib tools/oracle/rust_dap.rs
compile --crate-type rlib --crate-name arm_debug --extern rust_dap "$rust"
compile --crate-type rlib --extern rust_dap --extern arm_debug tools/oracle/driver.rs
for program in oracle gen runner; do
    compile --extern driver "tools/oracle/$program.rs"
done
echo "$src" >"$out/built"
