#!/bin/sh
# Compares the port with the unchanged Rust on N fresh scripts, byte by byte.
# Usage: tools/compare.sh N [SEED]
# DAPSCRIPT names another program than crates/dapscript/out/dapscript, which `rt ci` and `rt run` leave, ARM_DEBUG_SRC another folder
# of the Rust.
# Exit status: 0 all agree; 77 nothing was compared, as rustc or the source is not at hand; any other, some differ or it broke.
set -eu
calls=1-35
count=${1:?usage: tools/compare.sh N [SEED]}
seed=${2:-$(date +%s)}
cd "$(dirname "$0")/.."
src=${ARM_DEBUG_SRC:-../shared/docs/src}
port=${DAPSCRIPT:-crates/dapscript/out/dapscript}
out=target/compare

skip() {
    echo "the comparison with the Rust was skipped: $1"
    exit 77
}
command -v rustc >/dev/null || skip "no rustc"
[ -f "$src/arm-debug/src/lib.rs" ] || skip "no arm-debug/src/lib.rs in $src"
if ! [ -x "$port" ]; then
    echo "no program $port to compare" >&2
    exit 1
fi

tools/oracle/build.sh "$src"
mkdir -p "$out"
rm -f "$out/script" "$out/expected" "$out/printed"
echo "calls $calls, seed $seed"
target/oracle/gen --calls "$calls" --count "$count" --seed "$seed" --out "$out/scripts"
target/oracle/oracle --batch "$out/scripts" "$out/texts"
target/oracle/runner "$port" "$out/scripts" "$out/texts" "$out"
