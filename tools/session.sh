#!/bin/sh
# Compares the port's sessions with the reference, which runs the unchanged Rust, on N fresh lists of session calls, byte by byte.
# Usage: tools/session.sh N [SEED]
# DAPSESSION names another program than crates/dapsession/out/dapsession, which `rt ci` and `rt run` leave, ARM_DEBUG_SRC another folder
# of the Rust.
# Exit status: 0 all agree; 77 nothing was compared, as rustc or the source is not at hand; any other, some differ or it broke.
set -eu
count=${1:?usage: tools/session.sh N [SEED]}
seed=${2:-$(date +%s)}
cd "$(dirname "$0")/.."
src=${ARM_DEBUG_SRC:-../shared/docs/src}
port=${DAPSESSION:-crates/dapsession/out/dapsession}
out=target/compare/session

skip() {
    echo "the comparison of sessions with the Rust was skipped: $1"
    exit 77
}
command -v rustc >/dev/null || skip "no rustc"
[ -f "$src/arm-debug/src/lib.rs" ] || skip "no arm-debug/src/lib.rs in $src"
if ! [ -x "$port" ]; then
    echo "no program $port to compare" >&2
    exit 1
fi

tools/session/build.sh "$src"
mkdir -p "$out"
rm -f "$out/list" "$out/script" "$out/expected" "$out/printed"
echo "lists of session calls, seed $seed"
target/session/gen --count "$count" --seed "$seed" --out "$out/lists"
target/session/reference --batch "$out/lists" "$out/texts"
# The runner speaks of scripts, whatever the program reads.
status=0
target/oracle/runner "$port" "$out/lists" "$out/texts" "$out" >"$out/said" || status=$?
[ ! -f "$out/script" ] || mv "$out/script" "$out/list"
sed 's/script/list/g' "$out/said"
exit "$status"
