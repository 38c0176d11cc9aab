#!/bin/sh
# Shows that the crate in rust/ takes the place of the Rust's arm-debug: the oracle with nothing but two imports changed, so that it runs
# over the crate, prints what it prints over the unchanged Rust, on N fresh scripts and on lists of calls on one engine.
# Usage: tools/dropin.sh N [SEED]
# BAZKONDUR_LIB names another folder of libbazkondur.a than target/staticlib, ARM_DEBUG_SRC another folder of the Rust.
# Exit status: 0 all agree; 77 nothing was compared, as rustc or the source is not at hand; any other, some differ or it broke.
set -eu
calls=1-35
lists=300
count=${1:?usage: tools/dropin.sh N [SEED]}
seed=${2:-$(date +%s)}
cd "$(dirname "$0")/.."
src=${ARM_DEBUG_SRC:-../shared/docs/src}
lib=${BAZKONDUR_LIB:-target/staticlib}
out=target/dropin

skip() {
    echo "the comparison of the linked library with the Rust was skipped: $1"
    exit 77
}
command -v rustc >/dev/null || skip "no rustc"
[ -f "$src/arm-debug/src/lib.rs" ] || skip "no arm-debug/src/lib.rs in $src"
if ! [ -f "$lib/libbazkondur.a" ]; then
    echo "no $lib/libbazkondur.a to compare: tools/archive.sh makes it" >&2
    exit 1
fi

tools/oracle/build.sh "$src"
mkdir -p "$out"
rm -f "$out/script" "$out/expected" "$out/printed"
# A spent budget unwinds out of the crate, too.
compile() {
    rustc --edition 2021 -O -C panic=unwind --out-dir "$out" -L "$out" "$@"
}
compile --crate-type rlib --crate-name bazkondur -L "native=$lib" -l static=bazkondur rust/src/lib.rs

# The driver, over the crate.
driver=tools/oracle/driver.rs
sed 's/^use arm_debug::/use bazkondur::/; s/^use rust_dap::/use bazkondur::rust_dap::/' "$driver" >"$out/driver.rs"
changed='use arm_debug::{ArmDebug, ArmError, CallFrame};
use rust_dap::*;
use bazkondur::{ArmDebug, ArmError, CallFrame};
use bazkondur::rust_dap::*;'
if [ "$(diff "$driver" "$out/driver.rs" | sed -n 's/^[<>] //p')" != "$changed" ]; then
    echo "$out/driver.rs differs from $driver in more than its imports" >&2
    exit 1
fi
compile --crate-type rlib --extern bazkondur "$out/driver.rs"
for program in tools/oracle/oracle.rs tools/oracle/gen.rs tools/dropin/texts.rs; do
    compile --extern driver "$program"
done

echo "calls $calls, seed $seed"
target/oracle/gen --calls "$calls" --count "$count" --seed "$seed" --out "$out/scripts"
target/oracle/oracle --batch "$out/scripts" "$out/texts.rust"
"$out/oracle" --batch "$out/scripts" "$out/texts.linked"

# What an engine remembers from call to call, after a call that was left, too. The records tell which answers a call took.
for kind in rust linked; do
    if [ "$kind" = rust ]; then gen=target/oracle/gen; else gen=$out/gen; fi
    "$gen" --lists "$lists" --seed "$seed" --out "$out/lists.$kind" --texts "$out/lists.$kind.texts"
done
status=0
for file in lists.rust lists.rust.texts; do
    cmp "$out/$file" "$out/lists.linked${file#lists.rust}" || status=1
done
if [ "$status" -eq 0 ]; then
    echo "compared $(grep -c '^list$' "$out/lists.rust.texts") lists of calls on one engine: all agree"
else
    echo "lists of calls on one engine differ; see $out/lists.rust.texts and $out/lists.linked.texts"
fi
"$out/texts" "$out/scripts" "$out/texts.rust" "$out/texts.linked" "$out" || status=1
exit "$status"
