#!/bin/sh
# Builds the text tool, the generator, and from the unchanged Rust the reference for lists of session calls. The text tool needs rustc
# alone: where the Rust's source is not at hand it is all that is built.
# Usage: tools/session/build.sh [SRC]
# SRC holds arm-debug/src/lib.rs; default $ARM_DEBUG_SRC, then ../shared/docs/src.
set -eu
cd "$(dirname "$0")/../.."
src=${1:-${ARM_DEBUG_SRC:-../shared/docs/src}}
rust=$src/arm-debug/src/lib.rs
out=target/session
mkdir -p "$out"

# Whether nothing of these is newer than the last build of that name.
standing() { # NAME PATH..
    name=$1
    shift
    [ "$(cat "$out/$name" 2>/dev/null)" = "$src" ] && [ -z "$(find "$@" -newer "$out/$name")" ]
}

# The Rust's address arithmetic wraps; a spent budget unwinds out of it.
compile() {
    rustc --edition 2021 -O -C overflow-checks=off -C panic=unwind \
        --out-dir "$out" -L "$out" -L target/oracle "$@"
}
if ! standing text.built tools/session; then
    compile --crate-type rlib tools/session/list.rs
    compile --extern list tools/session/text.rs
    echo "$src" >"$out/text.built"
fi
if ! [ -f "$rust" ]; then
    echo "no arm-debug/src/lib.rs in $src: only the text tool was built"
    exit 0
fi
tools/oracle/build.sh "$src"
! standing built tools/session tools/oracle "$rust" || exit 0

# The Rust as it is, and behind it, in the same module, what looks at its private fields.
cat "$rust" tools/session/fields.rs >"$out/arm_debug_open.rs"
compile --crate-type rlib --extern rust_dap "$out/arm_debug_open.rs"
compile --crate-type rlib --extern rust_dap --extern arm_debug_open --extern driver --extern list tools/session/session.rs
for program in reference gen; do
    compile --extern driver --extern list --extern session "tools/session/$program.rs"
done
echo "$src" >"$out/built"
