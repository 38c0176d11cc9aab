#!/bin/sh
# Instructions (callgrind) and time for each transport call, the library behind include/bazkondur.h beside the unchanged Rust: its engine's
# step beside a new ArmDebug, its session's step beside an ArmDebug after a connect on both, each by its own number of transport calls.
# The last column is how often the library calls memcpy or memmove in one call of the session, the start and its steps together. The last
# line is the size of the archive's code and constants.
# Usage: tools/bench.sh
# BAZKONDUR_LIB names another folder of libbazkondur.a than target/staticlib, ARM_DEBUG_SRC another folder of the Rust.
set -eu
cd "$(dirname "$0")/.."
tools/oracle/build.sh
[ -n "${BAZKONDUR_LIB:-}" ] || tools/archive.sh >/dev/null
lib=${BAZKONDUR_LIB:-target/staticlib}
out=target/bench
mkdir -p "$out"
rustc --edition 2021 -O -C overflow-checks=off --out-dir "$out" -L target/oracle \
    --extern rust_dap=target/oracle/librust_dap.rlib --extern arm_debug=target/oracle/libarm_debug.rlib \
    -L "native=$lib" -l static=bazkondur tools/bench/bench.rs

# Instructions of a run with so many repeats; the profile stays in $out/callgrind.
instructions() { # CALL SIDE REPEATS
    valgrind --tool=callgrind --callgrind-out-file="$out/callgrind" "$out/bench" "$1" "$2" "$3" 2>&1 >/dev/null |
        sed -n 's/.*Collected : \([0-9]*\).*/\1/p'
}

# How often the library called memcpy or memmove in the last profile.
copies() {
    awk '/^fn=/ { from = $0; sub(/^fn=\([0-9]*\) ?/, "", from); id = $0; gsub(/^fn=|\).*/, "", id); if (from != "") name[id] = from; else from = name[id] }
        /^cfn=/ { to = $0; sub(/^cfn=\([0-9]*\) ?/, "", to); id = $0; gsub(/^cfn=|\).*/, "", id); if (to != "") name[id] = to; else to = name[id] }
        /^calls=/ { split($0, n, /[= ]/); if (to ~ /mem(cpy|move)/ && from ~ /^bazkondur|^(abi|session|wire|call|engine)[a-z_]*::/) made += n[2] }
        END { print made + 0 }' "$out/callgrind"
}

printf '%-18s %8s %8s %6s %8s %8s %6s %8s %9s %6s %8s %10s %6s %6s\n' call rust engine ratio rust session ratio \
    rust-ns engine-ns ratio rust-ns session-ns ratio copies
for call in read_mem write_mem read_word connect_swd hw_breakpoint_set call_function; do
    case $call in read_mem | write_mem) few=1 many=3 times=300 ;; *) few=100 many=1100 times=200000 ;; esac
    set -- "$call" $((many - few))
    for side in rust engine connected session; do
        a=$(instructions "$call" $side $few)
        copied=$(copies)
        b=$(instructions "$call" $side $many)
        said=$("$out/bench" "$call" $side $times)
        set -- "$@" $((b - a)) $said
    done
    echo "$* $(($(copies) - copied))" | awk '{ r = $3 / $4 / $2; e = $6 / $7 / $2; c = $9 / $10 / $2; s = $12 / $13 / $2
        printf "%-18s %8.1f %8.1f %6.2f %8.1f %8.1f %6.2f %8.2f %9.2f %6.2f %8.2f %10.2f %6.2f %6d\n",
            $1, r, e, e / r, c, s, s / c, $5, $8, $8 / $5, $11, $14, $14 / $11, $15 / $2 }'
done
size "$lib/libbazkondur.a" | awk 'NR > 1 { text += $1 } END { print "text of libbazkondur.a: " text " bytes" }'
