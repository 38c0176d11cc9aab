#!/bin/sh
# Runs the port on every stored list, and on one of the greatest length and one that is a byte too long, and compares what it prints
# with what the reference printed. Needs no Rust.
# Usage: tools/session/stored.sh
# DAPSESSION names another program than crates/dapsession/out/dapsession, which `rt ci` and `rt run` leave. The last line is 'stored lists: N agree, 0 differ', and the exit
# status is 0 only then.
set -eu
cd "$(dirname "$0")/../.."
port=${DAPSESSION:-crates/dapsession/out/dapsession}
room=$(mktemp -d)
trap 'rm -rf "$room"' EXIT
agree=0
differ=0

judge() { # NAME COMMAND..
    name=$1
    shift
    if "$@" >/dev/null; then
        agree=$((agree + 1))
    else
        echo "$name differs"
        differ=$((differ + 1))
    fi
}

# The item at a place of a batch goes to a file; `size` is then its length with its four bytes.
item() { # BATCH PLACE FILE
    set -- "$@" $(od -An -tu1 -j "$2" -N 4 "$1") # the four bytes are $4 to $7
    size=$((($4 << 24) + ($5 << 16) + ($6 << 8) + $7))
    dd if="$1" of="$3" bs=1 skip="$(($2 + 4))" count="$size" 2>/dev/null
    size=$((size + 4))
}

for list in lists/*.list; do
    name=${list%.list}
    "$port" <"$list" >"$room/printed"
    if [ -f "$name.out" ]; then
        judge "$list" cmp "$room/printed" "$name.out"
    else
        cksum <"$room/printed" >"$room/cksum"
        judge "$list" cmp "$room/cksum" "$name.cksum"
    fi
done
for batch in lists/*.batch; do
    texts=${batch%.batch}.texts
    end=$(wc -c <"$batch")
    at=0 text=0 k=0
    while [ "$at" -lt "$end" ]; do
        item "$batch" "$at" "$room/list"
        at=$((at + size))
        item "$texts" "$text" "$room/expected"
        text=$((text + size))
        "$port" <"$room/list" >"$room/printed"
        judge "list $k of $batch" cmp "$room/printed" "$room/expected"
        k=$((k + 1))
    done
done
for long in '1048576 X A5A5A5A5' '1048577 13 00000000'; do
    tools/session/long.sh "${long%% *}" | "$port" >"$room/printed"
    echo "${long#* }" >"$room/expected"
    judge "a list of ${long%% *} bytes" cmp "$room/printed" "$room/expected"
done
echo "stored lists: $agree agree, $differ differ"
[ "$differ" -eq 0 ]
