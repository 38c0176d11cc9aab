#!/bin/sh
# Makes crates/test_replay/stdin anew from the unchanged Rust: scripts from a seed, then one of 65,536 bytes and one of 65,537. The one
# of 65,536 bytes is also what `dapscript` is run on: makes crates/dapscript/stdin and stdout anew.
# Usage: tools/vectors.sh [SRC]
set -eu
calls=1-35
count=2100
bytes=30000
seed=1
cd "$(dirname "$0")/.."
tools/oracle/build.sh "$@"
target/oracle/gen --calls "$calls" --count "$count" --seed "$seed" --bytes "$bytes" \
    --out target/oracle/scripts
{
    printf '\000\001\000\000'
    tools/long.sh 65536
    printf '\000\001\000\001'
    tools/long.sh 65537
} >>target/oracle/scripts
target/oracle/oracle --vectors target/oracle/scripts crates/test_replay/stdin
tools/long.sh 65536 >crates/dapscript/stdin
target/oracle/oracle <crates/dapscript/stdin >crates/dapscript/stdout
