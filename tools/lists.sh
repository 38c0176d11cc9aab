#!/bin/sh
# Makes crates/test_lists/stdin and stdout anew from the unchanged Rust.
# Usage: tools/lists.sh [SRC]
set -eu
count=36
seed=1
cd "$(dirname "$0")/.."
tools/oracle/build.sh "$@"
target/oracle/gen --lists "$count" --seed "$seed" --out crates/test_lists/stdin --texts crates/test_lists/stdout
