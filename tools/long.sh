#!/bin/sh
# Writes a script of exactly SIZE bytes that breaks no rule of the format but, from 65,537 on, its limit: call 14 (write_mem) of
# one to seven bytes at 0x20000001, and Ok answers of 0x12345678, of which the call leaves most unused.
# Usage: tools/long.sh SIZE >FILE        (SIZE from 9 on)
set -eu
size=${1:?usage: tools/long.sh SIZE}
answers=$(((size - 9) / 7))
bytes=$((size - 8 - 7 * answers))

# the version, then the call's record: its length, the call number, the address, the bytes to be written
printf "\\001\\000\\$(printf %03o $((5 + bytes)))\\016\\040\\000\\000\\001"
while [ "$bytes" -gt 0 ]; do
    printf '\245'
    bytes=$((bytes - 1))
done
while [ "$answers" -gt 0 ]; do
    printf '\000\005\000\022\064\126\170'
    answers=$((answers - 1))
done
