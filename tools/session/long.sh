#!/bin/sh
# Writes a list of exactly SIZE bytes that breaks no rule of the format but, from 1,048,577 on, its limit: a target, memory that is
# filled again and again, and its first four bytes shown, X A5A5A5A5.
# Usage: tools/session/long.sh SIZE >FILE        (SIZE from 63 on)
set -eu
size=${1:?usage: tools/session/long.sh SIZE}

two() { # a number in two bytes
    printf "\\$(printf %03o $(($1 / 256)))\\$(printf %03o $(($1 % 256)))"
}

# the version, and the target: width 10, CSW 2, 65,536 bytes from 0 on
printf '\003\000\050T'
printf '\000%.0s' 1 2 3 4 5 6 7 8
printf '\012'
printf '\000%.0s' 1 2 3 4 5 6 7 8 9 10 11 12 13 14
printf '\000\000\000\002\000\000\000\000\000\000\000\000\000\001\000\000'
# each record of memory has seven bytes beside those of the memory; the target took 43, and what is shown takes 9
left=$((size - 43 - 9))
while [ "$left" -gt 0 ]; do
    bytes=$((left > 50000 ? 40000 : left - 7))
    two $((5 + bytes))
    printf 'M\000\000\000\000'
    head -c "$bytes" /dev/zero | tr '\000' '\245'
    left=$((left - 7 - bytes))
done
printf '\000\007X\000\000\000\000\000\004'
