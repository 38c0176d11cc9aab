#!/bin/sh
# Lines by crate: code, believed definitions, other specs (they serve proofs only), proofs, must-fail edits.
# Blank lines and lines of comment only are not counted. Believed is what stands directly in specs/, see tools/kind.sh.
# Usage: tools/figures.sh
set -eu
cd "$(dirname "$0")/.."
. tools/kind.sh
count() { cat /dev/null "$@" 2>/dev/null | grep -vcE '^[[:space:]]*(//|--|$)' || true; }

printf '%-18s %6s %9s %6s %7s %6s\n' crate code believed other proofs edits
mkdir -p target
sed -n 's/^\([a-z_0-9]*\)\( staticlib\)\{0,1\}:.*/\1/p' crates.txt | while read -r crate; do
    dir=crates/$crate
    believed= other=
    for file in "$dir"/specs/*.antt "$dir"/specs/Laws/*.antt; do
        [ -f "$file" ] || continue
        if [ "$(kind "$file")" = believed ]; then believed="$believed $file"; else other="$other $file"; fi
    done
    # shellcheck disable=SC2086
    printf '%-18s %6s %9s %6s %7s %6s\n' "$crate" "$(count "$dir"/src/*.rt)" "$(count $believed)" "$(count $other)" \
        "$(find "$dir/proofs" -name '*.antt' -exec cat {} + 2>/dev/null | grep -vcE '^[[:space:]]*(--|$)' || true)" \
        "$(find "$dir" -name '*.edit' | wc -l)"
done | tee target/figures
awk '{ for (i = 2; i <= 6; i++) t[i] += $i } END { printf "%-18s %6d %9d %6d %7d %6d\n", "all", t[2], t[3], t[4], t[5], t[6] }' target/figures
