#!/bin/sh
# The figures of a change, for its page in docs/changes.
# Usage: tools/change.sh BASE [REV]             what moved from BASE to REV (default: HEAD), documents apart: lines by kind of file,
#                                               clauses of contracts, proofs
#        tools/change.sh --times REV CRATE..    seconds that the check of each crate takes at REV, from nothing, once all below it is proved:
#                                               by `rt verdict`, which proves all below it, too, and takes nothing of earlier checks
# Lines that are blank or comment only are not counted; a line that changed counts as one added and one removed.
set -eu
cd "$(dirname "$0")/.."
. tools/kind.sh
room=$(mktemp -d)
trap 'rm -rf "$room"' EXIT

if [ "${1:-}" = --times ]; then
    rev=$2
    shift 2
    git clone -q . "$room/at"
    cd "$room/at"
    git checkout -q "$rev"
    for crate; do
        cd "$room/at/crates/$crate"
        # each proof from nothing, the crate's own last, ends with a line 'logic=..'
        {
            date +'logic= %s.%N'
            rt verdict --jobs 1 2>&1
        } | while IFS= read -r line; do
            case $line in "logic= "*) echo "$line" ;; logic=*) echo "$line $(date +%s.%N)" ;; *) echo "$line" >>"$room/log" ;; esac
        done >"$room/times"
        tail -n 1 "$room/times" | grep -q '^logic=proved' || { tail -n 5 "$room/log"; exit 1; }
        tail -n 2 "$room/times" | awk -v crate="$crate" '{ from = to; to = $NF } END { printf "%-16s %5.1f\n", crate, to - from }'
    done
    exit
fi

base=${1:?usage: tools/change.sh BASE [REV]}
rev=${2:-HEAD}
changed() { git diff --no-renames -U0 "$base" "$rev" -- "$@"; }
clauses() { changed 'crates/*.rt' | grep -cE "^[$1] *(requires|ensures)\>" || true; }
# the functions' folders in proofs/ that have a proof file
proved() { git ls-tree -r --name-only "$1" | sed -n 's,^\(crates/[^/]*/proofs/.*\)/\(Proof\|Answers\|Invariants\)\.antt$,\1,p' | sort -u; }
lines() { grep -E "^[$1]" | grep -vE '^(\+\+\+|---) ' | grep -vcE '^[+-][[:space:]]*(//|--|#|$)' || true; }

git diff --no-renames --name-only "$base" "$rev" | while read -r file; do
    echo "$(kind "$file") $(changed "$file" | lines +) $(changed "$file" | lines -) $file"
done >"$room/files"

awk '{ n[$1]++; a[$1] += $2; r[$1] += $3 }
    END {
        printf "%-10s %6s %6s %8s\n", "kind", "files", "added", "removed"
        split("code believed other proofs edits stored tools", k)
        for (i = 1; i <= 7; i++) printf "%-10s %6d %6d %8d\n", k[i], n[k[i]], a[k[i]], r[k[i]]
    }' "$room/files"
echo
echo "definitions believed:"
awk '$1 == "believed" { printf "  %s  +%d -%d\n", $4, $2, $3 }' "$room/files"
echo "clauses of contracts, of $(git grep -hE '^ *(requires|ensures)\>' "$base" -- 'crates/*.rt' | wc -l) before:" \
    "$(clauses -) changed or gone, $(clauses +) new or as changed"
proved "$base" >"$room/base"
proved "$rev" >"$room/rev"
git diff --no-renames --name-only "$base" "$rev" | sed 's,/[^/]*$,,' | sort -u >"$room/touched"
echo "functions with a proof of their own, of $(wc -l <"$room/base") before:" \
    "$(comm -12 "$room/base" "$room/rev" | comm -12 - "$room/touched" | wc -l) changed," \
    "$(comm -23 "$room/base" "$room/rev" | wc -l) gone, $(comm -13 "$room/base" "$room/rev" | wc -l) new"
