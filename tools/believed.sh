#!/bin/sh
# The believed definitions, crates/*/specs/*.antt but for the lists of modules (Lib.antt, Laws.antt): checks that the table of
# docs/READING.md has each of them once and with its lines (wc -l), and the sentence below it their sums, which it prints.
# Definition lines are all but blank lines, comments, `use` and what only gives a type (`name : ..`: a signature, a field of a record,
# a case of a data type), each with the deeper lines that go on with it. Of these it says how many stand inside braces: `rt fmt`
# spreads a literal over a line a field. Commit 3daaf9f, from before the tree was in its form, has 1,295, of them 26 inside braces.
# Usage: tools/believed.sh        (exit status 1 if anything is wrong)
set -eu
cd "$(dirname "$0")/.."
# shellcheck disable=SC2046
awk '
function wrong(what) { print "docs/READING.md: " what; status = 1 }
function grouped(n) { return n < 1000 ? n : sprintf("%d,%03d", n / 1000, n % 1000) }

# the table: a file without a folder is in that of the file before it
FILENAME == "docs/READING.md" {
    if (/^## /) table = /^## Believed, from/
    if (/^They have /) sums = $0
    split($0, cells, "|")
    rest = table ? cells[2] : ""
    while (match(rest, /`[^`]*\.antt` \([0-9]+\)/)) {
        file = lines = substr(rest, RSTART + 1, RLENGTH - 2)
        rest = substr(rest, RSTART + RLENGTH)
        sub(/`.*/, "", file)
        sub(/.*\(/, "", lines)
        if (file !~ /\//) file = folder file
        folder = file
        sub(/[^\/]*$/, "", folder)
        if (file in told) wrong(file " stands twice")
        told[file] = lines
    }
    next
}

FNR == 1 { typed = holds = open = 0 }
{ has[FILENAME]++; all++ }
/^ *(--|$)/ { next }
{ within = open > 0; text = $0; open += gsub(/\{/, "", text) - gsub(/\}/, "", text); match($0, /^ */); depth = RLENGTH }
typed && (within || depth > from) { next }
within { braced++; definitions++; next }
{ typed = 0 }
depth == 0 { holds = /^(pub )?(record|data) / }
/^(pub )?use / || ((depth == 0) != holds && /^ *((abbrev|unfoldable) )?(pub )?[^ ()]+( [^ ()]+)* : /) { typed = 1; from = depth; next }
{ definitions++ }

END {
    for (file in has) {
        if (!(file in told)) wrong(file " (" has[file] ") is missing")
        else if (told[file] != has[file]) wrong(file " has " has[file] " lines, not " told[file])
    }
    for (file in told) if (!(file in has)) wrong(file " is no believed file")
    said = "They have " grouped(all) " lines in all, " grouped(definitions) " of them definitions"
    if (index(sums, said) != 1) wrong("the sentence below the table should begin: " said)
    print "believed: " grouped(definitions) " definition lines (" braced + 0 " of them inside braces), " grouped(all) " lines in all"
    exit status
}' docs/READING.md $(find crates -path 'crates/*/specs/*.antt' ! -path '*/out/*' ! -path '*/Laws/*' ! -name Lib.antt ! -name Laws.antt | sort)
