#!/bin/sh
# All tests: `rt ci` (every crate proved, every must-fail edit refused, every program's output as stored, no file out of its form),
# READING's table of believed files, `dapscript` on the README's script and on one that is a byte too long, `dapsession` on the stored
# lists, then fresh scripts compared with the unchanged Rust, and fresh lists of session calls with a reference over it; then what a
# probe's maker links: the static library, the C interface (header, example, bad input, random words), the Rust crate, and that it is a
# drop-in. Where rustc or its source, a C compiler or cargo is not at hand, a line says that a test was skipped; with CI=true it counts as
# failed. The last line is 'N passed, 0 failed', and the exit status is 0 only then.
# That the tree is in the form of `rt fmt` is no test of its own: `rt ci` refuses a crate that is not, and `rt fmt --check` is gone.
set -u
cd "$(dirname "$0")/.."
room=$(mktemp -d)
trap 'rm -rf "$room"' EXIT
log=$room/log
{
    rt ci 2>&1
    echo $? >"$room/status"
} | tee "$log"
status=$(cat "$room/status")
last=$(tail -n 1 "$log")
passed=$(echo "$last" | sed -n 's/^\([0-9]*\) passed, [0-9]* failed$/\1/p')
failed=$(echo "$last" | sed -n 's/^[0-9]* passed, \([0-9]*\) failed$/\1/p')
if [ -z "$passed" ]; then
    echo "0 passed, 1 failed"
    exit 1
fi
if [ "$status" -ne 0 ] && [ "$failed" -eq 0 ]; then
    echo "FAILED: rt ci ended with status $status"
    failed=1
fi
# An edit that cannot be applied or read is bad: it shows nothing. `rt ci` passes all the same, and counts such edits on its line 'rt: ok'.
ok=$(grep '^rt: ok;' "$log" | tail -n 1)
bad=$(echo "$ok" | sed -n 's/.*; must-fail edits: [^;]*, \([0-9][0-9]*\) bad.*/\1/p')
if [ "${bad:-0}" -gt 0 ]; then
    echo "FAILED: $bad of the must-fail edits are bad"
    failed=$((failed + 1))
fi
if [ -z "$ok" ] && [ "$failed" -eq 0 ]; then
    echo "FAILED: rt ci has no line 'rt: ok'"
    failed=1
fi

# One test: a command succeeds.
holds() { # WHAT COMMAND..
    what=$1
    shift
    if "$@"; then
        echo "passed: $what"
        passed=$((passed + 1))
    else
        echo "FAILED: $what"
        failed=$((failed + 1))
    fi
}
holds "docs/READING.md lists the believed files" tools/believed.sh

# One test: `dapscript`, as `rt ci` left it, prints exactly this text for the script on standard input.
prints() { # WHAT TEXT
    crates/dapscript/out/dapscript >"$room/printed"
    printf '%s\n' "$2" >"$room/expected"
    holds "dapscript prints what it must for $1" cmp "$room/printed" "$room/expected"
}
prints "the README's script" "1 T 8 00000000
2 T 1 23000012
3 T 5 20000000
4 T F 00000000
5 T E 00000000
0 12345678" <examples/read_word.script
tools/long.sh 65537 >"$room/script"
prints "a script of 65,537 bytes" "13 00000000" <"$room/script"

holds "dapsession prints what the reference did for the stored lists" tools/session/stored.sh

# One test: a command succeeds and its last lines have such an end; 77 is for one that was skipped.
ends() { # END COMMAND..
    end=$1
    shift
    "$@" >"$log" 2>&1
    status=$?
    cat "$log"
    if [ "$status" -eq 0 ] && grep -q "$end\$" "$log"; then
        passed=$((passed + 1))
    elif [ "$status" -ne 77 ]; then
        failed=$((failed + 1))
    elif [ "${CI:-}" = true ]; then
        echo "with CI=true a test that was skipped counts as failed"
        failed=$((failed + 1))
    fi
}
# One test: a comparison with the Rust ends with all agreed.
compares() { # COMMAND..
    ends ' agree, 0 differ' "$@"
}
compares tools/compare.sh 8000
compares tools/session.sh 1000
if [ -x target/session/text ]; then
    target/session/text encode <examples/accident.txt >"$room/accident"
    holds "the README's text is the stored list" cmp "$room/accident" lists/accident.list
fi
holds "the static library is proved and built" tools/archive.sh
ends ' checks, 0 failed' tools/abi.sh
ends 'the crate.s tests pass' tools/rust.sh
compares tools/linked.sh
compares tools/dropin.sh 12000
echo "$passed passed, $failed failed"
[ "$failed" -eq 0 ]
