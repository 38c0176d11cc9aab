#!/bin/sh
# Tests the C interface: the header compiles alone, the archive has its functions and no others, the example prints what is stored, and
# bad input is refused (abi/bad.c), under valgrind where that is at hand.
# Usage: tools/abi.sh
# BAZKONDUR_LIB names another folder of libbazkondur.a than target/staticlib, CC and CXX other compilers.
# The last line is 'C interface: N checks, 0 failed'. Exit status: 0 all hold; 1 some do not; 77 nothing was checked, as there is no C
# compiler.
set -u
cd "$(dirname "$0")/.."
cc=${CC:-cc}
cxx=${CXX:-c++}
lib=${BAZKONDUR_LIB:-target/staticlib}/libbazkondur.a
out=target/abi
checks=0
failed=0

if ! command -v "$cc" >/dev/null; then
    echo "the test of the C interface was skipped: no C compiler ($cc)"
    exit 77
fi
if ! [ -f "$lib" ] && [ -z "${BAZKONDUR_LIB:-}" ]; then
    tools/archive.sh
fi
if ! [ -f "$lib" ]; then
    echo "no archive $lib to test" >&2
    exit 1
fi
rm -rf "$out"
mkdir -p "$out"

# One check: a command succeeds.
holds() { # WHAT COMMAND..
    what=$1
    shift
    checks=$((checks + 1))
    if "$@"; then
        echo "passed: $what"
    else
        echo "FAILED: $what"
        failed=$((failed + 1))
    fi
}

strict='-O2 -Wall -Wextra -pedantic -Werror -I include'
c99() {
    "$cc" -std=c99 $strict "$@"
}
cpp11() {
    "$cxx" -std=c++11 $strict -x c++ "$@"
}

# The functions that the header declares are those that the archive exports.
exports() {
    sed -n 's/^[a-z].* \(bazkondur_[a-z_]*\)(.*/\1/p' include/bazkondur.h | sort >"$out/declared"
    nm -gP "$lib" | awk '$2 == "T" { print $1 }' | sort >"$out/exported"
    [ -s "$out/declared" ] && diff "$out/declared" "$out/exported"
}

prints() { # PROGRAM
    "$1" >"$1.out" && cmp "$1.out" examples/probe.out
}

echo '#include "bazkondur.h"' >"$out/alone.c"
holds "the header compiles alone as C99" c99 -fsyntax-only "$out/alone.c"
if command -v nm >/dev/null; then
    holds "the archive exports what the header declares" exports
else
    echo "skipped: what the archive exports (no nm)"
fi
holds "the example compiles as C99" c99 examples/probe.c "$lib" -o "$out/probe"
holds "it prints what is stored" prints "$out/probe"
if command -v "$cxx" >/dev/null; then
    holds "the header compiles alone as C++" cpp11 -fsyntax-only "$out/alone.c"
    holds "the example compiles as C++" cpp11 examples/probe.c -x none "$lib" -o "$out/probe++"
    holds "it prints the same" prints "$out/probe++"
else
    echo "skipped: the header and the example as C++ (no $cxx)"
fi
holds "the struct is nine words, in their order" c99 -gdwarf-4 tools/abi/bad.c "$lib" -o "$out/bad"
if command -v valgrind >/dev/null; then
    holds "bad input is refused, and no access goes outside" valgrind -q --error-exitcode=9 "$out/bad"
else
    echo "skipped: whether an access goes outside (no valgrind)"
    holds "bad input is refused" "$out/bad"
fi
echo "C interface: $checks checks, $failed failed"
[ "$failed" -eq 0 ]
