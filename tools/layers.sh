#!/bin/sh
# The crates by layer, which is their prefix, from crates.txt, each with those that it builds on directly: what is reached through another one is
# not named again. `--check` names the dependencies of a line that its crate does not need, and fails if there are any. A crate needs what
# its files name, as `Rattle.NAME.` or `NAME::`, and, as the toolchain wants it, whatever declares the type of a value that its code reaches:
# the types it names, those in the signatures of the functions it calls, and what these hold.
# Usage: tools/layers.sh [--check]
set -eu
cd "$(dirname "$0")/.."

if [ "${1:-}" = --check ]; then
    # shellcheck disable=SC2046
    awk '
    function meets(text, into,   word) {
        while (match(text, /([a-z_0-9]+::)?[A-Za-z_][A-Za-z_0-9]*/)) {
            word = substr(text, RSTART, RLENGTH)
            text = substr(text, RSTART + RLENGTH)
            sub(/::/, ".", word)
            if (word ~ /\.|^[A-Z]/) held[into] = held[into] " " word
        }
    }
    # a name in a crate: of another one, of its own, or one that it uses
    function whose(name, from) {
        if (name ~ /\./) return name
        if ((from "." name) in held) return from "." name
        return (from, name) in used ? used[from, name] "." name : ""
    }
    function reach(name,   all, i, n, from) {
        if (name == "" || (crate, name) in seen) return
        seen[crate, name] = 1
        from = name
        sub(/\..*/, "", from)
        needs[crate, from] = 1
        n = split(held[name], all, " ")
        for (i = 1; i <= n; i++) reach(whose(all[i], from))
    }
    FNR == 1 { split(FILENAME, path, "/"); crate = path[2]; code = FILENAME ~ /\.rt$/; inside = "" }
    { text = $0
      while (match(text, /Rattle\.[a-z_0-9]+\./)) {
          needs[crate, substr(text, RSTART + 7, RLENGTH - 8)] = 1
          text = substr(text, RSTART + RLENGTH)
      } }
    !code || /^ghost/ { next }
    { sub(/\/\/.*/, "") }
    # an import, over one line or more: of one name, or of several in braces
    /^use / { importing = "" }
    /^use /, /;/ {
        importing = importing " " $0
        if (!/;/) next
        gsub(/[{}:;,]+/, " ", importing)
        n = split(importing, names, " ")
        for (i = 3; i <= n; i++) { used[crate, names[i]] = names[2]; own[crate] = own[crate] " " names[2] "." names[i] }
        next
    }
    # a declaration: a type with what it holds, a function with its signature
    /^(pub )?(extern "C" )?(struct|enum|fn) / {
        name = $0; sub(/^(pub )?(extern "C" )?[a-z]+ /, "", name); sub(/[^A-Za-z0-9_].*/, "", name)
        inside = crate "." name; held[inside] = " "
    }
    /^\{|ensures|requires/ && inside ~ /\.[a-z]/ { inside = "" }
    inside != "" { meets($0, inside) }
    /^\}/ { inside = "" }
    { meets($0, "code of " crate) }
    END {
        while ((getline line < "crates.txt") > 0) {
            if (line !~ /^[a-z]/) continue
            sub(/ staticlib:/, ":", line)
            n = split(line, deps, /:? +|:$/)
            crate = deps[1]
            m = split(own[crate] held["code of " crate], names, " ")
            for (i = 1; i <= m; i++) if (names[i] ~ /\./) reach(names[i])
            idle = ""
            for (i = 2; i <= n; i++) if (deps[i] != "" && !((crate, deps[i]) in needs)) idle = idle " " deps[i]
            if (idle != "") { print crate " does not need:" idle; status = 1 }
        }
        exit status
    }' $(find crates -path '*/out' -prune -o \( -name '*.antt' -o -name '*.rt' \) -print)
    exit
fi

awk '
# the layer of a crate, by its prefix
function layer_of(name) {
    sub(/_.*/, "", name)
    return name == "slots" ? 1 : name == "wire" ? 2 : name ~ /^(call|engine)$/ ? 3 : name ~ /script$/ ? 4 : name == "target" ? 5 : name ~ /^(session|agreement)$/ ? 6 : name ~ /^(list|dapsession)$/ ? 7 : name ~ /^(abi|bazkondur)$/ ? 8 : 9
}
/^[a-z]/ {
    sub(/ staticlib:/, ":")
    name = substr($1, 1, length($1) - 1)
    crate[++lines] = name
    for (i = 2; i <= NF; i++) { direct[name, i - 1] = $i; below[name, $i] = 1 }
    count[name] = NF - 1
    # crates.txt has dependencies first, so what they reach is known
    for (i = 2; i <= NF; i++) for (pair in below) { split(pair, ends, SUBSEP); if (ends[1] == $i) deep[name, ends[2]] = 1 }
    for (pair in deep) { split(pair, ends, SUBSEP); if (ends[1] == name) below[pair] = 1 }
}
END {
    split("below all|the wire|calls|the script|the model target|the session, and demand 3|lists of session calls|what C and Rust link|cases, tests, benchmark", title, "|")
    for (k = 1; k in title; k++) {
        print (k > 1 ? "\n" : "") title[k]
        for (l = 1; l <= lines; l++) {
            name = crate[l]
            if (layer_of(name) != k) continue
            on = ""
            for (i = 1; i <= count[name]; i++) if (!((name, direct[name, i]) in deep)) on = on " " direct[name, i]
            printf "    %-20s%s\n", name, on == "" ? "" : "<-" on
        }
    }
}' crates.txt
