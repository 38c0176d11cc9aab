#!/bin/sh
# Brings an older tree to today's spelling: the kit's port.py, then this repository's own names. Once, at the top of that tree:
#   PORT=/path/of/port.py sh port.sh
# The kit's scripts pass over each folder that is called target, so the crate of that name goes by another one while they run.
set -eu
tools=$(cd "$(dirname "$0")" && pwd)
other=modeltarget
renamed() { # FROM TO
    git ls-files crates crates.txt | grep -E '\.(rt|antt|edit)$|crates.txt$' | while read -r f; do
        sed -i -E "s/Rattle([·.])$1([·.])/Rattle\\1$2\\2/g; s/\\b(use |pub use )$1::/\\1$2::/; s/([^a-z_.:])$1::/\\1$2::/g" "$f"
    done
    sed -i -E "s/\\b$1\\b([^_]|\$)/$2\\1/g" crates.txt
}
git mv crates/target crates/$other
renamed target $other
git add -A
git commit -qm "The crate target by another name, for the scripts"
python3 "$PORT"
git add -A
git mv crates/$other crates/target
renamed $other target
python3 "$tools/port_names.py"
