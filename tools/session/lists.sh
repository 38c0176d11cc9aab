#!/bin/sh
# Makes lists/ anew: from each text its list, and from each list what the reference prints; the losses, the rules and the sample.
# Usage: tools/session/lists.sh [SRC]
set -eu
cd "$(dirname "$0")/../.."
tools/session/build.sh "$@"
tools=target/session

# Every error of a loss, delivered and not, at one transport call of a call that comes after a connect.
lost_at() { # WHERE PLACE CALL..
    where=$1 place=$2
    shift 2
    echo
    echo "# $where"
    for way in undelivered delivered; do
        for error in 'ack 0' 'ack 1' 'ack 3' 'ack 5' 'ack 7' 'ack 255' not_supported other; do
            [ "$1" = connect ] || echo connect
            echo "lose $place $way $error"
            echo "$*"
            echo registers
            [ "$1" != write_word ] || echo 'show 0x8 8'
            echo 'read_word 0x20000000'
        done
    done
}
losses() {
    echo '# Every error of a loss, undelivered and delivered. After each the registers, and a read: refused where the session has'
    echo '# closed. Made by tools/session/lists.sh.'
    echo 'target dpidr=0x2BA01477 base=0x20000000 size=16 select=0xF0'
    echo 'memory 0x0 00112233445566778899AABBCCDDEEFF'
    lost_at 'connect' 1 connect
    lost_at 'a sequence' 3 connect
    lost_at 'DPIDR' 7 connect
    lost_at "a connect's own ABORT" 8 connect
    lost_at 'SELECT' 9 connect
    lost_at 'CTRL/STAT' 10 connect
    lost_at 'CSW' 1 read_word 0x20000004
    lost_at 'TAR' 2 read_word 0x20000004
    lost_at 'DRW, read' 3 read_word 0x20000004
    lost_at 'RDBUFF' 4 read_word 0x20000004
    lost_at 'DRW, written' 3 write_word 0x2000000C 0xCAFEF00D
    lost_at 'RDBUFF after a write' 4 write_word 0x20000008 0xCAFEF00D
    lost_at 'the ABORT after FAULT, which is ignored: the session stays open' 5 read_word 0x30000000
}
losses >lists/losses.txt

# A text of more than so many bytes is kept as its checksum alone.
longest=500000

for text in lists/*.txt examples/accident.txt; do
    name=lists/$(basename "$text" .txt)
    $tools/text encode <"$text" >"$name.list"
    $tools/reference <"$name.list" >"$name.out"
    rm -f "$name.cksum"
    if [ "$(wc -c <"$name.out")" -gt "$longest" ]; then
        cksum <"$name.out" >"$name.cksum"
        rm "$name.out"
    fi
done
$tools/gen --rules --out lists/rules.batch
$tools/gen --count 300 --seed 1 --bytes 1000 --out lists/sample.batch
for batch in rules sample; do
    $tools/reference --batch "lists/$batch.batch" "lists/$batch.texts"
done
