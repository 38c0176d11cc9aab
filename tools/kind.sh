# The kind of a file, for the scripts that count lines: kind PATH. A spec is believed where it stands directly in specs/, but for the
# lists of modules; what serves proofs only stands in specs/Laws ("other").
kind() {
    case $1 in
        crates/*/src/*.rt) echo code ;;
        crates/*/specs/Laws/* | crates/*/specs/Laws.antt | crates/*/specs/Lib.antt) echo other ;;
        crates/*/specs/*.antt) echo believed ;;
        crates/*/proofs/*.antt) echo proofs ;;
        crates/*/must-fail/*.edit) echo edits ;;
        *.md) echo documents ;;
        crates/*/stdin | crates/*/stdout | crates/*/args | crates/*/data/* | lists/*) echo stored ;;
        *) echo tools ;;
    esac
}
