#!/bin/sh
# one-uplink.sh [quick | built]: what one uplink changes of the summary. Sequence 0 is document 01's raster, and sequence 1 calls it. Both tables are
# dumped; then again after each of three uplinks: sequence 5 is sent; a byte of line list 0 is written, which gives its window a mark and makes its
# checksum wrong; and the checksum is put right. `cards` is given each pair of dumps, and the lines that are not as they were stand after `<` and `>`.
# Last, the first dumps are read as tables of the old kind. Lines to the desk stand after `>`, as long as they are shown. Its word is handed to run.sh.
set -eu
cd "$(dirname "$0")/.."
room=$(mktemp -d)
trap 'rm -rf "$room"' EXIT

cat >"$room/script" <<'LINES'
E7074000141400016E08000032040000000200000300640020
E70700002222000201900007006400030000000002010100F0020003000A0000910064921B94C0
E70700800707000101930094
07070000004000
07074000001EC0
E707028006060001019492
07070000004000
07074000001EC0
E707400F0104
07070000004000
07074000001EC0
E70740030169
07070000004000
07074000001EC0
LINES

# The lines to the desk, and what it answers; of long lines the beginning.
shown() {
    awk 'length($0) > 90 { print substr($0, 1, 74) ".. (" length($0) ")"; next } { print }'
}

# The bytes of the pair of dumps with this number.
dumps() { # NUMBER
    printf '%b' "$(LC_ALL=C awk '/^DU / && ++n >= 2 * pair - 1 && n <= 2 * pair {
        for (i = 4; i < length($0); i += 2)
            printf "\\0%03o", 16 * index(digits, substr($0, i, 1)) + index(digits, substr($0, i + 1, 1))
    }' digits=123456789ABCDEF pair="$1" "$room/answers")"
}

sed 's/^/> /' "$room/script" | shown
sh run.sh "$@" desk <"$room/script" >"$room/answers"
shown <"$room/answers"

dumps 1 >"$room/tables"
sh run.sh "$@" cards <"$room/tables" >"$room/1"
echo '> cards, of sequences 0, 1 and 5 and line lists 0 and 1'
grep -E '^(CARD [015]|LIST [01]) ' "$room/1"
for pair in 2 3 4; do
    dumps "$pair" >"$room/tables"
    sh run.sh "$@" cards <"$room/tables" >"$room/$pair"
    echo "> cards, after uplink $((pair - 1))"
    diff "$room/$((pair - 1))" "$room/$pair" | grep '^[<>]'
done
echo '> cards old, of sequences 0 and 1, and how many lines'
dumps 1 >"$room/tables"
sh run.sh "$@" cards old <"$room/tables" >"$room/old"
grep -E '^CARD [01] ' "$room/old"
grep -c . "$room/old"
