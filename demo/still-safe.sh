#!/bin/sh
# still-safe.sh [quick | built]: the night shift's question, whether a sequence that was checked at noon is still safe at six. Sequence 1 calls
# sequence 0, document 01's raster. Both tables are dumped at noon; at six, after sequence 5 was written and a byte of sequence 0 was written over and
# given its old value again; and at nine, after the line list got another window, which is good too. `tablecheck same` holds noon's check against the
# dumps of six, and then of nine. Lines to the desk stand after `>`, as long as they are shown. Its word is handed to run.sh.
set -eu
cd "$(dirname "$0")/.."
room=$(mktemp -d)
trap 'rm -rf "$room"' EXIT

# What goes to the desk: noon's uplinks and dumps; those up to six; the run of sequence 1, as long as noon's check told; those up to nine.
cat >"$room/script" <<'LINES'
E7074000141400016E08000032040000000200000300640020
E70700002222000201900007006400030000000002010100F0020003000A0000910064921B94C0
E70700800707000101930094
07070000004000
07074000001EC0
E707028006060001019492
E70700040100
E70700040190
07070000004000
07074000001EC0
20
2102
8301
2103
STEP 18
2102
E707400F0104
E70740030169
07070000004000
07074000001EC0
LINES

# The lines to the desk, and what it answers; of long lines the beginning.
shown() {
    awk 'length($0) > 90 { print substr($0, 1, 74) ".. (" length($0) ")"; next } { print }'
}

# The bytes of some of the dumps, by their numbers.
dumps() { # FIRST LAST
    printf '%b' "$(LC_ALL=C awk '/^DU / && ++n >= first && n <= last {
        for (i = 4; i < length($0); i += 2)
            printf "\\0%03o", 16 * index(digits, substr($0, i, 1)) + index(digits, substr($0, i + 1, 1))
    }' digits=123456789ABCDEF first="$1" last="$2" "$room/answers")"
}

sed 's/^/> /' "$room/script" | shown
sh run.sh "$@" desk <"$room/script" >"$room/answers"
shown <"$room/answers"

dumps 1 2 >"$room/noon"
dumps 3 4 >"$room/six"
dumps 5 6 >"$room/nine"
echo '> tablecheck 1 0 5, at noon'
sh run.sh "$@" tablecheck 1 0 5 <"$room/noon"
echo '> tablecheck same 1 0 5, noon against six'
cat "$room/noon" "$room/six" | sh run.sh "$@" tablecheck same 1 0 5
echo '> tablecheck same 1 0 5, noon against nine'
cat "$room/noon" "$room/nine" | sh run.sh "$@" tablecheck same 1 0 5
echo '> tablecheck 1 0 5, at nine'
sh run.sh "$@" tablecheck 1 0 5 <"$room/nine"
