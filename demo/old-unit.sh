#!/bin/sh
# old-unit.sh [quick | built]: the unit on the bench, whose sequences are 256 bytes apart: `desk old` and `tablecheck old`. Sequence 1, at
# 0x070100, has 255 bytes, which go up in two packets, and its loop backs lead past place 127; sequence 0 calls 64, which this unit has not. Both
# tables are dumped and checked, under the old kind and under the new one; then sequence 1 is run to its end, and sequence 0 to its abort. Last,
# the check is held against tables with another byte, behind sequence 1 and at its end. Lines to the desk stand after `>`, as long as they are
# shown. Its word is handed to run.sh.
set -eu
cd "$(dirname "$0")/.."
room=$(mktemp -d)
trap 'rm -rf "$room"' EXIT

# What goes to the desk: the line list, both sequences, dumps of both tables; selections of 64, which is too high, and of 1; then 0.
cat >"$room/script" <<'END'
E7074000141400016E08000032040000000200000300640020
E707010080FF00010195000195000195000195000195000195000195000195000195000195000195000195000195000195000195000195000195000195000195000195000195000195000195000195000195000195000195000195000195000195000195000195000195000195000195000195000195000195000195000195000195000195
E70701807F0001950001950001950001950001950001950001950001950001950001950001950001950001950001900007006400020000000002010100F0010003000A000091006492C0900007006400020000000002010100F0010003000A000091006492DC900007006400020000000002010100F0010003000A000091006492F89477
E707000007070001019340D4
07070000004000
07074000001EC0
20
2102
8340
8301
2103
STEP 73
01
2102
8300
2103
STEP 3
2102
END

# The lines to the desk, and what it answers; of long lines the beginning.
shown() {
    awk 'length($0) > 90 { print substr($0, 1, 74) ".. (" length($0) ")"; next } { print }'
}

sed 's/^/> /' "$room/script" | shown
sh run.sh "$@" desk old <"$room/script" >"$room/answers"
shown <"$room/answers"

# The bytes of the two dumps, and the check of them.
printf '%b' "$(LC_ALL=C awk '/^DU / {
    for (i = 4; i < length($0); i += 2)
        printf "\\0%03o", 16 * index(digits, substr($0, i, 1)) + index(digits, substr($0, i + 1, 1))
}' digits=123456789ABCDEF "$room/answers")" >"$room/tables"
echo '> tablecheck old 1 0 63 64'
sh run.sh "$@" tablecheck old 1 0 63 64 <"$room/tables"
echo '> tablecheck 1 2 0 64'
sh run.sh "$@" tablecheck 1 2 0 64 <"$room/tables"

# The tables, and after them the same with another byte at an offset.
twice() { # OFFSET
    cat "$room/tables"
    head -c "$1" "$room/tables"
    printf '\252'
    tail -c +"$(($1 + 2))" "$room/tables"
}

echo '> tablecheck old same 1 0 64, the byte behind sequence 1 another'
twice 511 | sh run.sh "$@" tablecheck old same 1 0 64
echo '> tablecheck old same 1 0 64, its checksum another'
twice 510 | sh run.sh "$@" tablecheck old same 1 0 64
