#!/bin/sh
# whole-loop.sh [quick | built]: the loop of the trade on document 01's sample raster, with one desk from beginning to end. The line list,
# with a slip of a digit in its checksum, and the sequence are sent up, both tables are dumped, and the dumps are checked by tablecheck.
# The checksum is mended with the value that the check expects, and the new dumps are checked. What passed is selected, started and
# stepped: as many steps as the check has counted. A line to the desk is shown after `>`; of a dump the first bytes are shown, of the
# line lists the first. Its word is handed to run.sh.
set -eu
cd "$(dirname "$0")/.."
room=$(mktemp -d)
trap 'rm -rf "$room"' EXIT
trap 'exit 1' PIPE
mkfifo "$room/to" "$room/from"
sh run.sh "$@" desk <"$room/to" >"$room/from" &
exec 3>"$room/to" 4<"$room/from"

# Sends a line, and shows it and the lines that answer it.
send() { # LINE ANSWERS
    printf '> %s\n' "$1"
    printf '%s\n' "$1" >&3
    left=$2
    while [ "$left" -gt 0 ]; do
        IFS= read -r answer <&4
        printf '%s\n' "$answer"
        left=$((left - 1))
    done
}

# The bytes that hex digits stand for.
bytes() {
    printf '%b' "$(LC_ALL=C awk '{
        for (i = 1; i < length($0); i += 2)
            printf "\\0%03o", 16 * index(digits, substr($0, i, 1)) + index(digits, substr($0, i + 1, 1))
    }' digits=123456789ABCDEF)"
}

# Asks for a dump, and puts its bytes after those that the file has.
dump() { # ADDRESS COUNT FILE
    send "07$1$2" 1
    [ "$answer" = 'TC 07 0' ]
    IFS= read -r block <&4
    printf '%.71s.. (%s bytes)\n' "$block" "$(((${#block} - 3) / 2))"
    printf '%s\n' "${block#DU }" | bytes >>"$3"
}

# Dumps both tables, and has them checked: sequence 0, and the line lists.
check() { # WORD OF RUN.SH
    : >"$room/tables"
    dump 070000 004000 "$room/tables"
    dump 074000 001EC0 "$room/tables"
    echo '> tablecheck 0 lists, on the two dumps put together; of the line lists the first'
    sh run.sh "$@" tablecheck 0 lists <"$room/tables" >"$room/told"
    sed -n '1,2p' "$room/told"
    verdict=$(sed -n '1p' "$room/told")
}

send E7074000141400016F08000032040000000200000300640020 1
send E70700002222000201900007006400030000000002010100F0020003000A0000910064921B94C0 1
check "$@"
case $verdict in *' REASON checksum '*) ;; *) exit 1 ;; esac
send "E707400301${verdict##* }" 1
check "$@"
case $verdict in 'PASS 0 ENDS '*) ;; *) exit 1 ;; esac
steps=$(printf '%s\n' "$verdict" | cut -d ' ' -f 4)

send 20 1
send 2102 1
send 8300 1
send 2103 1
send "STEP $steps" "$steps"
send 01 2
send 2102 1
