#!/usr/bin/env bash
# compare/run.sh [STAGE..]: builds the plain implementation and compares the proved library with it.
# With no stage it runs all of these, in this order:
#   plain    builds the plain programs and runs the demonstrations through the plain desk
#   self     the driver and the benchmark with the plain library on both sides, then with a wrong
#            rule planted in one of them, which the driver must find; wrong rules for `same`, which made tables must show
#   library  the driver with the proved library
#   desks    the two desk programs on scripts for either kind of tables: equal output
#   surveys  the two table checks at the desk on tables of either kind, their tests of the line lists, and what they say of
#            tables of noon and of now: equal output
#   cards    the two programs that show a summary, on tables of either kind: equal output
#   bench    one table of times, proved and plain side by side; its last line names the rows over their bar
# By name alone:
#   baseline         the same as bench, and its rows are kept in compare/baseline.txt
#   vectors FOLDER   the proved programs on the folder's desk-N.in and tables-N.bin; says how many are equal, the reasons of faults
#                    with code 7 left out, and how many were moved by P1's and P5's rules: those that are as the plain programs
#                    have them. Then tablecheck and cards on its core-new-N.bin and core-old-N.bin: these are equal to the byte
#   counts           one table of instructions, proved and plain, counted by valgrind: the same for the same code on every machine
# All programs are for x86-64 and built by the same compiler as the proved ones. What is compared is proved code alone: the toolchain
# makes no library without its proofs.
set -euo pipefail

from=$PWD
cd "$(dirname "${BASH_SOURCE[0]}")/.."
here=compare
build=target/compare
tools=$(dirname "$(rt doc)")/toolchain
lines=100000
rounds=4000

run() { "$@"; }

compile() { # OBJECT SOURCE [FLAGS..]
    "$tools/bin/clang" --target=x86_64-unknown-linux-gnu -march=x86-64 -O3 -std=c11 -Wall -Wextra -Werror \
        -fPIE -ffunction-sections -fdata-sections -nostdinc -isystem "$here/headers" -I "$here" "${@:3}" -c "$2" -o "$1"
}

assemble() { # PROGRAM FILE..
    cc -o "$@" 2>"$build/link.log" || { cat "$build/link.log"; return 1; }
}

as_keel=(-Dplain_power_on=keel_power_on -Dplain_packet=keel_packet -Dplain_step=keel_step -Dplain_check=keel_check
    -Dplain_still=keel_still -Dplain_line_list=keel_line_list -Dplain_marks=keel_marks
    -Dplain_cards=keel_cards -Dplain_cards_update=keel_cards_update -Dplain_cards_check=keel_cards_check)

build_plain() {
    mkdir -p "$build"
    for name in plain make plain_desk plain_survey plain_cards made turns; do
        compile "$build/$name.o" "$here/$name.c"
    done
    assemble "$build/plain_desk" "$build/plain_desk.o" "$build/plain.o"
    assemble "$build/plain_survey" "$build/plain_survey.o" "$build/plain.o"
    assemble "$build/plain_cards" "$build/plain_cards.o" "$build/plain.o"
    assemble "$build/made" "$build/made.o" "$build/make.o" "$build/plain.o"
    assemble "$build/turns" "$build/turns.o"
}

# The driver and the benchmark over some keel: FOLDER for what is built, INCLUDE with keel.h, FILE that has it.
build_over() { # FOLDER INCLUDE FILE
    for name in driver bench; do compile "$1/$name.o" "$here/$name.c" -I "$2"; done
    assemble "$1/driver" "$1/driver.o" "$build/make.o" "$build/plain.o" "$3"
    assemble "$1/bench" "$1/bench.o" "$build/make.o" "$build/plain.o" "$3"
}

stage_plain() {
    for script in demo/*.in; do
        run "$build/plain_desk" <"$script" | cmp - "${script%.in}.out"
        echo "$script: as its .out has it"
    done
}

# What the driver says of a library with a planted rule beside the plain one, where the two disagree.
driver_finds() {
    compile "$self/planted.o" "$self/planted.c" "${as_keel[@]}"
    assemble "$self/planted" "$self/driver.o" "$build/make.o" "$build/plain.o" "$self/planted.o"
    run "$self/planted" 1 "$rounds" >"$self/planted.out" || true
    sed -n '1{/^DISAGREE/p}' "$self/planted.out"
}

# Where the table check at the desk has another answer to `same` with a planted rule, on the tables that `surveys` takes.
same_finds() {
    local seed kind
    compile "$self/planted.o" "$self/planted.c"
    assemble "$self/planted" "$build/plain_survey.o" "$self/planted.o"
    for seed in {1..16}; do
        for kind in '' old; do
            run "$build/made" twice "$seed" $kind >"$self/twice.bin"
            run "$build/plain_survey" $kind same <"$self/twice.bin" >"$self/plain.out"
            run "$self/planted" $kind same <"$self/twice.bin" | cmp -s - "$self/plain.out" ||
                { echo "DISAGREE at ${kind:+$kind }same, tables $seed"; return; }
        done
    done
}

# Plants each wrong rule of FILE in a plain library; FINDS must say where it shows.
each_planted() { # FILE FINDS
    local name rule found
    while IFS=$'\t' read -r name rule; do
        sed "$rule" "$here/plain.c" >"$self/planted.c"
        if cmp -s "$here/plain.c" "$self/planted.c"; then echo "planted, $name: it changes nothing"; return 1; fi
        found=$(set -e; "$2")
        [ -n "$found" ] || { echo "planted, $name: NOT FOUND"; return 1; }
        echo "planted, $name: $found"
    done <"$1"
}

stage_self() {
    local self=$build/self
    mkdir -p "$self"
    sed 's/plain_/keel_/g; s/PLAIN/KEEL/g' "$here/plain.h" >"$self/keel.h"
    compile "$self/keel.o" "$here/plain.c" "${as_keel[@]}"
    build_over "$self" "$self" "$self/keel.o"
    run "$self/driver" 1 "$((rounds / 10))" | tail -n 1
    run "$self/bench" | awk -f "$here/table.awk" /dev/null /dev/null -
    each_planted "$here/planted.txt" driver_finds
    each_planted "$here/planted-same.txt" same_finds
}

# What the proved archive is made of: the kit and the crates' code, definitions and proofs.
sources() {
    {
        rt version
        find crates crates.txt \( -name '*.rt' -o -name '*.antt' -o -name crates.txt \) -exec sha256sum {} + | sort
    } | sha256sum
}

# The driver and the benchmark over the library, which is proved again only where something has changed.
build_library() {
    local library=$build/library archive=target/staticlib/libkeel.a
    mkdir -p "$library"
    if [ ! -f "$archive" ] || [ "$(sources)" != "$(cat "$library/sources" 2>/dev/null)" ]; then
        rm -f "$library/sources"
        sh run.sh library
        sources >"$library/sources"
    fi
    build_over "$library" include "$archive"
}

# A program as it is proved: crates/NAME/out/NAME.
build_program() { # NAME
    (cd "crates/$1" && rt run </dev/null >/dev/null)
}

# The proved programs, and what they are run on: a script of 100,000 lines for each kind; 2.6 million steps of the two sequences
# that call each other in demo/; tables.
build_programs() {
    build_program desk
    build_program tablecheck
    run "$build/made" script 1 "$lines" >"$build/lines.in"
    run "$build/made" script 1 "$lines" old >"$build/old.in"
    { sed '/^01$/,$d' demo/two-that-call-each-other.in; printf 'STEP 65535\n%.0s' {1..40}; } >"$build/steps.in"
    run "$build/made" tables 1 >"$build/tables.bin"
}

stage_library() {
    build_library
    for seed in 1 2 3 4; do run "$build/library/driver" "$seed" "$rounds"; done
}

# The least proved and plain time of each row, where rows come more than once.
least() {
    awk -F '\t' '
        !($1 in proved) { names[++n] = $1; proved[$1] = $2; plain[$1] = $3 }
        $2 < proved[$1] { proved[$1] = $2 }
        $3 < plain[$1] { plain[$1] = $3 }
        END { for (i = 1; i <= n; i++) print names[i] "\t" proved[names[i]] "\t" plain[names[i]] }'
}

in_turns() { # NAME ROUNDS INPUT PROVED PLAIN
    run "$build/turns" "$@"
}

# The kind of machine, the day, and the commit that the code was last changed by.
this_run() {
    local kind code
    kind=$(sed -n 's/^model name[^:]*: //p' /proc/cpuinfo | head -n 1)
    code=$(git log -1 --format=%h -- 'crates/*/src/*' crates.txt)
    git diff --quiet HEAD -- 'crates/*/src/*' crates.txt || code+=' and changes'
    echo "$(uname -m) ${kind:-unnamed}, $(nproc) processors; $(date -u +%F); code of $code"
}

# Every row once, as the libraries and the programs are now.
rows() {
    run "$build/library/bench"
    in_turns 'desk, 100,000 lines' 9 "$build/lines.in" crates/desk/out/desk "$build/plain_desk"
    in_turns 'desk, 2.6 million steps' 9 "$build/steps.in" crates/desk/out/desk "$build/plain_desk"
    in_turns 'tablecheck of 128' 101 "$build/tables.bin" crates/tablecheck/out/tablecheck "$build/plain_survey"
}

# Where a process happens to lie in memory, and what else the machine does, moves a row by a tenth: so all rows five times.
stage_bench() {
    local stored=$here/baseline.txt
    build_library
    build_programs
    for _ in 1 2 3 4 5; do rows; done | least >"$build/rows.tsv"
    echo "this run: $(this_run)"
    if [ -f "$stored" ]; then sed -n 's/^# /baseline: /p' "$stored"; else stored=/dev/null; fi
    awk -f "$here/table.awk" "$here/bars.txt" "$stored" "$build/rows.tsv"
}

stage_baseline() {
    stage_bench
    { echo "# $(this_run)"; cat "$build/rows.tsv"; } >"$here/baseline.txt"
}

# How many instructions a run of the benchmark's one row takes in all.
instructions() { # ROW SIDE TIMES
    valgrind --tool=callgrind --callgrind-out-file=/dev/null "$build/library/bench" "$@" 2>&1 >/dev/null | sed -n 's/.*Collected : //p'
}

# The instructions of one thing that a row does: two calls more, and the rest is the same.
stage_counts() {
    local row name things side one
    build_library
    for row in {0..26}; do
        IFS=$'\t' read -r name things < <(run "$build/library/bench" "$row" k 0)
        one="$name"
        for side in k p; do
            one+=$'\t'$((($(instructions "$row" "$side" 3) - $(instructions "$row" "$side" 1)) / 2 / things))
        done
        echo "$one"
    done | awk -F '\t' 'BEGIN { printf "%-49s %10s %10s %7s\n", "instructions", "proved", "plain", "ratio" }
        { printf "%-49s %10d %10d %7.2f\n", $1, $2, $3, $2 / $3 }'
}

# The two desks on one script, with these words as arguments.
same_desk() { # SCRIPT WORD..
    run crates/desk/out/desk "${@:2}" <"$build/$1.in" >"$build/desk.out"
    run "$build/plain_desk" "${@:2}" <"$build/$1.in" | cmp - "$build/desk.out"
    echo "desks${2:+, ${*:2}}: equal output, $(wc -l <"$build/$1.in") lines in, $(wc -l <"$build/desk.out") out"
}

# Each script also with the other kind, and `old` where it is a word like any other.
stage_desks() {
    build_programs
    same_desk lines
    same_desk steps
    same_desk old old
    same_desk old
    same_desk lines old lists
    same_desk lines olds old
}

# The two table checks on one input, with these words as arguments.
same_survey() { # INPUT WORD..
    run crates/tablecheck/out/tablecheck "${@:2}" <"$1" >"$build/survey.out"
    run "$build/plain_survey" "${@:2}" <"$1" | cmp - "$build/survey.out"
}

# Each table also as one of the other kind, and `old` and `same` where they are words like any other.
stage_surveys() {
    local tables=$build/survey.bin old=$build/survey-old.bin twice=$build/twice.bin old_twice=$build/twice-old.bin seed
    build_program tablecheck
    for seed in 1 2 3 4 5 6 7 8; do
        run "$build/made" tables "$seed" >"$tables"
        same_survey "$tables"
        same_survey "$tables" lists
        same_survey "$tables" old
        run "$build/made" tables "$seed" old >"$old"
        same_survey "$old" old
        same_survey "$old" old lists
        same_survey "$old"
    done
    same_survey "$tables" 127 0 5 5 128 65535 65536 4294967296 00 01 -1 +1 1x x 12.
    same_survey "$tables" 3 lists 5 list listss Lists lists
    same_survey "$old" old 63 64 0 5 5 65 127 128 255 256 65535 65536 00 -1 x lists 12.
    same_survey "$old" old old 5
    same_survey "$old" olds
    same_survey "$tables" lists old
    same_survey "$tables" 5 old
    head -c 24255 "$tables" >"$build/short.bin"
    same_survey "$build/short.bin"
    same_survey "$build/short.bin" old
    cat "$tables" "$build/short.bin" >"$build/long.bin"
    same_survey "$build/long.bin" 0
    same_survey "$build/long.bin" old 0
    same_survey /dev/null
    same_survey /dev/null lists
    same_survey /dev/null old
    for seed in {1..16}; do
        run "$build/made" twice "$seed" >"$twice"
        same_survey "$twice" same
        same_survey "$twice" old same
        run "$build/made" twice "$seed" old >"$old_twice"
        same_survey "$old_twice" old same
        same_survey "$old_twice" same
    done
    same_survey "$twice" same 127 0 5 128 x lists same
    same_survey "$twice" same old 5 5 05 65535 65536
    same_survey "$old_twice" old same 63 64
    same_survey "$old_twice" old same 0 5 old lists same 127 x
    same_survey "$tables" lists lists lists lists lists "$(printf 'x%.0s' {1..60000})" 5 lists
    same_survey "$tables" 5 same
    same_survey "$tables" lists same
    same_survey "$tables" sames 5
    same_survey "$old" old 5 same
    same_survey "$old" old old same
    same_survey "$twice"
    same_survey "$twice" 5 same
    same_survey "$old_twice" old
    same_survey "$tables" same
    same_survey "$old" old same
    head -c 48511 "$twice" >"$build/short.bin"
    same_survey "$build/short.bin" same
    same_survey "$build/short.bin" old same 0
    { cat "$twice"; printf x; } >"$build/long.bin"
    same_survey "$build/long.bin" same
    same_survey "$build/long.bin" old same 0
    same_survey /dev/null same
    same_survey /dev/null old same
    echo "surveys: equal output on 8 tables of each kind, their line lists, odd words and tables of wrong size;" \
        "with \`same\` on 16 pairs of tables of each kind, odd words and pairs of wrong size; a long word among many lines"
}

# The two programs that show a summary, on one input, with these words as arguments.
same_cards() { # INPUT WORD..
    run crates/cards/out/cards "${@:2}" <"$1" >"$build/cards.out"
    run "$build/plain_cards" "${@:2}" <"$1" | cmp - "$build/cards.out"
}

# Each table also as one of the other kind, and `old` where it is a word like any other.
stage_cards() {
    local tables=$build/cards.bin old=$build/cards-old.bin seed
    build_program cards
    for seed in {1..16}; do
        run "$build/made" tables "$seed" >"$tables"
        same_cards "$tables"
        same_cards "$tables" old
        run "$build/made" tables "$seed" old >"$old"
        same_cards "$old" old
        same_cards "$old"
    done
    same_cards "$tables" olds
    same_cards "$tables" 5 old
    same_cards "$old" old old 5
    same_cards "$old" old lists
    head -c 24256 /dev/zero >"$build/zeros.bin"
    same_cards "$build/zeros.bin"
    same_cards "$build/zeros.bin" old
    head -c 24255 "$tables" >"$build/short.bin"
    same_cards "$build/short.bin"
    same_cards "$build/short.bin" old
    { cat "$tables"; printf x; } >"$build/long.bin"
    same_cards "$build/long.bin"
    cat "$tables" "$tables" >"$build/long.bin"
    same_cards "$build/long.bin" old
    same_cards /dev/null
    echo "cards: equal output on 16 tables of each kind, each as one of the other too, tables of zeros, odd words and tables of wrong size"
}

# Runs PROGRAM on INPUT and counts it. WANTED is document 01's: the reason, which P4 puts at the end of a fault with code 7, is cut off
# there and nowhere else. Equal if that is what it writes; moved if not, but the PLAIN program, which has P1's and P5's rules too,
# writes the same.
vector() { # PROGRAM PLAIN INPUT WANTED
    local got=$build/vector.out
    all=$((all + 1))
    run "crates/$1/out/$1" <"$3" >"$got"
    if sed '/^FAULT [^ ]* 7 /s/ REASON .*//' "$got" | cmp -s - "$4"; then
        equal=$((equal + 1))
    elif run "$build/$2" <"$3" | cmp -s - "$got"; then
        moved=$((moved + 1))
        echo "${3##*/}: moved by P1's and P5's rules," \
            "$(sed '/^FAULT [^ ]* 7 /s/ REASON .*//' "$got" | diff "$4" - | grep -c '^>') of $(wc -l <"$4") lines"
    else
        echo "${3##*/}: not equal"
    fi
}

# Runs PROGRAM with these words on INPUT and counts it. Its file of this ENDING has all requests' rules and the reasons: equal to the
# byte.
core_vector() { # PROGRAM ENDING INPUT WORD..
    all=$((all + 1))
    if run "crates/$1/out/$1" "${@:4}" <"$3" | cmp -s - "${3%.bin}.$2"; then
        equal=$((equal + 1))
    else
        echo "${3##*/}: not equal to its .$2"
    fi
}

stage_vectors() { # FOLDER
    local all=0 equal=0 moved=0 file number
    for program in desk tablecheck cards; do build_program "$program"; done
    for file in "$1"/desk-*.in; do vector desk plain_desk "$file" "${file%.in}.out"; done
    for file in "$1"/tables-*.bin; do
        number=${file##*/tables-}
        vector tablecheck plain_survey "$file" "$1/survey-${number%.bin}.out"
    done
    for file in "$1"/core-new-*.bin; do
        core_vector tablecheck check "$file"
        core_vector cards cards "$file"
    done
    for file in "$1"/core-old-*.bin; do
        core_vector tablecheck check "$file" old
        core_vector cards cards "$file" old
    done
    echo "vectors: $equal of $all equal, document 01's but for the reasons at the ends of the faults with code 7;" \
        "$moved moved by P1's and P5's rules, as the plain programs have them"
    [ $((equal + moved)) = "$all" ]
}

[ $# -gt 0 ] || set -- plain self library desks surveys cards bench
build_plain
while [ $# -gt 0 ]; do
    echo "== $1"
    case $1 in
    plain | self | library | bench | baseline | counts | desks | surveys | cards) "stage_$1" ;;
    vectors)
        stage_vectors "$(cd "$from" && cd "${2:?a folder is wanted}" && pwd)"
        shift
        ;;
    *) echo "run.sh: no stage $1" >&2; exit 2 ;;
    esac
    shift
done
