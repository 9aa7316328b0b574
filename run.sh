#!/bin/sh
# run.sh [quick | built] PROGRAM [ARGUMENT..]: runs a program (desk, tablecheck, cards). What is under way is said on standard error.
#   run.sh PROGRAM         proves and builds it first: minutes the first time, then seconds
#   run.sh quick PROGRAM   the same code at once, without its proofs: it is given the whole of its input, and its output comes when it has ended
#   run.sh built PROGRAM   as it was last proved and built
# run.sh library: proves and builds the library for C, and leaves it in target/staticlib/libkeel.a.
set -eu
cd "$(dirname "$0")"

say() { printf 'run.sh: %s\n' "$*" >&2; }

if [ "${1:-}" = library ]; then
    say "what the library for C stands on is proved now, as far as it is not proved yet"
    (cd crates/keel_c && rt lib >&2)
    mkdir -p target/staticlib
    cp crates/keel_c/out/libkeel_c.a target/staticlib/libkeel.a
    exit
fi

mode=proved
case ${1:-} in quick | built) mode=$1; shift ;; esac
program=${1:-}
[ -f "crates/$program/src/main.rt" ] || { say "usage: run.sh [quick | built] PROGRAM [ARGUMENT..], or run.sh library"; exit 2; }
shift
file=crates/$program/out/$program
case $mode in
proved)
    say "what $program stands on is proved now, as far as it is not proved yet"
    cd "crates/$program"
    exec rt run -- "$@"
    ;;
quick)
    say "$program is NOT PROVED: this is the same code, run with the compiler's assumptions checked"
    cd "crates/$program"
    exec rt try -- "$@"
    ;;
built)
    [ -x "$file" ] || { say "$program is not built"; exit 1; }
    exec "$file" "$@"
    ;;
esac
