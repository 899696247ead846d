#!/usr/bin/env bash
# Stack by call, and instructions by call and by byte (valgrind): `make bench` calls this with BUILD and CC. Then whether
# the figures of the header and of bench/README.md are these; the last line is 'N passed, N failed'.
set -euo pipefail
here=$(cd "$(dirname "$0")/.." && pwd)
folder=$(mktemp -d)
trap 'rm -rf "$folder"' EXIT
for name in stack cost; do
    "$CC" -std=c11 -O2 -Wall -Wextra -Werror -I "$here" -o "$folder/$name" "$here/bench/$name.c" "$BUILD/libribbonscarp.a"
done
# instructions WHAT TIMES COUNT [KIND]: of one of the COUNT that so many times do, at a station of a kind.
instructions() {
    local all none
    all=$(collected "$1" "$2" "${4:-profile}")
    none=$(collected "$1" 0 "${4:-profile}")
    awk "BEGIN {printf \"%.1f\n\", ($all - $none) / ($3)}"
}

collected() {
    valgrind --tool=callgrind --callgrind-out-file=/dev/null "$folder/cost" "$@" 2>&1 | sed -n 's/.*Collected : //p'
}

measure() {
    echo "stack, in bytes"
    "$folder/stack" || echo "(more than 32,768)"
    echo "stack of the extended kind, in bytes"
    "$folder/stack" extended || echo "(more than 32,768)"
    echo "stack of the live kind, in bytes"
    "$folder/stack" live || echo "(more than 32,768)"
    command -v valgrind >/dev/null || { echo "left out: instructions, since valgrind isn't here"; return; }
    echo "instructions"
    echo "a byte pushed, small records  $(instructions push 1 155648)"
    echo "a byte pushed, text           $(instructions text 100 159800)"
    for kind in extended live; do
        echo "a byte, small records, $kind  $(instructions push 1 155648 $kind)"
        echo "a byte, text, $kind           $(instructions text 100 159800 $kind)"
    done
    echo "one cell                      $(instructions cell 10000 10000)"
    echo "a cell of 24 rows             $(instructions sheet 100 192000)"
    echo "the state                     $(instructions State 10000 10000)"
    echo "a field                       $(instructions field 10000 10000)"
    echo "the changed rows              $(instructions hanged 1000 1000)"
}
measure | tee "$folder/measured"
case $BUILD in
*/unproved*) echo "left out: the figures told, which are of the proved library" ;;
*) python3 "$here/bench/figures.py" <"$folder/measured" ;;
esac
