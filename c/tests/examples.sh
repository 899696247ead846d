#!/usr/bin/env bash
# Builds the programs of c/examples with all warnings as errors. Runs the sign-on, the session of both ends, the scraper at
# a live host, and the emulator and the checker on every capture of examples/ and on 500 generated streams, and compares
# what they print with signon.out, session.out, `t5250 play`, `t5250 show` and `t5250 check`; under valgrind where it is
# there. Ends with 'N passed, N failed'.
#
#     examples.sh BUILD PROGRAM       BUILD has libribbonscarp.a, PROGRAM is t5250
set -uo pipefail
here=$(cd "$(dirname "$0")/.." && pwd) || exit 2
build=$1
program=$2
folder=$(mktemp -d) || exit 2
trap 'rm -rf "$folder"' EXIT
passed=0
failed=0

count() {
    if [ "$1" -eq 0 ]; then
        passed=$((passed + 1))
    else
        failed=$((failed + 1))
        echo "not so: $2"
    fi
}

for name in emulator checker signon session scrape; do
    ${CC:-cc} -std=c11 -O1 -Wall -Wextra -Wpedantic -Werror -I "$here" -o "$folder/$name" "$here/examples/$name.c" \
        "$build/libribbonscarp.a"
    count $? "$name is built"
done

python3 "$here/tests/generate.py" 500 "$folder" || exit 2
captures=("$here"/../examples/*.hex "$folder"/*.hex)
for capture in "${captures[@]}"; do
    "$program" show "$capture" >"$folder/shown" 2>/dev/null
    "$folder/emulator" "$capture" >"$folder/printed" 2>"$folder/errors"
    status=$?
    if grep -q '^screen$' "$folder/shown"; then
        sed -n '/^screen$/,$p' "$folder/shown" >"$folder/wanted"
    elif grep -q '^refused at ' "$folder/shown"; then
        # `show` also names the reason.
        tail -n 1 "$folder/shown" | sed 's/\(reason [0-9]*\).*/\1/' >"$folder/wanted"
    else
        continue # It ends inside a token or a record, where a station just waits.
    fi
    [ $status -le 1 ] && cmp -s "$folder/wanted" "$folder/printed"
    count $? "the screen of $capture (status $status)"
done
"$folder/checker" "${captures[@]}" >"$folder/printed"
for capture in "${captures[@]}"; do
    "$program" check "$capture" | sed 's/\(reason [0-9]*\).*/\1/'
done >"$folder/wanted"
cmp "$folder/wanted" "$folder/printed"
count $? "the checker's lines"
"$folder/signon" | cmp - "$here/examples/signon.out"
count $? "the sign-on"
"$program" play "$here/examples/session.script" >"$folder/wanted"
"$folder/session" | cmp - "$here/examples/session.out" && cmp "$folder/wanted" "$here/examples/session.out"
count $? "the session of both ends"
"$here/tests/scrape.sh" "$folder/scrape" "$program"
count $? "the scraper at a live host"

# All of it again in one process, where each byte that is read and each block is watched.
if command -v valgrind >/dev/null; then
    careful=(valgrind -q --error-exitcode=9 --leak-check=full --show-leak-kinds=all)
    "${careful[@]}" "$folder/emulator" "${captures[@]}" >/dev/null
    [ $? -le 1 ]
    count $? "the emulator under valgrind"
    "${careful[@]}" "$folder/checker" "${captures[@]}" >/dev/null
    [ $? -le 1 ]
    count $? "the checker under valgrind"
    "${careful[@]}" "$folder/signon" >/dev/null
    count $? "the sign-on under valgrind"
    "${careful[@]}" "$folder/session" >/dev/null
    count $? "the session under valgrind"
else
    echo "left out: examples under valgrind, which isn't here"
fi
echo "$passed passed, $failed failed"
[ $failed -eq 0 ]
