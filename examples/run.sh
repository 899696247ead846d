#!/usr/bin/env bash
# Runs every example with the program, and compares what it prints. The program is the first argument, or what
# `rt run` in crates/t5250 leaves in its out folder. A run that doesn't end with status 0 counts as one that differs. The
# last line counts what was compared.
set -uo pipefail
program=$(realpath "${1:-$(dirname "$0")/../crates/t5250/out/t5250}") || exit 2
cd "$(dirname "$0")" || exit 2
passed=0
failed=0

# count STATUS TEXT: counts what has passed, and tells what hasn't.
count() {
    if [ "$1" -eq 0 ]; then
        passed=$((passed + 1))
    else
        echo "$2"
        failed=$((failed + 1))
    fi
}

compare() {
    local wanted=$1
    shift
    "$program" "$@" | cmp -s - "$wanted"
    count $? "differs: $*"
}

# compare_made NAME OPTION..: what `make` prints of NAME.show is NAME.hex, but for blanks, line ends and the digits'
# case.
compare_made() {
    local made wanted
    made=$("$program" make "${@:2}" "$1.show") && wanted=$(tr -d ' \t\r\n' <"$1.hex" | tr a-f A-F) \
        && [ "$(tr -d '\n' <<<"$made")" = "$wanted" ]
    count $? "differs: make ${*:2} $1.show"
}

# compare_raw NAME OPTION..: the bytes that `make` writes of NAME.show check as NAME.hex does.
compare_raw() {
    "$program" make --raw "${@:2}" "$1.show" | "$program" check --raw "${@:2}" | cmp -s - "$1.check"
    count $? "differs: make --raw ${*:2} $1.show"
}

# compare_end END OPTION..: what is shown of an end's side of a recording makes the bytes that its lines have.
compare_end() {
    local made wanted
    wanted=$(sed -n "s/^[0-9]* $1 //p" inquiry.recording | tr -d '\n')
    made=$("$program" show --of "$1" "${@:2}" inquiry.recording | "$program" make "${@:2}" | tr -d '\n')
    [ -n "$wanted" ] && [ "$made" = "$wanted" ]
    count $? "differs: show --of $1"
}

for script in *.script; do
    name=${script%.script}
    compare "$name.out" play --screen "$script"
    compare "$name.out" play --tcp --screen "$script"
    compare "$name.check" check "$name.hex"
    compare "$name.check" check --cut 1 "$name.hex"
    compare "$name.show" show "$name.hex"
    compare_made "$name"
    compare_raw "$name"
done

for hex in *-answers.hex; do
    name=${hex%.hex}
    compare "$name.check" check --answers "$hex"
    compare "$name.check" check --answers --cut 1 "$hex"
    compare "$name.show" show --answers "$hex"
    compare_made "$name" --answers
    compare_raw "$name" --answers
done

# What a live host sends, in addition to the profile.
compare live-host.check check --extended live-host.hex
compare live-host.check check --extended --cut 1 live-host.hex
compare live-host.show show --extended live-host.hex
compare_made live-host --extended
compare_raw live-host --extended

# What its station sends, and what that tells at once.
compare live-station.check check --answers --extended live-station.hex
compare live-station.check check --answers --extended --cut 1 live-station.hex
compare live-station.show show --answers --extended live-station.hex
compare_made live-station --answers --extended
compare_raw live-station --answers --extended

# A recording of the session of inquiry.connect and inquiry.serve.
compare_end host
compare_end station --answers

# compare_told NAME END SHOWN: what the trace of a recording tells of an end is what `show` prints of its stream.
compare_told() {
    "$program" trace "$1.recording" | awk -v end="$2" '
        /^[+]/ { is_of_end = $2 == end; sub(/^[^ ]+ [^ ]+ /, "") }
        /^[a-z]+: / { is_of_end = 0 }
        is_of_end' | cmp -s - <(sed '/^screen$/,$d' "$3.show")
    count $? "differs: trace $1.recording, of its $2"
}

# What both ends sent, in the order of time; in the last one record is refused.
compare inquiry.trace trace inquiry.recording
compare live-host.trace trace live-host.recording
compare_told live-host host live-host
compare_told live-host station live-station
compare_refused() {
    "$program" trace "$1.recording" | cmp -s - "$1.trace"
    [ "${PIPESTATUS[*]}" = "1 0" ]
    count $? "differs: trace $1.recording"
}
compare_refused refused
echo "$passed passed, $failed failed"
[ $failed -eq 0 ]
