# Parts of a run of tests, for run_all.sh and quick.sh, which source this: each part is told, its lines `N passed,
# N failed` are added up, and what it leaves out comes again at the end.
#
# A part ends with a line `N passed, N failed`; one without counts as one, by its status. What a part leaves out for
# want of a tool or of time, it tells on a line that begins with `left out: `.
folder=$(mktemp -d) || exit 2
trap 'kill ${beside_process:-} 2>/dev/null; rm -rf "$folder"' EXIT
passed=0
failed=0

# Sets `used` to the processor seconds of all that this shell has waited for. (A shell within this one has waited for nothing.)
processor_seconds() {
    times >"$folder/times"
    used=$(awk -F '[ms ]+' 'NR == 2 { printf "%d", $1 * 60 + $2 + $3 * 60 + $4 }' "$folder/times")
}

# took NAME PROCESSOR WALL: a row of the table at the end, in seconds.
took() {
    printf '%s\t%s\t%s\n' "$1" "$2" "$3" >>"$folder/table"
}

# part NAME MINUTES COMMAND.. Where `kind` is set, its times count for that row of the table.
part() {
    local name=$1 minutes=$2 status begun=$SECONDS spent used
    shift 2
    processor_seconds
    spent=$used
    echo "== $name"
    timeout "${minutes}m" "$@" </dev/null 2>&1 | tee "$folder/text"
    status=$?
    count "$name" $status "$folder/text"
    echo "== $name took $((SECONDS - begun)) seconds"
    processor_seconds
    [ -z "${kind:-}" ] || took "$kind" $((used - spent)) $((SECONDS - begun))
}

# begin_beside NAME MINUTES COMMAND..: a part that runs beside those that come, one at a time. Its processor seconds are
# those of no other part, since they count once it has ended.
begin_beside() {
    beside=$1
    local minutes=$2
    shift 2
    echo "== $beside begins, beside what comes"
    timeout "${minutes}m" "$@" </dev/null >"$folder/beside" 2>&1 &
    beside_process=$!
    beside_begun=$SECONDS
}

# Waits for it, and tells what it printed.
end_beside() {
    local status
    wait "$beside_process"
    status=$?
    beside_process=
    echo "== $beside"
    cat "$folder/beside"
    count "$beside" $status "$folder/beside"
    echo "== $beside ended after $((SECONDS - beside_begun)) seconds"
}

# count NAME STATUS TEXT: adds up what a part's text says at its end.
count() {
    local name=$1 status=$2 text=$3
    grep '^left out: ' "$text" >>"$folder/left_out"
    if [[ $(tail -n 1 "$text") =~ ^([0-9]+)\ passed,\ ([0-9]+)\ failed$ ]]; then
        passed=$((passed + BASH_REMATCH[1]))
        failed=$((failed + BASH_REMATCH[2]))
        if [ $status -ne 0 ] && [ "${BASH_REMATCH[2]}" -eq 0 ]; then
            echo "$name ended with status $status"
            failed=$((failed + 1))
        fi
    elif [ $status -eq 0 ]; then
        passed=$((passed + 1))
    else
        echo "$name ended with status $status"
        failed=$((failed + 1))
    fi
}

# left_out TEXT: what the script itself leaves out.
left_out() {
    echo "left out: $1" | tee -a "$folder/left_out"
}

# The last line, and the status. Before it a table of what each kind of part took, and all.
sum_up() {
    if [ -e "$folder/table" ]; then
        echo "== what each took, in minutes: processor, wall"
        awk -F '\t' '{ if (!($1 in cpu)) order[++n] = $1; cpu[$1] += $2; wall[$1] += $3 }
            END { for (i = 1; i <= n; i++) printf "%-28s %7.1f %7.1f\n", order[i], cpu[order[i]] / 60, wall[order[i]] / 60 }' "$folder/table"
    fi
    processor_seconds
    echo "== all took $SECONDS seconds, and $used seconds of processor time"
    cat "$folder/left_out"
    echo "$passed passed, $failed failed"
    [ $failed -eq 0 ]
}
