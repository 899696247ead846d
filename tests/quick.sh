#!/usr/bin/env bash
# What can be known in five minutes on two cores without a proof: the layout of the crates' files, the documents,
# the version, and on a program and a C library that are built unproved (`make quick`, in build/unproved) the examples
# and the tests that take least. With the time that is left the crates of tests run by `rt try`. What isn't reached is
# told. It is left to the gate, .ci/run, as all proofs are.
#
#     tests/quick.sh            with QUICK_SECONDS=N no crate of tests is begun after N seconds; without it, after 240
set -uo pipefail
cd "$(dirname "$0")/.." || exit 2
source tests/parts.sh
kit=$(dirname "$(rt doc)") || exit 2
unproved=$PWD/build/unproved

# As `rt ci` looks at it. `rt fmt` in a crate's folder lays its files out.
layout() {
    find crates -path '*/out' -prune -o \( -name '*.rt' -o -name '*.antt' \) -print0 \
        | xargs -0 "$kit/bin/rattle" fmt --check
}
export -f layout
export kit

part layout 6 bash -c layout
part definitions 3 python3 tools/definitions.py
part paths 3 python3 tools/paths.py
part callers 3 python3 tools/calling.py
part "the unproved program and C library" 30 make --no-print-directory quick
if [ -x "$unproved/t5250" ]; then
    part examples 3 examples/run.sh "$unproved/t5250"
    for name in manual urgent program; do
        part "run_$name.py" 6 python3 "tests/run_$name.py" "$unproved/t5250"
    done
fi
if [ -e "$unproved/libribbonscarp.so" ]; then
    part run_version.py 3 python3 tests/run_version.py "$unproved/libribbonscarp.so"
    part run_dist.py 10 python3 tests/run_dist.py "$unproved/t5250" "$unproved/libws_c.a" test_tar test_programs test_wheel
    part run_python.py 15 python3 tests/run_python.py "$unproved/libribbonscarp.so" "$unproved/t5250"
fi
part "the crates of tests" 30 python3 tests/try_rows.py $((${QUICK_SECONDS:-240} - SECONDS))
left_out "every proof and every wrong body, what else tests/run_all.sh runs, and the C interface's own tests: .ci/run"
sum_up
