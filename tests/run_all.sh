#!/usr/bin/env bash
# Runs all that is looked at beside the proofs, on the programs in the crates' out/ folders: the examples, each
# tests/run_*.py, the documents, and the C interface. `rt ci` leaves these programs, and so do `rt run` in crates/t5250
# and `rt test` in crates/rows_program; with --prove `rt ci` is the first part.
#
# What is left out for want of a tool comes again at the end. The last line is the sum, and the status is 1 where
# something failed.
set -uo pipefail
cd "$(dirname "$0")/.." || exit 2
source tests/parts.sh

# Each check by one process: one that is shared out among copies of the prover takes a quarter more processor time. The
# prover's allocator keeps the pages that it has: to give them back and to ask for them again takes a twentieth of a check.
lanes=$(python3 tests/lanes.py) || exit 2
export MIMALLOC_PURGE_DELAY=-1
if [ "${1:-}" = --prove ]; then
    part "rt ci" 300 python3 tests/measure.py "$folder/proofs" env RT_JOBS="$lanes" rt ci
    cat "$folder/proofs" >>"$folder/table"
    # The scripts wait more than they work, so they run beside the rounds, and before them where both want a core. The
    # rounds begin no check once the whole has taken 155 minutes: what they leave out is told at the end.
    begin_beside "wrong bodies" 180 nice -n 19 python3 tests/measure.py "$folder/rounds" \
        python3 tests/wrong_bodies.py --jobs "$lanes" --minutes $((SECONDS < 8400 ? 155 - SECONDS / 60 : 10))
fi
kind="scripts, beside rounds"
# The C library comes first: a live session of the program is compared with one of C programs over it.
if command -v cc >/dev/null && command -v make >/dev/null; then
    part "C library" 60 tools/build_c_library.sh
    part "C interface" 60 make --no-print-directory -C c check
else
    left_out "the C interface, since cc or make isn't there"
fi
part examples 20 examples/run.sh
for script in tests/run_*.py; do
    part "${script##*/}" 40 python3 "$script"
done
part definitions 10 python3 tools/definitions.py
part paths 10 python3 tools/paths.py
part callers 60 python3 tools/calling.py --try

if [ "${1:-}" = --prove ]; then
    end_beside
    cat "$folder/rounds" >>"$folder/table"
fi
sum_up
