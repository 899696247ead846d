#!/usr/bin/env bash
# Builds crates/ws_c/out/libws_c.a, as `rt lib` in crates/ws_c does. `rt ci` leaves libraries that others can be built
# over, but `rt lib` doesn't take them and proves all below ws_c again; so behind `rt ci` the library is built by the
# command that `rt lib` runs, which proves ws_c alone.
set -euo pipefail
cd "$(dirname "$0")/../crates/ws_c"
below=$(sed -n 's/^ws_c staticlib: *//p' ../../crates.txt)
words=()
kept=yes
kit=$(dirname "$(rt doc)")
for library in std $below; do
    if [ -d "../$library" ]; then
        folder=$PWD/../$library/out/rlib
        [ -d "$folder/$library.rlib" ] && [ ! -e "$folder/stamp" ] || kept=no
    else
        folder=$kit/rlibs
    fi
    words+=(--extern "$library=$folder/$library.rlib" -L "dependency=$folder")
done
# A stamp is what `rt lib` leaves beside its libraries.
[ $kept = yes ] || exec rt lib
mkdir -p out
exec "$kit/bin/rattle" build --crate-name ws_c src/lib.rt --crate-type staticlib "${words[@]}" \
    --antt-project "$kit/rattle/logic/antt-project.json" --logic-built "$kit/logic_built" --toolchain "$kit/toolchain" \
    --jobs 1 -o out/libws_c.a
