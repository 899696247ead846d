#!/usr/bin/env bash
# All tests of the C interface and of the terminal: `make check` calls this with BUILD, LIB, GLUE, T5250, CC, CXX and
# MAKE. The last line is 'N passed, N failed'; what the machine lacks is told by lines that begin with 'left out:'.
set -uo pipefail
tests=$(cd "$(dirname "$0")" && pwd) || exit 2
here=$(dirname "$tests")
top=$(dirname "$here")
folder=$(mktemp -d) || exit 2
trap 'rm -rf "$folder"' EXIT
passed=0
failed=0
warnings=(-std=c11 -Wall -Wextra -Wpedantic -Werror)
careful=(valgrind -q --error-exitcode=9 --leak-check=full --show-leak-kinds=all)

# One test by its name: passed where the command succeeds.
try() {
    local name=$1
    shift
    if "$@" >"$folder/said" 2>&1; then
        passed=$((passed + 1))
    else
        failed=$((failed + 1))
        echo "failed: $name"
        tail -n 12 "$folder/said"
    fi
}

# A program whose last line is 'N passed, N failed', of which both count.
try_counted() {
    local name=$1 status
    shift
    "$@" >"$folder/said" 2>&1
    status=$?
    local last
    last=$(tail -n 1 "$folder/said")
    grep '^left out:' "$folder/said"
    if [[ $last =~ ^([0-9]+)\ passed,\ ([0-9]+)\ failed$ ]]; then
        passed=$((passed + BASH_REMATCH[1]))
        failed=$((failed + BASH_REMATCH[2]))
        if [ "${BASH_REMATCH[2]}" -gt 0 ]; then
            echo "failed: $name"
            head -n 20 "$folder/said"
        elif [ $status -ne 0 ]; then
            failed=$((failed + 1))
            echo "failed: $name ends with status $status"
            tail -n 20 "$folder/said"
        fi
    else
        failed=$((failed + 1))
        echo "failed: $name (status $status)"
        tail -n 20 "$folder/said"
    fi
}

has() {
    command -v "$1" >/dev/null || { echo "left out: $2, since $1 isn't here"; return 1; }
}

# The test programs. Both libraries give the same, and show the names of the interface alone.
programs=(calls host_calls decoder_calls extended live changed sentences code_page format strokes body)
for name in "${programs[@]}"; do
    try "$name.c is built" "$CC" "${warnings[@]}" -g -I "$here" -o "$folder/$name" "$tests/$name.c" \
        "$BUILD/libribbonscarp.a"
    try_counted "$name" "$folder/$name"
done
for name in calls host_calls decoder_calls; do
    try "$name.c is built, shared" "$CC" "${warnings[@]}" -I "$here" -o "$folder/shared" "$tests/$name.c" \
        -L "$BUILD" -lribbonscarp -Wl,-rpath,"$BUILD"
    try_counted "$name, shared" "$folder/shared"
done
visible() {
    nm -D --defined-only "$BUILD/libribbonscarp.so" | awk '{print $3}' | sort >"$folder/shared_names"
    nm -g --defined-only "$BUILD/libribbonscarp.a" | awk 'NF == 3 {print $3}' | sort >"$folder/static_names"
    grep -oE '\bribbon_[a-z0-9_]+\(' "$here/ribbonscarp.h" | tr -d '(' | sort -u >"$folder/header_names"
    ! grep -v '^ribbon_' "$folder/shared_names" && ! grep -v '^ribbon_' "$folder/static_names" \
        && diff "$folder/shared_names" "$folder/static_names" && diff "$folder/shared_names" "$folder/header_names"
}
try "nm shows ribbon_ alone" visible

# What exports.h declares is what the proved library exports, and the C side calls each of them.
exports_agree() {
    grep -oE '\bws_c_[a-z0-9_]+\(' "$here/exports.h" | tr -d '(' | sort >"$folder/declared"
    nm -g --defined-only "$LIB" 2>/dev/null | awk '$3 ~ /^ws_c_/ {print $3}' | sort >"$folder/defined"
    cat "$here"/*.c | grep -oE '\bws_c_[a-z0-9_]+\(' | tr -d '(' | sort -u >"$folder/called"
    diff "$folder/declared" "$folder/defined" && diff "$folder/declared" "$folder/called"
}
try "exports.h declares the library's exports" exports_agree

try "memory.c is built" "$CC" "${warnings[@]}" -g -I "$here" -Wl,--wrap=malloc -Wl,--wrap=realloc -o "$folder/memory" \
    "$tests/memory.c" "$BUILD/libribbonscarp.a"
try_counted "every allocation refused" "$folder/memory"

# The C side with sanitizers: its objects are built again, and linked to the proved library.
sanitized=(-fsanitize=address,undefined -fno-sanitize-recover=all -g -O1)
if echo 'int main(void){return 0;}' | "$CC" -x c "${sanitized[@]}" -o "$folder/probe" - 2>/dev/null; then
    for name in "${programs[@]}"; do
        try "$name.c and the C side are built with sanitizers" "$CC" "${warnings[@]}" "${sanitized[@]}" -I "$here" \
            -o "$folder/sanitized" "$tests/$name.c" "$here"/*.c "$LIB" "$GLUE"
        try_counted "$name with sanitizers" "$folder/sanitized" few
    done
else
    echo "left out: the address and undefined-behaviour sanitizers, which $CC lacks"
fi
if has valgrind "the test programs under valgrind"; then
    for name in "${programs[@]}"; do
        try_counted "$name under valgrind" "${careful[@]}" "$folder/$name" few
    done
    try_counted "every allocation refused, under valgrind" "${careful[@]}" "$folder/memory"
fi
if has python3 "the client in Python and the examples"; then
    try_counted "a client in Python" python3 "$tests/client.py" "$BUILD/libribbonscarp.so" "$top/crates/ws_code/src/reason.rt"
    try_counted "the examples" "$tests/examples.sh" "$BUILD" "$T5250"
fi
case $BUILD in
*/unproved*) echo "left out: the figures of the header and of bench/README.md, which are of the proved library" ;;
*) ! has python3 "the header's figures" || try_counted "the header's figures" env BUILD="$BUILD" CC="$CC" "$here/bench/run.sh" ;;
esac
if has "$CXX" "the header in C++"; then
    try "the header in C++" "$CXX" -std=c++11 -Wall -Wextra -Wpedantic -Werror -I "$here" -x c++ -o "$folder/cxx" \
        "$tests/installed.c" -x none "$BUILD/libribbonscarp.a"
    try_counted "a program in C++" "$folder/cxx"
fi

# What is installed serves a program of someone else, by pkg-config.
stage=$folder/stage
prints() {
    LD_LIBRARY_PATH=$stage/usr/lib "$2" | diff - "$1"
}
# As they are named from there, without a blank of the path that leads there, which no make can take in a target.
made_by=(GLUE="$GLUE")
for name in BUILD LIB T5250; do
    made_by+=("$name=$(realpath --relative-to="$here" "${!name}")")
done
try "make install" "$MAKE" -C "$here" install PREFIX=/usr DESTDIR="$stage" "${made_by[@]}"
try "the program that was installed" "$stage/usr/bin/t5250" check "$top/examples/inquiry.hex"
try "its page of the manual" grep -q '^.TH T5250 1' "$stage/usr/share/man/man1/t5250.1"
try "its completions" grep -q '^complete .* t5250$' "$stage/usr/share/bash-completion/completions/t5250"
if has pkg-config "programs on what was installed"; then
    export PKG_CONFIG_PATH=$stage/usr/lib/pkgconfig PKG_CONFIG_SYSROOT_DIR=$stage
    read -r -a flags <<<"$(pkg-config --define-variable=prefix=/usr --cflags --libs ribbonscarp)"
    # pkg-config leaves out folders of the system, which this one is under the stage alone.
    flags+=(-I "$stage/usr/include" -L "$stage/usr/lib")
    try "a C program on what was installed" "$CC" "${warnings[@]}" -o "$folder/theirs" "$tests/installed.c" "${flags[@]}"
    try_counted "it runs" env LD_LIBRARY_PATH="$stage/usr/lib" "$folder/theirs"
    try "a scraper on what was installed" "$CC" "${warnings[@]}" -o "$folder/scrape" "$here/examples/scrape.c" \
        "${flags[@]}"
    try "it scrapes" env LD_LIBRARY_PATH="$stage/usr/lib" "$tests/scrape.sh" "$folder/scrape" "$stage/usr/bin/t5250"
    if has "$CXX" "a C++ program on what was installed"; then
        try "a C++ program on what was installed" "$CXX" -std=c++11 -Wall -Werror -x c++ -o "$folder/theirs" \
            "$tests/installed.c" -x none "${flags[@]}"
        try_counted "it runs" env LD_LIBRARY_PATH="$stage/usr/lib" "$folder/theirs"
        try "a C++ class on what was installed" "$CXX" -std=c++11 -Wall -Wextra -Wpedantic -Werror -o "$folder/theirs" \
            "$here/examples/station.cpp" "${flags[@]}"
        try "it prints station.out" prints "$here/examples/station.out" "$folder/theirs"
    fi
    try "the version of pkg-config" test "$(pkg-config --modversion ribbonscarp)" = "$(cat "$top/VERSION")"
    unset PKG_CONFIG_PATH PKG_CONFIG_SYSROOT_DIR
    if has python3 "a client in Python on what was installed"; then
        try_counted "a client in Python on what was installed" python3 "$tests/client.py" \
            "$stage/usr/lib/libribbonscarp.so" "$top/crates/ws_code/src/reason.rt"
        try "the Python package on what was installed" env -u RIBBONSCARP_LIBRARY LD_LIBRARY_PATH="$stage/usr/lib" \
            PYTHONPATH="$top/python" PYTHONDONTWRITEBYTECODE=1 \
            python3 -m unittest discover -q -s "$top/python/tests" -p test_host.py
        try "a scraper in Python on what was installed" "$tests/scrape_python.sh" "$stage/usr"
        grep '^left out:' "$folder/said"
    fi
fi

# What of the terminal is no drawing: each test with all of it.
terminal=$top/terminal
logic=("$terminal"/{action,address,again,ahead,bindings,hold,kept,keys_file,label,look,macro,moves,paste,recording}.c
    "$terminal"/{sentence,status,stroke,telnet}.c)
probe=()
[ -x "$folder/probe" ] && probe=("${sanitized[@]}")
for test in "$terminal"/tests/*.c; do
    name=$(basename "$test" .c)
    try "$name.c is built" "$CC" "${warnings[@]}" "${probe[@]}" -g -I "$here" -I "$terminal" -o "$folder/terminal_$name" \
        "$test" "${logic[@]}" "$BUILD/libribbonscarp.a"
    try_counted "the terminal's $name" "$folder/terminal_$name"
done

# The terminal, typed into.
if has python3 "the terminal"; then
    if echo '#include <curses.h>' | "$CC" -D_XOPEN_SOURCE_EXTENDED=1 -E -x c - >/dev/null 2>&1; then
        try "make terminal" "$MAKE" -C "$here" terminal "${made_by[@]}"
        try "host5250.c is built" "$CC" "${warnings[@]}" -g -I "$here" -o "$folder/host5250" "$terminal/host5250.c" \
            "$BUILD/libribbonscarp.a"
        careful_terminal=()
        if [ ${#probe[@]} -gt 0 ]; then
            try "the terminal is built with sanitizers" "$MAKE" -C "$here" terminal "${made_by[@]}" \
                TERMINAL="$folder/sanitized_terminal" CFLAGS="${sanitized[*]}"
            careful_terminal=(--sanitized "$folder/sanitized_terminal")
        fi
        without_tls() {
            "$MAKE" -C "$here" terminal "${made_by[@]}" TERMINAL="$folder/plain_terminal" TLS= >"$folder/made" \
                && grep -q '^term5250 has no TLS' "$folder/made"
        }
        try "the terminal is built without TLS, and that is told" without_tls
        try "the terminal is installed" "$MAKE" -C "$here" install PREFIX=/usr DESTDIR="$stage" "${made_by[@]}"
        try "its page of the manual" grep -q '^.TH TERM5250 1' "$stage/usr/share/man/man1/term5250.1"
        try "the installed terminal" "$stage/usr/bin/term5250" --version
        try_counted "the terminal" python3 "$terminal/run_terminal.py" "$BUILD/term5250" "$folder/host5250" "$T5250" \
            --without-tls "$folder/plain_terminal" "${careful_terminal[@]}" ${TERMINAL_TESTS:-}
    else
        echo "left out: the terminal, since the headers of ncurses aren't here (libncurses-dev)"
    fi
fi

# Nothing of it is left then but folders.
uninstalls() {
    "$MAKE" -C "$here" uninstall PREFIX=/usr DESTDIR="$stage" "${made_by[@]}" \
        && find "$stage" ! -type d >"$folder/left" && [ ! -s "$folder/left" ]
}
try "make uninstall" uninstalls

# A PREFIX with blanks and quotes is one path, here and for pkg-config.
odd="$folder/some where/it's"
installs_oddly() {
    "$MAKE" -C "$here" install PREFIX="$odd" DESTDIR= "${made_by[@]}" && "$odd/bin/t5250" --version >/dev/null || return
    if command -v pkg-config >/dev/null; then
        eval "flags=($(PKG_CONFIG_PATH="$odd/lib/pkgconfig" pkg-config --cflags --libs ribbonscarp))"
        "$CC" "${warnings[@]}" -o "$folder/odd" "$tests/installed.c" "${flags[@]}" || return
    fi
    mkdir -p "$folder/some" && touch "$folder/some/kept" "$folder/kept" || return
    "$MAKE" -C "$here" uninstall PREFIX="$odd" DESTDIR= "${made_by[@]}" || return
    [ -z "$(find "$odd" ! -type d)" ] && [ -e "$folder/some/kept" ] && [ -e "$folder/kept" ]
}
try "a prefix with blanks and quotes" installs_oddly

builds_in_a_tree() {
    mkdir "$folder/a tree" && cp -r "$here" "$top/VERSION" "$folder/a tree/" && rm -rf "$folder/a tree/c/build" \
        && ln -s "$LIB" "$folder/a tree/libws_c.a" && "$MAKE" -C "$folder/a tree/c" all LIB=../libws_c.a T5250=none GLUE="$GLUE"
}
try "a tree in a folder with a blank" builds_in_a_tree

echo "$passed passed, $failed failed"
[ $failed -eq 0 ]
