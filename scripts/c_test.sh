#!/usr/bin/env bash
# Tests the library for C, C++ and Python: bash scripts/c_test.sh [--unproved]
#
# It installs the library (scripts/c_library.sh), the proved one if there is one, into a folder of its own, and tests:
# the examples with gcc and clang, pkg-config, CMake and meson; the exports and the layout of the records (abi.txt); the
# calls under sanitizers (walk.c, edits.c), with each request for memory refused (hold.c), between guard pages (fuzz.c),
# in threads and with a small stack (threads.c); the wheel, installed without network in a fresh environment. Times are
# printed, and fail no check, since they vary on a shared machine. The last line has the counts.
source "$(dirname -- "$(readlink -f -- "$0")")/common.sh"
set +e
cd -- "$top" || exit
scratch
unset TOML_SPAN_LIBRARY PYTHONPATH
passed=0
failed=0

# told NAME COMMAND..: runs a command as one check, and counts whether it passes or fails
told() {
    if "${@:2}" >"$work/said" 2>&1; then
        passed=$((passed + 1))
        grep -E '^(hold|fuzz|threads|walk|edits|speed|times):' "$work/said"
    else
        failed=$((failed + 1))
        echo "c_test: failed: $1"
        tail -n 20 "$work/said"
    fi
}

# measured COMMAND..: prints the times that a command measures
measured() { "$@" 2>&1 | grep -E '^(speed|times):'; }

# has TOOL: whether a tool is installed; prints a line if it is not
has() { command -v "$1" >/dev/null || { echo "c_test: there is no $1" && false; }; }

for tool in gcc g++ clang clang++ python3; do has "$tool" || failed=$((failed + 1)); done
# (by a link to the script, in a folder with a blank, relative to the caller's folder, with a misleading CDPATH)
ln -s "$top/scripts/c_library.sh" "$work/install"
if ! (cd "$work" && CDPATH=$top bash ./install "$@" --prefix "the library") >"$work/said"; then
    cat "$work/said"
    echo "c_test: the library can't be installed"
    echo "0 passed, 1 failed"
    exit 1
fi
cat "$work/said"
lib="$work/the library/lib"
archive=$lib/libtoml_span.a
shared=$lib/libtoml_span.so.0
export PKG_CONFIG_PATH=$lib/pkgconfig
strict=(-Wall -Wextra -Wconversion -Werror -O2 "-I$lib/../include")
sanitize=("-fsanitize=address,undefined" -fno-sanitize-recover=all -g)
tests=scripts/c_tests
runs=crates/toml_span_cli/runs
# (the stored runs as folders, in which tagged_NAME has a document in the file stdin)
python3 scripts/transcripts.py expand toml_span_cli "$work/runs"
documents=("$runs"/data/*.toml "$work"/runs/tagged_*/stdin)
if [ ! -f "${documents[-1]}" ]; then fail 1 "no stored run tagged_NAME has a document"; fi

# exits STATUS COMMAND..: whether a command ends with this status
exits() { "${@:2}"; [ $? -eq "$1" ]; }

# keys PROGRAM, values PROGRAM: whether the example for C, or the one for C++, writes the expected text
keys() { "$1" examples/c/example.toml | diff - examples/c/example.keys; }
values() { "$1" examples/c/example.toml | diff - examples/c/example.values; }

# edited PROGRAM: whether the example writes the edited and formatted document, or the reason why the edit failed
edited() {
    "$1" examples/c/example.toml server.ports '[80,443]' | diff - examples/c/example.edited &&
        exits 13 "$1" examples/c/example.toml title.no 1 2>"$work/said.edit" &&
        exits 11 "$1" "$runs/data/settings.toml" a 1 2>>"$work/said.edit" &&
        printf '%s\n' 'title.no: the path does not name a table' "$runs/data/settings.toml:7:1: not valid TOML" |
        diff - "$work/said.edit"
}

# refused PROGRAM: whether the example ends with status 1 and writes the report for an invalid document
refused() {
    exits 1 "$1" "$runs/data/settings.toml" >"$work/out" 2>"$work/report" &&
        [ ! -s "$work/out" ] && grep -q '^error\[duplicate-key\]' "$work/report"
}

# example CHECK PROGRAM COMPILE..: compiles an example, and checks what it writes for a document and for an error
example() {
    told "the example ${2##*/}" "${@:3}" -o "$2"
    told "what ${2##*/} writes" "$1" "$2"
    told "what ${2##*/} writes of an error" refused "$2"
}

# exports FILE WORD..: prints the names that nm shows
exports() { nm -g --defined-only "${@:2}" "$1" | awk '$2 ~ /[A-Z]/ && $3 != "" { print $2, $3 }' | sort; }

# abi: the soname, the exports of both libraries and the layout of the records are those of abi.txt. New ones may be
# added under the same soname
abi() {
    gcc "${strict[@]}" "$tests/abi.c" -o "$work/abi" && diff <(exports "$archive") <(exports "$shared" -D) &&
        {
            readelf -d "$shared" | sed -n 's/.*soname: \[\(.*\)\]/\1/p'
            exports "$shared" -D
            "$work/abi"
        } >"$work/abi.txt" && diff "$tests/abi.txt" "$work/abi.txt" && return
    if diff "$tests/abi.txt" "$work/abi.txt" | grep -q '^<'; then
        echo "the interface has changed: raise TOML_SPAN_ABI in include/toml_span.h, and keep the new $tests/abi.txt"
    else
        echo "the interface has more than before: keep the new $tests/abi.txt"
    fi
    false
}

told "a missing folder" exits 5 bash scripts/c_library.sh --prefix
told "an unknown option" exits 5 bash scripts/c_library.sh --prefixes
told "the interface" abi
for language in c:gcc c:clang c++:g++ c++:clang++; do
    compiler=${language#*:}
    command -v "$compiler" >/dev/null || continue
    example keys "$work/keys.$compiler" "$compiler" -x "${language%:*}" "${strict[@]}" examples/c/keys.c \
        -x none "$archive"
    for file in records edit report; do
        told "$file.c with $compiler" "$compiler" -x "${language%:*}" "${strict[@]}" -c "c/$file.c" -o "$work/$file.o"
    done
    told "the example edit" "$compiler" -x "${language%:*}" "${strict[@]}" examples/c/edit.c -x none "$archive" \
        -o "$work/edit.$compiler"
    told "what edit writes" edited "$work/edit.$compiler"
    if [ "${language%:*}" = c ]; then continue; fi
    example values "$work/values.$compiler" "$compiler" -std=c++17 -pedantic -Wshadow -fno-exceptions -fno-rtti \
        "${strict[@]}" "${sanitize[@]}" examples/c/values.cpp "$archive"
    told "edits.cpp with $compiler" "$compiler" -std=c++17 -pedantic -Wshadow -fno-exceptions -fno-rtti "${strict[@]}" \
        "${sanitize[@]}" "$tests/edits.cpp" "$archive" -o "$work/edits.$compiler"
    told "edits in C++ with $compiler" "$work/edits.$compiler"
    told "lookups.cpp with $compiler" "$compiler" -std=c++17 -pedantic -Wshadow -fno-exceptions -fno-rtti \
        "${strict[@]}" "${sanitize[@]}" "$tests/lookups.cpp" "$archive" -o "$work/lookups.$compiler"
    told "look-ups and reports in C++ with $compiler" "$work/lookups.$compiler" "${documents[@]}"
done

# packaged, cmade, mesoned: whether programs that are linked as docs/C.md says start without further settings
packaged() {
    eval "gcc examples/c/keys.c $(pkg-config --cflags --libs toml_span) -o '$work/keys.packaged'" &&
        keys "$work/keys.packaged"
}
cmade() {
    cmake -S examples/c -B "$work/cmade" "-DCMAKE_PREFIX_PATH=$lib/.." && cmake --build "$work/cmade" &&
        keys "$work/cmade/keys" && values "$work/cmade/values"
}
mesoned() {
    meson setup "$work/mesoned" examples/c && meson compile -C "$work/mesoned" && keys "$work/mesoned/keys"
}
if has pkg-config; then told "pkg-config" packaged; fi
if has cmake; then told "CMake" cmade; fi
if has pkg-config && has meson; then told "meson" mesoned; fi

# build NAME WORD..: compiles a test
build() { told "$1.c" gcc -std=c11 "${strict[@]}" "$tests/$1.c" "${@:2}" -pthread -o "$work/$1"; }
build walk "${sanitize[@]}" c/records.c c/edit.c "$shared" "-Wl,-rpath,$lib"
told "lookups and orders" "$work/walk" "${documents[@]}"
example keys "$work/keys.asan" gcc -std=c11 "${strict[@]}" "${sanitize[@]}" examples/c/keys.c "$archive"
build edits "${sanitize[@]}" "$archive"
told "edits and formats" "$work/edits" "${documents[@]}"
build hold "$archive" -Wl,--wrap=malloc,--wrap=realloc
told "refused memory and each room" "$work/hold" "${documents[@]}"
if has valgrind; then
    told "refused memory under valgrind" valgrind --quiet --error-exitcode=9 --leak-check=full \
        --errors-for-leak-kinds=all "$work/hold" "$work"/runs/tagged_{escapes,table_arrays}/stdin \
        "$runs/data/settings.toml"
fi
build fuzz "$archive"
told "changed texts" "$work/fuzz" 1000000 "${documents[@]}"
build threads "$archive"
told "threads and stack" "$work/threads" "${documents[@]}"
build speed "$archive"

# install_wheel: builds the wheel and installs it, without network and with only the packages that come with Python
install_wheel() {
    python3 -m venv "$work/venv" &&
        TOML_SPAN_LIBRARY=$shared "$work/venv/bin/pip" wheel --no-index --no-deps -w "$work/wheel" ./python &&
        "$work/venv/bin/pip" install --no-index "$work"/wheel/toml_span-*-manylinux_*.whl
}
if command -v python3 >/dev/null; then
    python3 "$tests/documents.py" "$work"
    measured "$work/speed" 200 "$work"/*20k.toml
    measured "$work/speed" 8 "$work"/*1m.toml
    told "the wheel" install_wheel
    if has mypy; then told "types of the module" mypy --strict --cache-dir "$work/types" python/src; fi
    cp python/{test_toml_span,example}.py "$tests/times.py" "$work"
    told "tests of the module" "$work/venv/bin/python" "$work/test_toml_span.py" "$work/runs"
    told "the example in Python" "$work/venv/bin/python" "$work/example.py" examples/c/example.toml
    told "the command in Python" exits 1 "$work/venv/bin/python" -m toml_span "$runs/data/settings.toml"
    measured "$work/venv/bin/python" "$work/times.py" "$work"
fi
echo "$passed passed, $failed failed"
[ "$failed" -eq 0 ]
