#!/usr/bin/env bash
# Builds the reference and the tests into target/test:
#
#     test/build.sh [FOLDER]
#
# FOLDER has libsflw.a, librow_alone.a for the bench, and sflw.h if it is not
# the one of include/; without it target/staticlib is taken. Where a library is
# missing only the programs that need none of it are built: without libsflw.a
# scope, vectors and errors.
#
# test/cc.sh says with which compiler.
set -euo pipefail
top="$(dirname "$(dirname "$(readlink -f "${BASH_SOURCE[0]}")")")"
folder="${1:-$top/target/staticlib}"
to="$top/target/test"
flags=(-std=c11 -O2 -Wall -Wextra)
cc="$top/test/cc.sh"

if [ -e "$folder/sflw.h" ]; then
    flags+=(-I "$folder")
fi
flags+=(-I "$top/include" -I "$top/reference" -I "$top/test")

mkdir -p "$to"
objects=()
for source in reference/ref test/flows test/cases test/stretches test/named_cases \
    test/larger_cases test/lent test/waiting test/words; do
    object="$to/$(basename "$source").o"
    "$cc" "${flags[@]}" -c "$top/$source.c" -o "$object"
    objects+=("$object")
done

# build NAME WORDS..: the program NAME from test/NAME.c
build() {
    local name="$1"
    shift
    "$cc" "${flags[@]}" "$top/test/$name.c" "${objects[@]}" "$@" -o "$to/$name"
    echo "built target/test/$name"
}

build vectors
build errors
if [ -e "$folder/libsflw.a" ]; then
    build scope -DWITH_LIBRARY "$folder/libsflw.a"
    build differential "$folder/libsflw.a"
else
    rm -f "$to/differential"
    build scope
    echo "build.sh: no $folder/libsflw.a, so no differential"
fi
if [ -e "$folder/libsflw.a" ] && [ -e "$folder/librow_alone.a" ]; then
    build bench "$folder/libsflw.a" "$folder/librow_alone.a" -pthread
else
    rm -f "$to/bench"
    echo "build.sh: no $folder/libsflw.a or no librow_alone.a beside it, so no bench"
fi
