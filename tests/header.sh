#!/bin/sh
# Compiles tests/header.c, inspect.c, undo.c, merge.c, origins.c and compare.c with every compiler
# that is here, as C99, C11, C++11 and C++17, with many warnings as errors and under both
# sanitizers, and runs them.
#   JSON_PATCH_LIB=DIR   where libjson_patch.a, libregion_call.a, librecord.a, libinspect.a,
#                        libundo.a, libmerge.a, libcompare.a, liblisting.a, libregion_listing.a,
#                        libmerge_listing.a and libundo_listing.a are, if not in target/staticlib
set -eu
here=$(cd "$(dirname "$0")" && pwd)
root=$(dirname "$here")
folder=${JSON_PATCH_LIB:-$root/target/staticlib}
out=$root/target/make/header
mkdir -p "$out"
warnings="-Wall -Wextra -Wpedantic -Werror -Wshadow -Wconversion -Wsign-conversion -Wcast-qual -Wundef"
sanitizers="-O1 -g -fsanitize=address,undefined -fno-sanitize-recover=all"
one() { # SOURCE NAME ARCHIVES COMPILER..
    source=$1
    name=$2
    archives=$3
    shift 3
    "$@" $warnings $sanitizers -I"$root/include" -c "$here/$source.c" -o "$out/$source-$name.o"
    (cd "$folder" && "$1" $sanitizers "$out/$source-$name.o" $archives -o "$out/$source-$name")
    printf '%s: ' "$name"
    "$out/$source-$name"
}
try() { # NAME COMPILER..
    name=$1
    shift
    one header "$name" "libjson_patch.a libregion_call.a librecord.a" "$@"
    one inspect "$name" "libjson_patch.a libinspect.a" "$@"
    one undo "$name" "libjson_patch.a libundo.a" "$@"
    one merge "$name" "libmerge.a" "$@"
    one origins "$name" "liblisting.a libregion_listing.a libmerge_listing.a libundo_listing.a" "$@"
    one compare "$name" "libjson_patch.a libcompare.a" "$@"
}
for compiler in gcc clang; do
    if ! command -v $compiler >/dev/null; then
        echo "left out: no $compiler"
        continue
    fi
    for standard in c99 c11; do
        try $compiler-$standard $compiler -std=$standard -Wstrict-prototypes
    done
done
for compiler in g++ clang++; do
    if ! command -v $compiler >/dev/null; then
        echo "left out: no $compiler"
        continue
    fi
    for standard in c++11 c++17; do
        try $compiler-$standard $compiler -x c++ -std=$standard -Wold-style-cast
    done
done
