#!/bin/sh
# Compiles the C examples under AddressSanitizer and UndefinedBehaviorSanitizer,
# with gcc and as C++, runs them and compares what they print.
#   examples/run.sh        the libraries are target/staticlib/libjson_patch.a, libfragment.a, libundo.a,
#                          liblisting.a and libmerge_listing.a
#   JSON_PATCH_LIB=DIR     or in that folder
set -eu
here=$(cd "$(dirname "$0")" && pwd)
root=$(dirname "$here")
library=${JSON_PATCH_LIB:-$root/target/staticlib}/libjson_patch.a
links=${JSON_PATCH_LIB:-$root/target/staticlib}/libfragment.a
undos=${JSON_PATCH_LIB:-$root/target/staticlib}/libundo.a
listing=${JSON_PATCH_LIB:-$root/target/staticlib}/liblisting.a
merge_listing=${JSON_PATCH_LIB:-$root/target/staticlib}/libmerge_listing.a
out=$root/target/examples
for archive in "$library" "$links" "$undos" "$listing" "$merge_listing"; do
    name=${archive##*/lib}
    if [ ! -f "$archive" ]; then
        echo "no $archive: run 'tools/staticlib.sh ${name%.a}' first" >&2
        exit 2
    fi
done
mkdir -p "$out"
strict="-O1 -g -Wall -Wextra -Wpedantic -Werror -fsanitize=address,undefined -fno-sanitize-recover=all -I$root/include"
failed=0
try() { # NAME COMPILER...
    name=$1
    expected=$here/${name%%-*}.expected
    shift
    "$@" -o "$out/$name"
    if "$out/$name" >"$out/$name.out" && cmp "$out/$name.out" "$expected"; then
        echo "$name: as expected"
    else
        echo "$name: DIFFERS from $expected (see target/examples/$name.out)"
        failed=1
    fi
}
try apply-c ${CC:-gcc} -std=c99 $strict "$here/apply.c" "$library"
try apply-c++ ${CXX:-g++} -std=c++11 $strict -x c++ "$here/apply.c" -x none "$library"
try link-c ${CC:-gcc} -std=c99 $strict "$here/link.c" "$links" "$library"
try link-c++ ${CXX:-g++} -std=c++11 $strict -x c++ "$here/link.c" -x none "$links" "$library"
try undo-c ${CC:-gcc} -std=c99 $strict "$here/undo.c" "$undos" "$library"
try undo-c++ ${CXX:-g++} -std=c++11 $strict -x c++ "$here/undo.c" -x none "$undos" "$library"
try origins-c ${CC:-gcc} -std=c99 $strict "$here/origins.c" "$listing" "$merge_listing"
try origins-c++ ${CXX:-g++} -std=c++11 $strict -x c++ "$here/origins.c" -x none "$listing" "$merge_listing"
cat "$out/apply-c.out"
exit $failed
