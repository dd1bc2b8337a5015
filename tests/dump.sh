#!/bin/sh
# Shows the work area as a debugger sees it inside a call: a row a node, its
# fields by their names, when the first byte of the result is written. So the
# document's rows are those of the result.
#   tests/dump.sh DOCUMENT PATCH   the rows of two files
#   tests/dump.sh --check          compares those of the document in
#                                  docs/WORK-AREA.md with the table there
#   JSON_PATCH_LIB=DIR             where libjson_patch.a is, if not in
#                                  target/staticlib
# Needs gdb. Nothing is shown where the call refuses.
set -eu
here=$(cd "$(dirname "$0")" && pwd)
root=$(dirname "$here")
library=${JSON_PATCH_LIB:-$root/target/staticlib}/libjson_patch.a
out=$root/target/make/dump
mkdir -p "$out"

dump() { # DOCUMENT PATCH
    gdb -nx -q -batch -x "$here/dump.gdb" -ex 'watch output[0]' -ex run \
        -ex 'printf "document\n"' -ex 'rows 0' -ex 'printf "patch\n"' -ex 'rows 2048' \
        --args "$out/dump" "$1" "$2" 2>"$out/log" |
        sed -n '/^document$/,$p'
}

if ! command -v gdb >/dev/null; then
    echo "left out: no gdb"
    exit 0
fi
${CC:-cc} -std=c99 -g -O0 -fno-eliminate-unused-debug-types -I"$root/include" "$here/dump.c" "$library" -o "$out/dump"
if [ "${1:-}" != --check ]; then
    [ $# = 2 ] || { sed -n '2,11p' "$0" >&2; exit 2; }
    dump "$1" "$2"
    exit
fi

# The document of docs/WORK-AREA.md, and the last column of its table.
sed -n '/^### A document, row by row/,/^|/s/^    \({.*}\)$/\1/p' "$root/docs/WORK-AREA.md" | tr -d '\n' >"$out/document"
printf '[]' >"$out/patch"
sed -n '/^### A document, row by row/,/^## /s/^| \([0-9]*\) |.* `\([0-9 ]*\)` |$/\1: \2/p' "$root/docs/WORK-AREA.md" >"$out/expected"
dump "$out/document" "$out/patch" >"$out/dumped"
sed -n '/^document$/,/^patch$/s/^\([0-9]*\) [A-Z_]* {\([^}]*\)}.*/\1: \2/p' "$out/dumped" | sed 's/[a-z_]* = //g; s/,//g' >"$out/seen"
if [ -s "$out/expected" ] && cmp "$out/seen" "$out/expected"; then
    echo "dump: as docs/WORK-AREA.md has it"
else
    cat "$out/dumped" "$out/log"
    echo "FAILED: docs/WORK-AREA.md and a dump differ"
    exit 1
fi
