#!/bin/sh
# Proves the static library of a crate for C, and copies it to target/staticlib.
#   tools/staticlib.sh NAME..   target/staticlib/libNAME.a, from crate NAME_c
# `hex` is crate intel_hex_c. The last line of `rt lib` says logic=proved; without that, no
# archive is left there.
set -eu
root=$(cd "$(dirname "$0")/.." && pwd)
out=$root/target/staticlib
[ $# -gt 0 ] || { echo "usage: tools/staticlib.sh NAME.." >&2; exit 2; }
command -v rt >/dev/null || { echo "staticlib.sh: no rt: the Rattle toolchain proves the library" >&2; exit 2; }
mkdir -p "$out"
for name in "$@"; do
    case $name in
    hex) crate=intel_hex_c ;;
    *) crate=${name}_c ;;
    esac
    [ -d "$root/crates/$crate" ] || { echo "staticlib.sh: no crate $crate" >&2; exit 2; }
    rm -f "$out/lib$name.a"
    (cd "$root/crates/$crate" && rm -f "out/lib$crate.a" && rt lib)
    cp "$root/crates/$crate/out/lib$crate.a" "$out/lib$name.a"
    echo "target/staticlib/lib$name.a"
done
