#!/bin/sh
# Proves a program, and copies it to target/bin.
#   tools/program.sh NAME..   target/bin/NAME: patch_tool, patch_count, ..
# `rt run` proves it, links it and runs it, here without arguments and without input. What
# the program answers to that is no matter: it is there only if it was proved.
set -eu
root=$(cd "$(dirname "$0")/.." && pwd)
out=$root/target/bin
[ $# -gt 0 ] || { echo "usage: tools/program.sh NAME.." >&2; exit 2; }
command -v rt >/dev/null || { echo "program.sh: no rt: the Rattle toolchain proves the program" >&2; exit 2; }
mkdir -p "$out"
for name in "$@"; do
    [ -f "$root/crates/$name/src/main.rt" ] || { echo "program.sh: no program $name" >&2; exit 2; }
    rm -f "$out/$name" "$root/crates/$name/out/$name"
    (cd "$root/crates/$name" && rt run </dev/null >/dev/null) || true
    [ -x "$root/crates/$name/out/$name" ] || { echo "program.sh: $name is not proved" >&2; exit 1; }
    cp "$root/crates/$name/out/$name" "$out/$name"
    echo "target/bin/$name"
done
