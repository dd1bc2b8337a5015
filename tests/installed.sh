#!/bin/sh
# Installs into a folder of its own, uses what is there as people do, and removes
# it again. Run by 'make check'.
set -eu
cd "$(dirname "$0")/.."
: "${MAKE:=make}" "${CC:=cc}" "${CXX:=c++}" "${PYTHON:=python3}"
place=$(mktemp -d)
trap 'rm -rf "$place"' EXIT
prefix="$place/prefix"
failed() {
    echo "FAILED: $*" >&2
    exit 1
}
quietly() {
    "$@" >"$place/log" 2>&1 || {
        cat "$place/log" >&2
        failed "$*"
    }
}
# NAME [EXAMPLE]: what a program printed is what the example is to print
as_expected() {
    cmp "$place/$1.out" "examples/${2:-apply}.expected" || failed "$1 prints something else"
    echo "$1: as expected"
}

quietly $MAKE install PREFIX="$prefix" DESTDIR=

# A program, by pkg-config, with the shared library and with the static one.
export PKG_CONFIG_PATH="$prefix/lib/pkgconfig"
flags=$(pkg-config --cflags --libs json_patch)
version=$(pkg-config --modversion json_patch)
strict="-O2 -Wall -Wextra -Wpedantic -Werror"
$CC -std=c99 $strict examples/apply.c $flags -o "$place/shared"
LD_LIBRARY_PATH="$prefix/lib" "$place/shared" >"$place/shared.out"
as_expected shared
LD_LIBRARY_PATH="$prefix/lib" ldd "$place/shared" | grep -q "libjson_patch.so.0 => $prefix/lib/" ||
    failed "the program is not bound to the installed libjson_patch.so.0"
$CC -std=c99 $strict examples/apply.c $(pkg-config --cflags json_patch) "$prefix/lib/libjson_patch.a" -o "$place/static"
"$place/static" >"$place/static.out"
as_expected static
$CXX -std=c++11 $strict -x c++ examples/apply.c -x none $flags -o "$place/cxx"
LD_LIBRARY_PATH="$prefix/lib" "$place/cxx" >"$place/cxx.out"
as_expected cxx
$CC -std=c99 $strict examples/undo.c $flags -o "$place/undo"
LD_LIBRARY_PATH="$prefix/lib" "$place/undo" >"$place/undo.out"
as_expected undo undo
$CC -std=c99 $strict examples/undo.c $(pkg-config --cflags json_patch) "$prefix/lib/libjson_patch.a" -o "$place/undo-static"
"$place/undo-static" >"$place/undo-static.out"
as_expected undo-static undo
$CC -std=c99 $strict examples/origins.c $flags -o "$place/origins"
LD_LIBRARY_PATH="$prefix/lib" "$place/origins" >"$place/origins.out"
as_expected origins origins
$CC -std=c99 $strict examples/origins.c $(pkg-config --cflags json_patch) "$prefix/lib/libjson_patch.a" -o "$place/origins-static"
"$place/origins-static" >"$place/origins-static.out"
as_expected origins-static origins
exported=$(nm -D --defined-only "$prefix/lib/libjson_patch.so" | grep -v ' json_patch_' || true)
[ -z "$exported" ] || failed "the shared library exports more than its functions: $exported"

# The manual's example.
sed -n '/^\.EX/,/^\.EE/p' "$prefix/share/man/man3/json_patch.3" | grep -v '^\.E[XE]' | sed 's/\\e/\\/g' >"$place/manual.c"
$CC -std=c99 $strict "$place/manual.c" $flags -o "$place/manual"
LD_LIBRARY_PATH="$prefix/lib" "$place/manual" >"$place/manual.out"
printf 'done: 12 bytes written\n{"mAh":2600}\n' | cmp - "$place/manual.out" || failed "the manual's example"
echo "the manual's example: as expected"
if command -v man >/dev/null; then
    for page in json-patch.1 json_patch.3; do
        warnings=$(LC_ALL=C.UTF-8 man --warnings -l "$prefix/share/man/man${page##*.}/$page" 2>&1 >/dev/null)
        [ -z "$warnings" ] || failed "$page: $warnings"
    done
    echo "manual pages: no warnings"
else
    echo "left out: no man to look at the manual pages"
fi

# The command, and its completions.
[ "$("$prefix/bin/json-patch" --version)" = "json-patch $version" ] || failed "the command's version"
"$prefix/bin/json-patch" apply examples/document.json examples/patch.json >"$place/command.out"
cmp "$place/command.out" examples/patched.json || failed "the command prints something else"
if command -v bash >/dev/null; then
    bash --norc -c ". '$prefix/share/bash-completion/completions/json-patch'; complete -p json-patch" >/dev/null ||
        failed "the completions for bash"
fi
[ -s "$prefix/share/zsh/site-functions/_json-patch" ] || failed "the completions for zsh"
[ -s "$prefix/share/fish/vendor_completions.d/json-patch.fish" ] || failed "the completions for fish"
"$prefix/bin/json-patch" undo examples/document.json examples/patch.json >"$place/undo.json"
"$prefix/bin/json-patch" apply "$place/command.out" "$place/undo.json" >"$place/back.out"
"$prefix/bin/json-patch" check -q "$place/back.out" examples/patch.json || failed "the undo takes nothing back"
echo "the command: as expected"

# The module for Python finds the library that is installed beside it.
module=$(dirname "$(find "$prefix" -name py.typed)")
PYTHONDONTWRITEBYTECODE=1 PYTHONPATH=$(dirname "$module") "$PYTHON" -W error - "$prefix" <<'END' || failed "the module"
import sys, json_patch
assert json_patch.__file__.startswith(sys.argv[1]), json_patch.__file__
with open("/proc/self/maps") as maps:
    assert sys.argv[1] + "/lib/libjson_patch.so" in maps.read()
assert json_patch.apply(b"[]", b'[{"op":"add","path":"/-","value":1}]') == b"[1]"
END
echo "the Python module: as expected"

# Removed, nothing is left.
quietly $MAKE uninstall PREFIX="$prefix" DESTDIR=
left=$(find "$prefix" ! -type d)
[ -z "$left" ] || failed "left after make uninstall: $left"

# Staged for a package: nothing outside, and the prefix without the stage.
quietly $MAKE install PREFIX=/usr DESTDIR="$place/stage"
grep -q '^prefix=/usr$' "$place/stage/usr/lib/pkgconfig/json_patch.pc" || failed "the prefix of json_patch.pc"
outside=$(find "$place/stage" ! -type d ! -path "$place/stage/usr/*")
[ -z "$outside" ] || failed "installed outside /usr: $outside"
quietly $MAKE uninstall PREFIX=/usr DESTDIR="$place/stage"
left=$(find "$place/stage" ! -type d)
[ -z "$left" ] || failed "left after make uninstall: $left"
echo "installed, staged and removed: as expected"
