#!/bin/sh
# Runs the page of tools/page.sh in a real browser, Debian's chromium: every feature, every
# refusal number, the committed cases through the page's own engine. node runs the cases
# first, on the same module.
#   tests/page.sh      screenshots go to target/page/shots
#   COUNT=20000        node also runs as many generated cases of each kind; builds second/ with cargo
#   SEED=1             the seed of the first 5,000, one more for each 5,000 after
# Debian: nodejs chromium chromium-driver
set -eu
here=$(cd "$(dirname "$0")" && pwd -P)
root=$(dirname "$here")
out=$root/target/page
wasm=$out/json_patch.wasm
fail() { echo "page.sh: $*" >&2; exit 2; }
need() { # COMMAND PACKAGE
    command -v "$1" >/dev/null || fail "no $1 (Debian: $2)"
}
need node nodejs
need chromium chromium
need chromedriver chromium-driver
[ -f "$out/json-patch.html" ] || fail "no target/page/json-patch.html: run 'tools/page.sh' first"

cases() { # KIND FILE EXPECTED
    node --experimental-wasm-memory64 "$here/cross/cases.mjs" "$wasm" "$1" "$2" | cmp - "$3"
    echo "node: $(grep -a -c -E '^(case|apply|within|merge|undo) [^ ]+ [0-9]+ ' "$2") cases as expected, $1"
}
# The kinds of cases. Those with origins are there when all calls are.
kinds="plain region merge undo"
if [ -d "$root/crates/origin_vectors" ]; then kinds="$kinds origins"; fi
for kind in $kinds; do
    case $kind in
    plain) crate=vectors ;;
    origins) crate=origin_vectors ;;
    *) crate=${kind}_vectors ;;
    esac
    cases "$kind" "$root/crates/$crate/data/cases" "$root/crates/$crate/stdout"
done

second=$root/second/target/release/second
generated() { # KIND SEED COUNT
    if [ "$1" = plain ]; then prefix=; else prefix=$1-; fi
    "$second" "${prefix}generate" "$2" "$3" >"$out/generated"
    "$second" "${prefix}vectors" "$out/generated" >"$out/generated.expected"
    cases "$1" "$out/generated" "$out/generated.expected"
    rm "$out/generated" "$out/generated.expected"
}
left=${COUNT:-0} seed=${SEED:-1}
if [ "$left" -gt 0 ]; then
    need cargo cargo
    (cd "$root/second" && cargo build --release --offline --quiet)
fi
while [ "$left" -gt 0 ]; do
    now=$((left < 5000 ? left : 5000))
    for kind in $kinds; do generated "$kind" "$seed" "$now"; done
    left=$((left - now)) seed=$((seed + 1))
done

node "$here/page/run.mjs" "$out/json-patch.html" "$out/shots"
