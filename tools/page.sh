#!/bin/sh
# Makes the page: one HTML file with the proved library in it as WebAssembly, for a
# browser without a network or a server (docs/PAGE.md).
#   tools/page.sh          proves and compiles the library, then makes the page
#   MODULE=json_patch.wasm the module, if it is there already
# Makes target/page/json-patch.html, and json_patch.wasm beside it. Debian: lld
set -eu
root=$(cd "$(dirname "$0")/.." && pwd -P)
out=$root/target/page
fail() { echo "page.sh: $*" >&2; exit 2; }

module=${MODULE:-$root/target/cross/wasm64/json_patch.wasm}
if [ -z "${MODULE:-}" ]; then "$root/tools/cross.sh" wasm64; fi
[ -f "$module" ] || fail "no $module"
mkdir -p "$out"
cmp -s "$module" "$out/json_patch.wasm" || cp "$module" "$out/json_patch.wasm"

# The modules of the script, each behind those that it imports.
modules="examples/wasm/engine page/words page/dom page/json page/editor page/origins page/tree page/refusal
    page/result-view page/apply-view page/shuffles page/shuffle-view page/page"

# A module becomes a function of its own, called once, that gives what the module exports.
# Those before it are in scope, so its imports are left out.
bundle() {
    for name in $modules; do
        [ -f "$root/$name.mjs" ] || fail "no $name.mjs"
        awk -v name="$name" '
            /^import / { skipping = 1 }
            skipping { if (/;$/) skipping = 0; next }
            /^export / {
                sub(/^export /, "")
                declared = $0
                sub(/^(async )?(function\*?|const|let|class) */, "", declared)
                sub(/[^A-Za-z0-9_].*/, "", declared)
                exported = exported (exported == "" ? "" : ", ") declared
            }
            { body = body $0 "\n" }
            END {
                printf "// %s.mjs\nconst { %s } = (() => {\n%s", name, exported, body
                printf "return { %s };\n})();\n\n", exported
            }
        ' "$root/$name.mjs"
    done
}

bundle >"$out/script.mjs"
base64 "$out/json_patch.wasm" | tr -d '\n' >"$out/module.txt"
if grep -qi '</script' "$out/script.mjs"; then fail "the script would end early"; fi
version=$(sed -n 's/.*JSON_PATCH_VERSION "\(.*\)"/\1/p' "$root/include/json_patch.h")
awk -v css="$root/page/page.css" -v script="$out/script.mjs" -v module="$out/module.txt" -v version="$version" '
    function put(file,    line) { while ((getline line < file) > 0) print line }
    $0 == "@CSS@" { put(css); next }
    $0 == "@SCRIPT@" { put(script); next }
    (at = index($0, "@WASM@")) > 0 {
        getline text < module
        print substr($0, 1, at - 1) text substr($0, at + 6)
        next
    }
    { sub(/@VERSION@/, version); print }
' "$root/page/page.html" >"$out/json-patch.html"
rm "$out/script.mjs" "$out/module.txt"
echo "target/page/json-patch.html: $(wc -c <"$out/json-patch.html") bytes"
