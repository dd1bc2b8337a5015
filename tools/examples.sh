#!/bin/sh
# Runs the examples of the documents with the patch tool, and compares what it prints.
#   tools/examples.sh            docs/SPECIFICATION.md and docs/REFUSALS.md
#   tools/examples.sh FILE..     other pages
#   PATCH_TOOL=PROGRAM           another program than target/bin/patch_tool
#
# An example is three lines, each indented by four blanks:
#     document TEXT
#     patch TEXT
#     prints TEXT
# In each, <<N*TEXT>> stands for TEXT written N times. The last line is the number of examples; the status is 0 where
# all of them print what the page says.
set -eu
root=$(cd "$(dirname "$0")/.." && pwd)
tool=${PATCH_TOOL:-$root/target/bin/patch_tool}
if [ ! -x "$tool" ]; then
    echo "no $tool: run 'tools/program.sh patch_tool' first" >&2
    exit 2
fi
[ $# -gt 0 ] || set -- "$root/docs/SPECIFICATION.md" "$root/docs/REFUSALS.md"
work=$(mktemp -d)
trap 'rm -rf "$work"' EXIT
LC_ALL=C awk -v work="$work" '
    function expanded(s,    out, i, j, body, n, k) {
        out = ""
        while ((i = index(s, "<<")) > 0 && (j = index(s, ">>")) > i) {
            out = out substr(s, 1, i - 1)
            body = substr(s, i + 2, j - i - 2)
            k = index(body, "*")
            for (n = substr(body, 1, k - 1) + 0; n > 0; n--) out = out substr(body, k + 1)
            s = substr(s, j + 2)
        }
        return out s
    }
    function lay(name, text,    file) {
        file = work "/" count "." name
        printf "%s", text > file
        close(file)
    }
    function said(word) { return expanded(substr($0, length(word) + 6)) }
    /^    document( |$)/ { count++; lay("document", said("document")); lay("where", FILENAME ":" FNR) }
    /^    patch( |$)/ { lay("patch", said("patch")) }
    /^    prints( |$)/ { lay("prints", said("prints") "\n") }
    END { print count + 0 > (work "/count") }
' "$@"
count=$(cat "$work/count")
failed=0
i=1
while [ "$i" -le "$count" ]; do
    "$tool" "$work/$i.document" "$work/$i.patch" > "$work/$i.printed" || true
    if ! cmp -s "$work/$i.printed" "$work/$i.prints"; then
        failed=$((failed + 1))
        echo "$(cat "$work/$i.where"): the page says, then the tool prints"
        cut -c 1-160 "$work/$i.prints" "$work/$i.printed"
    fi
    i=$((i + 1))
done
echo "$count examples, $failed differ"
[ "$count" -gt 0 ] && [ "$failed" -eq 0 ]
