#!/bin/sh
# What an undo costs, on the seven workloads of bench/workloads.py and on two more:
# 256 operations that each replace a large value, an object (nodes) or a string
# (bytes), so that the undo is over its limit early and is only counted from there on.
#   tools/staticlib.sh json_patch && tools/staticlib.sh undo && bench/undo.sh
#   JSON_PATCH_LIB=DIR   where the archives are, if not in target/staticlib
set -eu
here=$(cd "$(dirname "$0")" && pwd)
root=$(dirname "$here")
folder=${JSON_PATCH_LIB:-$root/target/staticlib}
work=$root/target/bench/work
mkdir -p "$work"
for name in json_patch undo; do
    [ -f "$folder/lib$name.a" ] || { echo "no $folder/lib$name.a: run 'tools/staticlib.sh $name' first" >&2; exit 2; }
done
${CC:-gcc} -O2 -std=c99 -Wall -Wextra -I"$root/include" "$here/undo.c" "$folder/libundo.a" "$folder/libjson_patch.a" ${LDLIBS:-} \
    -o "$root/target/bench/undo"
python3 "$here/workloads.py" "$work" >"$work/list"
python3 - "$work" <<'P'
import json, sys
patch = [{"op": "copy", "from": "/a", "path": "/b"}] * 256
for name, large in (("nodes", {"n%d" % i: "x" * 100 for i in range(120)}), ("bytes", "x" * 15000)):
    for part, value in (("doc", {"a": large, "b": 0}), ("patch", patch)):
        with open("%s/%s.%s.json" % (sys.argv[1], name, part), "w", encoding="utf-8") as file:
            json.dump(value, file, separators=(",", ":"))
P
printf '%-10s %10s %10s %6s %8s %8s\n' workload 'plain ns' 'undo ns' ratio number bytes
for name in tiny typical large flat many strings numbers nodes bytes; do
    "$root/target/bench/undo" $name "$work/$name.doc.json" "$work/$name.patch.json"
done
