#!/bin/sh
# Merge patches: microseconds a call, this library against others, and how the time
# grows with the members.
#   tools/staticlib.sh merge && bench/merge.sh
#   JSON_PATCH_LIB=DIR   where the archive is, if not in target/staticlib
# Debian packages (what is missing is left out): nlohmann-json3-dev tao-json-dev.
set -eu
here=$(cd "$(dirname "$0")" && pwd)
root=$(dirname "$here")
library=${JSON_PATCH_LIB:-$root/target/staticlib}/libmerge.a
bin=$root/target/bench/merge
mkdir -p "$bin" "$root/target/bench/work"
[ -f "$library" ] || { echo "no $library: run 'tools/staticlib.sh merge' first" >&2; exit 2; }
${CC:-gcc} -O2 -std=c99 -Wall -Wextra -I"$root/include" -o "$bin/merge" "$here/drivers/merge.c" "$library"
for name in nlohmann taojson; do
    ${CXX:-g++} -O2 -DNDEBUG -std=c++17 -o "$bin/merge-$name" "$here/drivers/merge_$name.cpp" 2>/dev/null || echo "left out: $name"
done
python3 "$here/merge.py" "$bin" "$root/target/bench/work"
