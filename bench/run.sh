#!/bin/sh
# Builds the drivers, writes the workloads, and measures.
#   bench/run.sh [table]        one table of times, all libraries
#   bench/run.sh build          only build
#   bench/run.sh counts [NAME..]   instructions a call (callgrind), this library or others
#   bench/run.sh profile NAME.. where this library's instructions go on a workload (callgrind)
#   bench/run.sh parts          instructions and time by part of a call (callgrind and perf)
#   bench/run.sh growth [FILE]  time against size: docs/growth.svg, or another file
#   bench/run.sh stack          the stack that a call takes
#   bench/run.sh versus A B     two builds of this library, in the folders A and B: time and instructions
# RUNS=11 runs of TARGET=0.05 seconds each for every cell of the table.
# The library is target/staticlib/libjson_patch.a, or in the folder JSON_PATCH_LIB.
# Debian packages (what is missing is named and left out): nlohmann-json3-dev
# tao-json-dev rapidjson-dev librust-serde-json-dev python3-jsonpatch; valgrind; linux-perf.
set -u
here=$(cd "$(dirname "$0")" && pwd)
root=$(dirname "$here")
library=${JSON_PATCH_LIB:-$root/target/staticlib}/libjson_patch.a
out=$root/target/bench
bin=$out/bin
mkdir -p "$bin" "$out/work"

# Two builds, each with the header beside its archive if there is one.
if [ "${1:-}" = versus ]; then
    [ $# = 3 ] || { echo "usage: bench/run.sh versus FOLDER_A FOLDER_B" >&2; exit 2; }
    pair=$(mktemp -d "$out/versus.XXXXXX")
    trap 'rm -r "$pair"' EXIT
    for side in a b; do
        shift
        [ -f "$1/libjson_patch.a" ] || { echo "no $1/libjson_patch.a" >&2; exit 2; }
        ${CC:-gcc} -O2 -std=c99 -Wall -Wextra -I"$1/include" -I"$root/include" -o "$pair/$side" \
            "$here/drivers/json_patch.c" "$1/libjson_patch.a" || exit 1
    done
    python3 "$here/workloads.py" "$pair" >/dev/null || exit 1
    python3 "$here/versus.py" "$pair/a" "$pair/b" "$pair"
    exit
fi
if [ ! -f "$library" ]; then
    echo "no $library: run 'tools/staticlib.sh json_patch' first" >&2
    exit 2
fi

# NAME SOURCE COMMAND..: built anew where the source or a shared part is newer
build() {
    name=$1 source=$2
    shift 2
    if [ -e "$bin/$name" ] && [ -z "$(find "$source" "$here"/drivers/driver.h* "$library" -newer "$bin/$name")" ]; then return; fi
    rm -f "$bin/$name"
    if "$@" >"$out/$name.log" 2>&1; then echo "built $name"; else echo "left out: $name (see target/bench/$name.log)"; fi
}
# with this library, always: JSON_PATCH_LIB may name an older archive than the last time
cc() {
    n=$1 s=$2
    shift 2
    rm -f "$bin/$n"
    build "$n" "$s" ${CC:-gcc} -O2 -std=c99 -Wall -Wextra -I"$root/include" "$@" -o "$bin/$n" "$s" "$library"
}
cxx() {
    n=$1 s=$here/drivers/$2
    shift 2
    build "$n" "$s" ${CXX:-g++} -O2 -DNDEBUG -std=c++17 -Wall "$@" -o "$bin/$n" "$s"
}
serde() {
    mkdir -p "$out/serde/src" && cp "$here/drivers/serde.rs" "$out/serde/src/main.rs" &&
        printf '[package]\nname = "serde"\nversion = "0.1.0"\nedition = "2021"\n[workspace]\n[dependencies]\nserde_json = "1"\n' >"$out/serde/Cargo.toml" &&
        (cd "$out/serde" && cargo build --release --offline --config 'source.crates-io.replace-with="debian"' \
            --config 'source.debian.directory="/usr/share/cargo/registry"') &&
        cp "$out/serde/target/release/serde" "$bin/serde-standin"
}
python() {
    for python in python3 /usr/bin/python3; do
        if "$python" -c 'import jsonpatch' 2>/dev/null; then
            printf '#!/bin/sh\nexec %s %s "$@"\n' "$("$python" -c 'import sys; print(sys.executable)')" "$here/drivers/pyjsonpatch.py" >"$bin/python-jsonpatch"
            chmod +x "$bin/python-jsonpatch"
            return
        fi
    done
    echo "no Python with jsonpatch"
    return 1
}
cc json_patch "$here/drivers/json_patch.c"
case ${1:-table} in
table | build | counts)
    cxx nlohmann nlohmann.cpp
    cxx nlohmann-copy nlohmann.cpp -DCOPY
    cxx taojson taojson.cpp
    cxx rapidjson-standin rapidjson.cpp
    build serde-standin "$here/drivers/serde.rs" serde
    build python-jsonpatch "$here/drivers/pyjsonpatch.py" python
    ;;
esac
python3 "$here/workloads.py" "$out/work" >"$out/workloads.txt" || exit 1

case ${1:-table} in
build) cat "$out/workloads.txt" ;;
table)
    cat "$out/workloads.txt"
    python3 "$here/table.py" "$bin" "$out/work"
    ;;
counts)
    shift
    python3 "$here/counts.py" "$bin" "$out/work" "$@"
    ;;
profile)
    shift
    for name in "$@"; do
        file=$out/callgrind.$name
        # else callgrind counts rep stosb once for each byte
        GLIBC_TUNABLES=glibc.cpu.x86_rep_stosb_threshold=1000000000 valgrind --tool=callgrind --callgrind-out-file="$file" --toggle-collect=json_patch_apply \
            "$bin/json_patch" "$out/work/$name.doc.json" "$out/work/$name.patch.json" 0 >/dev/null 2>"$file.log" || exit 1
        echo "== $name"
        callgrind_annotate "$file" | grep '^ *[0-9,]* (' | sed 's/ \[.*//; s/\?\?\?://' | head -${LINES_SHOWN:-20}
    done
    ;;
parts)
    mkdir -p "$out/parts"
    ${CC:-gcc} -O2 -std=c99 -static -no-pie -I"$root/include" -o "$out/parts/json_patch" "$here/drivers/json_patch.c" \
        "$library" || exit 1
    python3 "$here/parts.py" "$out/parts/json_patch" "$out/work"
    ;;
growth) python3 "$here/growth.py" "$bin/json_patch" "${2:-$root/docs/growth.svg}" ;;
stack)
    cc stack "$here/stack.c" -D_GNU_SOURCE -Wl,-z,now
    (cd "$root/second" && cargo build --release --offline --quiet) || exit 1
    second=$root/second/target/release/second
    {
        python3 "$here/stack_cases.py"
        python3 "$here/growth.py" --cases
        "$second" cases
        "$second" generate 1 "${COUNT:-3000}"
    } >"$out/stack.cases"
    "$bin/stack" <"$out/stack.cases"
    undo=${library%/*}/libundo.a
    if [ -f "$undo" ]; then
        cc stack-undo "$here/stack.c" -D_GNU_SOURCE -DWITH_UNDO -Wl,-z,now -Wl,--push-state,--whole-archive "$undo" -Wl,--pop-state
        echo "with an undo:"
        "$bin/stack-undo" <"$out/stack.cases"
    else
        echo "left out: the call with an undo (no $undo: run 'tools/staticlib.sh undo')"
    fi
    compare=${library%/*}/libcompare.a
    if [ -f "$compare" ]; then
        cc stack-compared "$here/stack.c" -D_GNU_SOURCE -DCOMPARED -Wl,-z,now -Wl,--push-state,--whole-archive "$compare" -Wl,--pop-state
        echo "two texts compared:"
        { "$second" equal-cases; "$second" equal-generate 1 "${COUNT:-3000}"; } | "$bin/stack-compared"
    else
        echo "left out: the comparison (no $compare: run 'tools/staticlib.sh compare')"
    fi
    ;;
*)
    sed -n '2,11p' "$0"
    exit 2
    ;;
esac
