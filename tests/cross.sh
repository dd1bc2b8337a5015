#!/bin/sh
# Runs what tools/cross.sh made: the C examples, and every committed case, compared with
# the stored output of the crates `vectors`, `region_vectors`, `merge_vectors`,
# `undo_vectors` and `origin_vectors`. That output is the second program's.
#   tests/cross.sh [aarch64] [riscv64] [bare] [wasm64]   all four if none is named
#     aarch64, riscv64   under qemu-user
#     bare               an AArch64 machine without an operating system (docs/DEVICE.md)
#     wasm64             in node
#   tests/cross.sh sizes    code, data and undefined symbols
#   COUNT=20000             and as many generated cases of each kind; builds second/ with cargo
#   SEED=1                  the seed of the first 5,000, one more for each 5,000 after
#   DEEP=1                  and those of bench/stack_cases.py; builds second/ too
#   STACK=28672             the bare machine's stack, in bytes
# Debian: qemu-user-static qemu-system-arm gcc-aarch64-linux-gnu gcc-riscv64-linux-gnu
# libc6-dev-arm64-cross libc6-dev-riscv64-cross nodejs
set -eu
here=$(cd "$(dirname "$0")" && pwd -P)
root=$(dirname "$here")
out=$root/target/cross
device=$root/examples/device
stack=${STACK:-28672}
fail() { echo "cross.sh: $*" >&2; exit 2; }
need() { # COMMAND PACKAGE
    command -v "$1" >/dev/null || fail "no $1 (Debian: $2)"
}
built() { # TARGET FILE
    [ -f "$out/$1/$2" ] || fail "no target/cross/$1/$2: run 'tools/cross.sh $1' first"
}

# The kinds of cases, each with its crate. The calls that list origins have theirs all in
# one crate.
kinds="plain region merge undo"
if [ -d "$root/crates/origin_vectors" ]; then kinds="$kinds origins" listed=1; else listed=0; fi
crate_of() { # KIND
    case $1 in plain) echo vectors ;; origins) echo origin_vectors ;; *) echo "$1_vectors" ;; esac
}

# The files of cases, named by their kind first, each with the lines that are expected of it
# beside it.
mkdir -p "$out/cases"
files=
for kind in $kinds; do
    crate=$root/crates/$(crate_of "$kind")
    cp "$crate/data/cases" "$out/cases/$kind-committed"
    cp "$crate/stdout" "$out/cases/$kind-committed.expected"
    files="$files $kind-committed"
done
kind_of() { echo "${1%%-*}"; }
second=$root/second/target/release/second
if [ "${COUNT:-0}" -gt 0 ] || [ "${DEEP:-0}" -gt 0 ]; then
    need cargo cargo
    (cd "$root/second" && cargo build --release --offline --quiet)
fi
command_of() { # KIND COMMAND: the second program's name for it
    if [ "$1" = plain ]; then echo "$2"; else echo "$1-$2"; fi
}
more() { # NAME COMMAND..
    name=$1
    shift
    "$@" >"$out/cases/$name"
    "$second" "$(command_of "$(kind_of "$name")" vectors)" "$out/cases/$name" >"$out/cases/$name.expected"
    files="$files $name"
}
# At most 5,000 in a file, so that it has room in a bank of flash.
left=${COUNT:-0} seed=${SEED:-1}
while [ "$left" -gt 0 ]; do
    now=$((left < 5000 ? left : 5000))
    for kind in $kinds; do
        more "$kind-generated-$seed" "$second" "$(command_of "$kind" generate)" "$seed" "$now"
    done
    left=$((left - now)) seed=$((seed + 1))
done
# The same cases for the calls with an undo and with a list; and each document merged with
# itself.
deep() { # WHAT TO PRINT
    awk "{ name = \$2; d = \$4; p = \$5; getline document; getline patch; $1 }" "$out/cases/plain-deep"
}
if [ "${DEEP:-0}" -gt 0 ]; then
    need python3 python3
    more plain-deep python3 "$root/bench/stack_cases.py"
    more undo-deep deep 'print "case", name, 300000, 65536, d, p; print document; print patch'
    more merge-deep deep 'print "case", name, 1000000, d, d; print document; print document'
    if [ "$listed" = 1 ]; then
        more origins-deep-apply deep 'print "apply", name, 300000, 0, 2048, d, p, 0
            print document; print patch; print ""'
        more origins-deep-undo deep 'print "undo", name, 300000, 65536, 2048, d, p, 0
            print document; print patch; print ""'
        more origins-deep-merge deep 'print "merge", name, 300000, 0, 2048, d, d, 0
            print document; print document; print ""'
    fi
fi
count() { grep -a -c -E '^(case|apply|within|merge|undo) [^ ]+ [0-9]+ ' "$out/cases/$1"; }

hosted() { # TARGET
    need "$1-linux-gnu-gcc" "gcc-$1-linux-gnu"
    need "qemu-$1-static" qemu-user-static
    for library in json_patch region_call merge undo; do built "$1" "lib$library.a"; done
    compile="$1-linux-gnu-gcc -std=c99 -O2 -static -Wall -Wextra -Werror -DLISTED=$listed -I$root/include"
    $compile "$here/cross/cases.c" "$here/cross/hosted.c" "$out/$1"/lib*.a -o "$out/$1/cases"
    for example in apply undo; do
        $compile "$root/examples/$example.c" "$out/$1"/lib*.a -o "$out/$1/$example"
        "qemu-$1-static" "$out/$1/$example" | cmp - "$root/examples/$example.expected"
        echo "$1: the example $example.c as expected"
    done
    for file in $files; do
        "qemu-$1-static" "$out/$1/cases" "$(kind_of "$file")" <"$out/cases/$file" |
            cmp - "$out/cases/$file.expected"
        echo "$1: $(count "$file") $file cases as expected"
    done
}

wasm() {
    need node nodejs
    built wasm64 json_patch.wasm
    for file in $files; do
        node --experimental-wasm-memory64 "$here/cross/cases.mjs" "$out/wasm64/json_patch.wasm" \
            "$(kind_of "$file")" "$out/cases/$file" | cmp - "$out/cases/$file.expected"
        echo "wasm64: $(count "$file") $file cases as expected"
    done
}

# Runs the cases on the bare machine; what it says goes to target/cross/bare/said.
machine() { # STACK FILE
    kind=$(kind_of "$2" | tr '[:lower:]' '[:upper:]')
    FLAGS="-DKIND=$kind -DLISTED=$listed" "$device/build.sh" "$out/bare/cases" "$1" \
        "$here/cross/bare.c" "$here/cross/cases.c"
    "$device/machine.sh" "$out/bare/cases.bin" "$out/cases/$2" >"$out/bare/said"
}

bare() {
    mkdir -p "$out/bare"
    for file in $files; do
        machine "$stack" "$file"
        sed '$d' "$out/bare/said" | cmp - "$out/cases/$file.expected"
        echo "bare: $(count "$file") $file cases as expected; $(tail -n 1 "$out/bare/said")"
    done
    # The guard is there: with a stack that is too small the machine faults just below RAM.
    machine 8192 plain-committed
    fault=$(sed -n '$s/.*FAULT/FAULT/p' "$out/bare/said")
    case $fault in
    "FAULT class 37 address 0x000000003fff"*) echo "bare: with 8192 bytes of stack the guard is met: $fault" ;;
    *) fail "no fault below a stack of 8192 bytes" ;;
    esac
}

symbols() { # WORDS..
    "$target-linux-gnu-nm" -g "$@" "$out/$target/lib$library.a"
}

# The call that a library exports.
call_of() { # LIBRARY
    case $1 in
    json_patch) echo json_patch_apply ;;
    region_call) echo json_patch_apply_within ;;
    merge) echo json_patch_merge ;;
    undo) echo json_patch_apply_with_undo ;;
    inspect) echo json_patch_inspect ;;
    listing) echo json_patch_apply_origins ;;
    region_listing) echo json_patch_apply_within_origins ;;
    merge_listing) echo json_patch_merge_origins ;;
    undo_listing) echo json_patch_apply_with_undo_origins ;;
    *) fail "no call of lib$1.a is known" ;;
    esac
}

# Code, data and symbols of one library.
size_of() { # TARGET LIBRARY
    target=$1 library=$2 call=$(call_of "$2")
    need "$target-linux-gnu-size" "binutils-$target-linux-gnu"
    "$target-linux-gnu-size" -A "$out/$target/lib$library.a" | awk -v what="$target, lib$library.a" '
        $1 ~ /^\.(text|rodata|srodata|data|sdata|bss|sbss)/ { split($1, part, "."); sum[part[2]] += $2 }
        END {
            printf "%s: code %d, constants %d, data %d, bss %d bytes\n", what, sum["text"],
                sum["rodata"] + sum["srodata"], sum["data"] + sum["sdata"], sum["bss"] + sum["sbss"]
        }'
    exported=$(symbols --defined-only | awk 'NF == 3 { print $3 }' | sort | tr '\n' ' ')
    undefined=$(symbols -u | awk '$1 == "U" { print $2 }' | sort | tr '\n' ' ')
    echo "$target, lib$library.a: exported: $exported"
    echo "$target, lib$library.a: undefined: $undefined"
    [ "$exported" = "$call " ] || fail "lib$library.a for $target exports more than $call"
    [ "$undefined" = "memcpy memset " ] || fail "lib$library.a for $target needs more than memcpy and memset"
}

sizes() {
    for target in aarch64 riscv64; do
        built "$target" libjson_patch.a
        for file in "$out/$target"/lib*.a; do
            library=${file##*/lib}
            size_of "$target" "${library%.a}"
        done
    done
    built wasm64 json_patch.wasm
    echo "wasm64: json_patch.wasm has $(wc -c <"$out/wasm64/json_patch.wasm") bytes"
    need node nodejs
    node --experimental-wasm-memory64 -e '
        const module = new WebAssembly.Module(require("fs").readFileSync(process.argv[1]));
        const names = list => list.map(entry => entry.name).sort().join(" ");
        console.log("wasm64: exported: " + names(WebAssembly.Module.exports(module)));
        console.log("wasm64: undefined: " + names(WebAssembly.Module.imports(module)));
    ' "$out/wasm64/json_patch.wasm"
}

for what in ${*:-aarch64 riscv64 bare wasm64}; do
    case $what in
    aarch64 | riscv64) hosted "$what" ;;
    bare) bare ;;
    wasm64) wasm ;;
    sizes) sizes ;;
    *) sed -n '2,18p' "$0" >&2; exit 2 ;;
    esac
done
