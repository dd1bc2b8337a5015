#!/bin/sh
# Proves the library and compiles it for other 64-bit processors.
#   tools/cross.sh [aarch64] [riscv64] [wasm64]   all three if none is named
#   CRATES="json_patch hex"                       which libraries, named as tools/staticlib.sh has
#                                                 them, if not those with the calls for patches;
#                                                 not record, with structs by value
# Makes target/cross/TARGET/libNAME.a, and for wasm64 also json_patch.wasm with the calls
# of all these crates, which needs wasm-ld (Debian: lld). docs/DEVICE.md says what is
# proved of these. What is there for another target stays.
#
# rattle gives one LLVM module to the clang of its toolchain, once the crate is
# proved. Here rt runs over a view of the toolchain, made of links, with a clang that
# keeps that module and goes on. The toolchain's own clang then compiles the module for
# the other processors. Nothing is made unless every crate is proved, and unless the same
# steps for x86-64 give the object of `rt lib`, byte for byte.
set -eu
root=$(cd "$(dirname "$0")/.." && pwd -P)
out=$root/target/cross
fail() { echo "cross.sh: $*" >&2; exit 2; }

# The crates with the calls for patches, plain and with origins. A crate that is not there
# yet is left out.
calls="json_patch region_call merge undo inspect listing region_listing merge_listing undo_listing"
libraries=${CRATES:-}
if [ -z "$libraries" ]; then
    for library in $calls; do
        if [ -d "$root/crates/${library}_c" ]; then libraries="$libraries $library"; fi
    done
fi

for target in "$@"; do
    case $target in
    aarch64 | riscv64 | wasm64) ;;
    *) fail "no target $target: aarch64, riscv64 or wasm64" ;;
    esac
done
targets=${*:-aarch64 riscv64 wasm64}
command -v rt >/dev/null || fail "no rt: the Rattle toolchain proves the library"
case " $targets " in
*" wasm64 "*) command -v wasm-ld >/dev/null || fail "no wasm-ld (Debian: lld)" ;;
esac
kit=$(dirname "$(rt doc)")
tools=$kit/toolchain
clang=$tools/bin/clang
ar=$tools/bin/llvm-ar
if [ ! -x "$clang" ] || [ ! -x "$ar" ]; then fail "no clang or no llvm-ar in $tools/bin"; fi

# The view of the toolchain: links to all of it but clang. rt takes the kit in whose bin/ it
# lies, so it is copied.
view=$out/kit
rm -rf "$view" "$out/x86_64"
for target in $targets; do rm -rf "${out:?}/$target"; done
mkdir -p "$view/bin" "$view/toolchain/bin"
links() { # FROM TO LEFT-OUT..
    from=$1 to=$2
    shift 2
    for file in "$from"/*; do
        case " $* " in
        *" ${file##*/} "*) ;;
        *) ln -s "$file" "$to/" ;;
        esac
    done
}
links "$kit" "$view" bin toolchain
links "$kit/bin" "$view/bin" rt rtlib.py
cp "$kit/bin/rt" "$kit/bin/rtlib.py" "$view/bin/"
links "$tools" "$view/toolchain" bin
links "$tools/bin" "$view/toolchain/bin" clang
cat >"$view/toolchain/bin/clang" <<SHIM
#!/bin/sh
if [ -f module.bc ]; then /bin/cp module.bc '$out/module.bc' || exit 1; fi
exec '$clang' "\$@"
SHIM
chmod +x "$view/toolchain/bin/clang"

ir() { "$clang" --no-default-config -Wno-override-module -x ir "$@"; }

crate_of() { # NAME
    case $1 in
    hex) echo intel_hex_c ;;
    *) echo "${1}_c" ;;
    esac
}

# Proves a crate, and writes its module as text without the words that name x86-64.
prove() { # NAME
    crate=$(crate_of "$1")
    rm -f "$out/module.bc" "$root/crates/$crate/out/lib$crate.a"
    (cd "$root/crates/$crate" && "$view/bin/rt" lib) >"$out/$1.say" 2>&1 || {
        cat "$out/$1.say" >&2
        fail "$crate is not proved"
    }
    tail -n 1 "$out/$1.say" | grep -q '^logic=proved ' || fail "rt does not say that $crate is proved"
    [ -f "$out/module.bc" ] || fail "rattle gave clang no module.bc for $crate"
    ir --target=x86_64-unknown-linux-gnu -S -emit-llvm -Xclang -emit-llvm-uselists -Xclang -disable-llvm-passes \
        "$out/module.bc" -o - |
        sed -e '/^target \(datalayout\|triple\) = /d' -e 's/ "target-cpu"="x86-64-v2"//' >"$out/$1.ll"
    if grep -q x86 "$out/$1.ll"; then fail "the module of $1 still names x86"; fi
    # Pointers and integers go to a function alike on all of these processors. A struct
    # that is passed by value does not: the module has it as x86-64 passes it.
    given='(, )?(ptr|i[0-9]+) noundef( zeroext| signext)? %a[0-9]+'
    if grep '^define ' "$out/$1.ll" | grep -v '^define internal ' |
        grep -Evq "^define (noundef )?((zeroext|signext) )?(void|i[0-9]+) @[a-z_0-9]+\\(($given)*\\) "; then
        fail "$1 exports a function with a struct by value: x86-64 alone"
    fi
}

# The words of rattle's own call of clang, but for the target's.
compile() { # NAME FOLDER WORDS..
    name=$1 folder=$out/$2
    shift 2
    mkdir -p "$folder"
    ir "$@" -ffunction-sections -fdata-sections -mllvm -trap-unreachable -mllvm -no-trap-after-noreturn \
        -mllvm -no-x86-call-frame-opt -mllvm -disable-machine-licm -mllvm -disable-postra-machine-licm \
        -mllvm -sink-common-insts=false -no-canonical-prefixes -fintegrated-cc1 -fno-crash-diagnostics -Werror \
        -c "$out/$name.ll" -o "$folder/$name.o" -O3
    "$ar" rcsD "$folder/lib$name.a" "$folder/$name.o"
}

# What was taken off the module changes nothing: rattle's own object comes out.
compare() { # NAME
    crate=$(crate_of "$1")
    compile "$1" x86_64 --target=x86_64-unknown-linux-gnu -march=x86-64-v2 -fPIC
    "$ar" p "$root/crates/$crate/out/lib$crate.a" "$crate.o" | cmp - "$out/x86_64/$1.o" ||
        fail "for x86-64 this is not what rattle makes of $1"
    echo "$1: proved, and for x86-64 byte for byte what rattle makes"
}

# aarch64: no floating point registers, and no access that is not aligned. A loader runs
# before the first are on, and with the MMU off, where each such access is a fault.
# Where nothing may be unaligned, a record of 16 bytes takes up to 16 loads and stores, and
# clang would call memmove for that; for the undo, one of 32 bytes too. The two limits let
# it write them out, so memcpy and memset are all that is needed, as on x86-64.
record="-mllvm -max-store-memmove=32 -mllvm -max-store-memcpy=16"
cross() { # NAME TARGET
    case $2 in
    aarch64) compile "$1" aarch64 --target=aarch64-none-elf -mgeneral-regs-only -mstrict-align -fPIC $record ;;
    riscv64) compile "$1" riscv64 --target=riscv64-unknown-elf -march=rv64gc -mabi=lp64d -mcmodel=medany $record ;;
    wasm64) compile "$1" wasm64 --target=wasm64-unknown-unknown ;;
    esac
    echo "target/cross/$2/lib$1.a"
}

# One WebAssembly module with the calls of all crates. The stack comes first in its
# memory: a stack that is too small is a trap, and overwrites nothing.
module() {
    wasm-ld -mwasm64 --no-entry --gc-sections --strip-all --stack-first -z stack-size=65536 \
        --initial-memory=1048576 --max-memory=1048576 --export-dynamic --export=__heap_base \
        "$out"/wasm64/*.o -o "$out/wasm64/json_patch.wasm"
    echo "target/cross/wasm64/json_patch.wasm"
}

for library in $libraries; do
    prove "$library"
    compare "$library"
    for target in $targets; do cross "$library" "$target"; done
done
case " $targets " in *" wasm64 "*) module ;; esac
