#!/bin/sh
# Links a program for the bare machine: OUT.elf, and OUT.bin as it lies in flash.
#   examples/device/build.sh OUT STACK-BYTES SOURCE..
#   FLAGS=-DNAME           more words for the compiler
# Debian: gcc-aarch64-linux-gnu. The libraries are those of 'tools/cross.sh aarch64'.
set -eu
here=$(cd "$(dirname "$0")" && pwd -P)
root=$(cd "$here/../.." && pwd -P)
libraries=$root/target/cross/aarch64
fail() { echo "build.sh: $*" >&2; exit 2; }
command -v aarch64-linux-gnu-gcc >/dev/null || fail "no aarch64-linux-gnu-gcc (Debian: gcc-aarch64-linux-gnu)"
if [ ! -f "$libraries/libjson_patch.a" ] || [ ! -f "$libraries/libundo.a" ]; then
    fail "no libraries in target/cross/aarch64: run 'tools/cross.sh aarch64' first"
fi
out=$1 stack=$2
shift 2
# As the library: no floating point registers, no access that is not aligned.
aarch64-linux-gnu-gcc -std=gnu99 -O2 -Wall -Wextra -Werror -mgeneral-regs-only -mstrict-align \
    -ffreestanding -fno-pie -fno-stack-protector -fno-tree-loop-distribute-patterns -ffunction-sections ${FLAGS:-} \
    -I"$here" -I"$root/include" "$here/start.S" "$here/serial.c" "$here/memory.c" "$@" \
    "$libraries"/lib*.a \
    -nostdlib -static -no-pie -Wl,--gc-sections -Wl,--build-id=none -Wl,-z,noexecstack \
    -Wl,--defsym=STACK_SIZE="$stack" -T "$here/device.ld" -o "$out.elf"
aarch64-linux-gnu-objcopy -O binary -j .text -j .rodata "$out.elf" "$out.bin"
