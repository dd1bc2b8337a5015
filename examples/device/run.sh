#!/bin/sh
# Builds the bootloader, puts the profile and the makers' patches into flash, runs it on
# qemu's AArch64 machine and compares the serial line with bootloader.expected.
#   examples/device/run.sh     proves and compiles the library first, if it is not there
# Debian: gcc-aarch64-linux-gnu qemu-system-arm
set -eu
here=$(cd "$(dirname "$0")" && pwd -P)
root=$(cd "$here/../.." && pwd -P)
out=$root/target/cross/bootloader
[ -f "$root/target/cross/aarch64/libundo.a" ] || "$root/tools/cross.sh" aarch64
mkdir -p "$out"

# A slot of 64 KiB for each text, in order.
: >"$out/flash"
number=0
for file in "$here/profile.json" "$here"/patches/*.json; do
    {
        printf 'JSON%012d' "$(($(wc -c <"$file")))"
        cat "$file"
    } | dd of="$out/flash" bs=65536 seek=$number conv=notrunc iflag=fullblock status=none
    number=$((number + 1))
done

"$here/build.sh" "$out/bootloader" 32768 "$here/bootloader.c"
SECONDS_AT_MOST=60 "$here/machine.sh" "$out/bootloader.bin" "$out/flash" >"$out/said"
cat "$out/said"
cmp "$out/said" "$here/bootloader.expected"
echo "bootloader: as expected"
