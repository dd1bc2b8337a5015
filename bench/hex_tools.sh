#!/bin/sh
# Intel HEX against the tools that people use, srec_cat (Debian's srecord) and
# objcopy (binutils): they read what the library writes, and the library reads
# what they write with records of types 00 and 01. Not a part of the gate.
#   tools/staticlib.sh hex && bench/hex_tools.sh
set -eu
root=$(cd "$(dirname "$0")/.." && pwd)
library=${JSON_PATCH_LIB:-$root/target/staticlib}/libhex.a
for tool in srec_cat objcopy cc; do
    command -v "$tool" >/dev/null || { echo "no $tool" >&2; exit 2; }
done
[ -f "$library" ] || { echo "no $library: run 'tools/staticlib.sh hex' first" >&2; exit 2; }
work=$(mktemp -d)
trap 'rm -rf "$work"' EXIT
cc -O2 -Wall -Wextra -Werror -I"$root/include" "$root/bench/hex_tool.c" "$library" -o "$work/hex"
cd "$work"
tried=0
failed=0
same() { # WHAT FILE FILE
    tried=$((tried + 1))
    cmp -s "$2" "$3" || { echo "$1 differs" >&2; failed=$((failed + 1)); }
}
for size in 1 2 15 16 17 31 32 33 255 256 257 1000 4096 32768 65535 65536; do
    head -c "$size" /dev/urandom >text
    ./hex write <text >ours.hex
    srec_cat ours.hex -intel -o back -binary && same "srec_cat reads $size" text back
    objcopy -I ihex -O binary ours.hex back && same "objcopy reads $size" text back
    objcopy -I binary -O ihex text theirs.hex
    ./hex read <theirs.hex >back && same "read of objcopy $size" text back
    # srec_cat writes no extended address with -address-length=2
    for width in 1 16 32 255; do
        srec_cat text -binary -o theirs.hex -intel -address-length=2 -line-length=$((2 * width + 11)) 2>/dev/null
        ./hex read <theirs.hex >back && same "read of srec_cat $size, $width a line" text back
    done
done
echo "$tried compared, $failed different"
[ "$failed" = 0 ]
