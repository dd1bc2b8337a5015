#!/bin/sh
# The count over patch files, on lists of names that the gate's one list cannot
# be: what is printed is what the second program prints, or what stands here.
#   PROGRAM=FILE    the program, if not the one that tools/program.sh makes
#   SECOND=FILE     the second program, if not the one that cargo makes
set -eu
root=$(cd "$(dirname "$0")/.." && pwd)
program=${PROGRAM:-$root/target/bin/patch_count}
second=${SECOND:-$root/second/target/release/second}
place=$(mktemp -d)
trap 'rm -rf "$place"' EXIT
[ -x "$program" ] || { echo "no $program: run 'tools/program.sh patch_count' first" >&2; exit 1; }
[ -x "$second" ] || (cd "$root/second" && cargo build --release --offline --quiet)
cd "$place"
"$second" count-cases . >all
tries=0
failed() {
    echo "FAILED: $*" >&2
    exit 1
}
# NAME: both programs print the same for the list in the file `list`
alike() {
    "$program" <list >first.out
    "$second" count <list >second.out
    cmp first.out second.out || failed "$1"
    tries=$((tries + 1))
}
# NAME LINE: both print this line
prints() {
    alike "$1"
    printf '%s\n' "$2" | cmp - first.out || failed "$1: $(cat first.out)"
}
zeros='add 0 remove 0 replace 0 move 0 copy 0 test 0 ops 0'
six='add 1 remove 2 replace 3 move 4 copy 5 test 6 ops 21'

: >list; prints 'no names' "patches 0 refused 0 $zeros over 0"
printf '\n' >list; prints 'an empty line' "patches 0 refused 0 $zeros over 0"
printf '\n\n\n' >list; prints 'empty lines' "patches 0 refused 0 $zeros over 0"
printf 'six.json\n' >list; prints 'one name' "patches 1 refused 0 $six over 1"
printf 'six.json' >list; prints 'no last line feed' "patches 1 refused 0 $six over 1"
printf '\n\nsix.json\n\n' >list; prints 'empty lines around' "patches 1 refused 0 $six over 1"
printf 'six.json\r\n' >list; prints 'a carriage return' "patches 1 refused 1 $zeros over 0"
printf '\r' >list; prints 'a carriage return alone' "patches 1 refused 1 $zeros over 0"
printf 'six.json\000\n' >list; prints 'a zero byte' "patches 1 refused 1 $zeros over 0"
printf '\000six.json\n' >list; prints 'a zero byte in front' "patches 1 refused 1 $zeros over 0"
printf 'folder\n' >list; prints 'a directory' "patches 1 refused 1 $zeros over 0"
printf 'missing\n' >list; prints 'a missing file' "patches 1 refused 1 $zeros over 0"
for name in refused-*.json empty.json; do
    echo "$name" >list
    prints "$name" "patches 1 refused 1 $zeros over 0"
done
cp all list; alike 'every name'
# Another order gives the same line.
sort all | sed '/^$/d' >list; printf '\n' >>list
"$program" <all >first; "$program" <list | cmp - first || failed 'another order'
# Two lists joined, and names that parts of the input end in: the program reads 65,536 bytes at a time.
for length in 65527 65528 65529 65530 65531 65532 65533 65534 65535 65536 65537; do
    { head -c "$length" /dev/zero | tr '\0' '\n'; printf 'six.json\nsix.json'; } >list
    alike "a name at byte $length"
    { head -c "$length" /dev/zero | tr '\0' 'x'; printf '\nsix.json\n'; } >list
    alike "behind a name of $length bytes"
done
# 1,000,000 names, and one more.
yes missing | head -n 1000000 >list; prints '1,000,000 names' "patches 1000000 refused 1000000 $zeros over 0"
printf '\n\n' >>list; prints 'and empty lines' "patches 1000000 refused 1000000 $zeros over 0"
printf 'six.json' >>list; prints 'one name more' 'too long'
echo "the count: $tries lists, as expected"
