#!/bin/sh
# Runs a program on the bare machine; the serial line is the standard output.
#   examples/device/machine.sh PROGRAM.bin FLASH   FLASH: the second bank's bytes
#   SECONDS_AT_MOST=300                            the machine is stopped after that
# Debian: qemu-system-arm. (-m 64: qemu loads no file that is longer than RAM.)
set -eu
if ! command -v qemu-system-aarch64 >/dev/null; then
    echo "machine.sh: no qemu-system-aarch64 (Debian: qemu-system-arm)" >&2
    exit 2
fi
timeout "${SECONDS_AT_MOST:-300}" qemu-system-aarch64 -M virt -cpu cortex-a53 -m 64 \
    -nic none -display none -monitor none -serial stdio -bios "$1" \
    -device loader,file="$2",addr=0x04000000,force-raw=on </dev/null
