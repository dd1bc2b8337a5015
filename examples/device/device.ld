/* The memory map of qemu's AArch64 machine "virt", as a loader has it that runs from
 * flash: docs/DEVICE.md shows it. The stack is the lowest part of RAM. Nothing
 * answers below, so a stack that is too small is a fault, and overwrites nothing.
 *   -Wl,--defsym=STACK_SIZE=24576 */
ENTRY(_start)

MEMORY {
    flash (rx) : ORIGIN = 0x00000000, LENGTH = 64M
    ram (rw) : ORIGIN = 0x40000000, LENGTH = 2M
}

SECTIONS {
    .text : { KEEP(*(.start)) *(.text .text.*) } >flash
    .rodata : { *(.rodata .rodata.* .got .got.plt) } >flash
    .stack (NOLOAD) : { stack_low = .; . += STACK_SIZE; . = ALIGN(16); stack_high = .; } >ram
    .bss (NOLOAD) : { . = ALIGN(16); bss_low = .; *(.bss .bss.* COMMON) . = ALIGN(16); bss_high = .; } >ram
    .fault_stack (NOLOAD) : { . += 1024; fault_stack_high = .; } >ram
    .data : { *(.data .data.*) } >ram
    /DISCARD/ : { *(.comment) *(.note.*) *(.eh_frame) *(.eh_frame_hdr) }
}
ASSERT(SIZEOF(.data) == 0, "data with a value: the start-up file copies none from flash")
ASSERT(stack_low == ORIGIN(ram), "the stack is not the lowest part of RAM")
