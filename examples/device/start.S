// The first instructions of an AArch64 machine without an operating system: EL1, the
// MMU off. A loader's conditions are made as strict as they get. Each access that is not
// aligned is a fault, and so is each use of a floating point register.
    .section .start, "ax"
    .global _start
_start:
    adr     x0, vectors
    msr     vbar_el1, x0
    mrs     x0, sctlr_el1
    orr     x0, x0, #2              // A: alignment faults on
    orr     x0, x0, #8              // SA: the stack pointer's too
    msr     sctlr_el1, x0
    msr     cpacr_el1, xzr          // floating point registers off
    isb
    ldr     x0, =stack_high
    mov     sp, x0
    ldr     x0, =bss_low
    ldr     x1, =bss_high
1:  cmp     x0, x1
    b.hs    2f
    stp     xzr, xzr, [x0], #16
    b       1b
2:  bl      device_main
off:
    ldr     w0, =0x84000008         // PSCI: SYSTEM_OFF
    hvc     #0
    b       .
    .ltorg

// Every exception ends here, on a stack of its own: what happened is told on the
// serial line, and the machine goes off.
    .balign 2048
vectors:
    .rept   16
    .balign 128
    ldr     x0, =fault_stack_high
    mov     sp, x0
    mrs     x0, esr_el1
    mrs     x1, far_el1
    mrs     x2, elr_el1
    bl      device_fault
    b       off
    .endr
    .ltorg
