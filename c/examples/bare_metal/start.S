// The first instructions of the machine `virt`: the stack, the vector registers, the memory as it must be before the first call
// of the library, and then main. It runs at exception level 1, with interrupts off, on one processor.
//
// Memory is mapped to itself: the first gigabyte, with its devices and its flash, as device memory, and the second, where this
// program lies, as normal memory with caches. The library's code reads and writes words at any address, which is allowed only
// in normal memory and while SCTLR_EL1.A is 0.

    .set NO_EXECUTE, 0x0060000000000000
    .set DEVICE_BLOCK, 0x401            // a valid block, accessed, of memory type 0
    .set NORMAL_BLOCK, 0x705            // the same of memory type 1, shared by all
    .set MEMORY_TYPES, 0xff00           // type 0: device, nothing joined or put off; type 1: normal, written back
    // 39 bits of address (25 of them unused), tables in cached and shared memory, pages of 4 KiB, no second table, 36 bits behind.
    .set TRANSLATION, 25 | 1 << 8 | 1 << 10 | 3 << 12 | 1 << 23 | 1 << 32
    .set ALIGNMENT_CHECK, 1 << 1
    .set TRANSLATE_AND_CACHE, 1 << 0 | 1 << 2 | 1 << 12

    .section .text.start, "ax"
    .global _start
_start:
    ldr x0, =stack_end
    mov sp, x0
    ldr x0, =vectors
    msr vbar_el1, x0

    mov x0, 3 << 20                     // vector registers are allowed
    msr cpacr_el1, x0

    ldr x0, =MEMORY_TYPES
    msr mair_el1, x0
    ldr x0, =TRANSLATION
    msr tcr_el1, x0
    ldr x0, =table
    msr ttbr0_el1, x0
    dsb sy
    tlbi vmalle1
    dsb sy
    isb
    mrs x0, sctlr_el1
    ldr x1, =TRANSLATE_AND_CACHE
    orr x0, x0, x1
    bic x0, x0, ALIGNMENT_CHECK
    msr sctlr_el1, x0
    isb

    ldr x0, =bss_start
    ldr x1, =bss_end
zero_bss:
    cmp x0, x1
    b.hs call_main
    stp xzr, xzr, [x0], 16
    b zero_bss
call_main:
    bl main
    b power_off

// The firmware interface of the machine: SYSTEM_OFF.
    .global power_off
power_off:
    ldr x0, =0x84000008
    hvc 0
    b power_off

// Each exception is an end: none is expected.
    .balign 2048
vectors:
    .rept 16
    bl fault
    b power_off
    .balign 128
    .endr

    .data
    .balign 4096
table:
    .quad 0x00000000 | DEVICE_BLOCK | NO_EXECUTE
    .quad 0x40000000 | NORMAL_BLOCK
    .fill 510, 8, 0
