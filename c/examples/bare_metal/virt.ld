/* The machine has its memory from 0x40000000 on, and puts a description of itself at the beginning. */
ENTRY(_start)

PHDRS
{
    code PT_LOAD FLAGS(5);
    data PT_LOAD FLAGS(6);
}

SECTIONS
{
    . = 0x40200000;
    .text : { KEEP(*(.text.start)) *(.text .text.*) } :code
    .rodata : { *(.rodata .rodata.*) }
    .data : { *(.data .data.* .data.rel.ro .data.rel.ro.* .got .got.plt) } :data
    .bss : {
        . = ALIGN(16);
        bss_start = .;
        *(.bss .bss.* COMMON)
        . = ALIGN(16);
        bss_end = .;
    }
    .stack (NOLOAD) : {
        . += 0x10000;
        stack_end = .;
    }
    /DISCARD/ : { *(.comment .note .note.* .eh_frame .eh_frame_hdr) }
}
