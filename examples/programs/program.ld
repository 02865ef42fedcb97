/* A program in the 64 KiB of memory that a core's run has: the first instruction at its base, the stack at its end. */
OUTPUT_ARCH(riscv)
ENTRY(_start)

MEMORY { memory (rwx) : ORIGIN = 0x80000000, LENGTH = 64K }

PHDRS
{
    code PT_LOAD FLAGS(5);
    data PT_LOAD FLAGS(6);
}

SECTIONS
{
    .text : { *(.text.start) *(.text .text.*) } > memory :code
    .rodata : { *(.rodata .rodata.* .srodata .srodata.*) } > memory :code
    .data : { . = ALIGN(4); *(.data .data.* .sdata .sdata.*) } > memory :data
    .bss : {
        . = ALIGN(4);
        bss_start = .;
        *(.bss .bss.* .sbss .sbss.* COMMON)
        . = ALIGN(4);
        bss_end = .;
    } > memory :data
    /DISCARD/ : { *(.comment) *(.note*) *(.riscv.attributes) *(.eh_frame*) }
    stack_top = ORIGIN(memory) + LENGTH(memory);
}
