/* All in one piece from 80010000h on; the first word is the entry. */
OUTPUT_ARCH(mips)
ENTRY(start)
SECTIONS
{
    . = 0x80010000;
    .all : {
        KEEP(*(.start))
        *(.text .text.*)
        *(.rodata .rodata.*)
        *(.data .data.*)
        *(.sdata .sdata.*)
        . = ALIGN(4);
    }
    /* RAM is zero at the start, so that these need no words. */
    .bss : {
        *(.sbss .sbss.*)
        *(.bss .bss.*)
        *(COMMON)
        . = ALIGN(4);
    }
    ASSERT(. <= 0x80100000, "the program reaches into its results")
    /DISCARD/ : { *(*) }
}
