SECTIONS
{
    . = 0;
    .text : { *(.text) }
    . = ALIGN(4096);
    .rodata : { *(.rodata) }
    . = ALIGN(4096);
    .data : { *(.data) }
    . = ALIGN(4096);
    .bss : { *(.bss) }
    /DISCARD/ : { *(*) }
}
