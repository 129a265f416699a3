/* The memory of qemu's boards mps2-an385 and mps2-an386. qemu loads all of it, zeros included. */
MEMORY
{
    CODE : ORIGIN = 0x00000000, LENGTH = 4M
    DATA : ORIGIN = 0x20000000, LENGTH = 4M
}
SECTIONS
{
    .text : { KEEP(*(.vectors)) *(.text*) *(.rodata*) } > CODE
    .data : { *(.data*) *(.bss*) *(COMMON) } > DATA
    /DISCARD/ : { *(.ARM.*) }
    stack_top = ORIGIN(DATA) + LENGTH(DATA);
}
