/* The memory of qemu's boards mps2-an385 and mps2-an386. */
MEMORY
{
    FLASH : ORIGIN = 0x00000000, LENGTH = 256K
    RAM : ORIGIN = 0x20000000, LENGTH = 64K
}
SECTIONS
{
    .text : { KEEP(*(.vectors)) *(.text*) *(.rodata*) . = ALIGN(4); } > FLASH
    data_from = LOADADDR(.data);
    .data : { data_begin = .; *(.data*) . = ALIGN(4); data_end = .; } > RAM AT > FLASH
    .bss (NOLOAD) : { zero_begin = .; *(.bss*) *(COMMON) . = ALIGN(4); zero_end = .; } > RAM
    /DISCARD/ : { *(.ARM.*) }
    stack_top = ORIGIN(RAM) + LENGTH(RAM);
}
