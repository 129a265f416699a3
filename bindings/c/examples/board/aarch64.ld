/* The memory of qemu's board virt. qemu loads all of it, zeroes included. */
SECTIONS
{
    . = 0x40100000;
    .text : { KEEP(*(.start)) *(.text*) *(.rodata*) }
    .data : { *(.data*) *(.bss*) *(COMMON) }
    stack_top = ALIGN(16) + 64K;
    /DISCARD/ : { *(.comment) *(.note*) *(.eh_frame*) }
}
