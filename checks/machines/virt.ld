/* Of qemu's boards named virt: the memory begins at `memory`. qemu loads all of it, zeros
 * included. */
SECTIONS
{
    . = memory;
    .text : { KEEP(*(.start)) *(.text*) *(.rodata*) *(.srodata*) }
    .data : { *(.data*) *(.sdata*) *(.bss*) *(.sbss*) *(COMMON) }
    stack_top = ALIGN(16) + 1M;
    /DISCARD/ : { *(.comment) *(.note*) *(.eh_frame*) }
}
