/* A play on a RISC-V of 32 bits without an operating system or a C library: the start, and printing
 * by semihosting. A trap of the processor ends it with a line that says so. */
#include "sum.h"

enum { WRITE0 = 0x04, REPORT_EXCEPTION = 0x18 };

static void semihost(uint32_t operation, const void *argument)
{
    register uint32_t a0 __asm__("a0") = operation;
    register const void *a1 __asm__("a1") = argument;
    __asm__ volatile(".option push\n .option norvc\n .balign 16\n"
                     "slli x0, x0, 0x1f\n ebreak\n srai x0, x0, 7\n .option pop"
                     : "+r"(a0) : "r"(a1) : "memory");
}

/* ADP_Stopped_ApplicationExit, for which qemu ends with status 0 */
static void leave(void)
{
    semihost(REPORT_EXCEPTION, (const void *)0x20026);
    for (;;) {}
}

__attribute__((aligned(4), used)) static void fault(void)
{
    semihost(WRITE0, "a trap of the processor\n");
    leave();
}

__attribute__((used)) static void start(void)
{
    semihost(WRITE0, play(CALLS));
    leave();
}

__asm__(".section .start, \"ax\"\n"
        "la sp, stack_top\n la t0, fault\n csrw mtvec, t0\n j start\n .previous");
