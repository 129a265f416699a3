/* A play on a 64-bit ARM without an operating system or a C library: the start, and printing by
 * semihosting. Floating point and vectors are off, and alignment is checked. An exception ends it
 * with a line that says so. */
#include "sum.h"

enum { WRITE0 = 0x04, REPORT_EXCEPTION = 0x18 };

static void semihost(uint32_t operation, const void *argument)
{
    register uint64_t x0 __asm__("x0") = operation;
    register const void *x1 __asm__("x1") = argument;
    __asm__ volatile("hlt #0xF000" : "+r"(x0) : "r"(x1) : "memory");
}

/* ADP_Stopped_ApplicationExit, and the status of qemu */
static void leave(void)
{
    static const uint64_t DONE[2] = { 0x20026, 0 };
    semihost(REPORT_EXCEPTION, DONE);
    for (;;) {}
}

__attribute__((used)) static void fault(void)
{
    semihost(WRITE0, "an exception of the processor\n");
    leave();
}

__attribute__((used)) static void start(void)
{
    semihost(WRITE0, play(CALLS));
    leave();
}

/* CPACR_EL1.FPEN is 0, and SCTLR_EL1.A is 1. All 16 entries of the table are `fault`. */
__asm__(".section .start, \"ax\"\n"
        "ldr x0, =stack_top\n mov sp, x0\n ldr x0, =faults\n msr vbar_el1, x0\n"
        "msr cpacr_el1, xzr\n mrs x0, sctlr_el1\n orr x0, x0, #2\n msr sctlr_el1, x0\n"
        "isb\n b start\n"
        ".balign 2048\n faults: .rept 16\n b fault\n .balign 128\n .endr\n .previous");
