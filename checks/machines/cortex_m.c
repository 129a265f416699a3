/* A play on a Cortex-M without an operating system or a C library: the start, and printing by
 * semihosting. A fault of the processor ends it with a line that says so. */
#include "sum.h"

enum { WRITE0 = 0x04, REPORT_EXCEPTION = 0x18 };

static void semihost(uint32_t operation, const void *argument)
{
    register uint32_t r0 __asm__("r0") = operation;
    register const void *r1 __asm__("r1") = argument;
    __asm__ volatile("bkpt 0xAB" : "+r"(r0) : "r"(r1) : "memory");
}

/* ADP_Stopped_ApplicationExit, for which qemu ends with status 0 */
static void leave(void)
{
    semihost(REPORT_EXCEPTION, (const void *)0x20026);
    for (;;) {}
}

static void fault(void)
{
    semihost(WRITE0, "a fault of the processor\n");
    leave();
}

static void start(void)
{
    semihost(WRITE0, play(CALLS));
    leave();
}

extern uint32_t stack_top[];
/* where the stack begins, the start, and what is called at NMI and the faults */
__attribute__((section(".vectors"), used)) static const struct {
    uint32_t *stack;
    void (*start)(void), (*faults[5])(void);
} VECTORS = { stack_top, start, { fault, fault, fault, fault, fault } };
