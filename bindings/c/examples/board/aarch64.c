/* qemu's board virt with a 64-bit ARM: the start, the generic timer, and the UART (PL011) by its
 * interrupt controller (GICv2). Floating point is off, and alignment is checked. Prints by
 * semihosting. */
#include "line.h"

#define AT(place) (*(volatile uint32_t *)(place))
#define UART(place) AT(UINT64_C(0x09000000) + (place))
#define GICD(place) AT(UINT64_C(0x08000000) + (place))
#define GICC(place) AT(UINT64_C(0x08010000) + (place))
enum { DATA = 0x00, FLAGS = 0x18, DIVIDER = 0x24, FRACTION = 0x28, FORM = 0x2C, CONTROL = 0x30,
       MASK = 0x38, CLEAR = 0x44 };
enum { IS_EMPTY = 0x10, IS_FULL = 0x20 };            /* of FLAGS */
enum { IS_WRONG = 0xF00 };                           /* of DATA: frame, parity, break, overrun */
enum { EIGHT_EVEN_TWO = 0x7E };                      /* of FORM, with a queue */
enum { UART_ON = 0x301, RECEIVED = 0x50 };           /* of CONTROL; of MASK, with its timeout */
enum { UART_CLOCK = 24000000, UART_INTERRUPT = 33, SEMIHOST_WRITE0 = 0x04, SEMIHOST_EXIT = 0x18 };

static void semihost(uint64_t operation, const void *argument)
{
    register uint64_t x0 __asm__("x0") = operation;
    register const void *x1 __asm__("x1") = argument;
    __asm__ volatile("hlt #0xF000" : "+r"(x0) : "r"(x1) : "memory");
}

void board_print(const char *text)
{
    semihost(SEMIHOST_WRITE0, text);
}

void board_end(void)
{
    static const uint64_t DONE[2] = { 0x20026, 0 };
    semihost(SEMIHOST_EXIT, DONE);
    for (;;) {}
}

void board_begin(void)
{
    GICD(0x000) = 1;
    GICD(0x104) = 1u << (UART_INTERRUPT - 32);
    GICD(0x820) = 1u << 8;       /* to this processor */
    GICC(0x004) = 0xFF;
    GICC(0x000) = 1;
    UART(DIVIDER) = UART_CLOCK / (16 * LINE_BAUD);
    UART(FRACTION) = UART_CLOCK * 4u / LINE_BAUD % 64;
    UART(FORM) = EIGHT_EVEN_TWO;
    UART(MASK) = RECEIVED;
    UART(CONTROL) = UART_ON;
    __asm__ volatile("msr daifclr, #2" ::: "memory");
}

uint64_t board_ticks(void)
{
    uint64_t ticks;
    __asm__ volatile("isb\n mrs %0, cntvct_el0" : "=r"(ticks) :: "memory");
    return ticks;
}

bool board_sends(uint8_t byte)
{
    if ((UART(FLAGS) & IS_FULL) != 0)
        return false;
    UART(DATA) = byte;
    return true;
}

__attribute__((used)) static void received(void)
{
    const uint32_t number = GICC(0x00C);
    UART(CLEAR) = RECEIVED;
    while ((UART(FLAGS) & IS_EMPTY) == 0) {
        const uint32_t it = UART(DATA);
        line_take((uint8_t)it, (it & IS_WRONG) != 0);
    }
    GICC(0x010) = number;
}

__attribute__((used)) static void fault(void)
{
    board_print("an exception of the processor\n");
    board_end();
}

__attribute__((used)) static void start(void)
{
    board_begin();
    board_main();
    board_end();
}

/* The loader has set the data, and zeroes. The interrupt is the sixth of the 16 entries; each other
 * one is a fault. */
__asm__(".section .start, \"ax\"\n"
        "ldr x0, =stack_top\n mov sp, x0\n ldr x0, =entries\n msr vbar_el1, x0\n"
        "msr cpacr_el1, xzr\n mrs x0, sctlr_el1\n orr x0, x0, #2\n msr sctlr_el1, x0\n"
        "isb\n b start\n .balign 2048\n"
        "entries: .rept 5\n b fault\n .balign 128\n .endr\n"
        "b interrupted\n .balign 128\n .rept 10\n b fault\n .balign 128\n .endr\n"
        "interrupted: stp x0, x1, [sp, #-160]!\n stp x2, x3, [sp, #16]\n stp x4, x5, [sp, #32]\n"
        "stp x6, x7, [sp, #48]\n stp x8, x9, [sp, #64]\n stp x10, x11, [sp, #80]\n"
        "stp x12, x13, [sp, #96]\n stp x14, x15, [sp, #112]\n stp x16, x17, [sp, #128]\n"
        "stp x18, x30, [sp, #144]\n bl received\n ldp x2, x3, [sp, #16]\n"
        "ldp x4, x5, [sp, #32]\n ldp x6, x7, [sp, #48]\n ldp x8, x9, [sp, #64]\n"
        "ldp x10, x11, [sp, #80]\n ldp x12, x13, [sp, #96]\n ldp x14, x15, [sp, #112]\n"
        "ldp x16, x17, [sp, #128]\n ldp x18, x30, [sp, #144]\n ldp x0, x1, [sp], #160\n eret\n"
        ".previous");
