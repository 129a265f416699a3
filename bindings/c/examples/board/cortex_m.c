/* The board mps2-an386 (Cortex-M4) of qemu, and mps2-an385: the start, a timer of 32 bits, and
 * UART 0. Prints by semihosting. qemu's UART has no parity. */
#include "line.h"

struct uart {
    volatile uint32_t data, state, control, interrupts, divider;
};
struct timer {
    volatile uint32_t control, value, reload;
};
#define UART ((struct uart *)0x40004000u)
#define TIMER ((struct timer *)0x40000000u)
#define ENABLED_INTERRUPTS (*(volatile uint32_t *)0xE000E100u)
enum { UART_IS_FULL = 1, UART_HAS_DATA = 2 };                /* of its state */
enum { UART_SENDS = 1, UART_RECEIVES = 2, UART_INTERRUPTS = 8, UART_RECEIVED = 2 };
enum { UART_INTERRUPT = 0, SEMIHOST_WRITE0 = 0x04, SEMIHOST_EXIT = 0x18 };

static uint64_t before;

static void semihost(uint32_t operation, const void *argument)
{
    register uint32_t r0 __asm__("r0") = operation;
    register const void *r1 __asm__("r1") = argument;
    __asm__ volatile("bkpt 0xAB" : "+r"(r0) : "r"(r1) : "memory");
}

void board_print(const char *text)
{
    semihost(SEMIHOST_WRITE0, text);
}

void board_end(void)
{
    semihost(SEMIHOST_EXIT, (const void *)0x20026);
    for (;;) {}
}

void board_begin(void)
{
    TIMER->reload = TIMER->value = UINT32_MAX;
    TIMER->control = 1;
    UART->divider = BOARD_HZ / LINE_BAUD;
    UART->control = UART_SENDS | UART_RECEIVES | UART_INTERRUPTS;
    (void)UART->data; /* empties it; only then does qemu look for more */
    ENABLED_INTERRUPTS = 1u << UART_INTERRUPT;
}

/* The timer counts down, and begins again after 171 seconds: somebody asks more often. */
uint64_t board_ticks(void)
{
    const uint32_t now = UINT32_MAX - TIMER->value;
    before += (uint32_t)(now - (uint32_t)before);
    return before;
}

bool board_sends(uint8_t byte)
{
    if ((UART->state & UART_IS_FULL) != 0)
        return false;
    UART->data = byte;
    return true;
}

static void received(void)
{
    UART->interrupts = UART_RECEIVED;
    while ((UART->state & UART_HAS_DATA) != 0)
        line_take((uint8_t)UART->data, false);
}

static void fault(void)
{
    board_print("a fault of the processor\n");
    board_end();
}

extern uint32_t stack_top[], data_from[], data_begin[], data_end[], zero_begin[], zero_end[];

static void start(void)
{
    const uint32_t *from = data_from;
    uint32_t *to;
    for (to = data_begin; to != data_end; to++)
        *to = *from++;
    for (to = zero_begin; to != zero_end; to++)
        *to = 0;
    board_begin();
    board_main();
    board_end();
}

/* where the stack begins, and what is called at the start, at faults, and by the UART */
__attribute__((section(".vectors"), used)) static const struct {
    uint32_t *stack;
    void (*start)(void), (*faults[14])(void), (*uart)(void);
} VECTORS = { stack_top, start,
              { fault, fault, fault, fault, fault, fault, fault, fault, fault, fault, fault, fault,
                fault, fault },
              received };
