/* Measures the stack of calls of the archive on a thread whose stack is painted before each: prints
 * a name and a number of bytes for each. Memory comes from a static array, by arena.c. */
#include <galliumtoad.h>

#include <pthread.h>
#include <stdio.h>
#include <string.h>
#include <sys/mman.h>

enum { SIZE = 1 << 20, PAINTED = 1 << 16, PAINT = 0xA5, LEVELS = 16 };

static const uint8_t AID[] = { 0xA0, 0x00, 0x00, 0x00, 0x03, 0x10, 0x10 };
static gt_card card;
static gt_session session;
static gt_terminal terminal;
static uint8_t bytes[GT_OBJECT_LIMIT], list[2 * LEVELS];
static size_t n, place;
static uint16_t status;
static gt_object object;
static gt_atr atr;
static uint8_t *floor_of_stack;

/* Paints all below this function's frame. */
static uint8_t *__attribute__((noinline)) paint(void) {
    uint8_t *top = (uint8_t *)__builtin_frame_address(0) - 64, *at;
    for (at = top - PAINTED; at < top; at++) *(volatile uint8_t *)at = PAINT;
    return top - PAINTED;
}

/* The bytes from the frame of the caller to the deepest that is not painted. */
static size_t __attribute__((noinline)) painted_over(const uint8_t *at) {
    const uint8_t *frame = __builtin_frame_address(0);
    while (*(const volatile uint8_t *)at == PAINT) at++;
    return (size_t)(frame - at);
}

#define DEEP(name, call) do { \
        floor_of_stack = paint(); \
        code = call; \
        printf("%s %zu %d\n", name, painted_over(floor_of_stack), (int)code); \
    } while (0)

static void of_card(void) {
    int32_t code;
    size_t i;
    DEEP("card_new", galliumtoad_card_new(&card));
    DEEP("card_app", galliumtoad_card_app(&card, AID, sizeof AID));
    DEEP("card_object", galliumtoad_card_object(&card, 0x5F20, AID, 3, false));
    DEEP("card_finish", galliumtoad_card_finish(&card));
    for (i = 0; i < 5; i++)
        DEEP("card_take", galliumtoad_card_take(&card, (uint8_t[]){ 0, 0xA4, 4, 0, 7 }[i]));
    DEEP("card_turn", galliumtoad_card_turn(&card, bytes));
    for (i = 0; i < 7; i++) code = galliumtoad_card_take(&card, AID[i]);
    DEEP("card_send_bytes", galliumtoad_card_send_bytes(&card, bytes, 9, &n));
    DEEP("card_reset", galliumtoad_card_reset(&card));
    memcpy(bytes, "\x00\xA4\x04\x00\x07\xA0\x00\x00\x00\x03\x10\x10", 12);
    DEEP("card_tpdu", galliumtoad_card_tpdu(&card, bytes, 12, bytes + 300, 258, &n));
    DEEP("card_apdu", galliumtoad_card_apdu(&card, bytes, 12, bytes + 300, 258, &n));
}

static void of_others(void) {
    int32_t code;
    const uint32_t path[] = { 0xE0, 0xE0 };
    DEEP("objects", galliumtoad_objects(list, sizeof list, &object, 0, &n, &place));
    DEEP("find", galliumtoad_find(list, sizeof list, path, 2, &object, &place));
    DEEP("atr_read", galliumtoad_atr_read((const uint8_t *)"\x3B\x00", 2, &atr, &place));
    DEEP("terminal_new", galliumtoad_terminal_new(&terminal));
    DEEP("terminal_select", galliumtoad_terminal_select(&terminal, AID, sizeof AID));
    DEEP("terminal_send_bytes", galliumtoad_terminal_send_bytes(&terminal, bytes, 300, &n));
    DEEP("terminal_free", (galliumtoad_terminal_free(&terminal), 0));
    DEEP("session_start", galliumtoad_session_start(&session, &card));
    DEEP("session_select", galliumtoad_session_select(&session, AID, sizeof AID));
    DEEP("session_get", galliumtoad_session_get(&session, 0x5F20));
    DEEP("session_put", galliumtoad_session_put(&session, 0x5F20, bytes, 600));
    DEEP("session_answer", galliumtoad_session_answer(&session, &status, bytes, 9, &n));
    DEEP("session_end", galliumtoad_session_end(&session, &card));
    DEEP("card_free", (galliumtoad_card_free(&card), 0));
}

static void *measured(void *none) {
    of_card();
    of_others();
    return none;
}

int main(void) {
    pthread_attr_t with;
    pthread_t thread;
    void *stack = mmap(NULL, SIZE, PROT_READ | PROT_WRITE, MAP_PRIVATE | MAP_ANONYMOUS, -1, 0);
    size_t i;
    if (stack == MAP_FAILED) return 1;
    for (i = 0; i < LEVELS; i++) {
        list[2 * i] = 0xE0;
        list[2 * i + 1] = (uint8_t)(2 * (LEVELS - 1 - i));
    }
    pthread_attr_init(&with);
    pthread_attr_setstack(&with, stack, SIZE);
    return pthread_create(&thread, &with, measured, NULL) || pthread_join(thread, NULL);
}
