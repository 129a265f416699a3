/* The module for JavaScript: the header's functions with their checks, memory that grows, and what
 * a compiler calls by name. It imports nothing. */
#define GT_EXTERN
#include "galliumtoad.h"
#include "galliumtoad_heap.h"

void *memcpy(void *to, const void *from, size_t n);
void *memmove(void *to, const void *from, size_t n);
void *memset(void *to, int byte, size_t n);
void *js_take(size_t size);
void js_give(void *block);

/* each is one instruction of WebAssembly */
void *memcpy(void *to, const void *from, size_t n)
{
    return __builtin_memcpy(to, from, n);
}

void *memmove(void *to, const void *from, size_t n)
{
    return __builtin_memmove(to, from, n);
}

void *memset(void *to, int byte, size_t n)
{
    return __builtin_memset(to, byte, n);
}

/* A block has one of two sizes for each power of two. Before it is which one. Free blocks of a size
 * are in a list, all zero except for these links. */
enum { SIZES = 48, HEAD = 16, PAGE = 65536, PAGES_AT_ONCE = 4 };
struct head {
    size_t number;
    struct head *next;
};
static struct head *vacant[SIZES];
extern unsigned char __heap_base;
static size_t front;

static size_t size_of(size_t number)
{
    return (size_t)(2 + number % 2) << (number / 2 + 3);
}

/* Memory behind all that was ever taken, or NULL. */
static struct head *fresh(size_t number)
{
    size_t whole = HEAD + size_of(number), end = __builtin_wasm_memory_size(0) * PAGE, pages;
    struct head *head;
    if (front == 0)
        front = ((size_t)&__heap_base + HEAD - 1) / HEAD * HEAD;
    if (end - front < whole) {
        pages = (whole - (end - front) + PAGE - 1) / PAGE;
        if (pages < PAGES_AT_ONCE)
            pages = PAGES_AT_ONCE;
        if (__builtin_wasm_memory_grow(0, pages) == (size_t)-1)
            return NULL;
    }
    head = (struct head *)front;
    front += whole;
    head->number = number;
    return head;
}

void *js_take(size_t size)
{
    size_t number = 0;
    struct head *head;
    while (number < SIZES && size_of(number) < size)
        number++;
    if (number == SIZES)
        return NULL;
    head = vacant[number];
    if (head)
        vacant[number] = head->next;
    else
        head = fresh(number);
    return head ? (unsigned char *)head + HEAD : NULL;
}

void js_give(void *block)
{
    struct head *head = (struct head *)((unsigned char *)block - HEAD);
    memset(block, 0, size_of(head->number));
    head->next = vacant[head->number];
    vacant[head->number] = head;
}

gt_taken rattle_alloc(size_t size, size_t align)
{
    gt_taken taken = { false, &front };
    void *block = js_take(size);
    (void)align; /* blocks begin at multiples of HEAD */
    if (block) {
        taken.some = true;
        taken.at = block;
    }
    return taken;
}

gt_taken rattle_realloc(void *block, size_t kept, size_t size, size_t align)
{
    gt_taken taken = rattle_alloc(size, align);
    if (taken.some) {
        memcpy(taken.at, block, kept < size ? kept : size);
        js_give(block);
    }
    return taken;
}

void rattle_dealloc(void *block)
{
    js_give(block);
}
