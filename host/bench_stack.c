/*
 * How deep the exported functions go on the stack, by painting. Each function runs on a stack of its own, an
 * array full of known bytes, on right and damaged packets; the deepest byte that is not as it was painted
 * says how deep it went. The same calls of a function that does nothing show where a call begins: that touches its
 * return address and no more. Printed for each function: its bytes of stack, the return address counted.
 *
 * A byte that is written with the very value that was painted there, or never written, goes unseen; so this is a lower
 * bound, and host/size sets the upper one, read from the machine code, beside it.
 */
#define _XOPEN_SOURCE 600
#include "bench_packets.c"

#include <ucontext.h>

enum { STACK = 65536, ROUNDS = 200, SLOTS = 64, RETURN_ADDRESS = 8 };

static uint8_t stack[STACK], work[SLOT], response[ROOM];
static uint64_t row[SLOTS], tick;
static ucontext_t outside, inside;

/* The call that is made inside: one of the four forms is set. */
static struct {
    uint32_t (*router)(uint8_t *, size_t, uint32_t, uint32_t);
    uint32_t (*ledger)(uint8_t *, size_t, uint32_t, uint32_t, uint64_t *, size_t, uint64_t *, uint64_t, uint64_t);
    uint32_t (*receiver)(const uint8_t *, size_t, uint32_t, uint8_t *, size_t);
    uint32_t (*in_place)(uint8_t *, size_t);
} volatile function;
static struct call one;
static struct {
    size_t slots;
    uint64_t allowance, now;
} link_call;

static uint32_t no_router(uint8_t *a, size_t b, uint32_t c, uint32_t d)
{
    return a == NULL && b == 0 && c == 0 && d == 0;
}

static uint32_t no_ledger(uint8_t *a, size_t b, uint32_t c, uint32_t d, uint64_t *e, size_t f, uint64_t *g, uint64_t h,
                          uint64_t i)
{
    return a == NULL && b == 0 && c == 0 && d == 0 && e == NULL && f == 0 && g == NULL && h == 0 && i == 0;
}

static uint32_t no_receiver(const uint8_t *a, size_t b, uint32_t c, uint8_t *d, size_t e)
{
    return a == NULL && b == 0 && c == 0 && d == NULL && e == 0;
}

static uint32_t no_in_place(uint8_t *a, size_t b)
{
    return a == NULL && b == 0;
}

/* The array keeps the call below whatever the C library touches when the context begins and ends. */
static void call_inside(void)
{
    volatile uint8_t distance[512];
    distance[0] = 0;
    (void)distance[0];
    if (function.router)
        function.router(work, one.len, one.ceiling, one.fresh_nonce);
    if (function.ledger)
        function.ledger(work, one.len, one.ceiling, one.fresh_nonce, row, link_call.slots, &tick,
                        link_call.allowance, link_call.now);
    if (function.receiver)
        function.receiver(work, one.len, one.ceiling, response, one.response_len);
    if (function.in_place)
        function.in_place(work, one.len);
}

/* What stands at a place of the painted stack. */
static uint8_t paint(size_t at)
{
    return (uint8_t)(at * 37 + at / 256 * 11 + 91);
}

/* A row and a tick that are sometimes above the allowance or before the stored one. */
static void draw_link(void)
{
    size_t i;
    link_call.slots = any() % 70;
    for (i = 0; i < SLOTS; i++)
        row[i] = any() % 4 ? 0 : any() % 1000000000;
    tick = any() % 100;
    link_call.allowance = (uint64_t)any() << any() % 9;
    link_call.now = tick + any() % 80 - any() % 4;
}

/* Makes the call on the painted stack. */
static void call_on_stack(void)
{
    getcontext(&inside);
    inside.uc_stack.ss_sp = stack;
    inside.uc_stack.ss_size = STACK;
    inside.uc_link = &outside;
    makecontext(&inside, call_inside, 0);
    swapcontext(&outside, &inside);
}

/* Calls the function on all packets; answers the place of the deepest byte of the stack that was touched. */
static size_t touched(void)
{
    size_t i, at, round;
    for (at = 0; at < STACK; at++)
        stack[at] = paint(at);
    for (round = 0; round < ROUNDS; round++) {
        const struct shape *shape = &shapes[round / 2 % SHAPES];
        fill(shape, round % 3 ? ECT_ANY : ECT_SET_IF_RIGHT);
        if (round % 2)
            damage(shape, ECT_ANY);
        for (i = 0; i < PACKETS; i++) {
            memcpy(work, unchanged[i], SLOT);
            one = calls[i];
            draw_link();
            call_on_stack();
        }
    }
    for (at = 0; at < STACK && stack[at] == paint(at);)
        at++;
    return at;
}

static size_t use(size_t empty, size_t full)
{
    return empty - full + RETURN_ADDRESS;
}

int main(void)
{
    size_t empty;
    memset((void *)&function, 0, sizeof function);
    function.router = no_router;
    empty = touched();
    function.router = qs_router;
    printf("qs_router %u\n", (unsigned)use(empty, touched()));
    function.router = NULL;
    function.ledger = no_ledger;
    empty = touched();
    function.ledger = qs_router_ledger;
    printf("qs_router_ledger %u\n", (unsigned)use(empty, touched()));
    function.ledger = NULL;
    function.in_place = no_in_place;
    empty = touched();
    function.in_place = qs_silent_router;
    printf("qs_silent_router %u\n", (unsigned)use(empty, touched()));
    function.in_place = qs_mark;
    printf("qs_mark %u\n", (unsigned)use(empty, touched()));
    function.in_place = NULL;
    function.receiver = no_receiver;
    empty = touched();
    function.receiver = qs_receiver;
    printf("qs_receiver %u\n", (unsigned)use(empty, touched()));
    return 0;
}
