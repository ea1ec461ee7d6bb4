/*
 * The packets of the benchmark, right and damaged, and the numbers that they are called with. bench.c and
 * bench_stack.c include this file.
 */
#include "quickstart.h"

#include <stdio.h>
#include <stdlib.h>
#include <string.h>

/* A response lies in ROOM bytes, more than it needs, so that a byte written behind it is seen. */
enum { PACKETS = 256, SLOT = 96, DATA = 20, ROOM = 12 };

static const struct shape {
    const char *name, *length; /* with and without the option's place */
    size_t header;
    size_t option; /* where the Quick-Start option stands; 0 if there is none */
} shapes[] = {{"20 bytes", "20 bytes", 20, 0},
              {"28 bytes", "28 bytes", 28, 20},
              {"60 bytes, Quick-Start first", "60 bytes", 60, 20},
              {"60 bytes, Quick-Start last", "60 bytes", 60, 52}};
#define SHAPES (sizeof shapes / sizeof *shapes)

/* What the ECT bit of the packets is: of right ones only, or of all. */
enum ect { ECT_ANY, ECT_SET_IF_RIGHT, ECT_CLEAR };

static uint8_t unchanged[PACKETS][SLOT];
static struct call {
    uint32_t len, response_len, ceiling, fresh_nonce;
} calls[PACKETS];

/* 32 bytes of other options: router alert, record route, a no-operation, timestamp. */
static const uint8_t others[32] = {148, 4, 0, 0, 7, 11, 4, 0, 0, 0, 0, 0, 0, 0, 0, 1, 68, 16, 5};

/* Xorshift, with a fixed seed. */
static uint64_t state = 0x5153424E43480005;
static uint32_t any(void)
{
    state ^= state << 13;
    state ^= state >> 7;
    state ^= state << 17;
    return (uint32_t)(state >> 32);
}

/* The folded sum of a header's words. */
static uint32_t sum_of(const uint8_t *packet, size_t header)
{
    uint32_t sum = 0;
    size_t at;
    for (at = 0; at + 1 < header; at += 2)
        sum += (uint32_t)packet[at] << 8 | packet[at + 1];
    while (sum >> 16)
        sum = (sum & 0xFFFF) + (sum >> 16);
    return sum;
}

static void put_word(uint8_t *at, uint32_t word)
{
    at[0] = (uint8_t)(word >> 8);
    at[1] = (uint8_t)word;
}

static void seal(uint8_t *packet, size_t header)
{
    put_word(packet + 10, 0);
    put_word(packet + 10, ~sum_of(packet, header));
}

/* Right packets of a shape, each with a request if there is an option, and calls with a ceiling from 1 to 15. */
static void fill(const struct shape *shape, enum ect ect)
{
    size_t i, at;
    for (i = 0; i < PACKETS; i++) {
        uint8_t *packet = unchanged[i], *option = packet + shape->option;
        for (at = 0; at < SLOT; at++)
            packet[at] = (uint8_t)any();
        packet[0] = (uint8_t)(0x40 | shape->header / 4);
        put_word(packet + 2, (uint32_t)shape->header + DATA);
        packet[8] = (uint8_t)(2 + any() % 254);
        if (ect == ECT_SET_IF_RIGHT)
            packet[1] |= 2;
        if (ect == ECT_CLEAR)
            packet[1] &= 0xFD;
        if (shape->header == 60)
            memcpy(packet + (shape->option == 20 ? 28 : 20), others, sizeof others);
        if (shape->option) {
            option[0] = 25;
            option[1] = 8;
            option[2] = (uint8_t)(1 + any() % 15);
        }
        seal(packet, shape->header);
        calls[i].len = (uint32_t)shape->header + DATA;
        calls[i].response_len = 8;
        calls[i].ceiling = 1 + any() % 15;
        calls[i].fresh_nonce = any() >> 2;
    }
}

/* A change to the options area. */
static void change_options(uint8_t *packet, const struct shape *shape)
{
    static const uint8_t small[] = {0, 1, 2, 3, 4, 7, 8, 9, 25};
    size_t length = shape->header - 20;
    switch (any() % 4) {
    case 0: /* a byte of the Quick-Start option but its nonce */
        packet[shape->option + any() % 4] = small[any() % sizeof small];
        break;
    case 1: /* its function and rate */
        packet[shape->option + 2] = (uint8_t)(any() % 4 ? any() % 20 : any());
        break;
    case 2: /* any byte of the area */
        packet[20 + any() % length] = small[any() % sizeof small];
        break;
    default: /* the Quick-Start option again, at another place */
        memmove(packet + 20 + 4 * (any() % (length / 4 - 1)), packet + shape->option, 8);
    }
}

/* One change to a packet or to its call. */
static void change(uint8_t *packet, struct call *call, const struct shape *shape)
{
    switch (any() % 8) {
    case 0: /* any bit of the header */
        packet[any() % shape->header] ^= (uint8_t)(1u << any() % 8);
        break;
    case 1: /* version and header length */
        packet[0] = (uint8_t)(any() % 2 ? 0x40 | any() % 16 : any());
        break;
    case 2: /* a total length about the header's, or about the bytes lent */
        put_word(packet + 2, (any() % 2 ? (uint32_t)shape->header : call->len) + any() % 5 - 2);
        break;
    case 3:
        packet[8] = (uint8_t)(any() % 4);
        break;
    case 4:
        call->len = any() % 2 ? any() % (SLOT + 1) : call->len + any() % 3 - 1;
        break;
    case 5:
        call->ceiling = any() % 18;
        break;
    case 6:
        call->fresh_nonce = any();
        call->response_len = 6 + any() % 5;
        break;
    default:
        if (shape->option)
            change_options(packet, shape);
    }
    if (call->len > SLOT)
        call->len = SLOT;
}

/* Up to three changes to each packet or call; ECT is cleared in one packet of four at least. Three in four are sealed
   again, over the header's length as it is stated then. */
static void damage(const struct shape *shape, enum ect ect)
{
    size_t i, changes;
    for (i = 0; i < PACKETS; i++) {
        for (changes = 1 + any() % 3; changes > 0; changes--)
            change(unchanged[i], &calls[i], shape);
        if (ect == ECT_CLEAR || any() % 4 == 0)
            unchanged[i][1] &= 0xFD;
        if (any() % 4)
            seal(unchanged[i], 4 * (size_t)(unchanged[i][0] & 15));
    }
}
