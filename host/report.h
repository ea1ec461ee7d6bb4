/*
 * What the two tests of the C headers share: document 01's packet, and tests passed and failed.
 */
#include <stdint.h>
#include <stdio.h>
#include <string.h>

/* IP TTL 64, a request for code 5 with QS TTL 128 and nonce 0, and two bytes of data. */
static const uint8_t original[30] = {0x47, 0x00, 0x00, 0x1C, 0x00, 0x00, 0x00, 0x00, 0x40, 0x06,
                                     0x46, 0x52, 0x0A, 0x00, 0x00, 0x01, 0x0A, 0x00, 0x00, 0x02,
                                     0x19, 0x08, 0x05, 0x80, 0x00, 0x00, 0x00, 0x00, 0xAA, 0x55};

static unsigned passed, failed;

static void test(const char *name, int holds)
{
    printf("%s %s\n", holds ? "ok    " : "FAILED", name);
    if (holds)
        passed++;
    else
        failed++;
}

/* Whether the packet is the original with these bytes from byte 8 and from byte 22 on. */
static int is(const uint8_t *packet, const char *ttl_to_checksum, const char *option)
{
    uint8_t expected[30];
    memcpy(expected, original, 30);
    memcpy(expected + 8, ttl_to_checksum, 4);
    memcpy(expected + 22, option, 6);
    return memcmp(packet, expected, 30) == 0;
}

/* The last line, and the exit status: 0 only if tests were run and none failed. */
static int finish(void)
{
    printf("%u passed, %u failed\n", passed, failed);
    return failed != 0 || passed == 0;
}
