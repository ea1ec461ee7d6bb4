/*
 * include/quickstart.h, used by a C caller (C99) or, compiled a second time, by a C++ one: its types,
 * its constants, and each of the five functions on document 01's packet.
 * The last line is `N passed, M failed`.
 */
#include "quickstart.h"
#include "quickstart.h" /* the guard lets it be included twice */

#include "report.h"

/* These do not compile unless the prototypes have exactly these types. */
static uint32_t (*const router)(uint8_t *, size_t, uint32_t, uint32_t) = qs_router;
static uint32_t (*const router_ledger)(uint8_t *, size_t, uint32_t, uint32_t, uint64_t *, size_t,
                                       uint64_t *, uint64_t, uint64_t) = qs_router_ledger;
static uint32_t (*const silent_router)(uint8_t *, size_t) = qs_silent_router;
static uint32_t (*const receiver)(const uint8_t *, size_t, uint32_t, uint8_t *,
                                  size_t) = qs_receiver;
static uint32_t (*const mark)(uint8_t *, size_t) = qs_mark;

#if QS_ABI != 1
#error "this test is for QS_ABI 1"
#endif

static void constants(void)
{
    static const int numbers[] = {
        QS_DONE,         QS_BAD_HEADER,     QS_BAD_CHECKSUM,        QS_BAD_OPTION_LENGTH,
        QS_NO_REQUEST,   QS_BAD_QUICK_START, QS_TTL_EXPIRED,        QS_OUT_OF_RANGE,
        QS_ROW_ABOVE_ALLOWANCE, QS_BACK_IN_TIME, QS_REQUEST_OPEN,   QS_WRONG_STATE,
        QS_NOT_A_RESPONSE, QS_RATE_WRONG,   QS_TTL_DIFF_WRONG,      QS_NONCE_WRONG};
    int i, right = sizeof numbers / sizeof *numbers == 16;
    for (i = 0; i < 16; i++)
        right = right && numbers[i] == i;
    test("header: the refusals are 1 to 15", right);
    test("header: unanswered is 40, drop is 41", QS_UNANSWERED == 40 && QS_DROP == 41);
    test("header: size_t has 64 bits", sizeof(size_t) == 8 && sizeof(void *) == 8);
}

static void calls(void)
{
    const uint32_t ones = 0x3FFFFFFF;
    uint8_t packet[30], response[8];
    uint64_t row[2] = {0, 7}, tick = 4;

    memcpy(packet, original, 30);
    test("qs_router: done", router(packet, 30, 3, ones) == QS_DONE);
    test("qs_router: the packet", is(packet, "\x3F\x06\x3A\x53", "\x03\x7F\x00\x00\x0F\x00"));

    memset(response, 0xEE, 8);
    test("qs_receiver: done", receiver(packet, 30, 15, response, 8) == QS_DONE);
    test("qs_receiver: the response", memcmp(response, "\x1B\x08\x03\xC0\x00\x00\x0F\x00", 8) == 0);
    test("qs_receiver: unanswered", receiver(packet, 30, 0, response, 8) == QS_UNANSWERED);
    test("qs_receiver: 7", receiver(packet, 30, 15, response, 7) == QS_OUT_OF_RANGE);

    /* code 3 is 320,000 bits a second; tick 5 empties slot 1 */
    memcpy(packet, original, 30);
    test("qs_router_ledger: done",
         router_ledger(packet, 30, 15, ones, row, 2, &tick, 320007, 5) == QS_DONE);
    test("qs_router_ledger: the packet", is(packet, "\x3F\x06\x3A\x53", "\x03\x7F\x00\x00\x0F\x00"));
    test("qs_router_ledger: row and tick", row[0] == 0 && row[1] == 320000 && tick == 5);
    test("qs_router_ledger: 9",
         router_ledger(packet, 30, 15, ones, row, 2, &tick, 320007, 4) == QS_BACK_IN_TIME);
    test("qs_router_ledger: 8",
         router_ledger(packet, 30, 15, ones, row, 2, &tick, 5, 5) == QS_ROW_ABOVE_ALLOWANCE);

    memcpy(packet, original, 30);
    test("qs_silent_router: done", silent_router(packet, 30) == QS_DONE);
    test("qs_silent_router: the packet", is(packet, "\x3F\x06\x47\x52", "\x05\x80\x00\x00\x00\x00"));
    test("qs_silent_router: 1", silent_router(packet, 27) == QS_BAD_HEADER);

    memcpy(packet, original, 30);
    test("qs_mark: drop", mark(packet, 30) == QS_DROP);
    packet[1] = 2;
    test("qs_mark: 2", mark(packet, 30) == QS_BAD_CHECKSUM);
    packet[11] = 0x50;
    test("qs_mark: done", mark(packet, 30) == QS_DONE);
    test("qs_mark: the packet", packet[1] == 3 && packet[10] == 0x46 && packet[11] == 0x4F);
}

int main(void)
{
    constants();
    calls();
    return finish();
}
