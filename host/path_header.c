/*
 * include/quickstart_path.h, used by a C caller (C99) or, compiled a second time, by a C++ one: its
 * types, its constants, and both functions on document 01's packet, each figure worked out by hand.
 * It is linked with both archives, so that a run can be held to the calls of quickstart.h, hop by hop.
 * The last line is `N passed, M failed`.
 */
#include "quickstart_path.h"
#include "quickstart_path.h" /* the guard lets it be included twice */

#include "report.h"

/* These do not compile unless the prototypes have exactly these types. */
static uint32_t (*const summary_of)(const struct qs_hop *, size_t, uint32_t *, size_t) = qs_path_summary;
static uint32_t (*const run)(uint8_t *, size_t, const struct qs_hop *, size_t, uint32_t, uint32_t,
                             uint8_t, uint32_t) = qs_path_run;

#if QS_ABI != 1
#error "this test is for QS_ABI 1"
#endif

#define ONES 0x3FFFFFFFu /* the greatest nonce */

/* The TTL Diff of report.h's packet: 64 - 128 modulo 256. */
static const uint8_t diff = 192;

/* The original sent along a row to a receiver with ceiling 15, for the sender that sent it. */
static uint32_t along(uint8_t *packet, const struct qs_hop *row, size_t hops)
{
    memcpy(packet, original, 30);
    return run(packet, 30, row, hops, 15, 5, diff, 0);
}

static void types(void)
{
    test("header: lost is 42", QS_LOST == 42);
    test("header: accepted is 100, not accepted 200", QS_ACCEPTED == 100 && QS_NOT_ACCEPTED == 200);
    test("header: a hop has 12 bytes", sizeof(struct qs_hop) == 12 && sizeof(bool) == 1);
    test("header: knows, ceiling and fresh_nonce at 0, 4 and 8",
         offsetof(struct qs_hop, knows) == 0 && offsetof(struct qs_hop, ceiling) == 4
             && offsetof(struct qs_hop, fresh_nonce) == 8);
    test("header: size_t has 64 bits", sizeof(size_t) == 8 && sizeof(void *) == 8);
}

static int summary_is(const struct qs_hop *row, size_t hops, uint32_t routers, uint32_t silent,
                      uint32_t least)
{
    uint32_t s[3] = {77, 77, 77};
    return summary_of(row, hops, s, 3) == QS_DONE && s[0] == routers && s[1] == silent && s[2] == least;
}

static void summaries(void)
{
    static const struct qs_hop row[4] = {{true, 9, ONES}, {false, 2, 5}, {true, 4, 0}, {true, 7, 1}};
    static const struct qs_hop silent[2] = {{false, 0, 0}, {false, 3, ONES}};
    static const struct qs_hop bad[3] = {{true, 9, 0}, {true, 15, ONES}, {false, 16, 0}};
    uint32_t s[4] = {77, 78, 79, 80};

    test("qs_path_summary: four routers, one silent, least ceiling 4", summary_is(row, 4, 4, 1, 4));
    test("qs_path_summary: the first two", summary_is(row, 2, 2, 1, 9));
    test("qs_path_summary: the first three, the last of them the least", summary_is(row, 3, 3, 1, 4));
    test("qs_path_summary: the last two", summary_is(row + 2, 2, 2, 0, 4));
    test("qs_path_summary: silent ones alone", summary_is(silent, 2, 2, 2, 15));
    test("qs_path_summary: no router", summary_is(row, 0, 0, 0, 15));
    test("qs_path_summary: 7 for room for two numbers", summary_of(row, 4, s, 2) == QS_OUT_OF_RANGE);
    test("qs_path_summary: 7 for room for four", summary_of(row, 4, s, 4) == QS_OUT_OF_RANGE);
    test("qs_path_summary: 7 for a silent hop's ceiling 16", summary_of(bad, 3, s, 3) == QS_OUT_OF_RANGE);
    test("qs_path_summary: nothing was written", s[0] == 77 && s[1] == 78 && s[2] == 79 && s[3] == 80);
    test("qs_path_summary: the hops before it are in range", summary_is(bad, 2, 2, 0, 9));
}

/* What a path makes of the original. The checksum grows by what the words lose. */
static void verdicts(void)
{
    static const struct qs_hop lowers[1] = {{true, 3, ONES}};
    static const struct qs_hop denies[2] = {{true, 15, 0}, {true, 0, ONES}};
    static const struct qs_hop last_silent[2] = {{true, 15, ONES}, {false, 0, 0}};
    static const struct qs_hop last_lowest[3] = {{true, 15, ONES}, {true, 9, ONES}, {true, 2, 0}};
    struct qs_hop many[65];
    uint8_t packet[30];
    size_t i;

    for (i = 0; i < 65; i++) {
        many[i].knows = true;
        many[i].ceiling = 15;
        many[i].fresh_nonce = ONES;
    }
    test("qs_path_run: no router: accepted at 5", along(packet, many, 0) == QS_ACCEPTED + 5);
    test("qs_path_run: no router: the packet", memcmp(packet, original, 30) == 0);
    test("qs_path_run: ceiling 3: accepted at 3", along(packet, lowers, 1) == QS_ACCEPTED + 3);
    test("qs_path_run: ceiling 3: the packet", is(packet, "\x3F\x06\x3A\x53", "\x03\x7F\x00\x00\x0F\x00"));
    test("qs_path_run: the last of three lowers: accepted at 2",
         along(packet, last_lowest, 3) == QS_ACCEPTED + 2);
    test("qs_path_run: the last of three lowers: the packet",
         is(packet, "\x3D\x06\x4C\x55", "\x02\x7D\x00\x00\x00\x00"));
    test("qs_path_run: ceiling 0: unanswered", along(packet, denies, 2) == QS_UNANSWERED);
    test("qs_path_run: ceiling 0: the packet", is(packet, "\x3E\x06\x4D\xD2", "\x00\x00\x00\x00\x00\x00"));
    test("qs_path_run: the last one silent: 14",
         along(packet, last_silent, 2) == QS_NOT_ACCEPTED + QS_TTL_DIFF_WRONG);
    test("qs_path_run: the last one silent: the packet",
         is(packet, "\x3E\x06\x48\x53", "\x05\x7F\x00\x00\x00\x00"));
    test("qs_path_run: TTL 64, 63 routers: accepted at 5", along(packet, many, 63) == QS_ACCEPTED + 5);
    test("qs_path_run: TTL 64, 63 routers: the packet",
         is(packet, "\x01\x06\x85\x91", "\x05\x41\x00\x00\x00\x00"));
    test("qs_path_run: TTL 64, 64 routers: lost", along(packet, many, 64) == QS_LOST);
    test("qs_path_run: TTL 64, 64 routers: the packet as the 63rd left it",
         is(packet, "\x01\x06\x85\x91", "\x05\x41\x00\x00\x00\x00"));
    test("qs_path_run: 65 routers: 7", along(packet, many, 65) == QS_OUT_OF_RANGE);
    test("qs_path_run: 65 routers: the packet", memcmp(packet, original, 30) == 0);
}

/* A sender whose open request is not the packet's. Ceiling 3 leaves rate 3, TTL Diff 192, nonce 960. */
static void judged(void)
{
    static const struct qs_hop row[1] = {{true, 3, ONES}};
    static const struct {
        const char *name;
        uint32_t code;
        uint8_t ttl_diff;
        uint32_t nonce;
        uint32_t result;
    } cases[] = {
        {"code 2: 13", 2, 192, 0, QS_NOT_ACCEPTED + QS_RATE_WRONG},
        {"code 3: accepted", 3, 192, 0, QS_ACCEPTED + 3},
        {"TTL Diff 193: 14", 5, 193, 0, QS_NOT_ACCEPTED + QS_TTL_DIFF_WRONG},
        {"TTL Diff 64: 14", 5, 64, 0, QS_NOT_ACCEPTED + QS_TTL_DIFF_WRONG},
        {"nonce 32, among the fields up to 3: 15", 5, 192, 32, QS_NOT_ACCEPTED + QS_NONCE_WRONG},
        {"nonce 64, above the fields up to 3: accepted", 5, 192, 64, QS_ACCEPTED + 3},
        {"all wrong: 13 comes first", 2, 193, 32, QS_NOT_ACCEPTED + QS_RATE_WRONG},
        {"TTL Diff and nonce wrong: 14 comes first", 5, 193, 32, QS_NOT_ACCEPTED + QS_TTL_DIFF_WRONG}};
    uint8_t packet[30];
    char name[80];
    size_t i;

    for (i = 0; i < sizeof cases / sizeof *cases; i++) {
        memcpy(packet, original, 30);
        snprintf(name, sizeof name, "qs_path_run: open for %s", cases[i].name);
        test(name, run(packet, 30, row, 1, 15, cases[i].code, cases[i].ttl_diff, cases[i].nonce)
                       == cases[i].result
                   && is(packet, "\x3F\x06\x3A\x53", "\x03\x7F\x00\x00\x0F\x00"));
    }
}

static void refusals(void)
{
    static const struct qs_hop row[2] = {{true, 15, 0}, {false, 0, ONES + 1}};
    uint8_t packet[30], before[30];

    memcpy(packet, original, 30);
    test("qs_path_run: 7 for a silent hop's nonce",
         run(packet, 30, row, 2, 15, 5, diff, 0) == QS_OUT_OF_RANGE);
    test("qs_path_run: 7 for the receiver's ceiling",
         run(packet, 30, row, 1, 16, 5, diff, 0) == QS_OUT_OF_RANGE);
    test("qs_path_run: 7 for code 0", run(packet, 30, row, 1, 15, 0, diff, 0) == QS_OUT_OF_RANGE);
    test("qs_path_run: 7 for code 16", run(packet, 30, row, 1, 15, 16, diff, 0) == QS_OUT_OF_RANGE);
    test("qs_path_run: 7 for the nonce", run(packet, 30, row, 1, 15, 5, diff, ONES + 1) == QS_OUT_OF_RANGE);
    test("qs_path_run: 7 comes before 1", run(packet, 27, row, 2, 15, 5, diff, 0) == QS_OUT_OF_RANGE);
    test("qs_path_run: 1", run(packet, 27, row, 1, 15, 5, diff, 0) == QS_BAD_HEADER);
    test("qs_path_run: the packet after 7 and 1", memcmp(packet, original, 30) == 0);

    packet[22] = 0x85; /* a report; the checksum falls by 80 00 with end-around borrow */
    memcpy(before, packet, 30);
    test("qs_path_run: 2", run(packet, 30, row, 1, 15, 5, diff, 0) == QS_BAD_CHECKSUM);
    test("qs_path_run: the packet after 2", memcmp(packet, before, 30) == 0);
    packet[10] = 0xC6;
    packet[11] = 0x51;
    memcpy(before, packet, 30);
    test("qs_path_run: 4", run(packet, 30, row, 1, 15, 5, diff, 0) == QS_NO_REQUEST);
    test("qs_path_run: the packet after 4", memcmp(packet, before, 30) == 0);

    /* length 9 runs past the header, and length 7 is none of Quick-Start's */
    memcpy(packet, original, 30);
    packet[21] = 9;
    packet[11] = 0x51;
    memcpy(before, packet, 30);
    test("qs_path_run: 3", run(packet, 30, row, 1, 15, 5, diff, 0) == QS_BAD_OPTION_LENGTH);
    test("qs_path_run: the packet after 3", memcmp(packet, before, 30) == 0);
    packet[21] = 7;
    packet[11] = 0x53;
    memcpy(before, packet, 30);
    test("qs_path_run: 5", run(packet, 30, row, 1, 15, 5, diff, 0) == QS_BAD_QUICK_START);
    test("qs_path_run: the packet after 5", memcmp(packet, before, 30) == 0);
}

/* The same path by the calls of quickstart.h, from the other archive. */
static void both_archives(void)
{
    static const struct qs_hop row[4] = {
        {true, 15, 0x12345678}, {true, 4, ONES}, {false, 1, 0}, {true, 2, 0x2AAAAAAA}};
    uint8_t packet[30], stepped[30], response[8];
    uint32_t result = along(packet, row, 4);
    int i, done = 1;

    memcpy(stepped, original, 30);
    for (i = 0; i < 4; i++)
        done = done
               && (row[i].knows ? qs_router(stepped, 30, row[i].ceiling, row[i].fresh_nonce)
                                : qs_silent_router(stepped, 30))
                      == QS_DONE;
    test("both archives: each router is done", done);
    test("both archives: the packet", memcmp(packet, stepped, 30) == 0);
    test("both archives: the receiver answers", qs_receiver(stepped, 30, 15, response, 8) == QS_DONE);
    test("both archives: rate 2, TTL Diff 191", response[2] == 2 && response[3] == 191);
    test("both archives: not accepted, for the silent router", result == 214);
}

int main(void)
{
    types();
    summaries();
    verdicts();
    judged();
    refusals();
    both_archives();
    return finish();
}
