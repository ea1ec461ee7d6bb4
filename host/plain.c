/*
 * Router, silent router, receiver and marking in plain C, for the benchmark: what a careful C
 * programmer would write, with the same tests in the same order and the same results as qs_router,
 * qs_silent_router, qs_receiver and qs_mark.
 *
 * It is compiled twice, under two names, with two ways to sum the header: PLAIN_WIDE 0 adds 16-bit
 * words as they are written on the wire, PLAIN_WIDE 1 adds 32-bit words in the machine's own byte
 * order (RFC 1071 shows that this gives the same sum with its bytes swapped).
 */
#include <stddef.h>
#include <stdint.h>
#include <string.h>

#if PLAIN_WIDE
#define PLAIN(job) plain32_##job
#else
#define PLAIN(job) plain16_##job
#endif

enum { DONE = 0, BAD_HEADER = 1, BAD_CHECKSUM = 2, BAD_LENGTH = 3, NO_REQUEST = 4, BAD_QUICK_START = 5,
       EXPIRED = 6, OUT_OF_RANGE = 7, UNANSWERED = 40, DROP = 41 };

enum { OPTION_END = 0, OPTION_NOP = 1, OPTION_QUICK_START = 25, QUICK_START_LENGTH = 8,
       KIND_RESPONSE = 27 };

enum { CE = 1, ECT = 2, TOP_RATE = 15 };

static inline uint32_t get32(const uint8_t *at)
{
    return (uint32_t)at[0] << 24 | (uint32_t)at[1] << 16 | (uint32_t)at[2] << 8 | at[3];
}

static inline void put32(uint8_t *at, uint32_t number)
{
    at[0] = (uint8_t)(number >> 24);
    at[1] = (uint8_t)(number >> 16);
    at[2] = (uint8_t)(number >> 8);
    at[3] = (uint8_t)number;
}

/* The folded sum of the header's 16-bit words, in the byte order that put_sum writes. */
#if PLAIN_WIDE
static inline uint32_t header_sum(const uint8_t *header, size_t length)
{
    uint64_t sum = 0; /* at most 15 words: three folds leave no carry */
    for (size_t at = 0; at < length; at += 4) {
        uint32_t word;
        memcpy(&word, header + at, 4);
        sum += word;
    }
    sum = (sum & 0xFFFFFFFF) + (sum >> 32);
    sum = (sum & 0xFFFF) + (sum >> 16);
    return (uint32_t)((sum & 0xFFFF) + (sum >> 16));
}

static inline void put_sum(uint8_t *at, uint32_t number)
{
    uint16_t sum = (uint16_t)number;
    memcpy(at, &sum, 2);
}
#else
static inline uint32_t header_sum(const uint8_t *header, size_t length)
{
    uint32_t sum = 0; /* at most 30 words: no carry is lost */
    for (size_t at = 0; at < length; at += 2)
        sum += (uint32_t)header[at] << 8 | header[at + 1];
    sum = (sum & 0xFFFF) + (sum >> 16);
    return (sum & 0xFFFF) + (sum >> 16);
}

static inline void put_sum(uint8_t *at, uint32_t number)
{
    at[0] = (uint8_t)(number >> 8);
    at[1] = (uint8_t)number;
}
#endif

/* Tests the header: 0 and its length, or a refusal. */
static inline uint32_t check(const uint8_t *packet, size_t len, size_t *length)
{
    size_t header, total;

    if (len < 20 || packet[0] >> 4 != 4)
        return BAD_HEADER;
    header = 4 * (size_t)(packet[0] & 15);
    total = (size_t)packet[2] << 8 | packet[3];
    if (header < 20 || total < header || total > len)
        return BAD_HEADER;
    if (header_sum(packet, header) != 0xFFFF)
        return BAD_CHECKSUM;
    *length = header;
    return 0;
}

/* Finds the Quick-Start option: 0 and its place in the packet (0 if there is none), or a refusal. */
static inline uint32_t find_quick_start(const uint8_t *packet, size_t header, size_t *found)
{
    const uint8_t *at = packet + 20, *end = packet + header;

    *found = 0;
    while (at < end && *at != OPTION_END) {
        if (*at == OPTION_NOP) {
            at++;
            continue;
        }
        if (end - at < 2 || at[1] < 2 || at[1] > end - at)
            return BAD_LENGTH;
        if (*at == OPTION_QUICK_START) {
            if (at[1] != QUICK_START_LENGTH || *found)
                return BAD_QUICK_START;
            *found = (size_t)(at - packet);
        }
        at += at[1];
    }
    return 0;
}

/* Lowers or denies a request; leaves everything else. */
static inline void rewrite(uint8_t *option, uint32_t ceiling, uint32_t fresh_nonce)
{
    uint32_t rate = option[2]; /* with the function above it: 1 to 15 is a request with a rate */
    uint32_t word, mask;

    if (rate == 0 || rate > TOP_RATE)
        return;
    word = get32(option + 4);
    if (ceiling == 0) {
        option[2] = 0;
        option[3] = 0;
        put32(option + 4, word & 3);
        return;
    }
    option[3]--;
    if (ceiling >= rate)
        return;
    option[2] = (uint8_t)ceiling;
    /* fields 2 * ceiling up to 2 * rate of the nonce, which stands above two reserved bits */
    mask = ((uint32_t)1 << 2 * rate) - ((uint32_t)1 << 2 * ceiling);
    put32(option + 4, (word & ~(mask << 2)) | (fresh_nonce & mask) << 2);
}

/* Writes the checksum over the whole header. */
static inline void seal(uint8_t *packet, size_t header)
{
    packet[10] = 0;
    packet[11] = 0;
    put_sum(packet + 10, ~header_sum(packet, header));
}

uint32_t PLAIN(router)(uint8_t *packet, size_t len, uint32_t ceiling, uint32_t fresh_nonce)
{
    size_t header, option;
    uint32_t refusal;

    if (ceiling > TOP_RATE || fresh_nonce >> 30 != 0)
        return OUT_OF_RANGE;
    refusal = check(packet, len, &header);
    if (refusal)
        return refusal;
    refusal = find_quick_start(packet, header, &option);
    if (refusal)
        return refusal;
    if (packet[8] < 2)
        return EXPIRED;

    if (option)
        rewrite(packet + option, ceiling, fresh_nonce);
    packet[8]--;
    seal(packet, header);
    return DONE;
}

uint32_t PLAIN(silent_router)(uint8_t *packet, size_t len)
{
    size_t header;
    uint32_t refusal = check(packet, len, &header);

    if (refusal)
        return refusal;
    if (packet[8] < 2)
        return EXPIRED;
    packet[8]--;
    seal(packet, header);
    return DONE;
}

uint32_t PLAIN(receiver)(const uint8_t *packet, size_t len, uint32_t ceiling, uint8_t *response,
                         size_t response_len)
{
    size_t header, option;
    uint32_t refusal, rate;

    if (ceiling > TOP_RATE || response_len != QUICK_START_LENGTH)
        return OUT_OF_RANGE;
    refusal = check(packet, len, &header);
    if (refusal)
        return refusal;
    refusal = find_quick_start(packet, header, &option);
    if (refusal)
        return refusal;
    if (!option || packet[option + 2] > TOP_RATE)
        return NO_REQUEST;

    rate = packet[option + 2] < ceiling ? packet[option + 2] : ceiling;
    if (rate == 0)
        return UNANSWERED;
    response[0] = KIND_RESPONSE;
    response[1] = QUICK_START_LENGTH;
    response[2] = (uint8_t)rate;
    response[3] = (uint8_t)(packet[8] - packet[option + 3]);
    put32(response + 4, get32(packet + option + 4) & ~(uint32_t)3);
    return DONE;
}

uint32_t PLAIN(mark)(uint8_t *packet, size_t len)
{
    size_t header;
    uint32_t refusal = check(packet, len, &header);

    if (refusal)
        return refusal;
    if (!(packet[1] & ECT))
        return DROP;
    packet[1] |= CE;
    seal(packet, header);
    return DONE;
}
