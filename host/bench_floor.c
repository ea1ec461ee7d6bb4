/*
 * The floor of the benchmark: the cheapest step that forwards an IPv4 packet. It tests nothing and reads
 * no option; it lowers the IP TTL by one and brings the checksum along by RFC 1624, equation 3,
 *
 *     HC' = ~(~HC + ~m + m')
 *
 * in one's complement addition, where m is the word of IP TTL and protocol. Here m' is m less 0100, so
 * ~m + m' is FEFF, whatever m is, and HC' is HC + 0100 with the carry added in below, FFFF written as 0000.
 *
 * Wherever the header's sum was right, this is the checksum that sealing over the whole header writes,
 * without exception: both are the same number modulo FFFF and both lie from 0000 to FFFE, a sum with a
 * word in it that is not 0 (FEFF here, the version there) being never 0. That holds for a checksum that
 * came as FFFF too. It is equation 2 (RFC 1141) that gives FFFF for an HC of FEFF, where sealing gives 0000.
 */
#include <stddef.h>
#include <stdint.h>
#include <string.h>

/* One's complement addition is the same in both byte orders, so the words are read as the machine reads. */
uint32_t floor_step(uint8_t *packet, size_t len)
{
    static const uint8_t one_ttl[2] = {1, 0};
    uint16_t checksum, step;
    uint32_t sum;

    (void)len;
    packet[8]--;
    memcpy(&checksum, packet + 10, 2);
    memcpy(&step, one_ttl, 2);
    sum = (uint32_t)checksum + step;
    checksum = (uint16_t)(sum + (sum >= 0xFFFF));
    memcpy(packet + 10, &checksum, 2);
    return 0;
}

/* A call that does nothing: what the loop and the call cost by themselves. */
uint32_t nothing(uint8_t *packet, size_t len)
{
    (void)packet;
    (void)len;
    return 0;
}
