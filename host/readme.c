/*
 * The forwarding function of README.md, as it stands there: host/run takes it from the page and includes
 * it in front of this file.
 * The last line is `N passed, M failed`.
 */
#include "report.h"

int main(void)
{
    uint8_t packet[30];

    memcpy(packet, original, 30);
    test("README.md: a packet goes on", forward(packet, 30, 0xFFFFFFFF, 7, 0));
    /* both TTLs one lower, so the checksum is 0101 higher; code 5 is within ceiling and allowance */
    test("README.md: the packet", is(packet, "\x3F\x06\x47\x53", "\x05\x7F\x00\x00\x00\x00"));
    test("README.md: the ledger", row[7] == 1280000 && tick == 7);
    packet[10] ^= 1;
    test("README.md: a wrong checksum does not go on", !forward(packet, 30, 0, 7, 0));
    memcpy(packet, original, 30);
    test("README.md: a long queue drops what takes no mark", !forward(packet, 30, 0, 8, 1));
    return finish();
}
