/*
 * Sends the packets of the forwarder's test, and takes them at the other end.
 *
 *   traffic udp FROM PORT TO PORT TTL TOS OPTIONS BYTES
 *   traffic offload FROM PORT TO PORT TTL TOS OPTIONS BYTES
 *   traffic raw TO HEX
 *   traffic frame INTERFACE MAC HEX
 *   traffic take ADDRESS PORT
 *
 *   udp      a UDP datagram whose IP header, with these options (hexadecimal, - for none), TTL and second
 *            byte (TOS), the kernel makes; no UDP checksum. BYTES is the length of the data
 *   offload  the same with a UDP checksum, which the kernel leaves to the network card
 *   raw      a whole packet whose total length and header checksum the kernel writes
 *   frame    a whole packet, exactly these bytes, in an Ethernet frame to this address
 *   take     receives UDP datagrams and prints for each its source port and its data in hexadecimal
 */
#define _GNU_SOURCE
#include <arpa/inet.h>
#include <linux/if_ether.h>
#include <linux/if_packet.h>
#include <net/if.h>
#include <netinet/in.h>
#include <stdint.h>
#include <stdio.h>
#include <stdlib.h>
#include <string.h>
#include <sys/socket.h>

static uint8_t bytes[65536];

static void stop(const char *what)
{
    perror(what);
    exit(1);
}

static void usage(void)
{
    fputs("usage: traffic udp|offload FROM PORT TO PORT TTL TOS OPTIONS BYTES\n"
          "       traffic raw TO HEX\n"
          "       traffic frame INTERFACE MAC HEX\n"
          "       traffic take ADDRESS PORT\n", stderr);
    exit(2);
}

static int open_socket(int domain, int type, int protocol)
{
    int fd = socket(domain, type, protocol);
    if (fd < 0)
        stop("socket");
    return fd;
}

static void set(int fd, int level, int name, const void *value, size_t len, const char *what)
{
    if (setsockopt(fd, level, name, value, (socklen_t)len) != 0)
        stop(what);
}

/* Reads pairs of hexadecimal digits into `bytes`. */
static size_t read_hex(const char *text)
{
    size_t len = 0;
    unsigned byte;

    for (; *text; text += 2) {
        int end = 0;
        if (len == sizeof bytes || sscanf(text, "%2x%n", &byte, &end) != 1 || end != 2)
            usage();
        bytes[len++] = (uint8_t)byte;
    }
    return len;
}

static struct sockaddr_in address(const char *text, const char *port)
{
    struct sockaddr_in result = {.sin_family = AF_INET, .sin_port = htons((uint16_t)atoi(port))};
    if (inet_pton(AF_INET, text, &result.sin_addr) != 1)
        usage();
    return result;
}

static void send_all(int fd, size_t len, const void *to, size_t to_len)
{
    if (sendto(fd, bytes, len, 0, to, (socklen_t)to_len) != (ssize_t)len)
        stop("sendto");
}

/* The kernel makes the IP header, so that neither it nor its checksum is our own work. */
static void send_udp(char **word, int without_checksum)
{
    int fd = open_socket(AF_INET, SOCK_DGRAM, 0);
    struct sockaddr_in from = address(word[0], word[1]), to = address(word[2], word[3]);
    int ttl = atoi(word[4]), tos = atoi(word[5]);
    size_t len = (size_t)atol(word[7]), at;
    char name[40];

    if (len > sizeof bytes)
        usage();
    if (bind(fd, (const struct sockaddr *)&from, sizeof from) != 0)
        stop("bind");
    set(fd, IPPROTO_IP, IP_TTL, &ttl, sizeof ttl, "IP_TTL");
    set(fd, IPPROTO_IP, IP_TOS, &tos, sizeof tos, "IP_TOS");
    set(fd, SOL_SOCKET, SO_NO_CHECK, &without_checksum, sizeof without_checksum, "SO_NO_CHECK");
    if (strcmp(word[6], "-") != 0)
        set(fd, IPPROTO_IP, IP_OPTIONS, bytes, read_hex(word[6]), "IP_OPTIONS");
    /* the data: the source port in words, then bytes that are all different from their neighbours */
    for (at = 0; at < len; at++)
        bytes[at] = (uint8_t)(37 * at + 11);
    at = (size_t)snprintf(name, sizeof name, "from port %s.", word[1]);
    memcpy(bytes, name, at < len ? at : len);
    send_all(fd, len, &to, sizeof to);
}

static void send_raw(char **word)
{
    struct sockaddr_in to = address(word[0], "0");
    send_all(open_socket(AF_INET, SOCK_RAW, IPPROTO_RAW), read_hex(word[1]), &to, sizeof to);
}

static void send_frame(char **word)
{
    struct sockaddr_ll to = {.sll_family = AF_PACKET, .sll_protocol = htons(ETH_P_IP), .sll_halen = 6,
                             .sll_ifindex = (int)if_nametoindex(word[0])};
    uint8_t *mac = to.sll_addr;

    if (sscanf(word[1], "%2hhx:%2hhx:%2hhx:%2hhx:%2hhx:%2hhx", mac, mac + 1, mac + 2, mac + 3, mac + 4,
               mac + 5) != 6)
        usage();
    send_all(open_socket(AF_PACKET, SOCK_DGRAM, 0), read_hex(word[2]), &to, sizeof to);
}

static void take(char **word)
{
    struct sockaddr_in here = address(word[0], word[1]), from;
    int fd = open_socket(AF_INET, SOCK_DGRAM, 0);

    setvbuf(stdout, NULL, _IOLBF, 0);
    if (bind(fd, (const struct sockaddr *)&here, sizeof here) != 0)
        stop("bind");
    puts("taking");
    for (;;) {
        socklen_t from_len = sizeof from;
        ssize_t len = recvfrom(fd, bytes, sizeof bytes, 0, (struct sockaddr *)&from, &from_len);
        if (len < 0)
            stop("recvfrom");
        printf("%u ", ntohs(from.sin_port));
        for (ssize_t at = 0; at < len; at++)
            printf("%02x", bytes[at]);
        puts(".");
    }
}

int main(int argc, char **argv)
{
    const char *job = argc > 1 ? argv[1] : "";

    if (argc == 10 && strcmp(job, "udp") == 0)
        send_udp(argv + 2, 1);
    else if (argc == 10 && strcmp(job, "offload") == 0)
        send_udp(argv + 2, 0);
    else if (argc == 4 && strcmp(job, "raw") == 0)
        send_raw(argv + 2);
    else if (argc == 5 && strcmp(job, "frame") == 0)
        send_frame(argv + 2);
    else if (argc == 4 && strcmp(job, "take") == 0)
        take(argv + 2);
    else
        usage();
    return 0;
}
