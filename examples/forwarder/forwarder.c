/*
 * A small gateway: forwards IPv4 packets between two Linux interfaces, both ways, through the functions
 * of quickstart.h.
 *
 *   forwarder [--ceiling N | --silent] [--ledger SLOTS:ALLOWANCE] [--mark] [--fresh N] [--verbose]
 *             INTERFACE,MAC INTERFACE,MAC
 *
 *   INTERFACE,MAC   a link, and the Ethernet address of the neighbour that packets leaving by it go to
 *   --ceiling N     the greatest rate code that is approved, 0 to 15 (15 if it is not given)
 *   --silent        forward as a router that does not know Quick-Start
 *   --ledger S:A    keep a ledger for each outgoing link: the rates approved in the last S seconds sum
 *                   to at most A bits a second
 *   --mark          as if the queue were long: mark every packet, or drop it if it takes no mark
 *   --fresh N       use N as the fresh nonce of every packet, for tests; a gateway must not do this
 *   --verbose       a line for each packet; without it, a line for the first packet of each refusal
 *
 * The counters are printed on SIGUSR1, and on SIGINT or SIGTERM, which end the program.
 *
 * What it leaves out: no ICMP message is sent (a packet whose IP TTL has expired is counted and
 * dropped), no fragment is made (a packet too long for the next link is counted and dropped), there is
 * no table of routes, and a packet for an address of this machine is forwarded like any other. The
 * kernel must not forward between the two interfaces by itself (net.ipv4.ip_forward must be 0), or
 * every packet would arrive twice.
 */
#define _GNU_SOURCE /* for getrandom and the packet sockets; before every other header */
#include "quickstart.h"

#include <arpa/inet.h>
#include <errno.h>
#include <getopt.h>
#include <inttypes.h>
#include <linux/if_ether.h>
#include <linux/if_packet.h>
#include <net/if.h>
#include <poll.h>
#include <signal.h>
#include <stdio.h>
#include <stdlib.h>
#include <string.h>
#include <sys/random.h>
#include <sys/signalfd.h>
#include <sys/socket.h>
#include <time.h>
#include <unistd.h>

#if QS_ABI != 1
#error "this program is written for QS_ABI 1"
#endif

enum { MOST_SLOTS = 64 };

/* A link: its socket, the neighbour behind it, and the ledger of the rates approved for it. */
struct link {
    const char *name;
    int socket;
    struct sockaddr_ll neighbour;
    uint64_t row[MOST_SLOTS];
    uint64_t tick;
};
static struct link links[2];

/* The functions of quickstart.h that are called here. */
enum call { ROUTER, ROUTER_LEDGER, SILENT_ROUTER, MARK, CALLS };
static const char *const call_name[CALLS] = {"qs_router", "qs_router_ledger", "qs_silent_router",
                                             "qs_mark"};

static struct {
    enum call router; /* which of the three routers this gateway is */
    uint32_t ceiling;
    size_t slots;
    uint64_t allowance;
    int mark, fixed, verbose;
    uint32_t fresh; /* the fresh nonce, if it is fixed */
} setting = {.router = ROUTER, .ceiling = 15};

/* Every packet that is received adds one to `received` and to exactly one of: other, unfinished, cut and
   a router's answers. Every packet that is to be forwarded adds one to either sent or not_sent. */
static struct {
    uint64_t received, other, unfinished, cut, receive_failed, missed, sent, not_sent;
    uint64_t answer[CALLS][QS_DROP + 2]; /* the last one stands for any number above QS_DROP */
} counted;

static void stop(const char *what)
{
    fprintf(stderr, "forwarder: %s: %s\n", what, strerror(errno));
    exit(1);
}

static void usage(const char *fault)
{
    fprintf(stderr,
            "forwarder: %s\n"
            "usage: forwarder [--ceiling 0..15 | --silent] [--ledger SLOTS:ALLOWANCE] [--mark]\n"
            "                 [--fresh N] [--verbose] INTERFACE,MAC INTERFACE,MAC\n",
            fault);
    exit(2);
}

/* What a result number says, in plain words. */
static const char *meaning(uint32_t answer)
{
    switch (answer) {
    case QS_DONE: return "done";
    case QS_BAD_HEADER: return "not an IPv4 header, or its length or the total length is wrong";
    case QS_BAD_CHECKSUM: return "the header checksum is wrong";
    case QS_BAD_OPTION_LENGTH: return "the length of an IP option is wrong";
    case QS_NO_REQUEST: return "the header has no Quick-Start request";
    case QS_BAD_QUICK_START: return "a Quick-Start option's length is not 8, or there is a second one";
    case QS_TTL_EXPIRED: return "the IP TTL is 0 or 1, so the packet may go no further";
    case QS_OUT_OF_RANGE: return "an argument is outside its range: a fault of this program";
    case QS_ROW_ABOVE_ALLOWANCE: return "the ledger's row sums to more than the allowance";
    case QS_BACK_IN_TIME: return "the time is before the ledger's tick";
    case QS_DROP: return "the packet's sender takes no marks, so the packet is dropped";
    default: return "a result that these functions do not have";
    }
}

/* Counts an answer, and says it where it is wanted or, if it is not QS_DONE, the first of its kind. */
static void count(enum call call, uint32_t answer, const struct link *in, size_t len)
{
    uint64_t *number = &counted.answer[call][answer <= QS_DROP ? answer : QS_DROP + 1];

    (*number)++;
    if (setting.verbose || (answer != QS_DONE && *number == 1))
        printf("from %s, %zu bytes: %s answered %" PRIu32 ": %s\n", in->name, len, call_name[call],
               answer, meaning(answer));
}

/* Counts what happens outside the functions of quickstart.h, and says it likewise. */
static void count_other(uint64_t *number, const struct link *in, const char *what, const char *why)
{
    (*number)++;
    if (setting.verbose || *number == 1)
        printf("from %s: %s: %s\n", in->name, what, why);
}

/* Adds the packets for which the kernel had no room while this program was busy. Asking resets them. */
static void count_missed(void)
{
    for (int i = 0; i < 2; i++) {
        struct tpacket_stats kernel;
        socklen_t len = sizeof kernel;
        if (getsockopt(links[i].socket, SOL_PACKET, PACKET_STATISTICS, &kernel, &len) != 0)
            stop("PACKET_STATISTICS");
        counted.missed += kernel.tp_drops;
    }
}

static void print_counters(void)
{
    count_missed();
    printf("counters\n%8" PRIu64 " received\n", counted.received);
    for (int call = 0; call < CALLS; call++)
        for (uint32_t answer = 0; answer <= QS_DROP + 1; answer++)
            if (counted.answer[call][answer])
                printf("%8" PRIu64 " %s answered %s%" PRIu32 ": %s\n", counted.answer[call][answer],
                       call_name[call], answer > QS_DROP ? "at least " : "", answer, meaning(answer));
    printf("%8" PRIu64 " sent\n", counted.sent);
    printf("%8" PRIu64 " not sent: the link did not take the packet\n", counted.not_sent);
    printf("%8" PRIu64 " passed over: not for this interface's Ethernet address\n", counted.other);
    printf("%8" PRIu64 " dropped: checksum of the data left to a network card\n", counted.unfinished);
    printf("%8" PRIu64 " dropped: longer than the buffer\n", counted.cut);
    printf("%8" PRIu64 " missed: the kernel had no room for the packet\n", counted.missed);
    printf("%8" PRIu64 " errors on receiving\n", counted.receive_failed);
    puts("end of counters");
}

/* The ledger's time: whole seconds of a clock that is never set back. */
static uint64_t now(void)
{
    struct timespec time;

    if (clock_gettime(CLOCK_MONOTONIC, &time) != 0)
        stop("clock_gettime");
    return (uint64_t)time.tv_sec;
}

/* 30 random bits, new for each packet. A receiver that can guess them can report a higher rate than it
   was left, so they come from the kernel's generator and not from rand(). */
static uint32_t fresh_nonce(void)
{
    uint32_t word;

    if (setting.fixed)
        return setting.fresh;
    if (getrandom(&word, sizeof word, 0) != (ssize_t)sizeof word)
        stop("getrandom");
    return word >> 2;
}

/* The router's part, for a packet that is to leave by `out`. */
static uint32_t route(struct link *out, uint8_t *packet, size_t len)
{
    switch (setting.router) {
    case SILENT_ROUTER:
        return qs_silent_router(packet, len);
    case ROUTER_LEDGER:
        return qs_router_ledger(packet, len, setting.ceiling, fresh_nonce(), out->row, setting.slots,
                                &out->tick, setting.allowance, now());
    default:
        return qs_router(packet, len, setting.ceiling, fresh_nonce());
    }
}

/* Forwards one packet. A result other than QS_DONE left the packet as it came, and ends its way here. A
   request that is approved and then dropped, or not sent, stays in the ledger: its sender asks again
   later, and until then the ledger approves less than it might, never more. */
static void forward(struct link *in, struct link *out, uint8_t *packet, size_t len)
{
    uint32_t answer = route(out, packet, len);
    size_t total;

    count(setting.router, answer, in, len);
    if (answer != QS_DONE)
        return;
    if (setting.mark) {
        answer = qs_mark(packet, len);
        count(MARK, answer, in, len);
        if (answer != QS_DONE)
            return;
    }
    /* A short packet fills its Ethernet frame up with bytes that are not part of it. They are not sent
       on: QS_DONE says that the total length field is at most `len`. */
    total = (size_t)packet[2] << 8 | packet[3];
    if (sendto(out->socket, packet, total, 0, (const struct sockaddr *)&out->neighbour,
               sizeof out->neighbour) == (ssize_t)total)
        counted.sent++;
    else
        count_other(&counted.not_sent, in, "not sent", strerror(errno));
}

/* Whether the kernel says that the UDP or TCP checksum is still to be computed by a network card. It is
   so for a packet of a neighbour on the same machine (veth, a virtual machine) that offloads its
   checksums, and for several packets that this kernel joined into one (GRO). Sent as it is, such a
   packet would arrive with a wrong checksum; README.md says how to switch both off. */
static int is_unfinished(struct msghdr *message)
{
    for (struct cmsghdr *at = CMSG_FIRSTHDR(message); at; at = CMSG_NXTHDR(message, at))
        if (at->cmsg_level == SOL_PACKET && at->cmsg_type == PACKET_AUXDATA) {
            struct tpacket_auxdata data;
            memcpy(&data, CMSG_DATA(at), sizeof data);
            return (data.tp_status & TP_STATUS_CSUMNOTREADY) != 0;
        }
    return 0;
}

/* Takes one packet from link `in` and forwards it to link `out`, if there is one and it is for us. */
static void take(struct link *in, struct link *out)
{
    static uint8_t packet[65536]; /* no IPv4 packet is longer */
    union {
        struct cmsghdr aligned;
        char bytes[CMSG_SPACE(sizeof(struct tpacket_auxdata))];
    } control;
    struct sockaddr_ll from = {0};
    struct iovec buffer = {packet, sizeof packet};
    struct msghdr message = {.msg_name = &from, .msg_namelen = sizeof from, .msg_iov = &buffer,
                             .msg_iovlen = 1, .msg_control = control.bytes,
                             .msg_controllen = sizeof control.bytes};
    ssize_t len = recvmsg(in->socket, &message, MSG_DONTWAIT);

    if (len < 0) {
        if (errno != EAGAIN && errno != EINTR)
            count_other(&counted.receive_failed, in, "error on receiving", strerror(errno));
        return;
    }
    counted.received++;
    if (from.sll_pkttype != PACKET_HOST) /* sent by us, for another machine, or for all of them */
        count_other(&counted.other, in, "passed over", "not for this interface's Ethernet address");
    else if (is_unfinished(&message))
        count_other(&counted.unfinished, in, "dropped", "checksum of the data left to a network card");
    else if (message.msg_flags & MSG_TRUNC)
        count_other(&counted.cut, in, "dropped", "longer than the buffer");
    else
        forward(in, out, packet, (size_t)len);
}

/* A number from 0 to `most`, written in decimal digits up to `end`. */
static uint64_t number(const char *text, char end, uint64_t most, const char *fault)
{
    uint64_t value = 0;

    if (*text == end)
        usage(fault);
    for (; *text != end; text++) {
        if (*text < '0' || *text > '9' || value > most)
            usage(fault);
        value = 10 * value + (uint64_t)(*text - '0');
    }
    if (value > most)
        usage(fault);
    return value;
}

static void set_ledger(const char *text)
{
    const char *fault = "--ledger is SLOTS:ALLOWANCE, 1 to 64 slots, an allowance of at most 2^40";
    const char *colon = strchr(text, ':');

    if (!colon)
        usage(fault);
    setting.slots = number(text, ':', MOST_SLOTS, fault);
    setting.allowance = number(colon + 1, '\0', (uint64_t)1 << 40, fault);
    if (setting.slots == 0)
        usage(fault);
    setting.router = ROUTER_LEDGER;
}

static void read_options(int argc, char **argv)
{
    static const struct option options[] = {{"ceiling", 1, 0, 'c'}, {"silent", 0, 0, 's'},
                                            {"ledger", 1, 0, 'l'},  {"mark", 0, 0, 'm'},
                                            {"fresh", 1, 0, 'f'},   {"verbose", 0, 0, 'v'},
                                            {0, 0, 0, 0}};
    int option, silent = 0, knows = 0;

    while ((option = getopt_long(argc, argv, "", options, NULL)) != -1) {
        switch (option) {
        case 'c': setting.ceiling = (uint32_t)number(optarg, '\0', 15, "--ceiling is 0 to 15"); break;
        case 's': silent = 1; break;
        case 'l': set_ledger(optarg); break;
        case 'm': setting.mark = 1; break;
        case 'f':
            setting.fixed = 1;
            setting.fresh = (uint32_t)number(optarg, '\0', 0x3FFFFFFF, "--fresh is 0 to 1073741823");
            break;
        case 'v': setting.verbose = 1; break;
        default: usage("there is no such option");
        }
        knows |= option == 'c' || option == 'l' || option == 'f';
    }
    if (silent && knows)
        usage("a silent router has no ceiling, ledger or fresh nonce");
    if (silent)
        setting.router = SILENT_ROUTER;
    if (argc - optind != 2)
        usage("two links are wanted");
}

/* Opens a link that is written INTERFACE,MAC. */
static void open_link(struct link *link, char *text)
{
    char *comma = strrchr(text, ',');
    uint8_t *mac = link->neighbour.sll_addr;
    struct sockaddr_ll here = {.sll_family = AF_PACKET, .sll_protocol = htons(ETH_P_IP)};
    int end = 0, on = 1;

    if (!comma || sscanf(comma + 1, "%2hhx:%2hhx:%2hhx:%2hhx:%2hhx:%2hhx%n", mac, mac + 1, mac + 2,
                         mac + 3, mac + 4, mac + 5, &end) != 6 || comma[1 + end] != '\0')
        usage("a link is INTERFACE,MAC");
    *comma = '\0';
    link->name = text;
    here.sll_ifindex = (int)if_nametoindex(text);
    if (here.sll_ifindex == 0)
        stop(text);
    link->neighbour.sll_family = AF_PACKET;
    link->neighbour.sll_protocol = htons(ETH_P_IP);
    link->neighbour.sll_ifindex = here.sll_ifindex;
    link->neighbour.sll_halen = 6;
    link->tick = now();

    /* Protocol 0 receives nothing, so no packet of another interface gets in before the bind. */
    link->socket = socket(AF_PACKET, SOCK_DGRAM, 0);
    if (link->socket < 0)
        stop("socket");
    if (setsockopt(link->socket, SOL_PACKET, PACKET_AUXDATA, &on, sizeof on) != 0)
        stop("PACKET_AUXDATA");
    if (bind(link->socket, (const struct sockaddr *)&here, sizeof here) != 0)
        stop(text);
}

/* The signals are taken as a third thing to poll for, so that no packet load can keep them waiting. */
static int open_signals(void)
{
    sigset_t signals;
    int fd;

    sigemptyset(&signals);
    sigaddset(&signals, SIGINT);
    sigaddset(&signals, SIGTERM);
    sigaddset(&signals, SIGUSR1);
    if (sigprocmask(SIG_BLOCK, &signals, NULL) != 0)
        stop("sigprocmask");
    fd = signalfd(-1, &signals, 0);
    if (fd < 0)
        stop("signalfd");
    return fd;
}

/* Prints the counters, and ends the program unless the signal is SIGUSR1. */
static void take_signal(int fd)
{
    struct signalfd_siginfo signal;

    if (read(fd, &signal, sizeof signal) != (ssize_t)sizeof signal)
        stop("reading a signal");
    print_counters();
    if (signal.ssi_signo != SIGUSR1)
        exit(0);
}

int main(int argc, char **argv)
{
    struct pollfd ready[3];

    setvbuf(stdout, NULL, _IOLBF, 0);
    read_options(argc, argv);
    for (int i = 0; i < 2; i++) {
        open_link(&links[i], argv[optind + i]);
        ready[i] = (struct pollfd){.fd = links[i].socket, .events = POLLIN};
    }
    if (links[0].neighbour.sll_ifindex == links[1].neighbour.sll_ifindex)
        usage("the two links are one interface");
    ready[2] = (struct pollfd){.fd = open_signals(), .events = POLLIN};
    printf("forwarding between %s and %s with %s\n", links[0].name, links[1].name,
           call_name[setting.router]);
    for (;;) {
        if (poll(ready, 3, -1) < 0) {
            if (errno == EINTR)
                continue;
            stop("poll");
        }
        for (int i = 0; i < 2; i++)
            if (ready[i].revents)
                take(&links[i], &links[1 - i]);
        if (ready[2].revents)
            take_signal(ready[2].fd);
    }
}
