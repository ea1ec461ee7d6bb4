/*
 * quickstart_path.h - what a whole path makes of a Quick-Start request, for a planner written in C.
 *
 * quickstart.h has what one router and one receiver do to one packet. This header has a path of
 * them, up to 64 routers in a row, and what comes of a request that a sender sends along it: the
 * summary of the path in three numbers, and the run of a packet from router to router to the
 * receiver and, with the receiver's response, back to the sender.
 *
 * The functions stand in an archive of their own, which `host/archives` writes beside libgateway.a:
 *
 *     cc planner.c -Iinclude -Ltarget/staticlib -lrows
 *
 * It needs nothing of libgateway.a. A program that calls functions of both headers links both, in either
 * order: the archives define no name in common but what is private to each.
 *
 *     cc both.c -Iinclude -Ltarget/staticlib -lrows -lgateway
 *
 * An example: three routers, of which the second does not know Quick-Start. `p` holds the packet that
 * the sender would send, `n` bytes and at most 1500, with IP TTL `ttl` and a request for `code` with
 * `qs_ttl` and `nonce`:
 *
 *     struct qs_hop path[3] = {{true, 12, 0}, {false, 0, 0}, {true, 9, 0}};
 *     uint32_t s[3];
 *     uint8_t trial[1500];
 *
 *     for (int i = 0; i < 3; i++)
 *         if (path[i].knows) path[i].fresh_nonce = random_bits() >> 2;
 *     if (qs_path_summary(path, 3, s, 3) == QS_DONE)
 *         printf("%u routers, %u silent, rate code at most %u\n", s[0], s[1], s[2]);
 *     memcpy(trial, p, n);                              // the run changes what it is lent
 *     uint32_t r = qs_path_run(trial, n, path, 3, 15, code, (uint8_t)(ttl - qs_ttl), nonce);
 *     if (r == QS_LOST)
 *         puts("a router meets IP TTL 0 or 1: the packet goes no further");
 *     else if (r == QS_UNANSWERED)
 *         puts("somebody on the path allows no rate");
 *     else if (r > QS_NOT_ACCEPTED)
 *         printf("the sender does not believe the response: %u\n", r - QS_NOT_ACCEPTED);
 *     else if (r > QS_ACCEPTED)
 *         printf("accepted at rate code %u\n", r - QS_ACCEPTED);
 *     else
 *         printf("refused: %u\n", r);                   // trial is as it was
 *
 * Here r is 214 if the IP TTL is above three: QS_NOT_ACCEPTED and QS_TTL_DIFF_WRONG, since the
 * second router is silent.
 *
 * What is changed, and when. A result of 1 to 15 is a refusal of quickstart.h's list: the call was
 * not made, and NOTHING was changed, not one byte of the packet and none of the three numbers. All
 * tests come before the first change. A summary of QS_DONE has written the three numbers. A verdict
 * of qs_path_run (QS_UNANSWERED, QS_LOST, above QS_ACCEPTED or above QS_NOT_ACCEPTED) says that the
 * packet was sent along the path and is now as its comment says. No call changes the row.
 *
 * The packet and the rates are as quickstart.h says: no call changes a byte behind the header, no
 * result depends on one, and `len` may be greater than the packet's total length.
 *
 * What the calls assume of the C caller. Every packet, every row, every number and every length is
 * allowed, and is answered or refused. These are NOT tested, and breaking them is undefined behaviour:
 *   - no pointer is null, not even one whose length is 0;
 *   - `packet` points to `len` bytes, `row` to `hops` hops and `summary` to `summary_len` numbers, all
 *     live, initialised and (but for the row) writable during the call, and no length in bytes is above
 *     PTRDIFF_MAX, of a row `hops` times sizeof(struct qs_hop);
 *   - `knows` holds true or false. A byte other than 0 and 1 there, as memcpy or a cast of bytes from
 *     a file or from the network may leave it, is not tested. The three bytes behind it are padding:
 *     they may hold anything;
 *   - buffers of one call do not overlap: row and summary; packet and row;
 *   - `row` is aligned as struct qs_hop asks and `summary` as uint32_t asks; packets may stand anywhere;
 *   - no other thread writes these buffers during the call, nor reads one that the call may change.
 * The calls keep nothing between them: calls on different buffers may run at the same time, and may
 * share a row.
 *
 * What is proved. That each function gives the result and leaves the bytes and numbers that its
 * contract states, for every input, is proved on the abstract machine of the language it is written
 * in. The compiler's back end, this header and the C caller are not covered by that proof; they are
 * tested in host/.
 *
 * Names and result numbers never change. A parameter is only ever added at the end of a list. QS_ABI of
 * quickstart.h is raised when that happens, or when struct qs_hop changes: a caller should test QS_ABI.
 */
#ifndef QUICKSTART_PATH_H
#define QUICKSTART_PATH_H

#include <stddef.h>
#include <stdint.h>
#ifndef __cplusplus
#include <stdbool.h>
#endif

#include "quickstart.h" /* QS_DONE, QS_UNANSWERED, the refusals, QS_ABI */

#ifdef __cplusplus
extern "C" {
#endif

/* Verdicts of qs_path_run, besides QS_UNANSWERED (40). */
#define QS_LOST 42          /* a router met IP TTL 0 or 1 */
#define QS_ACCEPTED 100     /* with the rate code added, 101 to 115: the sender accepts that rate */
#define QS_NOT_ACCEPTED 200 /* with a refusal added: the sender does not accept the response, for
                               QS_RATE_WRONG (213), QS_TTL_DIFF_WRONG (214) or QS_NONCE_WRONG (215) */

/*
 * One router on a path. Both numbers are tested in every hop, in one that does not know too; set
 * them to 0 there.
 */
struct qs_hop {
    bool knows;           /* whether it knows Quick-Start; if not, it is a silent router */
    uint32_t ceiling;     /* the greatest rate code that it approves, 0 to 15, as for qs_router */
    uint32_t fresh_nonce; /* 30 random bits, below 2^30, as for qs_router */
};

/*
 * Sum up a path, or a part of one.
 *
 *   row, hops      the routers, 0 to 64 of them, in the order in which a packet meets them; only read
 *   summary        room for three numbers
 *   summary_len    exactly 3
 *
 * QS_DONE: summary[0] is the number of routers, summary[1] the number of those that do not know
 * Quick-Start, and summary[2] the least ceiling of those that know, 15 if there are none. The ceiling
 * of a router that does not know does not count.
 *
 * Two parts of a path are joined by adding the first two numbers and taking the lesser of the third.
 * What comes of a request with a starting IP TTL of at least 1, for a code asked and a receiver's
 * ceiling, follows from the three numbers alone, in this order: lost, if the TTL is at most summary[0];
 * unanswered, if the least of the code, summary[2] and the receiver's ceiling is 0; the sender's
 * refusal 14, if summary[1] is not 0; else accepted at that least.
 *
 * Refusal: QS_OUT_OF_RANGE (summary_len not 3, more than 64 hops, or in any hop a ceiling above 15 or
 * a fresh_nonce of 2^30 or more).
 */
uint32_t qs_path_summary(const struct qs_hop *row, size_t hops, uint32_t *summary, size_t summary_len);

/*
 * Send a request along a path, and let the receiver answer and the sender judge.
 *
 *   packet, len   a packet with a Quick-Start request, changed in place
 *   row, hops     the routers, 0 to 64 of them, in the order in which the packet meets them; only read
 *   ceiling       the greatest rate code that the receiver wants, 0 to 15
 *   code          the rate code that the sender asked for, 1 to 15
 *   ttl_diff      the sender's starting TTL Diff: the IP TTL that it sent less the QS TTL, modulo 256
 *   nonce         the nonce that the sender sent, below 2^30
 *
 * Each router in turn gets the packet as the one before left it: a router that knows does what
 * qs_router does with its ceiling and fresh_nonce, any other what qs_silent_router does. A router that
 * meets IP TTL 0 or 1 ends the run. Then the receiver does what qs_receiver does. If it answers, the
 * sender whose open request has this code, ttl_diff and nonce judges the response.
 *
 * QS_LOST: a router met IP TTL 0 or 1. The packet is as the router before it left it, and as it was
 * lent if it was the first.
 * In all other verdicts the packet is as the last router left it, which is how it reaches the
 * receiver; with no routers it is as it was lent.
 * QS_UNANSWERED: the rate left in the request, or the receiver's ceiling, is 0.
 * QS_NOT_ACCEPTED + R: the response was judged and not accepted, tested in this order: R is
 *   QS_RATE_WRONG      the rate reported is above `code`;
 *   QS_TTL_DIFF_WRONG  the TTL Diff reported is not ttl_diff;
 *   QS_NONCE_WRONG     the nonce that came back and `nonce` differ modulo 4 to the rate reported.
 * QS_ACCEPTED + rate: the sender accepts that rate code, 1 to 15.
 *
 * The packet need not be the one that the sender sent: a request with another rate, TTL Diff or
 * nonce than `code`, `ttl_diff` and `nonce` is no fault, and the sender judges what comes back of it. If it
 * is the one that was sent, the verdict is the one that qs_path_summary's numbers tell, and neither
 * QS_RATE_WRONG nor QS_NONCE_WRONG arises.
 *
 * Refusals, tested in this order: QS_OUT_OF_RANGE (the row as for qs_path_summary, ceiling, code or
 * nonce); then on the packet as lent QS_BAD_HEADER, QS_BAD_CHECKSUM, QS_BAD_OPTION_LENGTH and
 * QS_BAD_QUICK_START as met, QS_NO_REQUEST (no Quick-Start option, or its function is not 0), even if no
 * router on the path would read the options. No other refusal arises; IP TTL 0 or 1 is none here.
 */
uint32_t qs_path_run(uint8_t *packet, size_t len, const struct qs_hop *row, size_t hops,
                     uint32_t ceiling, uint32_t code, uint8_t ttl_diff, uint32_t nonce);

#ifdef __cplusplus
}
#endif

#endif
