/*
 * quickstart.h - the Quick-Start gateway, for a forwarding loop written in C.
 *
 * Quick-Start (RFC 4782) lets a TCP sender ask every router on the path, in an eight-byte option of
 * the IPv4 header, for leave to send at a stated rate at once instead of finding the rate slowly.
 * Each router may lower the rate or deny the request, the receiver reports what is left of it in a
 * TCP option, and the sender believes the report only if every router on the path took part.
 *
 * Link with the archive that `host/archives` writes:
 *
 *     cc loop.c -Iinclude -Ltarget/staticlib -lgateway
 *
 * An example. `p` holds an IPv4 packet of `n` bytes, from its first header byte on:
 *
 *     uint64_t row[8] = {0}, tick = 0;             // one link: approvals of the last 8 ticks
 *     const uint64_t allowance = 200000000;        // at most 200 Mbit/s approved in them
 *
 *     while ((n = next_packet(p)) > 0) {
 *         uint32_t r = qs_router_ledger(p, n, 15, random_bits() >> 2,
 *                                       row, 8, &tick, allowance, seconds_since_start());
 *         if (r == QS_TTL_EXPIRED) { send_time_exceeded(p, n); continue; }
 *         if (r != QS_DONE) { count_refusal(r); continue; }    // p is as it came
 *         if (queue_is_long() && qs_mark(p, n) == QS_DROP) continue;
 *         send(p, p[2] << 8 | p[3]);           // the total length; n may be greater
 *     }
 *
 * What is changed, and when. A result of QS_DONE says that the work is done and the buffers hold
 * what the call's comment says. Any other result says that NOTHING was changed: not one byte of the
 * packet, of the row, of the tick or of the response.
 *
 * The packet. `packet[0]` is the first byte of its IPv4 header, and `len` is the number of bytes lent.
 * `len` may be greater than the packet's total length field, even above 64 KiB. No call changes a
 * byte behind the header, and no result depends on one. Wherever a call writes the header checksum,
 * it is computed over the whole header.
 *
 * Rates. A rate is a code from 0 to 15. Code 0 is no rate: a request for it is a denied one. Code N
 * from 1 to 15 is 40,000 times 2 to the N bits a second: 80 kbit/s for 1, about 1.3 Gbit/s for 15.
 *
 * What the calls assume of the C caller. Every packet, every number and every length is allowed, and
 * is answered or refused. These are NOT tested, and breaking them is undefined behaviour:
 *   - no pointer is null, not even one whose length is 0;
 *   - `packet` points to `len` bytes, `response` to `response_len` bytes, `row` to `slots` numbers
 *     and `tick` to one number, all live, initialised and (but for the receiver's packet) writable
 *     during the call, and no length in bytes is above PTRDIFF_MAX;
 *   - buffers of one call do not overlap: response and packet; tick, row and packet;
 *   - `row` and `tick` are aligned as uint64_t asks; packet and response may stand anywhere;
 *   - no other thread writes these buffers during the call, nor reads one that the call may change.
 * The calls keep nothing between them: calls on different buffers may run at the same time.
 *
 * What is proved. That each function gives the result and leaves the bytes that its contract states,
 * for every input, is proved on the abstract machine of the language it is written in. The compiler's
 * back end, this header and the C caller are not covered by that proof; they are tested in host/.
 *
 * Names and result numbers never change. A parameter is only ever added at the end of a list, and
 * QS_ABI is raised when that happens: C links by name alone, so a caller should test QS_ABI.
 */
#ifndef QUICKSTART_H
#define QUICKSTART_H

#include <stddef.h>
#include <stdint.h>

#ifdef __cplusplus
extern "C" {
#endif

#define QS_ABI 1

/* Answers. */
#define QS_DONE 0        /* done: forwarded, answered or marked */
#define QS_UNANSWERED 40 /* receiver: the rate to report is 0, so no response is sent */
#define QS_DROP 41       /* marking: the packet's sender does not take marks; drop the packet instead */

/* Refusals: nothing was changed. */
#define QS_BAD_HEADER 1           /* too few bytes lent, version not 4, header length field below 5, or
                                     total length below the header's or above the bytes lent */
#define QS_BAD_CHECKSUM 2         /* the header checksum is wrong */
#define QS_BAD_OPTION_LENGTH 3    /* an IP option's length is missing, below 2 or beyond the header */
#define QS_NO_REQUEST 4           /* receiver: no Quick-Start option, or it is no request */
#define QS_BAD_QUICK_START 5      /* a Quick-Start option whose length is not 8, or a second one */
#define QS_TTL_EXPIRED 6          /* a router met IP TTL 0 or 1: the packet may go no further */
#define QS_OUT_OF_RANGE 7         /* an argument is outside the range that the call states */
#define QS_ROW_ABOVE_ALLOWANCE 8  /* the row, as lent, sums to more than the allowance */
#define QS_BACK_IN_TIME 9         /* `now` is before the stored tick */

/* The sender's refusals. No function of this header returns them; quickstart_path.h adds the last three
   to QS_NOT_ACCEPTED. */
#define QS_REQUEST_OPEN 10        /* a request or a Quick-Start window is open, or the last request was made
                                     less than a round trip ago */
#define QS_WRONG_STATE 11         /* there is no request, or no Quick-Start window, to act upon */
#define QS_NOT_A_RESPONSE 12      /* not the TCP option of kind 27 and length 8 */
#define QS_RATE_WRONG 13          /* the reported rate is 0 or above the one asked for */
#define QS_TTL_DIFF_WRONG 14      /* some router on the path did not take part */
#define QS_NONCE_WRONG 15         /* the nonce is not the one sent, as when somebody raised the rate */

/*
 * Forward a packet as a router that knows Quick-Start.
 *
 *   packet, len   the packet, changed in place
 *   ceiling       the greatest rate code that this router approves, 0 to 15; 0 denies all requests
 *   fresh_nonce   30 random bits, below 2^30, new for each packet. Where this router lowers the rate they
 *                 hide part of the nonce: two bits for each step, which a receiver would have to guess
 *                 to report a higher rate than it was left
 *
 * QS_DONE: the IP TTL is lowered by one and the header checksum is written anew. Then, if the header
 * has a Quick-Start request with a rate above 0, also:
 *   - with a ceiling above 0, the rate becomes the lesser of itself and the ceiling, the QS TTL is
 *     lowered by one (0 becomes 255), and if the rate fell, the nonce's two-bit fields for the steps
 *     between are taken from fresh_nonce;
 *   - with ceiling 0, rate, QS TTL and nonce become 0: the request is denied.
 * The option's two reserved bits stay. Without a Quick-Start option, with one that is no request
 * (function not 0, a report for example) or with rate 0, the option stays as it came.
 *
 * Refusals, tested in this order: QS_OUT_OF_RANGE (ceiling above 15, or fresh_nonce 2^30 or more),
 * QS_BAD_HEADER, QS_BAD_CHECKSUM, QS_BAD_OPTION_LENGTH and QS_BAD_QUICK_START (whichever the options
 * show first), QS_TTL_EXPIRED.
 */
uint32_t qs_router(uint8_t *packet, size_t len, uint32_t ceiling, uint32_t fresh_nonce);

/*
 * Forward a packet as a router that keeps a ledger of the rates it approved for a link, so that the
 * approvals of the last `slots` ticks never sum to more than an allowance.
 *
 *   packet, len, ceiling, fresh_nonce   as for qs_router
 *   row, slots    the ledger: 1 to 64 numbers, all 0 at the start. Of the last `slots` ticks up to
 *                 *tick, row[t % slots] is the sum, in bits a second, of what was approved in tick t.
 *                 The call keeps it; do not write to it
 *   tick          the tick of the latest call that asked the ledger and was not refused, kept by the
 *                 call. Set it at the start to the time then
 *   allowance     bits a second, at most 2^40. Keep it the same for as long as the row is in use
 *   now           the present tick, in a unit of the caller's choice (a tick a second, say)
 *
 * The ledger is asked only if the header has a request with a rate above 0 and the ceiling is above
 * 0. It is asked for the lesser of the two. Then:
 *   - the slots of the ticks after *tick up to `now` become 0, and *tick becomes `now`;
 *   - the grant is the greatest code, at most the one asked for, whose rate is at most the allowance
 *     less the sum of the row; it is 0 if there is none;
 *   - the grant's rate is added to row[now % slots] (nothing for 0). It stays there for as many ticks as
 *     there are slots, even if the packet is dropped after the call.
 * QS_DONE: the packet is as qs_router leaves it with the grant in place of the ceiling. If the ledger
 * is not asked, row and *tick are unchanged and the packet is as qs_router leaves it.
 *
 * Refusals, tested in this order: QS_OUT_OF_RANGE (ceiling, fresh_nonce, slots 0 or above 64, or
 * allowance above 2^40), QS_BAD_HEADER, QS_BAD_CHECKSUM, QS_BAD_OPTION_LENGTH and QS_BAD_QUICK_START
 * as met, QS_TTL_EXPIRED; then, only if the ledger is asked, QS_ROW_ABOVE_ALLOWANCE (the row as lent,
 * before any slot is zeroed; the sum is exact, however great the numbers) and QS_BACK_IN_TIME.
 */
uint32_t qs_router_ledger(uint8_t *packet, size_t len, uint32_t ceiling, uint32_t fresh_nonce,
                          uint64_t *row, size_t slots, uint64_t *tick, uint64_t allowance,
                          uint64_t now);

/*
 * Forward a packet as a router that does not know Quick-Start ("silent"): it reads no options.
 *
 *   packet, len   the packet, changed in place
 *
 * QS_DONE: the IP TTL is lowered by one and the header checksum is written anew; no more.
 *
 * Refusals, in this order: QS_BAD_HEADER, QS_BAD_CHECKSUM, QS_TTL_EXPIRED.
 */
uint32_t qs_silent_router(uint8_t *packet, size_t len);

/*
 * Answer a request as the receiver.
 *
 *   packet, len    the packet as it arrived; only read
 *   ceiling        the greatest rate code that the receiver wants, 0 to 15
 *   response       room for the TCP option of the answer
 *   response_len   exactly 8
 *
 * QS_DONE: response holds kind 27, length 8, the lesser of the request's rate and the ceiling, the
 * TTL Diff (IP TTL less QS TTL, modulo 256) and the nonce as it came, with reserved bits 0. Send it
 * with the next TCP segment. QS_UNANSWERED: that rate is 0, nothing was written, send no response.
 * An IP TTL of 0 or 1 is no fault here: the packet has arrived.
 *
 * Refusals, in this order: QS_OUT_OF_RANGE (ceiling above 15, or response_len not 8), QS_BAD_HEADER,
 * QS_BAD_CHECKSUM, QS_BAD_OPTION_LENGTH and QS_BAD_QUICK_START as met, QS_NO_REQUEST (no Quick-Start
 * option, or its function is not 0).
 */
uint32_t qs_receiver(const uint8_t *packet, size_t len, uint32_t ceiling, uint8_t *response,
                     size_t response_len);

/*
 * Mark a packet as having met congestion (ECN as RFC 2481 has it: the low two bits of the header's
 * second byte are ECT, value 2, and CE, value 1).
 *
 *   packet, len   the packet, changed in place
 *
 * QS_DONE: ECT was set; CE is set now and the header checksum is written anew. QS_DROP: ECT is clear,
 * so the sender would not see a mark; nothing was changed, and congestion is told by dropping the
 * packet. The options and the IP TTL are not tested.
 *
 * Refusals, in this order: QS_BAD_HEADER, QS_BAD_CHECKSUM.
 */
uint32_t qs_mark(uint8_t *packet, size_t len);

#ifdef __cplusplus
}
#endif

#endif
