/*
 * Speed of the exported functions beside the same jobs in plain C (plain.c, -O3) and beside the cheapest
 * forwarding step (bench_floor.c), in one run on the same packets, and a test that all of them leave the same bytes.
 *
 *   bench               the comparison of outputs, then the times as two tables
 *   bench --equal       the comparison only; the last line is `N passed, M failed`
 *   bench --job NAME    comparison and times of one job
 *
 * How times are taken. 256 packets of one shape lie in one block of memory. A round copies the block anew
 * from the unchanged packets and reads it once, outside the measured time, so that every function finds
 * the same bytes and the same warm cache; then it calls one function on all 256, by name, from a loop of
 * its own, and takes the time of that alone. The functions take turns, round by round, and the one that
 * begins changes. Given are the best and the median round, divided by 256.
 */
#define _POSIX_C_SOURCE 199309L
#include "bench_packets.c"

#include <time.h>

enum { ROUNDS = 12000, EQUAL_ROUNDS = 400, LEAST = 100, RESULTS = 48 };

/* The same job in three ways, and what stands beside every job. */
enum { EXPORTED, PLAIN16, PLAIN32, WAYS, FLOOR = WAYS, NOTHING, TIMED };

uint32_t plain16_router(uint8_t *, size_t, uint32_t, uint32_t);
uint32_t plain32_router(uint8_t *, size_t, uint32_t, uint32_t);
uint32_t plain16_silent_router(uint8_t *, size_t);
uint32_t plain32_silent_router(uint8_t *, size_t);
uint32_t plain16_receiver(const uint8_t *, size_t, uint32_t, uint8_t *, size_t);
uint32_t plain32_receiver(const uint8_t *, size_t, uint32_t, uint8_t *, size_t);
uint32_t plain16_mark(uint8_t *, size_t);
uint32_t plain32_mark(uint8_t *, size_t);
uint32_t floor_step(uint8_t *, size_t);
uint32_t nothing(uint8_t *, size_t);

/* What a function works on: the packets, the receiver's responses, the results. */
struct block {
    uint8_t packets[PACKETS][SLOT], responses[PACKETS][ROOM];
    uint32_t results[PACKETS];
};

/* A loop that calls a function on each packet of a block; this is what is timed. */
typedef void loop(struct block *);
#define LOOP(function, arguments)                           \
    static void function##_loop(struct block *block)        \
    {                                                       \
        size_t i;                                           \
        for (i = 0; i < PACKETS; i++)                       \
            block->results[i] = function arguments;         \
    }
#define ROUTER (block->packets[i], calls[i].len, calls[i].ceiling, calls[i].fresh_nonce)
#define IN_PLACE (block->packets[i], calls[i].len)
#define RECEIVER (block->packets[i], calls[i].len, calls[i].ceiling, block->responses[i], calls[i].response_len)

LOOP(qs_router, ROUTER)
LOOP(plain16_router, ROUTER)
LOOP(plain32_router, ROUTER)
LOOP(qs_silent_router, IN_PLACE)
LOOP(plain16_silent_router, IN_PLACE)
LOOP(plain32_silent_router, IN_PLACE)
LOOP(qs_receiver, RECEIVER)
LOOP(plain16_receiver, RECEIVER)
LOOP(plain32_receiver, RECEIVER)
LOOP(qs_mark, IN_PLACE)
LOOP(plain16_mark, IN_PLACE)
LOOP(plain32_mark, IN_PLACE)
LOOP(floor_step, IN_PLACE)
LOOP(nothing, IN_PLACE)
#define WAYS_OF(job) {qs_##job##_loop, plain16_##job##_loop, plain32_##job##_loop}

/* The header check has no function of its own: it is marking where ECT is clear, which tests the header
   and answers QS_DROP. */
static const struct job {
    const char *name;
    loop *ways[WAYS];
    enum ect ect;
    uint32_t usual; /* the result on right packets with a request */
    int timed[SHAPES];
    int possible[RESULTS]; /* the results that the job can give, by number */
} jobs[] = {
    {"router", WAYS_OF(router), ECT_ANY, QS_DONE, {1, 1, 1, 1},
     {[QS_DONE] = 1, [QS_BAD_HEADER] = 1, [QS_BAD_CHECKSUM] = 1, [QS_BAD_OPTION_LENGTH] = 1,
      [QS_BAD_QUICK_START] = 1, [QS_TTL_EXPIRED] = 1, [QS_OUT_OF_RANGE] = 1}},
    {"silent router", WAYS_OF(silent_router), ECT_ANY, QS_DONE, {1, 1, 1, 0},
     {[QS_DONE] = 1, [QS_BAD_HEADER] = 1, [QS_BAD_CHECKSUM] = 1, [QS_TTL_EXPIRED] = 1}},
    {"receiver", WAYS_OF(receiver), ECT_ANY, QS_DONE, {0, 1, 1, 1},
     {[QS_DONE] = 1, [QS_BAD_HEADER] = 1, [QS_BAD_CHECKSUM] = 1, [QS_BAD_OPTION_LENGTH] = 1,
      [QS_NO_REQUEST] = 1, [QS_BAD_QUICK_START] = 1, [QS_OUT_OF_RANGE] = 1, [QS_UNANSWERED] = 1}},
    {"marking", WAYS_OF(mark), ECT_SET_IF_RIGHT, QS_DONE, {1, 1, 1, 0},
     {[QS_DONE] = 1, [QS_BAD_HEADER] = 1, [QS_BAD_CHECKSUM] = 1, [QS_DROP] = 1}},
    {"header check", WAYS_OF(mark), ECT_CLEAR, QS_DROP, {1, 1, 1, 0},
     {[QS_BAD_HEADER] = 1, [QS_BAD_CHECKSUM] = 1, [QS_DROP] = 1}},
};
#define JOBS (sizeof jobs / sizeof *jobs)

static struct block blocks[TIMED];
static unsigned passed, failed;

/* The unchanged packets anew, and responses and results that no call leaves. */
static void renew(struct block *block)
{
    memcpy(block->packets, unchanged, sizeof unchanged);
    memset(block->responses, 0xA5, sizeof block->responses);
    memset(block->results, 0xFF, sizeof block->results);
}

/* Counts and prints one test. */
static void test(int good, const char *what, const char *of, const char *shape)
{
    printf("%s %s: %s%s%s\n", good ? "ok    " : "FAILED", what, of, *shape ? ", header " : "", shape);
    if (good)
        passed++;
    else
        failed++;
}

/* Whether the ways of a job agree on the present packets, in results and bytes, a refused call changes nothing,
   and no result is one that the job cannot give. Counts the results. */
static int all_equal(const struct job *job, unsigned *count)
{
    const struct block *first = &blocks[EXPORTED];
    int equal = 1;
    size_t way, i;
    for (way = 0; way < WAYS; way++) {
        renew(&blocks[way]);
        job->ways[way](&blocks[way]);
        equal = equal && memcmp(first, &blocks[way], sizeof *first) == 0;
    }
    for (i = 0; i < PACKETS; i++) {
        uint32_t result = first->results[i];
        if (result >= RESULTS || !job->possible[result]) {
            printf("a result that this job does not give: %u\n", (unsigned)result);
            return 0;
        }
        count[result]++;
        if (result != QS_DONE || job->ways[EXPORTED] == qs_receiver_loop)
            equal = equal && memcmp(first->packets[i], unchanged[i], SLOT) == 0;
        if (result != QS_DONE)
            equal = equal && first->responses[i][0] == 0xA5;
    }
    return equal;
}

/* Compares the ways of a job on packets of all shapes, right and damaged in turns; right packets have the usual
   result, and each result that the job can give must come up. */
static void equal_outputs(const struct job *job)
{
    unsigned count[RESULTS] = {0};
    size_t s, round, i;
    int enough = 1;
    for (s = 0; s < SHAPES; s++) {
        int equal = 1;
        for (round = 0; round < EQUAL_ROUNDS; round++) {
            fill(&shapes[s], job->ect);
            if (round % 2)
                damage(&shapes[s], job->ect);
            equal = all_equal(job, count) && equal;
            for (i = 0; round % 2 == 0 && job->timed[s] && i < PACKETS; i++)
                equal = equal && blocks[EXPORTED].results[i] == job->usual;
        }
        test(equal, "equal outputs", job->name, shapes[s].name);
    }
    printf("       results of %s:", job->name);
    for (i = 0; i < RESULTS; i++)
        if (job->possible[i]) {
            printf(" %u: %u,", (unsigned)i, count[i]);
            enough = enough && count[i] >= LEAST;
        }
    printf(" each at least %u\n", LEAST);
    test(enough, "every result came up", job->name, "");
}

/* Whether floor and plain C leave what the silent router leaves, wherever that forwards. */
static int floor_equal(unsigned *forwarded)
{
    loop *const ways[] = {qs_silent_router_loop, plain16_silent_router_loop, plain32_silent_router_loop,
                          floor_step_loop};
    const struct block *first = &blocks[EXPORTED];
    int equal = 1;
    size_t way, i;
    for (way = 0; way <= FLOOR; way++) {
        renew(&blocks[way]);
        ways[way](&blocks[way]);
        for (i = 0; i < PACKETS; i++)
            if (first->results[i] == QS_DONE) {
                *forwarded += way == FLOOR;
                equal = equal && memcmp(first->packets[i], blocks[way].packets[i], SLOT) == 0;
            }
    }
    return equal;
}

/* Gives the present packets the checksums from `from` on, and a second word each that makes their sums right. */
static void set_checksums(const struct shape *shape, uint32_t from)
{
    size_t i;
    for (i = 0; i < PACKETS; i++) {
        put_word(unchanged[i] + 10, from + (uint32_t)i);
        put_word(unchanged[i] + 4, 0);
        put_word(unchanged[i] + 4, ~sum_of(unchanged[i], shape->header));
    }
}

/* Compares the floor with the silent router: on packets right and damaged, then on right packets with every checksum
   from 0000 to FFFF. */
static void equal_floor(const struct shape *shape)
{
    unsigned forwarded = 0;
    uint32_t round, from;
    int equal = 1;
    for (round = 0; round < EQUAL_ROUNDS; round++) {
        fill(shape, ECT_ANY);
        if (round % 2)
            damage(shape, ECT_ANY);
        equal = floor_equal(&forwarded) && equal;
    }
    test(equal && forwarded > EQUAL_ROUNDS / 2 * PACKETS, "equal outputs where it forwards", "silent and floor",
         shape->name);
    equal = 1;
    forwarded = 0;
    for (from = 0; from <= 0xFFFF; from += PACKETS) {
        fill(shape, ECT_ANY);
        set_checksums(shape, from);
        equal = floor_equal(&forwarded) && equal;
    }
    test(equal && forwarded == 0x10000, "equal outputs, every checksum", "silent and floor", shape->name);
}

static double now(void)
{
    struct timespec t;
    clock_gettime(CLOCK_MONOTONIC, &t);
    return (double)t.tv_sec * 1e9 + (double)t.tv_nsec;
}

static int by_size(const void *a, const void *b)
{
    double x = *(const double *)a, y = *(const double *)b;
    return (x > y) - (x < y);
}

/* One round of one function, in nanoseconds a packet. */
static double measure(loop *function, uint32_t usual)
{
    static struct block block;
    static volatile uint8_t seen;
    double start, taken;
    size_t i;
    renew(&block);
    for (i = 0; i < PACKETS; i++)
        seen = block.packets[i][0] ^ block.packets[i][SLOT / 2] ^ block.packets[i][SLOT - 1];
    (void)seen;
    start = now();
    function(&block);
    taken = now() - start;
    for (i = 0; i < PACKETS; i++)
        if (block.results[i] != usual) {
            printf("a packet was refused\n");
            exit(1);
        }
    return taken / PACKETS;
}

/* One row of the tables: a job on a shape. */
static struct row {
    const struct job *job;
    const struct shape *shape;
    double best[TIMED], median[TIMED];
} rows[JOBS * SHAPES];
static size_t row_count;

static void times(const struct job *job, const struct shape *shape)
{
    static double taken[TIMED][ROUNDS];
    struct row *row = &rows[row_count++];
    size_t way, round;
    row->job = job;
    row->shape = shape;
    fill(shape, job->ect);
    for (round = 0; round < ROUNDS; round++)
        for (way = 0; way < TIMED; way++) {
            size_t turn = (way + round) % TIMED;
            taken[turn][round] = turn < WAYS     ? measure(job->ways[turn], job->usual)
                                 : turn == FLOOR ? measure(floor_step_loop, 0)
                                                 : measure(nothing_loop, 0);
        }
    for (way = 0; way < TIMED; way++) {
        qsort(taken[way], ROUNDS, sizeof(double), by_size);
        row->best[way] = taken[way][0];
        row->median[way] = taken[way][ROUNDS / 2];
    }
}

static void print_table(const char *what, int median)
{
    size_t r;
    double call = 0;
    printf("\n%s of %d rounds, ns a packet; each ratio is the exported function's time to the one before it\n\n", what,
           ROUNDS);
    printf("| job | header | exported | plain C, 16-bit sum | ratio | plain C, 32-bit sum | ratio | floor | ratio |\n");
    printf("|---|---|---|---|---|---|---|---|---|\n");
    for (r = 0; r < row_count; r++) {
        const double *t = median ? rows[r].median : rows[r].best;
        printf("| %s | %s | %.1f | %.1f | %.2f | %.1f | %.2f | %.1f | %.1f |\n", rows[r].job->name,
               rows[r].job->timed[SHAPES - 1] ? rows[r].shape->name : rows[r].shape->length, t[EXPORTED],
               t[PLAIN16], t[EXPORTED] / t[PLAIN16], t[PLAIN32], t[EXPORTED] / t[PLAIN32], t[FLOOR],
               t[EXPORTED] / t[FLOOR]);
        call += t[NOTHING] / (double)row_count;
    }
    printf("\na call that does nothing: %.1f\n", call);
}

/* Whether a job is wanted: those whose name begins so. */
static int wanted(const struct job *job, const char *name)
{
    return strncmp(job->name, name, strlen(name)) == 0;
}

int main(int count, char **words)
{
    int only_equal = count == 2 && strcmp(words[1], "--equal") == 0;
    int one_job = count == 3 && strcmp(words[1], "--job") == 0;
    const char *name = one_job ? words[2] : "";
    size_t j, s;
    if (count > 1 && !only_equal && !one_job) {
        fprintf(stderr, "usage: bench [--equal | --job NAME]\n");
        return 2;
    }
    for (j = 0; j < JOBS; j++)
        if (wanted(&jobs[j], name))
            equal_outputs(&jobs[j]);
    for (s = 0; s < SHAPES && !one_job; s++)
        equal_floor(&shapes[s]);
    printf("%u passed, %u failed\n", passed, failed);
    if (passed == 0 || failed != 0)
        return 1;
    for (j = 0; j < JOBS; j++)
        for (s = 0; s < SHAPES; s++)
            if (wanted(&jobs[j], name) && jobs[j].timed[s] && !only_equal)
                times(&jobs[j], &shapes[s]);
    if (row_count > 0) {
        print_table("Best", 0);
        print_table("Median", 1);
    }
    return 0;
}
