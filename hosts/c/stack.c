/*
** Measures the stack that calls take, and fails where it is more than the header says.
**
** Each call runs in a thread of its own, on a stack that was painted. The deepest byte that is not paint any more
** tells how far down it went, below the frame of the function that calls.
*/
#define _GNU_SOURCE
#include <pthread.h>
#include <stdio.h>
#include <stdlib.h>
#include <string.h>
#include <sys/mman.h>
#include "dungdapple.h"

enum { STACK = 1 << 20, PAINT = 0xA5, MOST = 4096 };

static int32_t samples[MOST];
static int64_t results[MOST], work[MOST];
static int32_t cells[MOST];
static double doubles[MOST];
static uint8_t record[27 + 4 * MOST];
static uint32_t numbers[7];
static double reals[2];

/* Plans that go deep: the most taps, the most passes, the largest radius. */
static const double PLANS[][DUNGDAPPLE_PLAN_LENGTH] = {
    {1023, 2, 1, 4}, {48, 1, 0, 8}, {1, 2, 1, 8}, {1023, 255, 254, 1}, {0, 1, 0, 1},
};
static const size_t LENGTHS[] = {1, 5, 64, MOST};

/* What a trial is made of. */
static const double *plan;
static size_t length;
static double bound;

/* Takes a known stretch of stack, so that the measurement itself is measured. */
enum { KNOWN = 20000 };

static uint32_t known(void)
{
    volatile unsigned char stretch[KNOWN];
    size_t i;
    for (i = 0; i < KNOWN; i++) stretch[i] = 0;
    return stretch[KNOWN / 2];
}

static uint32_t edit(void)
{
    return dungdapple_edit_series(plan, 4, bound, (double)(length / 2), 1, samples, length, results, length,
                                  numbers, numbers + 1, numbers + 2);
}

static uint32_t point(void)
{
    return dungdapple_point(plan, 4, bound, (double)(length / 2), samples, length, reals, numbers, numbers + 1);
}

static uint32_t smooth_series(void)
{
    return dungdapple_smooth_series(plan, 4, bound, samples, length, results, length, work, length,
                                    numbers, numbers + 1);
}

/* The other plan of a picture: the same, where the product of their divisors is allowed, else one tap. */
static const double *other(void)
{
    static const double ONE_TAP[DUNGDAPPLE_PLAN_LENGTH] = {0, 1, 0, 1};
    double each = dungdapple_divisor(plan, 4);
    return each * each <= (double)DUNGDAPPLE_MOST_PRODUCT ? plan : ONE_TAP;
}

static uint32_t smooth_picture(void)
{
    return dungdapple_smooth_picture(plan, 4, other(), 4, bound, (double)length, 1, samples, length, results, length,
                                     work, length, numbers, numbers + 1);
}

static uint32_t smooth_picture_down(void)
{
    return dungdapple_smooth_picture(other(), 4, plan, 4, bound, 1, (double)length, samples, length, results, length,
                                     work, length, numbers, numbers + 1);
}

static uint32_t plan_for(void)
{
    return dungdapple_plan_for(25600, 8, 255, numbers, numbers + 1);
}

static uint32_t divisor(void)
{
    return dungdapple_divisor(plan, 4) > 0 ? 0 : 1;
}

static uint32_t reach(void)
{
    numbers[0] = dungdapple_reach(plan, 4);
    return 0;
}

static uint32_t doubles_in(void)
{
    return dungdapple_doubles_in(bound, doubles, length, cells, length, numbers, numbers + 1);
}

static uint32_t whole_series(void)
{
    return dungdapple_whole_series(plan, 4, bound, DUNGDAPPLE_EVEN, results, length, cells, length, numbers);
}

static uint32_t whole_picture(void)
{
    return dungdapple_whole_picture(plan, 4, other(), 4, bound, (double)length, 1, DUNGDAPPLE_UPWARD, results, length,
                                    cells, length, numbers);
}

static uint32_t carry_series(void)
{
    return dungdapple_carry_series(plan, 4, bound, results, length, cells, length, numbers, reals);
}

static uint32_t carry_picture(void)
{
    return dungdapple_carry_picture(plan, 4, other(), 4, bound, (double)length, 1, results, length, cells, length,
                                    numbers, reals);
}

static uint32_t doubles_series(void)
{
    return dungdapple_doubles_series(plan, 4, bound, results, length, doubles, length, numbers);
}

static uint32_t doubles_picture(void)
{
    return dungdapple_doubles_picture(plan, 4, other(), 4, bound, (double)length, 1, results, length, doubles, length,
                                      numbers);
}

static uint32_t summary_series(void)
{
    return dungdapple_summary_series(plan, 4, bound, results, length, numbers, reals, reals + 1, numbers + 1,
                                     numbers + 2);
}

static uint32_t summary_picture(void)
{
    return dungdapple_summary_picture(plan, 4, other(), 4, bound, (double)length, 1, results, length, numbers, reals,
                                      reals + 1, numbers + 1, numbers + 2);
}

static uint32_t results_to_doubles(void)
{
    return dungdapple_results_to_doubles(results, length, doubles, length, numbers);
}

static uint32_t doubles_to_results(void)
{
    return dungdapple_doubles_to_results(doubles, length, results, length, numbers, numbers + 1);
}

static size_t record_samples_count(void)
{
    return length < DUNGDAPPLE_MOST_RECORD_SAMPLES ? length : DUNGDAPPLE_MOST_RECORD_SAMPLES;
}

static uint32_t write_record(void)
{
    size_t count = record_samples_count();
    return dungdapple_write_record(plan, 4, bound, samples, count, record, dungdapple_record_size(count));
}

static uint32_t read_record(void)
{
    return dungdapple_read_record(record, dungdapple_record_size(record_samples_count()), numbers, numbers + 1,
                                  numbers + 2, numbers + 3, numbers + 4, numbers + 5, numbers + 6);
}

static uint32_t record_samples(void)
{
    dungdapple_record_samples(record + 27, 4 * record_samples_count(), samples, length);
    return 0;
}

struct trial {
    const char *name;
    uint32_t (*call)(void);
    size_t allowed;
};

static const struct trial TRIALS[] = {
    {"edit_series", edit, DUNGDAPPLE_STACK},
    {"point", point, DUNGDAPPLE_STACK},
    {"smooth_series", smooth_series, DUNGDAPPLE_STACK_OTHERS},
    {"smooth_picture", smooth_picture, DUNGDAPPLE_STACK_OTHERS},
    {"smooth_picture, columns", smooth_picture_down, DUNGDAPPLE_STACK_OTHERS},
    {"plan_for", plan_for, DUNGDAPPLE_STACK_OTHERS},
    {"divisor", divisor, DUNGDAPPLE_STACK_OTHERS},
    {"reach", reach, DUNGDAPPLE_STACK_OTHERS},
    {"doubles_in", doubles_in, DUNGDAPPLE_STACK_OTHERS},
    {"whole_series", whole_series, DUNGDAPPLE_STACK_OTHERS},
    {"whole_picture", whole_picture, DUNGDAPPLE_STACK_OTHERS},
    {"carry_series", carry_series, DUNGDAPPLE_STACK_OTHERS},
    {"carry_picture", carry_picture, DUNGDAPPLE_STACK_OTHERS},
    {"doubles_series", doubles_series, DUNGDAPPLE_STACK_OTHERS},
    {"doubles_picture", doubles_picture, DUNGDAPPLE_STACK_OTHERS},
    {"summary_series", summary_series, DUNGDAPPLE_STACK_OTHERS},
    {"summary_picture", summary_picture, DUNGDAPPLE_STACK_OTHERS},
    {"results_to_doubles", results_to_doubles, DUNGDAPPLE_STACK_OTHERS},
    {"doubles_to_results", doubles_to_results, DUNGDAPPLE_STACK_OTHERS},
    {"write_record", write_record, DUNGDAPPLE_STACK_OTHERS},
    {"read_record", read_record, DUNGDAPPLE_STACK_OTHERS},
    {"record_samples", record_samples, DUNGDAPPLE_STACK_OTHERS},
};

/* What runs in the thread. Its frame ends the caller's part of the stack. */
struct run {
    uint32_t (*call)(void);
    uint32_t number;
    const unsigned char *frame;
};

static void *run_there(void *given)
{
    struct run *run = (struct run *)given;
    run->frame = (const unsigned char *)__builtin_frame_address(0);
    run->number = run->call();
    return NULL;
}

static void fail(const char *what)
{
    printf("%s\n0 passed, 1 failed\n", what);
    exit(1);
}

/* Bytes below the caller's frame. */
static size_t measured(uint32_t (*call)(void), unsigned char *stack, uint32_t *number)
{
    struct run run = {call, 0, NULL};
    pthread_attr_t attributes;
    pthread_t thread;
    size_t at = 0;
    memset(stack, PAINT, STACK);
    if (pthread_attr_init(&attributes) != 0 || pthread_attr_setstack(&attributes, stack, STACK) != 0
        || pthread_create(&thread, &attributes, run_there, &run) != 0 || pthread_join(thread, NULL) != 0) {
        fail("no thread on a stack of its own");
    }
    pthread_attr_destroy(&attributes);
    while (stack[at] == PAINT) at++;
    *number = run.number;
    return (size_t)(run.frame - (stack + at));
}

/* A smoothing of zeros, samples of size at most 1, and a record of them. */
static void prepare(void)
{
    size_t i;
    for (i = 0; i < MOST; i++) {
        samples[i] = (int32_t)(i % 2);
        doubles[i] = (double)(i % 2);
        results[i] = 0;
    }
    if (write_record() != 0) fail("no record was written");
}

/* The deepest that a call goes under any plan and length; 0 where it was refused, which it should not be. */
static size_t deepest(const struct trial *trial, unsigned char *stack)
{
    size_t p, n, most = 0;
    uint32_t number;
    for (p = 0; p < sizeof PLANS / sizeof PLANS[0]; p++) {
        for (n = 0; n < sizeof LENGTHS / sizeof LENGTHS[0]; n++) {
            size_t depth;
            plan = PLANS[p];
            length = LENGTHS[n];
            prepare();
            depth = measured(trial->call, stack, &number);
            if (number != 0) {
                printf("%s, plan %zu, length %zu: refused by %u\n", trial->name, p, length, number);
                return 0;
            }
            if (depth > most) most = depth;
        }
    }
    return most;
}

int main(void)
{
    size_t t, passed = 0, failed = 0, large = 0, others = 0, seen;
    uint32_t number;
    unsigned char *stack = (unsigned char *)mmap(NULL, STACK, PROT_READ | PROT_WRITE,
                                                 MAP_PRIVATE | MAP_ANONYMOUS, -1, 0);
    if (stack == (unsigned char *)MAP_FAILED) fail("no memory for a stack");
    seen = measured(known, stack, &number);
    if (seen < KNOWN || seen > KNOWN + 256) fail("the measurement does not see what is known");
    bound = 1;
    for (t = 0; t < sizeof TRIALS / sizeof TRIALS[0]; t++) {
        size_t depth = deepest(&TRIALS[t], stack);
        size_t *most = TRIALS[t].allowed == DUNGDAPPLE_STACK ? &large : &others;
        if (depth > *most) *most = depth;
        if (depth > 0 && depth <= TRIALS[t].allowed) passed++;
        else {
            failed++;
            printf("%s: %zu bytes of %zu\n", TRIALS[t].name, depth, TRIALS[t].allowed);
        }
    }
    printf("an edit and a point: %zu bytes of %d\n", large, DUNGDAPPLE_STACK);
    printf("every other call: %zu bytes of %d\n", others, DUNGDAPPLE_STACK_OTHERS);
    printf("%zu passed, %zu failed\n", passed, failed);
    return failed == 0 ? 0 : 1;
}
