/* Doubles in, the outputs, exact results as doubles and back, and a job record read. */
#include <math.h>
#include <string.h>
#include "harness.h"

static double doubles[MOST_CELLS], cells[MOST_CELLS], summary[4];
static int32_t whole[MOST_CELLS];
static int64_t exact[MOST_CELLS];
static uint8_t record[27 + 4 * DUNGDAPPLE_MOST_RECORD_SAMPLES];
static uint32_t place, bad;

static void clear(struct work *work)
{
    (void)work;
    memset(cells, 0x55, sizeof cells);
    memset(whole, 0x55, sizeof whole);
    memset(exact, 0x55, sizeof exact);
    memset(summary, 0x55, sizeof summary);
}

#define PLAN work->numbers, DUNGDAPPLE_PLAN_LENGTH, work->bound
#define RESULTS work->results, work->n

static void in_ours(struct work *work)
{
    done(dungdapple_doubles_in(work->bound, doubles, work->n, whole, work->n, &place, &bad), "doubles_in");
}

static void in_plain(struct work *work)
{
    done((uint32_t)doubles_in_first(work->bound, doubles, work->n, whole), "doubles_in_first");
}

static void doubles_ours(struct work *work)
{
    done(dungdapple_doubles_series(PLAN, RESULTS, cells, work->n, &place), "doubles_series");
}

static void doubles_plain(struct work *work)
{
    doubles_out_first(work->divisor, RESULTS, cells);
}

static void even_ours(struct work *work)
{
    done(dungdapple_whole_series(PLAN, DUNGDAPPLE_EVEN, RESULTS, whole, work->n, &place), "whole_series");
}

static void even_plain(struct work *work)
{
    whole_even_first(work->divisor, RESULTS, whole);
}

static void upward_ours(struct work *work)
{
    done(dungdapple_whole_series(PLAN, DUNGDAPPLE_UPWARD, RESULTS, whole, work->n, &place), "whole_series");
}

static void upward_plain(struct work *work)
{
    whole_upward_first(work->divisor, RESULTS, whole);
}

static void carry_ours(struct work *work)
{
    double carry;
    done(dungdapple_carry_series(PLAN, RESULTS, whole, work->n, &place, &carry), "carry_series");
}

static void carry_plain(struct work *work)
{
    carry_out_first(work->divisor, RESULTS, whole);
}

static void summary_ours(struct work *work)
{
    uint32_t lowest, highest;
    done(dungdapple_summary_series(PLAN, RESULTS, &place, summary, summary + 1, &lowest, &highest), "summary_series");
    summary[2] = lowest;
    summary[3] = highest;
}

static void summary_plain(struct work *work)
{
    summary_out_first(work->divisor, RESULTS, summary);
}

static void exact_out_ours(struct work *work)
{
    done(dungdapple_results_to_doubles(RESULTS, cells, work->n, &place), "results_to_doubles");
}

static void exact_out_plain(struct work *work)
{
    exact_out_first(RESULTS, cells);
}

static void exact_in_ours(struct work *work)
{
    done(dungdapple_doubles_to_results(doubles, work->n, exact, work->n, &place, &bad), "doubles_to_results");
}

static void exact_in_plain(struct work *work)
{
    exact_in_first(doubles, work->n, exact);
}

#define BOTH(name) (const struct program[]){{"c-ours", name##_ours}, {"c-plain", name##_plain}}, 2

static void smoothed(struct work *work)
{
    done(dungdapple_smooth_series(PLAN, work->samples, work->n, RESULTS, work->work, work->n, &place, &bad),
         "smooth_series");
}

void output_measures(struct work *work)
{
    const size_t n = work->n;
    size_t i;
    smoothed(work);
    for (i = 0; i < n; i++) doubles[i] = work->samples[i];
    measured(work, &(struct measure){"doubles_in_mixed", n, clear, 1, whole, 4 * n}, BOTH(in));
    for (i = 0; i < n; i++) doubles[i] = fabs(doubles[i]);
    measured(work, &(struct measure){"doubles_in_one_sign", n, clear, 1, whole, 4 * n}, BOTH(in));
    measured(work, &(struct measure){"doubles", n, clear, 1, cells, 8 * n}, BOTH(doubles));
    measured(work, &(struct measure){"whole_even", n, clear, 1, whole, 4 * n}, BOTH(even));
    measured(work, &(struct measure){"whole_upward", n, clear, 1, whole, 4 * n}, BOTH(upward));
    measured(work, &(struct measure){"carry", n, clear, 1, whole, 4 * n}, BOTH(carry));
    measured(work, &(struct measure){"summary", n, clear, 1, summary, sizeof summary}, BOTH(summary));
    measured(work, &(struct measure){"results_to_doubles", n, clear, 1, cells, 8 * n}, BOTH(exact_out));
    for (i = 0; i < n; i++) doubles[i] = (double)work->results[i];
    measured(work, &(struct measure){"doubles_to_results", n, clear, 1, exact, 8 * n}, BOTH(exact_in));
}

static void read_ours(struct work *work)
{
    uint32_t radius, inner, edge, passes, bound, start, size;
    done(dungdapple_read_record(record, dungdapple_record_size(work->n), &radius, &inner, &edge, &passes, &bound,
                                &start, &size), "read_record");
    dungdapple_record_samples(record + start, size, whole, size / 4);
}

static void read_plain(struct work *work)
{
    done(read_samples_first(record, dungdapple_record_size(work->n), whole) == work->n ? 0 : DUNGDAPPLE_RECORD,
         "read_samples_first");
}

void record_measures(struct work *work)
{
    done(dungdapple_write_record(PLAN, work->samples, work->n, record, dungdapple_record_size(work->n)),
         "write_record");
    measured(work, &(struct measure){"read_record", work->n, clear, 1, whole, 4 * work->n}, BOTH(read));
}
