/*
** An edit and a point. Edits go round the same places and set one value, then another, so that each moves results.
** All programs edit the one series: whichever did the last edit, its results are the smoothing of its samples.
*/
#include <string.h>
#include "harness.h"

static size_t next;
static int64_t taps[8 * 1024 + 1];
static int32_t kept[MOST_CELLS];
static double values[SPREAD];

static size_t position(const struct work *work)
{
    return (next % SPREAD * 7919 + 13) % work->n;
}

static int32_t value(const struct work *work)
{
    return (int32_t)(next / SPREAD % 2 == 0 ? work->bound : -work->bound);
}

static void smoothed(struct work *work)
{
    uint32_t place, bad;
    done(dungdapple_smooth_series(work->numbers, DUNGDAPPLE_PLAN_LENGTH, work->bound, work->samples, work->n,
                                  work->results, work->n, work->work, work->n, &place, &bad), "smooth_series");
}

static void restart(struct work *work)
{
    memcpy(work->samples, kept, work->n * sizeof *kept);
    smoothed(work);
    memset(values, 0x55, sizeof values);
    next = 0;
}

/* The weights from the centre outward: all passes of a series that is 1 at its middle alone. */
static void find_taps(const struct work *work)
{
    static int32_t one[2 * 8192 + 1];
    static int64_t spread[2 * 8192 + 1], room[2 * 8192 + 1];
    const size_t middle = work->reach, length = 2 * middle + 1;
    /* the reflection adds what lies beyond the ends; nothing does */
    memset(one, 0, sizeof one);
    one[middle] = 1;
    separate_series_first(work->plan, one, length, spread, room);
    memcpy(taps, spread + middle, (middle + 1) * sizeof *taps);
}

static void ours_edit(struct work *work)
{
    uint32_t place, count, bad;
    done(dungdapple_edit_series(work->numbers, DUNGDAPPLE_PLAN_LENGTH, work->bound, (double)position(work),
                                value(work), work->samples, work->n, work->results, work->n, &place, &count, &bad),
         "edit_series");
    next++;
}

static void taps_edit(struct work *work)
{
    edit_by_taps_first(taps, work->reach, position(work), value(work), work->samples, work->n, work->results);
    next++;
}

static void fresh(struct work *work)
{
    work->samples[position(work)] = value(work);
    separate_series_first(work->plan, work->samples, work->n, work->results, work->work);
    next++;
}

static void ours_fresh(struct work *work)
{
    work->samples[position(work)] = value(work);
    smoothed(work);
    next++;
}

static void ours_point(struct work *work)
{
    uint32_t place, bad;
    done(dungdapple_point(work->numbers, DUNGDAPPLE_PLAN_LENGTH, work->bound, (double)position(work), work->samples,
                          work->n, &values[next % SPREAD], &place, &bad), "point");
    next++;
}

static void taps_point(struct work *work)
{
    const int64_t result = point_by_taps_first(taps, work->reach, position(work), work->samples, work->n);
    values[next % SPREAD] = (double)result / (double)work->divisor;
    next++;
}

static const struct program of_edits[] = {
    {"c-ours", ours_edit}, {"c-taps", taps_edit}, {"c-ours-fresh", ours_fresh}, {"c-separate", fresh},
};
static const struct program of_points[] = {{"c-ours", ours_point}, {"c-taps", taps_point}};

void edit_measures(struct work *work)
{
    const struct measure edit = {"edit", 1, restart, 2 * SPREAD, work->results, work->n * sizeof *work->results};
    const struct measure point = {"point", 1, restart, SPREAD, values, sizeof values};
    memcpy(kept, work->samples, work->n * sizeof *kept);
    find_taps(work);
    restart(work);
    measured(work, &edit, of_edits, COUNT(of_edits));
    restart(work);
    measured(work, &point, of_points, COUNT(of_points));
}
