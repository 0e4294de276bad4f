/* Smoothing a series and a picture: Dungdapple, the forms beside it, and a copy of the column, which is the limit. */
#include <string.h>
#include "harness.h"

static void clear(struct work *work)
{
    memset(work->results, 0x55, sizeof work->results);
}

static void ours(struct work *work)
{
    uint32_t place, bad;
    done(dungdapple_smooth_series(work->numbers, DUNGDAPPLE_PLAN_LENGTH, work->bound, work->samples, work->n,
                                  work->results, work->n, work->work, work->n, &place, &bad), "smooth_series");
}

static void ours_picture(struct work *work)
{
    uint32_t place, bad;
    done(dungdapple_smooth_picture(work->numbers, DUNGDAPPLE_PLAN_LENGTH, work->numbers, DUNGDAPPLE_PLAN_LENGTH,
                                   work->bound, (double)work->width, (double)work->height, work->samples, work->n,
                                   work->results, work->n, work->work, work->n, &place, &bad), "smooth_picture");
}

static void copy(struct work *work)
{
    memcpy(work->work, work->results, work->n * sizeof *work->results);
}

#define FORMS(compiler)                                                                                               \
    static void separate_##compiler(struct work *work)                                                                \
    {                                                                                                                 \
        separate_series_##compiler(work->plan, work->samples, work->n, work->results, work->work);                    \
    }                                                                                                                 \
    static void fused_##compiler(struct work *work)                                                                   \
    {                                                                                                                 \
        fused_series_##compiler(work->plan, work->samples, work->n, work->results);                                   \
    }                                                                                                                 \
    static void picture_##compiler(struct work *work)                                                                 \
    {                                                                                                                 \
        separate_picture_##compiler(work->plan, work->samples, work->width, work->height, work->results, work->work); \
    }

FORMS(first)
#ifdef WITH_CLANG
FORMS(clang)
#endif

static const struct program of_series[] = {
    {"c-ours", ours},
    {"c-separate", separate_first},
    {"c-fused", fused_first},
#ifdef WITH_CLANG
    {"c-separate-clang", separate_clang},
    {"c-fused-clang", fused_clang},
#endif
    {"c-memcpy", copy},
};

static const struct program of_pictures[] = {
    {"c-ours", ours_picture},
    {"c-separate", picture_first},
#ifdef WITH_CLANG
    {"c-separate-clang", picture_clang},
#endif
    {"c-memcpy", copy},
};

static struct measure smoothing(struct work *work)
{
    return (struct measure){"smooth", work->n, clear, 1, work->results, work->n * sizeof *work->results};
}

void series_measures(struct work *work)
{
    const struct measure measure = smoothing(work);
    measured(work, &measure, of_series, COUNT(of_series));
}

void picture_measures(struct work *work)
{
    const struct measure measure = smoothing(work);
    measured(work, &measure, of_pictures, COUNT(of_pictures));
}
