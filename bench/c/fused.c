/*
** Smoothing by all passes at once: a block of samples goes through every pass before the next block is read, so that
** what lies between two passes stays in the first cache. A pass and the reflection commute, so only samples fold.
*/
#include <string.h>
#include "forms.h"

FORMS_OF(COMPILER)

enum { MOST_PASSES = 8, MOST_BEFORE = 2048, MOST_BLOCK = 2048, LEAST_BLOCK = 1024 };

/* A pass lags its newest cell by radius + 1 and looks back twice as far: so many cells stand before each block. */
static int64_t rows[MOST_PASSES * (MOST_BEFORE + MOST_BLOCK + 8)];
static int32_t folded[MOST_BEFORE + MOST_BLOCK];
static int64_t unused[MOST_BLOCK];

#define STEP(name, cell)                                                                                              \
    static int64_t name(struct plan plan, const cell *restrict newest, size_t count, int64_t window,                  \
                        int64_t *restrict out)                                                                        \
    {                                                                                                                 \
        const ptrdiff_t before = 2 * (ptrdiff_t)plan.radius + 2, length = (ptrdiff_t)count;                           \
        const int64_t inner = plan.inner, edge = plan.edge;                                                           \
        ptrdiff_t i;                                                                                                  \
        for (i = 0; i < length; i++) {                                                                                \
            const int64_t high = newest[i];                                                                           \
            out[i] = inner * window + edge * (newest[i - before] + high);                                             \
            window += high - newest[i - before + 1];                                                                  \
        }                                                                                                             \
        return window;                                                                                                \
    }

STEP(step_samples, int32_t)
STEP(step_results, int64_t)

struct sweep {
    struct plan plan;
    const int32_t *samples;
    ptrdiff_t length, before, row;
    int64_t windows[MOST_PASSES];
};

/* The samples from place `at` of the extension on, with those before them. */
static const int32_t *block_at(const struct sweep *sweep, ptrdiff_t at, ptrdiff_t count)
{
    ptrdiff_t i;
    if (at >= sweep->before && at + count <= sweep->length) return sweep->samples + at;
    for (i = -sweep->before; i < count; i++) {
        folded[sweep->before + i] = sweep->samples[fold(at + i, (size_t)sweep->length)];
    }
    return folded + sweep->before;
}

static void block(struct sweep *sweep, ptrdiff_t at, ptrdiff_t count, int64_t *out)
{
    const int64_t last = sweep->plan.passes - 1;
    int64_t *to = last == 0 ? out : rows + sweep->before, pass;
    sweep->windows[0] = step_samples(sweep->plan, block_at(sweep, at, count), (size_t)count, sweep->windows[0], to);
    for (pass = 1; pass <= last; pass++) {
        int64_t *const from = to;
        to = pass == last ? out : from + sweep->row;
        sweep->windows[pass] = step_results(sweep->plan, from, (size_t)count, sweep->windows[pass], to);
        memmove(from - sweep->before, from - sweep->before + count, (size_t)sweep->before * sizeof *from);
    }
}

void FORM(fused_series)(struct plan plan, const int32_t *samples, size_t n, int64_t *results)
{
    const ptrdiff_t before = 2 * (ptrdiff_t)plan.radius + 2, reach = plan.passes * (plan.radius + 1);
    const ptrdiff_t most = before < LEAST_BLOCK ? LEAST_BLOCK : before, end = (ptrdiff_t)n + reach;
    struct sweep sweep = {plan, samples, (ptrdiff_t)n, before, before + most + 8, {0}};
    ptrdiff_t at = -reach, i;
    memset(rows, 0, (size_t)(plan.passes * sweep.row) * sizeof *rows);
    for (i = -reach - before + 1; i < -reach; i++) sweep.windows[0] += samples[fold(i, n)];
    /* what comes out while the windows fill belongs to no cell */
    while (at < reach) {
        const ptrdiff_t count = reach - at < most ? reach - at : most;
        block(&sweep, at, count, unused);
        at += count;
    }
    while (at < end) {
        const ptrdiff_t count = end - at < most ? end - at : most;
        block(&sweep, at, count, results + (at - reach));
        at += count;
    }
}
