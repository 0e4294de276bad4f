/* Smoothing by passes one after another, each over the whole series. */
#include "forms.h"

FORMS_OF(COMPILER)

#define CELL int32_t
#define PASS pass_samples
#include "pass.h"
#undef CELL
#undef PASS

#define CELL int64_t
#define PASS pass_results
#include "pass.h"

/* The last pass writes results; those before it take turns, so none reads what it writes. */
void FORM(separate_series)(struct plan plan, const int32_t *samples, size_t n, int64_t *results, int64_t *work)
{
    int64_t *to = plan.passes % 2 ? results : work, *from = plan.passes % 2 ? work : results;
    int64_t pass;
    pass_samples(plan, samples, n, to);
    for (pass = 1; pass < plan.passes; pass++) {
        int64_t *const done = to;
        to = from;
        from = done;
        pass_results(plan, from, n, to);
    }
}

/* One pass down, by whole rows: a window of every column. */
static void pass_down(struct plan plan, const int64_t *restrict src, size_t width, size_t height,
                      int64_t *restrict windows, int64_t *restrict dst)
{
    const ptrdiff_t radius = plan.radius, beyond = radius + 1;
    const int64_t inner = plan.inner, edge = plan.edge;
    ptrdiff_t y;
    size_t x;
    for (x = 0; x < width; x++) windows[x] = 0;
    for (y = -radius; y <= radius; y++) {
        const int64_t *const row = src + fold(y, height) * width;
        for (x = 0; x < width; x++) windows[x] += row[x];
    }
    for (y = 0; y < (ptrdiff_t)height; y++) {
        const int64_t *const low = src + fold(y - beyond, height) * width;
        const int64_t *const first = src + fold(y - radius, height) * width;
        const int64_t *const high = src + fold(y + beyond, height) * width;
        int64_t *const row = dst + (size_t)y * width;
        for (x = 0; x < width; x++) {
            row[x] = inner * windows[x] + edge * (low[x] + high[x]);
            windows[x] += high[x] - first[x];
        }
    }
}

/* The same plan across and down. */
void FORM(separate_picture)(struct plan plan, const int32_t *samples, size_t width, size_t height, int64_t *results,
                            int64_t *work)
{
    static int64_t line[4096];
    int64_t *to = plan.passes % 2 ? work : results, *from = plan.passes % 2 ? results : work;
    int64_t pass;
    size_t y;
    for (y = 0; y < height; y++) {
        FORM(separate_series)(plan, samples + y * width, width, to + y * width, line);
    }
    for (pass = 0; pass < plan.passes; pass++) {
        int64_t *const done = to;
        to = from;
        from = done;
        pass_down(plan, from, width, height, line, to);
    }
}
