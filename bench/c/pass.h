/* One pass of n cells of type CELL into dst, by the function PASS. Only the ends fold. */
static void PASS(struct plan plan, const CELL *restrict src, size_t n, int64_t *restrict dst)
{
    const ptrdiff_t length = (ptrdiff_t)n, radius = plan.radius, beyond = radius + 1;
    const ptrdiff_t enter = beyond < length ? beyond : length;
    const ptrdiff_t leave = length - beyond > enter ? length - beyond : enter;
    const int64_t inner = plan.inner, edge = plan.edge;
    int64_t window = 0;
    ptrdiff_t i;
    for (i = -radius; i <= radius; i++) window += src[fold(i, n)];
    for (i = 0; i < enter; i++) {
        const int64_t high = src[fold(i + beyond, n)];
        dst[i] = inner * window + edge * (src[fold(i - beyond, n)] + high);
        window += high - src[fold(i - radius, n)];
    }
    for (; i < leave; i++) {
        const int64_t high = src[i + beyond];
        dst[i] = inner * window + edge * (src[i - beyond] + high);
        window += high - src[i - radius];
    }
    for (; i < length; i++) {
        const int64_t high = src[fold(i + beyond, n)];
        dst[i] = inner * window + edge * (src[fold(i - beyond, n)] + high);
        window += high - src[fold(i - radius, n)];
    }
}
