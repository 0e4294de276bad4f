/* Doubles in, results out and a record read, as one writes them in C without a library. */
#include <math.h>
#include <string.h>
#include "forms.h"

FORMS_OF(COMPILER)

/* How many doubles are no samples; where there is one, nothing is written. */
size_t FORM(doubles_in)(double bound, const double *restrict doubles, size_t n, int32_t *restrict samples)
{
    size_t bad = 0, i;
    for (i = 0; i < n; i++) bad += !(fabs(doubles[i]) <= bound) | !(trunc(doubles[i]) == doubles[i]);
    if (bad > 0) return bad;
    for (i = 0; i < n; i++) samples[i] = (int32_t)doubles[i];
    return 0;
}

void FORM(doubles_out)(int64_t divisor, const int64_t *restrict results, size_t n, double *restrict cells)
{
    size_t i;
    for (i = 0; i < n; i++) cells[i] = (double)results[i] / (double)divisor;
}

static int64_t floor_over(int64_t number, int64_t divisor)
{
    const int64_t quotient = number / divisor;
    return quotient - (number % divisor < 0);
}

void FORM(whole_even)(int64_t divisor, const int64_t *restrict results, size_t n, int32_t *restrict cells)
{
    size_t i;
    for (i = 0; i < n; i++) {
        const int64_t below = floor_over(results[i], divisor), rest = results[i] - below * divisor;
        cells[i] = (int32_t)(below + (2 * rest > divisor || (2 * rest == divisor && below % 2 != 0)));
    }
}

void FORM(whole_upward)(int64_t divisor, const int64_t *restrict results, size_t n, int32_t *restrict cells)
{
    size_t i;
    for (i = 0; i < n; i++) {
        const int64_t below = floor_over(results[i], divisor), rest = results[i] - below * divisor;
        cells[i] = (int32_t)(below + (2 * rest >= divisor));
    }
}

void FORM(carry_out)(int64_t divisor, const int64_t *restrict results, size_t n, int32_t *restrict cells)
{
    int64_t rest = 0;
    size_t i;
    for (i = 0; i < n; i++) {
        const int64_t whole = floor_over(results[i] + rest, divisor);
        rest += results[i] - whole * divisor;
        cells[i] = (int32_t)whole;
    }
}

/* Lowest, highest, and the first index of each. */
void FORM(summary_out)(int64_t divisor, const int64_t *restrict results, size_t n, double *restrict summary)
{
    size_t lowest = 0, highest = 0, i;
    for (i = 1; i < n; i++) {
        if (results[i] < results[lowest]) lowest = i;
        if (results[i] > results[highest]) highest = i;
    }
    summary[0] = (double)results[lowest] / (double)divisor;
    summary[1] = (double)results[highest] / (double)divisor;
    summary[2] = (double)lowest;
    summary[3] = (double)highest;
}

void FORM(exact_out)(const int64_t *restrict results, size_t n, double *restrict cells)
{
    size_t i;
    for (i = 0; i < n; i++) cells[i] = (double)results[i];
}

void FORM(exact_in)(const double *restrict doubles, size_t n, int64_t *restrict results)
{
    size_t i;
    for (i = 0; i < n; i++) results[i] = (int64_t)doubles[i];
}

/* How many samples the record holds, 0 where it is not well formed. Fields: tag, two bytes of length, value. */
size_t FORM(read_samples)(const uint8_t *bytes, size_t length, int32_t *samples)
{
    static const uint8_t sizes[] = {2, 1, 1, 1, 4};
    size_t at = 0, count, field, i;
    for (field = 0; field < sizeof sizes; field++) {
        if (length < at + 3 || bytes[at] != field + 1 || bytes[at + 1] != 0 || bytes[at + 2] != sizes[field]) return 0;
        at += 3 + (size_t)sizes[field];
    }
    if (length < at + 3 || bytes[at] != 6) return 0;
    count = (size_t)(bytes[at + 1] << 8 | bytes[at + 2]);
    at += 3;
    if (at + count != length || count % 4 != 0 || count == 0 || count > 4096) return 0;
    for (i = 0; i < count / 4; i++) {
        const uint8_t *const four = bytes + at + 4 * i;
        const uint32_t number = (uint32_t)four[0] << 24 | (uint32_t)four[1] << 16 | (uint32_t)four[2] << 8 | four[3];
        memcpy(samples + i, &number, sizeof number);
    }
    return count / 4;
}
