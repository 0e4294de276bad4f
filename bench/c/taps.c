/* An edit and a point by the taps of all passes together, which the caller has computed once and keeps. */
#include "forms.h"

FORMS_OF(COMPILER)

/* taps[m] is the weight at distance m. */
static void gain_around(const int64_t *restrict taps, ptrdiff_t reach, ptrdiff_t place, int64_t gain,
                        ptrdiff_t length, int64_t *restrict results)
{
    const ptrdiff_t from = place - reach > 0 ? place - reach : 0;
    const ptrdiff_t to = place + reach < length ? place + reach + 1 : length;
    ptrdiff_t i;
    for (i = from; i < place && i < to; i++) results[i] += gain * taps[place - i];
    for (i = place > from ? place : from; i < to; i++) results[i] += gain * taps[i - place];
}

/* The sample stands at every place of the extension that folds to it. */
void FORM(edit_by_taps)(const int64_t *taps, size_t reach, size_t position, int32_t value, int32_t *samples, size_t n,
                        int64_t *results)
{
    const ptrdiff_t length = (ptrdiff_t)n, far = (ptrdiff_t)reach, at = (ptrdiff_t)position;
    const int64_t gain = (int64_t)value - samples[position];
    const ptrdiff_t turns = (far + length) / (2 * length) + 1;
    ptrdiff_t turn;
    samples[position] = value;
    for (turn = -turns; turn <= turns; turn++) {
        gain_around(taps, far, at + 2 * length * turn, gain, length, results);
        gain_around(taps, far, -1 - at + 2 * length * turn, gain, length, results);
    }
}

int64_t FORM(point_by_taps)(const int64_t *taps, size_t reach, size_t position, const int32_t *samples, size_t n)
{
    const ptrdiff_t far = (ptrdiff_t)reach, at = (ptrdiff_t)position;
    int64_t sum = taps[0] * samples[position];
    ptrdiff_t m;
    if (at >= far && at + far < (ptrdiff_t)n) {
        for (m = 1; m <= far; m++) sum += taps[m] * ((int64_t)samples[at - m] + samples[at + m]);
        return sum;
    }
    for (m = 1; m <= far; m++) sum += taps[m] * ((int64_t)samples[fold(at - m, n)] + samples[fold(at + m, n)]);
    return sum;
}
