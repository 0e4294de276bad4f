/* Smooths a series, edits one sample of it, and reads one smoothed value. Build it by the line in README.md. */
#include <inttypes.h>
#include <stdio.h>
#include "dungdapple.h"

enum { LENGTH = 5 };

static void show(const char *what, const int64_t *results)
{
    int i;
    printf("%s:", what);
    for (i = 0; i < LENGTH; i++) printf(" %" PRId64, results[i]);
    printf("\n");
}

/* A refusal, with its place and how many samples are bad. */
static int refused(const char *what, uint32_t number, uint32_t place, uint32_t bad)
{
    if (number == DUNGDAPPLE_DONE) return 0;
    printf("%s: refused by %" PRIu32 " at %" PRIu32 ", %" PRIu32 " bad: %s\n", what, number, place, bad,
           dungdapple_explain(number));
    return 1;
}

int main(void)
{
    /* radius, inner weight, edge weight, passes */
    const double plan[DUNGDAPPLE_PLAN_LENGTH] = {1, 1, 0, 1};
    const double bound = 9;
    int32_t samples[LENGTH] = {0, 0, 9, 0, 0};
    int64_t results[LENGTH], work[LENGTH];
    double value;
    uint32_t number, place, bad, count;

    number = dungdapple_smooth_series(plan, DUNGDAPPLE_PLAN_LENGTH, bound, samples, LENGTH, results, LENGTH,
                                      work, LENGTH, &place, &bad);
    if (refused("smooth", number, place, bad)) return 1;
    printf("divisor: %.0f\n", dungdapple_divisor(plan, DUNGDAPPLE_PLAN_LENGTH));
    show("smoothed", results);

    number = dungdapple_edit_series(plan, DUNGDAPPLE_PLAN_LENGTH, bound, 4, 3, samples, LENGTH, results, LENGTH,
                                    &place, &count, &bad);
    if (refused("edit", number, place, bad)) return 1;
    show("sample 4 set to 3", results);
    printf("results changed: %" PRIu32 "\n", count);

    number = dungdapple_point(plan, DUNGDAPPLE_PLAN_LENGTH, bound, 3, samples, LENGTH, &value, &place, &bad);
    if (refused("point", number, place, bad)) return 1;
    printf("value at 3: %g\n", value);

    /* A refused call changes nothing. */
    number = dungdapple_edit_series(plan, DUNGDAPPLE_PLAN_LENGTH, bound, 4, 0.5, samples, LENGTH, results, LENGTH,
                                    &place, &count, &bad);
    refused("sample 4 set to 0.5", number, place, bad);
    show("as before", results);
    return 0;
}
