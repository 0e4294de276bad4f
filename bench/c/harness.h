/* What the benchmark's C programs share: a work with its slices, its clock, and what is told of it. */
#ifndef HARNESS_H
#define HARNESS_H

#include <stddef.h>
#include <stdint.h>
#include "dungdapple.h"
#include "forms.h"

enum { MOST_CELLS = DUNGDAPPLE_MOST_SAMPLES, MOST_NAME = 64, SPREAD = 64 };

/* One work. The slices are shared by all programs, so that none finds them in a better cache than the others. */
struct work {
    char kind[MOST_NAME], name[MOST_NAME];
    struct plan plan;
    double numbers[DUNGDAPPLE_PLAN_LENGTH];
    double bound;
    size_t n, width, height;
    int64_t divisor;
    size_t reach;
    int32_t samples[MOST_CELLS];
    int64_t results[MOST_CELLS], work[MOST_CELLS];
};

/* A way to do a measure of a work: one call, with its results in the slice that the measure saves. */
struct program {
    const char *name;
    void (*run)(struct work *work);
};

struct measure {
    const char *name;
    size_t cells;
    /* before each program's saved run; may be null */
    void (*start)(struct work *work);
    /* calls of a saved run */
    size_t calls;
    const void *saved;
    size_t saved_bytes;
};

void series_measures(struct work *work);
void picture_measures(struct work *work);
void edit_measures(struct work *work);
void output_measures(struct work *work);
void record_measures(struct work *work);

/* Times the programs in turns, unless the run is a check; then saves what each gives. */
void measured(struct work *work, const struct measure *measure, const struct program *programs, size_t count);

/* Ends the run where a call of Dungdapple did not do what it was asked. */
void done(uint32_t number, const char *call);

#define COUNT(list) (sizeof(list) / sizeof *(list))

FORMS_OF(first)
#ifdef WITH_CLANG
FORMS_OF(clang)
#endif

#endif
