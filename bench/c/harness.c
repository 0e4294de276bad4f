/*
** Runs the works of a file: bench check|time FOLDER. FOLDER has `works`, a line a work, and NAME.samples of each. It
** gets NAME.MEASURE.PROGRAM, what each program gave; times go to standard output, a line a figure.
*/
#define _POSIX_C_SOURCE 200809L
#include <stdio.h>
#include <stdlib.h>
#include <string.h>
#include <time.h>
#include "harness.h"

enum { LEAST_ROUNDS = 31, MOST_ROUNDS = 201, FEWEST_ROUNDS = 5, MOST_PROGRAMS = 16 };

static const double LEAST_SAMPLE = 20e3, WARM = 5e6, USUAL = 120e6, MOST = 1500e6;

static int timing;
static const char *folder;

static void fail(const char *what, const char *name)
{
    fprintf(stderr, "bench: %s: %s\n", what, name);
    exit(1);
}

void done(uint32_t number, const char *call)
{
    if (number != DUNGDAPPLE_DONE) fail(call, dungdapple_explain(number));
}

static double now(void)
{
    struct timespec time;
    clock_gettime(CLOCK_MONOTONIC, &time);
    return 1e9 * (double)time.tv_sec + (double)time.tv_nsec;
}

/* Nanoseconds a call, by so many calls in a row. */
static double sample(const struct program *program, struct work *work, size_t calls)
{
    const double start = now();
    size_t call;
    for (call = 0; call < calls; call++) program->run(work);
    return (now() - start) / (double)calls;
}

/* Calls in a row that take as long as a sample is to take at least; a program is warm after this. */
static size_t warmed(const struct program *program, struct work *work)
{
    const double start = now();
    double each = 0;
    size_t calls = 1;
    while (now() - start < WARM) {
        each = sample(program, work, calls);
        if (each * (double)calls < LEAST_SAMPLE) calls *= 2;
    }
    return each >= LEAST_SAMPLE ? 1 : (size_t)(LEAST_SAMPLE / each) + 1;
}

static int enough(size_t rounds, size_t programs, double spent)
{
    if (rounds >= MOST_ROUNDS || (rounds >= FEWEST_ROUNDS && spent > MOST * (double)programs)) return 1;
    return rounds >= LEAST_ROUNDS && spent > USUAL * (double)programs;
}

static void times(struct work *work, const struct measure *measure, const struct program *programs, size_t count)
{
    static double taken[MOST_PROGRAMS][MOST_ROUNDS];
    size_t calls[MOST_PROGRAMS], rounds = 0, i, j;
    double start;
    for (i = 0; i < count; i++) calls[i] = warmed(programs + i, work);
    start = now();
    while (!enough(rounds, count, now() - start)) {
        for (i = 0; i < count; i++) taken[i][rounds] = sample(programs + i, work, calls[i]);
        rounds++;
    }
    for (i = 0; i < count; i++) {
        printf("figure %s %s %s %zu", work->name, measure->name, programs[i].name, measure->cells);
        for (j = 0; j < rounds; j++) printf(" %.2f", taken[i][j]);
        printf("\n");
    }
    fflush(stdout);
}

static FILE *opened(const char *name, const char *ending, const char *mode)
{
    char path[4096];
    FILE *file;
    snprintf(path, sizeof path, "%s/%s%s", folder, name, ending);
    file = fopen(path, mode);
    if (file == NULL) fail("cannot be opened", path);
    return file;
}

static void saved(struct work *work, const struct measure *measure, const struct program *program)
{
    char ending[2 * MOST_NAME];
    FILE *file;
    size_t call;
    snprintf(ending, sizeof ending, ".%s.%s", measure->name, program->name);
    file = opened(work->name, ending, "wb");
    if (measure->start != NULL) measure->start(work);
    for (call = 0; call < measure->calls; call++) program->run(work);
    if (fwrite(measure->saved, 1, measure->saved_bytes, file) != measure->saved_bytes || fclose(file) != 0) {
        fail("cannot be written", work->name);
    }
}

void measured(struct work *work, const struct measure *measure, const struct program *programs, size_t count)
{
    size_t i;
    if (count > MOST_PROGRAMS) fail("too many programs", measure->name);
    if (timing) times(work, measure, programs, count);
    /* a program that writes nothing is not to pass by what another left */
    for (i = 0; i < count; i++) saved(work, measure, programs + i);
}

static int read_work(FILE *works, struct work *work)
{
    long long radius, inner, edge, passes;
    const int read = fscanf(works, "%63s %63s %lld %lld %lld %lld %lf %zu %zu", work->kind, work->name, &radius,
                            &inner, &edge, &passes, &work->bound, &work->width, &work->height);
    FILE *file;
    if (read == EOF) return 0;
    work->n = work->width * work->height;
    if (read != 9 || work->n > MOST_CELLS) fail("not a work", work->name);
    work->plan = (struct plan){radius, inner, edge, passes};
    work->numbers[0] = (double)radius;
    work->numbers[1] = (double)inner;
    work->numbers[2] = (double)edge;
    work->numbers[3] = (double)passes;
    work->divisor = (int64_t)dungdapple_divisor(work->numbers, DUNGDAPPLE_PLAN_LENGTH);
    work->reach = dungdapple_reach(work->numbers, DUNGDAPPLE_PLAN_LENGTH);
    file = opened(work->name, ".samples", "rb");
    if (fread(work->samples, sizeof *work->samples, work->n, file) != work->n) fail("too few samples", work->name);
    fclose(file);
    return 1;
}

int main(int count, char **words)
{
    static const struct {
        const char *kind;
        void (*measures)(struct work *work);
    } kinds[] = {{"series", series_measures}, {"picture", picture_measures}, {"edits", edit_measures},
                 {"outputs", output_measures}, {"record", record_measures}};
    static struct work work;
    FILE *works;
    size_t i;
    if (count != 3) fail("usage", "bench check|time FOLDER");
    timing = strcmp(words[1], "time") == 0;
    folder = words[2];
    works = opened("works", "", "r");
    while (read_work(works, &work)) {
        for (i = 0; i < COUNT(kinds) && strcmp(work.kind, kinds[i].kind) != 0; i++) continue;
        if (i == COUNT(kinds)) fail("no such kind of work", work.kind);
        kinds[i].measures(&work);
    }
    return 0;
}
