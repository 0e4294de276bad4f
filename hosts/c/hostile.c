/*
** Hostile arguments. Of every call, each number it takes stands once at every double below, and each slice is once
** one short, one long and empty. The table of each call says by which number it must refuse. A refused call must
** leave every cell as it was, and a zero in all that it writes through pointers; two faults at once get the lower
** number.
*/
#define _GNU_SOURCE
#include <float.h>
#include <math.h>
#include "dungdapple.h"
#include "lending.h"

enum { LENGTH = 6, WIDTH = 3, HEIGHT = 2, POSITION = 2, RECORD_BYTES = 27 + 4 * LENGTH };
enum { MOST_NUMBERS = 12, MOST_SLICES = 5, MOST_TOLD = 7, MOST_REALS = 2 };

/* ---- What is hostile. */

/* What a quantity takes of the doubles below. All others it refuses. */
enum { NOTHING = 0, ZERO = 1, MINUS_ONE = 2, TWO_31 = 4 };

#define NO_NUMBER ((double)NAN)

static const struct hostile {
    const char *name;
    double x;
    unsigned taken_by;
} HOSTILE[] = {
    {"NaN", NO_NUMBER, NOTHING},
    {"minus NaN", -NO_NUMBER, NOTHING},
    {"infinity", HUGE_VAL, NOTHING},
    {"minus infinity", -HUGE_VAL, NOTHING},
    {"1.5", 1.5, NOTHING},
    {"0.5", 0.5, NOTHING},
    {"-1.5", -1.5, NOTHING},
    {"the least double above 0", 4.9406564584124654e-324, NOTHING},
    {"-0", -0.0, ZERO},
    {"-1", -1, MINUS_ONE},
    {"2^31", 2147483648.0, TWO_31},
    {"-2^31 - 1", -2147483649.0, NOTHING},
    {"2^32", 4294967296.0, NOTHING},
    {"2^32 + 1", 4294967297.0, NOTHING},
    {"2^53 - 1", 9007199254740991.0, NOTHING},
    {"2^53", 9007199254740992.0, NOTHING},
    {"-2^53", -9007199254740992.0, NOTHING},
    {"2^53 + 2", 9007199254740994.0, NOTHING},
    {"2^63", 9223372036854775808.0, NOTHING},
    {"2^64", 18446744073709551616.0, NOTHING},
    {"2^64 + 2^12", 18446744073709555712.0, NOTHING},
    {"the largest double", DBL_MAX, NOTHING},
    {"minus the largest double", -DBL_MAX, NOTHING},
};

#define COUNT(list) (sizeof(list) / sizeof(list)[0])

/* ---- What a call is lent. Slices by their place in the call's table, numbers by theirs. */

static struct lent lent[MOST_SLICES];
static size_t lengths[MOST_SLICES];
static double given[MOST_NUMBERS];
static uint32_t told[MOST_TOLD];
static double reals[MOST_REALS];

#define BYTES(i) (uint8_t *)(void *)lent[i].cells, lengths[i]
#define INT32S(i) (int32_t *)(void *)lent[i].cells, lengths[i]
#define INT64S(i) (int64_t *)(void *)lent[i].cells, lengths[i]
#define DOUBLES(i) (double *)(void *)lent[i].cells, lengths[i]

static uint32_t smooth_series(void)
{
    return dungdapple_smooth_series(DOUBLES(0), given[0], INT32S(1), INT64S(2), INT64S(3), told, told + 1);
}

static uint32_t smooth_picture(void)
{
    return dungdapple_smooth_picture(DOUBLES(0), DOUBLES(1), given[0], given[1], given[2], INT32S(2), INT64S(3),
                                     INT64S(4), told, told + 1);
}

static uint32_t edit_series(void)
{
    return dungdapple_edit_series(DOUBLES(0), given[0], given[1], given[2], INT32S(1), INT64S(2), told, told + 1,
                                  told + 2);
}

static uint32_t point(void)
{
    return dungdapple_point(DOUBLES(0), given[0], given[1], INT32S(1), reals, told, told + 1);
}

static uint32_t plan_for(void)
{
    return dungdapple_plan_for(given[0], given[1], given[2], told, told + 1);
}

static uint32_t doubles_in(void)
{
    return dungdapple_doubles_in(given[0], DOUBLES(0), INT32S(1), told, told + 1);
}

static uint32_t whole_series(void)
{
    return dungdapple_whole_series(DOUBLES(0), given[0], given[1], INT64S(1), INT32S(2), told);
}

static uint32_t whole_picture(void)
{
    return dungdapple_whole_picture(DOUBLES(0), DOUBLES(1), given[0], given[1], given[2], given[3], INT64S(2),
                                    INT32S(3), told);
}

static uint32_t carry_series(void)
{
    return dungdapple_carry_series(DOUBLES(0), given[0], INT64S(1), INT32S(2), told, reals);
}

static uint32_t carry_picture(void)
{
    return dungdapple_carry_picture(DOUBLES(0), DOUBLES(1), given[0], given[1], given[2], INT64S(2), INT32S(3), told,
                                    reals);
}

static uint32_t doubles_series(void)
{
    return dungdapple_doubles_series(DOUBLES(0), given[0], INT64S(1), DOUBLES(2), told);
}

static uint32_t doubles_picture(void)
{
    return dungdapple_doubles_picture(DOUBLES(0), DOUBLES(1), given[0], given[1], given[2], INT64S(2), DOUBLES(3),
                                      told);
}

static uint32_t summary_series(void)
{
    return dungdapple_summary_series(DOUBLES(0), given[0], INT64S(1), told, reals, reals + 1, told + 1, told + 2);
}

static uint32_t summary_picture(void)
{
    return dungdapple_summary_picture(DOUBLES(0), DOUBLES(1), given[0], given[1], given[2], INT64S(2), told, reals,
                                      reals + 1, told + 1, told + 2);
}

static uint32_t results_to_doubles(void)
{
    return dungdapple_results_to_doubles(INT64S(0), DOUBLES(1), told);
}

static uint32_t doubles_to_results(void)
{
    return dungdapple_doubles_to_results(DOUBLES(0), INT64S(1), told, told + 1);
}

static uint32_t read_record(void)
{
    return dungdapple_read_record(BYTES(0), told, told + 1, told + 2, told + 3, told + 4, told + 5, told + 6);
}

static uint32_t write_record(void)
{
    return dungdapple_write_record(DOUBLES(0), given[0], INT32S(1), BYTES(2));
}

/* ---- The tables. */

/* A number that a call takes: in the slice at `slice`, its element `at`; or, where that is -1, `given[at]`. */
struct quantity {
    const char *name;
    int slice, at;
    double usual;
    uint32_t refused_by;
    unsigned takes;
};

/* Done by a slice of the wrong length, where the length is free. */
#define FREE DUNGDAPPLE_DONE

enum content { PLAN, SAMPLES, RESULTS, RECORD, WHOLE_DOUBLES, TO_WRITE };

struct part {
    const char *name;
    enum content content;
    size_t width, length;
    uint32_t if_short, if_long, if_empty;
};

struct call {
    const char *name;
    uint32_t (*run)(void);
    size_t tells, reals;
    struct quantity quantities[MOST_NUMBERS];
    struct part parts[MOST_SLICES];
};

#define PLAN_QUANTITIES(slice) \
    {"radius", slice, 0, 1, DUNGDAPPLE_RADIUS, ZERO}, \
    {"inner", slice, 1, 2, DUNGDAPPLE_INNER, NOTHING}, \
    {"edge", slice, 2, 1, DUNGDAPPLE_EDGE, ZERO}, \
    {"passes", slice, 3, 1, DUNGDAPPLE_PASSES, NOTHING}
#define BOUND_AT(at) {"bound", -1, at, 9, DUNGDAPPLE_BOUND, NOTHING}
#define SIDES_AT(at) \
    {"width", -1, at, WIDTH, DUNGDAPPLE_SIZE, NOTHING}, {"height", -1, at + 1, HEIGHT, DUNGDAPPLE_SIZE, NOTHING}
#define MODE_AT(at) {"mode", -1, at, DUNGDAPPLE_UPWARD, DUNGDAPPLE_MODE, ZERO}
#define POSITION_AT(at) {"position", -1, at, POSITION, DUNGDAPPLE_POSITION, ZERO}

#define PLAN_PART(name) \
    {name, PLAN, 8, DUNGDAPPLE_PLAN_LENGTH, DUNGDAPPLE_PASSES, DUNGDAPPLE_PASSES, DUNGDAPPLE_PASSES}
/* One whose length is asked; one that gives a series its length, where others have to be as long. */
#define ASKED(name, content, width) \
    {name, content, width, LENGTH, DUNGDAPPLE_LENGTH, DUNGDAPPLE_LENGTH, DUNGDAPPLE_LENGTH}
#define ASKING(name, content, width) \
    {name, content, width, LENGTH, DUNGDAPPLE_LENGTH, DUNGDAPPLE_LENGTH, DUNGDAPPLE_SIZE}
#define ALONE(name, content, width) {name, content, width, LENGTH, FREE, FREE, DUNGDAPPLE_SIZE}

static const struct call CALLS[] = {
    {"smooth_series", smooth_series, 2, 0,
     {PLAN_QUANTITIES(0), BOUND_AT(0)},
     {PLAN_PART("plan"), ASKING("samples", SAMPLES, 4), ASKED("results", TO_WRITE, 8), ASKED("work", TO_WRITE, 8)}},
    {"smooth_picture", smooth_picture, 2, 0,
     {PLAN_QUANTITIES(0), PLAN_QUANTITIES(1), BOUND_AT(0), SIDES_AT(1)},
     {PLAN_PART("across"), PLAN_PART("down"), ASKED("samples", SAMPLES, 4), ASKED("results", TO_WRITE, 8),
      ASKED("work", TO_WRITE, 8)}},
    {"edit_series", edit_series, 3, 0,
     {PLAN_QUANTITIES(0), BOUND_AT(0), POSITION_AT(1), {"value", -1, 2, 5, DUNGDAPPLE_VALUE, ZERO | MINUS_ONE}},
     {PLAN_PART("plan"), ASKING("samples", SAMPLES, 4), ASKED("results", RESULTS, 8)}},
    {"point", point, 2, 1,
     {PLAN_QUANTITIES(0), BOUND_AT(0), POSITION_AT(1)},
     {PLAN_PART("plan"), ALONE("samples", SAMPLES, 4)}},
    {"plan_for", plan_for, 2, 0,
     {{"sigma", -1, 0, 500, DUNGDAPPLE_SIGMA, NOTHING},
      {"passes", -1, 1, 3, DUNGDAPPLE_PASSES, NOTHING},
      {"inner", -1, 2, 16, DUNGDAPPLE_INNER, NOTHING}},
     {{NULL, PLAN, 0, 0, 0, 0, 0}}},
    {"doubles_in", doubles_in, 2, 0,
     {BOUND_AT(0)},
     {ASKING("doubles", WHOLE_DOUBLES, 8), ASKED("samples", TO_WRITE, 4)}},
    {"whole_series", whole_series, 1, 0,
     {PLAN_QUANTITIES(0), BOUND_AT(0), MODE_AT(1)},
     {PLAN_PART("plan"), ASKING("results", RESULTS, 8), ASKED("cells", TO_WRITE, 4)}},
    {"whole_picture", whole_picture, 1, 0,
     {PLAN_QUANTITIES(0), PLAN_QUANTITIES(1), BOUND_AT(0), SIDES_AT(1), MODE_AT(3)},
     {PLAN_PART("across"), PLAN_PART("down"), ASKED("results", RESULTS, 8), ASKED("cells", TO_WRITE, 4)}},
    {"carry_series", carry_series, 1, 1,
     {PLAN_QUANTITIES(0), BOUND_AT(0)},
     {PLAN_PART("plan"), ASKING("results", RESULTS, 8), ASKED("cells", TO_WRITE, 4)}},
    {"carry_picture", carry_picture, 1, 1,
     {PLAN_QUANTITIES(0), PLAN_QUANTITIES(1), BOUND_AT(0), SIDES_AT(1)},
     {PLAN_PART("across"), PLAN_PART("down"), ASKED("results", RESULTS, 8), ASKED("cells", TO_WRITE, 4)}},
    {"doubles_series", doubles_series, 1, 0,
     {PLAN_QUANTITIES(0), BOUND_AT(0)},
     {PLAN_PART("plan"), ASKING("results", RESULTS, 8), ASKED("cells", TO_WRITE, 8)}},
    {"doubles_picture", doubles_picture, 1, 0,
     {PLAN_QUANTITIES(0), PLAN_QUANTITIES(1), BOUND_AT(0), SIDES_AT(1)},
     {PLAN_PART("across"), PLAN_PART("down"), ASKED("results", RESULTS, 8), ASKED("cells", TO_WRITE, 8)}},
    {"summary_series", summary_series, 3, 2,
     {PLAN_QUANTITIES(0), BOUND_AT(0)},
     {PLAN_PART("plan"), ALONE("results", RESULTS, 8)}},
    {"summary_picture", summary_picture, 3, 2,
     {PLAN_QUANTITIES(0), PLAN_QUANTITIES(1), BOUND_AT(0), SIDES_AT(1)},
     {PLAN_PART("across"), PLAN_PART("down"), ASKED("results", RESULTS, 8)}},
    {"results_to_doubles", results_to_doubles, 1, 0,
     {{NULL, 0, 0, 0, 0, 0}},
     {ASKING("results", RESULTS, 8), ASKED("cells", TO_WRITE, 8)}},
    {"doubles_to_results", doubles_to_results, 2, 0,
     {{NULL, 0, 0, 0, 0, 0}},
     {ASKING("doubles", WHOLE_DOUBLES, 8), ASKED("results", TO_WRITE, 8)}},
    {"read_record", read_record, 7, 0,
     {{NULL, 0, 0, 0, 0, 0}},
     {{"bytes", RECORD, 1, RECORD_BYTES, DUNGDAPPLE_RECORD, DUNGDAPPLE_RECORD, DUNGDAPPLE_RECORD}}},
    /* a field takes what it can hold, and judges nothing */
    {"write_record", write_record, 0, 0,
     {{"radius", 0, 0, 1, DUNGDAPPLE_RADIUS, ZERO},
      {"inner", 0, 1, 2, DUNGDAPPLE_INNER, ZERO},
      {"edge", 0, 2, 1, DUNGDAPPLE_EDGE, ZERO},
      {"passes", 0, 3, 1, DUNGDAPPLE_PASSES, ZERO},
      {"bound", -1, 0, 9, DUNGDAPPLE_BOUND, ZERO | TWO_31}},
     {PLAN_PART("plan"), ASKING("samples", SAMPLES, 4),
      {"bytes", TO_WRITE, 1, RECORD_BYTES, DUNGDAPPLE_LENGTH, DUNGDAPPLE_LENGTH, DUNGDAPPLE_LENGTH}}},
};

static size_t quantities_of(const struct call *call)
{
    size_t count = 0;
    while (count < MOST_NUMBERS && call->quantities[count].name != NULL) count++;
    return count;
}

static size_t parts_of(const struct call *call)
{
    size_t count = 0;
    while (count < MOST_SLICES && call->parts[count].name != NULL) count++;
    return count;
}

/* ---- What slices hold. */

static const int32_t SOME[] = {3, -1, 4, -9, 0, 9, 2};

static void write_usual_record(uint8_t *bytes, size_t length)
{
    static const uint8_t HEAD[27] = {1, 0, 2, 0, 1, 2, 0, 1, 2, 3, 0, 1, 1, 4, 0, 1, 1, 5, 0, 4, 0, 0, 0, 9,
                                     6, 0, 4 * LENGTH};
    size_t i;
    for (i = 0; i < length; i++) {
        uint32_t sample = i < 27 ? 0 : (uint32_t)SOME[(i - 27) / 4 % COUNT(SOME)];
        bytes[i] = i < 27 ? HEAD[i] : (uint8_t)(sample >> (24 - 8 * ((i - 27) % 4)) & 255);
    }
}

static void fill(const struct part *part, unsigned char *cells, size_t length)
{
    size_t i;
    if (part->content == RECORD) {
        write_usual_record(cells, length);
        return;
    }
    if (part->content == TO_WRITE) {
        memset(cells, 0xB7, length * part->width);
        return;
    }
    for (i = 0; i < length; i++) {
        int32_t sample = SOME[i % COUNT(SOME)];
        int64_t result = sample;
        double whole = sample;
        if (part->content == SAMPLES) memcpy(cells + 4 * i, &sample, 4);
        if (part->content == RESULTS) memcpy(cells + 8 * i, &result, 8);
        if (part->content == WHOLE_DOUBLES || part->content == PLAN) memcpy(cells + 8 * i, &whole, 8);
    }
}

static void put(const struct quantity *quantity, double x)
{
    if (quantity->slice < 0) given[quantity->at] = x;
    else if ((size_t)quantity->at < lengths[quantity->slice]) {
        memcpy(lent[quantity->slice].cells + 8 * quantity->at, &x, sizeof x);
    }
}

/* ---- Trials. */

enum { MOST_BYTES = 256 };

typedef unsigned char copies[MOST_SLICES][MOST_BYTES];

/* All that a call may change, and its number. */
struct outcome {
    uint32_t number;
    uint32_t told[MOST_TOLD];
    double reals[MOST_REALS];
    copies cells;
};

/* What is changed of the usual call: two quantities, and the length of one slice. None is -1. */
struct trial {
    int first, second;
    double x;
    int part;
    size_t length;
};

static const struct trial USUAL = {-1, -1, 0, -1, 0};

static void keep(const struct call *call, copies cells)
{
    size_t i;
    memset(cells, 0, MOST_SLICES * MOST_BYTES);
    for (i = 0; i < parts_of(call); i++) memcpy(cells[i], lent[i].cells, lent[i].bytes);
}

static void lend_all(const struct call *call, struct trial trial)
{
    size_t i;
    for (i = 0; i < parts_of(call); i++) {
        const struct part *part = &call->parts[i];
        lengths[i] = trial.part == (int)i ? trial.length : part->length;
        lent[i] = lend(lengths[i] * part->width);
        lent_must(lent[i].bytes <= MOST_BYTES, "a slice is too long for its copy");
        fill(part, lent[i].cells, lengths[i]);
    }
    for (i = 0; i < quantities_of(call); i++) {
        int hostile = trial.first == (int)i || trial.second == (int)i;
        put(&call->quantities[i], hostile ? trial.x : call->quantities[i].usual);
    }
}

/* Runs the call. What it writes through pointers holds garbage before. `before` gets what slices held. */
static struct outcome outcome_of(const struct call *call, struct trial trial, copies before)
{
    struct outcome outcome;
    size_t i;
    memset(&outcome, 0, sizeof outcome);
    lend_all(call, trial);
    keep(call, before);
    for (i = 0; i < parts_of(call); i++) {
        if (call->parts[i].content == PLAN || call->parts[i].content == RECORD) seal(lent[i]);
    }
    for (i = 0; i < MOST_TOLD; i++) told[i] = UINT32_C(0xDEADBEEF);
    for (i = 0; i < MOST_REALS; i++) reals[i] = -12345.678;
    outcome.number = call->run();
    for (i = 0; i < call->tells; i++) outcome.told[i] = told[i];
    for (i = 0; i < call->reals; i++) outcome.reals[i] = reals[i];
    keep(call, outcome.cells);
    for (i = 0; i < parts_of(call); i++) give_back(lent[i]);
    return outcome;
}

static size_t passed, failed;

static void count_check(int holds, const char *call, const char *what, const char *how, const char *fault)
{
    if (holds) passed++;
    else {
        failed++;
        printf("%s, %s %s: %s\n", call, what, how, fault);
    }
}

/* Zeros in all that is told, plus zeros in the doubles, and every slice as it was. */
static int is_untouched(const struct outcome *outcome, copies before)
{
    struct outcome clean;
    memset(&clean, 0, sizeof clean);
    clean.number = outcome->number;
    memcpy(clean.cells, before, sizeof clean.cells);
    return memcmp(&clean, outcome, sizeof clean) == 0;
}

static void check(const struct call *call, struct trial trial, uint32_t wanted, const char *what, const char *how)
{
    copies before;
    struct outcome outcome = outcome_of(call, trial, before);
    char fault[80];
    snprintf(fault, sizeof fault, "expected %u, got %u", wanted, outcome.number);
    count_check(outcome.number == wanted, call->name, what, how, fault);
    if (wanted == DUNGDAPPLE_DONE) return;
    count_check(is_untouched(&outcome, before), call->name, what, how, "it left a trace");
}

/* The lower of two numbers of refusal, where DONE is none. */
static uint32_t lower(uint32_t a, uint32_t b)
{
    if (a == DUNGDAPPLE_DONE) return b;
    if (b == DUNGDAPPLE_DONE) return a;
    return a < b ? a : b;
}

static void try_numbers(const struct call *call)
{
    size_t q, h, other;
    for (q = 0; q < quantities_of(call); q++) {
        const struct quantity *quantity = &call->quantities[q];
        for (h = 0; h < COUNT(HOSTILE); h++) {
            struct trial trial = USUAL;
            uint32_t wanted = (HOSTILE[h].taken_by & quantity->takes) != 0 ? DUNGDAPPLE_DONE : quantity->refused_by;
            trial.first = (int)q;
            trial.x = HOSTILE[h].x;
            check(call, trial, wanted, quantity->name, HOSTILE[h].name);
        }
        for (other = 0; other < q; other++) {
            struct trial trial = USUAL;
            trial.first = (int)q;
            trial.second = (int)other;
            trial.x = NO_NUMBER;
            check(call, trial, lower(quantity->refused_by, call->quantities[other].refused_by), quantity->name,
                  call->quantities[other].name);
        }
    }
}

/* Minus zero is 0: the same outcome, cell by cell. */
static void try_minus_zero(const struct call *call)
{
    size_t q;
    for (q = 0; q < quantities_of(call); q++) {
        copies before;
        struct outcome zero, minus;
        size_t slice = call->quantities[q].slice < 0 ? MOST_SLICES : (size_t)call->quantities[q].slice;
        struct trial trial = USUAL;
        trial.first = (int)q;
        zero = outcome_of(call, trial, before);
        trial.x = -0.0;
        minus = outcome_of(call, trial, before);
        /* the number itself stands in its plan */
        if (slice < MOST_SLICES) memcpy(minus.cells[slice], zero.cells[slice], sizeof zero.cells[slice]);
        count_check(memcmp(&zero, &minus, sizeof zero) == 0, call->name, call->quantities[q].name, "-0", "not as 0");
    }
}

static void try_lengths(const struct call *call)
{
    static const char *const HOW[] = {"one short", "one long", "empty"};
    size_t p, way, q;
    for (p = 0; p < parts_of(call); p++) {
        const struct part *part = &call->parts[p];
        const size_t length[] = {part->length - 1, part->length + 1, 0};
        const uint32_t wanted[] = {part->if_short, part->if_long, part->if_empty};
        for (way = 0; way < COUNT(HOW); way++) {
            struct trial trial = USUAL;
            trial.part = (int)p;
            trial.length = length[way];
            check(call, trial, wanted[way], part->name, HOW[way]);
            for (q = 0; q < quantities_of(call); q++) {
                /* of a plan of another length no number is read */
                int is_read = call->quantities[q].slice != (int)p;
                trial.first = (int)q;
                trial.x = NO_NUMBER;
                check(call, trial, is_read ? lower(wanted[way], call->quantities[q].refused_by) : wanted[way],
                      part->name, call->quantities[q].name);
            }
        }
    }
}

/* ---- The three calls that answer no number of refusal. */

static const struct call PLAN_ALONE = {"a plan alone", NULL, 0, 0, {PLAN_QUANTITIES(0)}, {PLAN_PART("plan")}};

static void check_plan(struct trial trial, int is_taken, const char *what, const char *how)
{
    double divisor;
    uint32_t reach;
    lend_all(&PLAN_ALONE, trial);
    seal(lent[0]);
    divisor = dungdapple_divisor(DOUBLES(0));
    reach = dungdapple_reach(DOUBLES(0));
    give_back(lent[0]);
    count_check((divisor > 0) == is_taken && !signbit(divisor), PLAN_ALONE.name, what, how, "the divisor");
    count_check(is_taken || reach == 0, PLAN_ALONE.name, what, how, "the reach");
}

static void try_plans(void)
{
    struct trial trial = USUAL;
    size_t q, h, length;
    for (q = 0; q < quantities_of(&PLAN_ALONE); q++) {
        const struct quantity *quantity = &PLAN_ALONE.quantities[q];
        for (h = 0; h < COUNT(HOSTILE); h++) {
            trial.first = (int)q;
            trial.x = HOSTILE[h].x;
            check_plan(trial, (HOSTILE[h].taken_by & quantity->takes) != 0, quantity->name, HOSTILE[h].name);
        }
    }
    for (length = 0; length <= 8; length++) {
        trial = USUAL;
        trial.part = 0;
        trial.length = length;
        check_plan(trial, length == DUNGDAPPLE_PLAN_LENGTH, "plan", "of another length");
    }
}

/* Each cell against the four bytes it is made of, for every length of stretch and cells around the usual one. */
static void try_record_samples(void)
{
    uint8_t record[RECORD_BYTES + 4];
    size_t bytes, count, i;
    write_usual_record(record, sizeof record);
    for (bytes = 0; bytes <= 4 * LENGTH + 4; bytes++) {
        for (count = 0; count <= LENGTH + 2; count++) {
            int right = 1;
            lent[0] = lend(bytes);
            lent[1] = lend(4 * count);
            lengths[0] = bytes;
            lengths[1] = count;
            memcpy(lent[0].cells, record + 27, bytes);
            seal(lent[0]);
            dungdapple_record_samples(BYTES(0), INT32S(1));
            for (i = 0; i < count; i++) {
                int32_t got, wanted = 4 * i + 4 <= bytes ? SOME[i % COUNT(SOME)] : 0;
                memcpy(&got, lent[1].cells + 4 * i, sizeof got);
                right = right && got == wanted;
            }
            give_back(lent[0]);
            give_back(lent[1]);
            count_check(right, "record_samples", "stretch", "of some length", "a cell");
        }
    }
}

/* ---- What hostile numbers that are taken do. */

static void try_taken(void)
{
    const double plan[] = {1, 2, 1, 1};
    int32_t samples[] = {0, 5, 0};
    int64_t results[] = {15, 10, 15};
    uint8_t bytes[31];
    uint32_t at, changed, bad, number, n[7];
    number = dungdapple_edit_series(plan, 4, 9, 1, -1, samples, 3, results, 3, &at, &changed, &bad);
    count_check(number == 0 && samples[1] == -1 && changed == 3, "edit_series", "value", "-1", "samples and count");
    count_check(results[0] == -3 && results[1] == -2 && results[2] == -3, "edit_series", "value", "-1", "results");
    number = dungdapple_write_record(plan, 4, 2147483648.0, samples, 1, bytes, sizeof bytes);
    number |= dungdapple_read_record(bytes, sizeof bytes, n, n + 1, n + 2, n + 3, n + 4, n + 5, n + 6);
    count_check(number == 0 && n[4] == UINT32_C(2147483648), "write_record", "bound", "2^31", "read back");
}

/* The number of each name, the sentence of each number, and the lengths asked. */
static void try_header(void)
{
    static const uint32_t NAMED[] = {
        DUNGDAPPLE_DONE, DUNGDAPPLE_PASSES, DUNGDAPPLE_RADIUS, DUNGDAPPLE_INNER, DUNGDAPPLE_EDGE, DUNGDAPPLE_BOUND,
        DUNGDAPPLE_PRODUCT, DUNGDAPPLE_SIZE, DUNGDAPPLE_LENGTH, DUNGDAPPLE_POSITION, DUNGDAPPLE_VALUE,
        DUNGDAPPLE_SAMPLE, DUNGDAPPLE_RESULT, DUNGDAPPLE_SIGMA, DUNGDAPPLE_RECORD, DUNGDAPPLE_MODE};
    static const uint32_t OTHERS[] = {15, 16, 20, 22, 100, UINT32_MAX};
    const char *unknown = dungdapple_explain(UINT32_MAX);
    char version[32];
    size_t i, j;
    for (i = 0; i < COUNT(NAMED); i++) {
        const char *sentence = dungdapple_explain(NAMED[i]);
        int own = strcmp(sentence, unknown) != 0;
        for (j = 0; j < i; j++) own = own && strcmp(sentence, dungdapple_explain(NAMED[j])) != 0;
        count_check(NAMED[i] == (i < 15 ? i : 21), "header", "name", sentence, "another number");
        count_check(own, "header", "sentence", sentence, "another number's");
    }
    for (i = 0; i < COUNT(OTHERS); i++) {
        count_check(strcmp(dungdapple_explain(OTHERS[i]), unknown) == 0, "header", "sentence", "of no number", "one");
    }
    snprintf(version, sizeof version, "%d.%d.%d", DUNGDAPPLE_VERSION_MAJOR, DUNGDAPPLE_VERSION_MINOR,
             DUNGDAPPLE_VERSION_PATCH);
    count_check(strcmp(version, DUNGDAPPLE_VERSION) == 0, "header", "version", DUNGDAPPLE_VERSION, "other numbers");
    count_check(dungdapple_series_work(LENGTH) == LENGTH, "header", "work", "of a series", "its length");
    count_check(dungdapple_picture_work(WIDTH, HEIGHT) == LENGTH, "header", "work", "of a picture", "its length");
    count_check(dungdapple_record_size(LENGTH) == RECORD_BYTES, "header", "record", "of some samples", "its size");
}

int main(void)
{
    size_t i;
    for (i = 0; i < COUNT(CALLS); i++) {
        check(&CALLS[i], USUAL, DUNGDAPPLE_DONE, "usual", "call");
        try_numbers(&CALLS[i]);
        try_minus_zero(&CALLS[i]);
        try_lengths(&CALLS[i]);
    }
    try_plans();
    try_record_samples();
    try_taken();
    try_header();
    printf("%zu passed, %zu failed\n", passed, failed);
    return failed == 0 ? 0 : 1;
}
