/*
** Runs the stream of the driver `calls` through the library: 8-byte words from standard input, high byte first,
** two's complement; one line a call. A call is its number and then its arguments; a slice is its length and then
** its elements;
** a double is its bits. A line is the answer's numbers and then what each slice holds afterwards.
**
** An edit and a point of the stream are lent work, which those of C are not. Where that work is of the length
** asked, its line says what it has to hold: zeros if done, else what it held. Where it is not, the line is
** `unlent` and the number that C's call gives: whoever compares knows that the stream's call answers 8 unless that
** number is lower.
*/
#define _GNU_SOURCE
#include <inttypes.h>
#include "dungdapple.h"
#include "lending.h"

enum { MOST_ELEMENTS = 131072, MOST_PRINTED = 64, MOST_SLICES = 8 };

#define CHECKSUM_MODULUS INT64_C(2147483647)
#define GARBAGE UINT32_C(0xDEADBEEF)

/* ---- The stream. */

static unsigned char *stream;
static size_t stream_words, stream_at;

static void read_stream(void)
{
    size_t room = 1 << 20, used = 0, got;
    stream = (unsigned char *)malloc(room);
    lent_must(stream != NULL, "no memory for the stream");
    while ((got = fread(stream + used, 1, room - used, stdin)) > 0) {
        used += got;
        if (used == room) {
            room *= 2;
            stream = (unsigned char *)realloc(stream, room);
            lent_must(stream != NULL, "no memory for the stream");
        }
    }
    lent_must(!ferror(stdin), "the stream could not be read");
    stream_words = used / 8;
}

/* A call that the words break off gets no line. */
static void end_here(void)
{
    lent_must(fflush(stdout) == 0, "the lines could not be written");
    exit(0);
}

static uint64_t word(void)
{
    uint64_t bits = 0;
    size_t i;
    if (stream_at == stream_words) end_here();
    for (i = 0; i < 8; i++) bits = bits << 8 | stream[8 * stream_at + i];
    stream_at++;
    return bits;
}

static int64_t signed_of(uint64_t bits)
{
    int64_t number;
    memcpy(&number, &bits, sizeof number);
    return number;
}

/* ---- Slices. A call's are kept here until its line is printed. */

enum kind { BYTES, INT32S, INT64S, DOUBLES };

static const size_t SIZES[] = {1, 4, 8, 8};

struct slice {
    enum kind kind;
    size_t length;
    struct lent lent;
};

static struct slice slices[MOST_SLICES];
static size_t slice_count;

static struct slice *new_slice(enum kind kind, size_t length)
{
    struct slice *slice = &slices[slice_count++];
    lent_must(slice_count <= MOST_SLICES, "a call has too many slices");
    slice->kind = kind;
    slice->length = length;
    slice->lent = lend(length * SIZES[kind]);
    return slice;
}

/* An element is a word's lowest bytes: taken modulo its width. Bits are copied, so a NaN keeps its own. */
static void put_element(struct slice *slice, size_t i, uint64_t bits)
{
    unsigned char *at = slice->lent.cells + i * SIZES[slice->kind];
    uint32_t half = (uint32_t)bits;
    switch (slice->kind) {
    case BYTES:
        *at = (unsigned char)(bits & 255);
        break;
    case INT32S:
        memcpy(at, &half, 4);
        break;
    case INT64S:
    case DOUBLES:
        memcpy(at, &bits, 8);
    }
}

static struct slice *take(enum kind kind)
{
    uint64_t length = word();
    size_t i;
    struct slice *slice;
    if (length > MOST_ELEMENTS) {
        printf("stop\n");
        end_here();
    }
    if (length > stream_words - stream_at) end_here();
    slice = new_slice(kind, (size_t)length);
    for (i = 0; i < length; i++) put_element(slice, i, word());
    return slice;
}

/* One that the call may only read. */
static struct slice *take_sealed(enum kind kind)
{
    struct slice *slice = take(kind);
    seal(slice->lent);
    return slice;
}

static struct slice *plan_of(const double numbers[DUNGDAPPLE_PLAN_LENGTH])
{
    struct slice *slice = new_slice(DOUBLES, DUNGDAPPLE_PLAN_LENGTH);
    memcpy(slice->lent.cells, numbers, DUNGDAPPLE_PLAN_LENGTH * sizeof *numbers);
    seal(slice->lent);
    return slice;
}

static double count(void)
{
    return (double)word();
}

/* A number of so many bits, modulo that width. */
static double field(unsigned bits)
{
    return (double)(word() & ((UINT64_C(1) << bits) - 1));
}

static struct slice *take_plan(void)
{
    double numbers[DUNGDAPPLE_PLAN_LENGTH];
    size_t i;
    for (i = 0; i < DUNGDAPPLE_PLAN_LENGTH; i++) numbers[i] = count();
    return plan_of(numbers);
}

static void give_all_back(void)
{
    while (slice_count > 0) give_back(slices[--slice_count].lent);
}

/* How a slice is written into an argument list. */
#define BYTES_IN(slice) (uint8_t *)(void *)(slice)->lent.cells, (slice)->length
#define INT32S_IN(slice) (int32_t *)(void *)(slice)->lent.cells, (slice)->length
#define INT64S_IN(slice) (int64_t *)(void *)(slice)->lent.cells, (slice)->length
#define DOUBLES_IN(slice) (double *)(void *)(slice)->lent.cells, (slice)->length

/* ---- The lines. */

static const char *gap = "";

static void print_whole(int64_t number)
{
    printf("%s%" PRId64, gap, number);
    gap = " ";
}

static void print_unsigned(uint64_t number)
{
    printf("%s%" PRIu64, gap, number);
    gap = " ";
}

/* A double that has to be a whole number: seventeen digits hide no fraction. */
static void print_number(double number)
{
    printf("%s%.17g", gap, number);
    gap = " ";
}

static void print_bits(double number)
{
    uint64_t bits;
    memcpy(&bits, &number, sizeof bits);
    print_unsigned(bits);
}

static void print_line_end(void)
{
    printf("\n");
    gap = "";
}

static uint64_t bits_at(const struct slice *slice, size_t i)
{
    uint64_t bits;
    memcpy(&bits, slice->lent.cells + 8 * i, sizeof bits);
    return bits;
}

static int64_t whole_at(const struct slice *slice, size_t i)
{
    int32_t half;
    switch (slice->kind) {
    case BYTES:
        return slice->lent.cells[i];
    case INT32S:
        memcpy(&half, slice->lent.cells + 4 * i, sizeof half);
        return half;
    case INT64S:
    case DOUBLES:
        break;
    }
    return signed_of(bits_at(slice, i));
}

/* An element modulo the checksum's modulus, never negative. Doubles count as their bits, unsigned. */
static int64_t remainder_at(const struct slice *slice, size_t i)
{
    if (slice->kind == DOUBLES) return (int64_t)(bits_at(slice, i) % (uint64_t)CHECKSUM_MODULUS);
    return (whole_at(slice, i) % CHECKSUM_MODULUS + CHECKSUM_MODULUS) % CHECKSUM_MODULUS;
}

static void print_slice(const struct slice *slice)
{
    int64_t sum = 0;
    size_t i;
    if (slice->length <= MOST_PRINTED) {
        for (i = 0; i < slice->length; i++) {
            if (slice->kind == DOUBLES) print_unsigned(bits_at(slice, i));
            else print_whole(whole_at(slice, i));
        }
        return;
    }
    for (i = 0; i < slice->length; i++) {
        sum = (sum + (int64_t)(i + 1) * remainder_at(slice, i)) % CHECKSUM_MODULUS;
    }
    printf("%s# %zu %" PRId64, gap, slice->length, sum);
    gap = " ";
}

/* ---- The calls. What a call has to write holds garbage before. */

static uint32_t number, place, bad, changed;
static double value, carry, lowest, highest;
static uint32_t lowest_at, highest_at;

static void spoil(void)
{
    number = place = bad = changed = lowest_at = highest_at = GARBAGE;
    value = carry = lowest = highest = -12345.678;
}

static void print_told(void)
{
    print_unsigned(number);
    print_unsigned(place);
}

static void print_checked(void)
{
    print_told();
    print_unsigned(bad);
}

static void print_summary(void)
{
    print_told();
    print_bits(lowest);
    print_bits(highest);
    print_unsigned(lowest_at);
    print_unsigned(highest_at);
}

/* The work of an edit or a point as the stream's call leaves it, or no line of that call's. */
static int is_lent(const struct slice *work, const struct slice *samples)
{
    if (work->length == 2 * samples->length) return 1;
    printf("unlent %" PRIu32, number);
    return 0;
}

static void print_work(struct slice *work)
{
    if (number == DUNGDAPPLE_DONE) memset(work->lent.cells, 0, work->length * 8);
    print_slice(work);
}

static void smooth_series(void)
{
    struct slice *plan = take_plan();
    double bound = count();
    struct slice *samples = take_sealed(INT32S), *results = take(INT64S), *work = take(INT64S);
    number = dungdapple_smooth_series(DOUBLES_IN(plan), bound, INT32S_IN(samples), INT64S_IN(results), INT64S_IN(work),
                                      &place, &bad);
    print_checked();
    print_slice(results);
    print_slice(work);
}

static void smooth_picture(void)
{
    struct slice *across = take_plan(), *down = take_plan();
    double bound = count(), width = count(), height = count();
    struct slice *samples = take_sealed(INT32S), *results = take(INT64S), *work = take(INT64S);
    number = dungdapple_smooth_picture(DOUBLES_IN(across), DOUBLES_IN(down), bound, width, height, INT32S_IN(samples),
                                       INT64S_IN(results), INT64S_IN(work), &place, &bad);
    print_checked();
    print_slice(results);
    print_slice(work);
}

static void edit_series(void)
{
    struct slice *plan = take_plan();
    double bound = count(), position = count(), new_value = (double)signed_of(word());
    struct slice *samples = take(INT32S), *results = take(INT64S), *work = take(INT64S);
    number = dungdapple_edit_series(DOUBLES_IN(plan), bound, position, new_value, INT32S_IN(samples),
                                    INT64S_IN(results), &place, &changed, &bad);
    if (!is_lent(work, samples)) return;
    print_told();
    print_unsigned(changed);
    print_unsigned(bad);
    print_slice(samples);
    print_slice(results);
    print_work(work);
}

static void point(void)
{
    struct slice *plan = take_plan();
    double bound = count(), position = count();
    struct slice *samples = take_sealed(INT32S), *work = take(INT64S);
    number = dungdapple_point(DOUBLES_IN(plan), bound, position, INT32S_IN(samples), &value, &place, &bad);
    if (!is_lent(work, samples)) return;
    print_checked();
    print_bits(value);
    print_work(work);
}

static void plan_for(void)
{
    double sigma = count(), passes = count(), inner = count();
    uint32_t radius = GARBAGE, edge = GARBAGE;
    number = dungdapple_plan_for(sigma, passes, inner, &radius, &edge);
    print_unsigned(number);
    print_unsigned(radius);
    print_unsigned(edge);
}

static void doubles_in(void)
{
    double bound = count();
    struct slice *doubles = take_sealed(DOUBLES), *samples = take(INT32S);
    number = dungdapple_doubles_in(bound, DOUBLES_IN(doubles), INT32S_IN(samples), &place, &bad);
    print_checked();
    print_slice(samples);
}

static void whole_series_by(double mode, const struct slice *plan, double bound)
{
    struct slice *results = take_sealed(INT64S), *cells = take(INT32S);
    number = dungdapple_whole_series(DOUBLES_IN(plan), bound, mode, INT64S_IN(results), INT32S_IN(cells), &place);
    print_told();
    print_slice(cells);
}

static void whole_series(void)
{
    struct slice *plan = take_plan();
    double bound = count(), mode = count();
    whole_series_by(mode, plan, bound);
}

/* The stream's form without a mode. */
static void whole_series_even(void)
{
    struct slice *plan = take_plan();
    double bound = count();
    whole_series_by(DUNGDAPPLE_EVEN, plan, bound);
}

static void whole_picture_by(int mode_is_given)
{
    struct slice *across = take_plan(), *down = take_plan();
    double bound = count(), width = count(), height = count();
    double mode = mode_is_given ? count() : DUNGDAPPLE_EVEN;
    struct slice *results = take_sealed(INT64S), *cells = take(INT32S);
    number = dungdapple_whole_picture(DOUBLES_IN(across), DOUBLES_IN(down), bound, width, height, mode,
                                      INT64S_IN(results), INT32S_IN(cells), &place);
    print_told();
    print_slice(cells);
}

static void whole_picture(void)
{
    whole_picture_by(1);
}

static void whole_picture_even(void)
{
    whole_picture_by(0);
}

static void carry_series(void)
{
    struct slice *plan = take_plan();
    double bound = count();
    struct slice *results = take_sealed(INT64S), *cells = take(INT32S);
    number = dungdapple_carry_series(DOUBLES_IN(plan), bound, INT64S_IN(results), INT32S_IN(cells), &place, &carry);
    print_told();
    print_number(carry);
    print_slice(cells);
}

static void carry_picture(void)
{
    struct slice *across = take_plan(), *down = take_plan();
    double bound = count(), width = count(), height = count();
    struct slice *results = take_sealed(INT64S), *cells = take(INT32S);
    number = dungdapple_carry_picture(DOUBLES_IN(across), DOUBLES_IN(down), bound, width, height, INT64S_IN(results),
                                      INT32S_IN(cells), &place, &carry);
    print_told();
    print_number(carry);
    print_slice(cells);
}

static void doubles_series(void)
{
    struct slice *plan = take_plan();
    double bound = count();
    struct slice *results = take_sealed(INT64S), *cells = take(DOUBLES);
    number = dungdapple_doubles_series(DOUBLES_IN(plan), bound, INT64S_IN(results), DOUBLES_IN(cells), &place);
    print_told();
    print_slice(cells);
}

static void doubles_picture(void)
{
    struct slice *across = take_plan(), *down = take_plan();
    double bound = count(), width = count(), height = count();
    struct slice *results = take_sealed(INT64S), *cells = take(DOUBLES);
    number = dungdapple_doubles_picture(DOUBLES_IN(across), DOUBLES_IN(down), bound, width, height,
                                        INT64S_IN(results), DOUBLES_IN(cells), &place);
    print_told();
    print_slice(cells);
}

static void summary_series(void)
{
    struct slice *plan = take_plan();
    double bound = count();
    struct slice *results = take_sealed(INT64S);
    number = dungdapple_summary_series(DOUBLES_IN(plan), bound, INT64S_IN(results), &place, &lowest, &highest,
                                       &lowest_at, &highest_at);
    print_summary();
}

static void summary_picture(void)
{
    struct slice *across = take_plan(), *down = take_plan();
    double bound = count(), width = count(), height = count();
    struct slice *results = take_sealed(INT64S);
    number = dungdapple_summary_picture(DOUBLES_IN(across), DOUBLES_IN(down), bound, width, height,
                                        INT64S_IN(results), &place, &lowest, &highest, &lowest_at, &highest_at);
    print_summary();
}

static void results_to_doubles(void)
{
    struct slice *results = take_sealed(INT64S), *cells = take(DOUBLES);
    number = dungdapple_results_to_doubles(INT64S_IN(results), DOUBLES_IN(cells), &place);
    print_told();
    print_slice(cells);
}

static void doubles_to_results(void)
{
    struct slice *doubles = take_sealed(DOUBLES), *results = take(INT64S);
    number = dungdapple_doubles_to_results(DOUBLES_IN(doubles), INT64S_IN(results), &place, &bad);
    print_checked();
    print_slice(results);
}

static void read_record(void)
{
    struct slice *record = take_sealed(BYTES);
    uint32_t told[7];
    size_t i;
    for (i = 0; i < 7; i++) told[i] = GARBAGE;
    number = dungdapple_read_record(BYTES_IN(record), told, told + 1, told + 2, told + 3, told + 4, told + 5,
                                    told + 6);
    print_unsigned(number);
    for (i = 0; i < 7; i++) print_unsigned(told[i]);
}

/* The stream's answer has a position, which is always 0; C's has none. */
static void write_record(void)
{
    double numbers[DUNGDAPPLE_PLAN_LENGTH], bound;
    struct slice *plan, *samples, *record;
    numbers[0] = field(16);
    numbers[1] = field(8);
    numbers[2] = field(8);
    numbers[3] = field(8);
    bound = field(32);
    plan = plan_of(numbers);
    samples = take_sealed(INT32S);
    record = take(BYTES);
    number = dungdapple_write_record(DOUBLES_IN(plan), bound, INT32S_IN(samples), BYTES_IN(record));
    print_unsigned(number);
    print_unsigned(0);
    print_slice(record);
}

static void plan_by_itself(void)
{
    struct slice *plan = take_plan();
    print_number(dungdapple_divisor(DOUBLES_IN(plan)));
    print_unsigned(dungdapple_reach(DOUBLES_IN(plan)));
}

static size_t least_of(uint64_t a, uint64_t b)
{
    return (size_t)(a < b ? a : b);
}

/* As much of the stretch as there is, and one of its samples. Cells are lent for one past all of them, which is 0. */
static void stretch(void)
{
    struct slice *record = take(BYTES);
    uint64_t start = word(), size = word(), index = word();
    size_t from = least_of(start, record->length);
    struct slice *part = new_slice(BYTES, least_of(size, record->length - from));
    struct slice *samples = new_slice(INT32S, part->length / 4 + 2);
    memcpy(part->lent.cells, record->lent.cells + from, part->length);
    seal(part->lent);
    dungdapple_record_samples(BYTES_IN(part), INT32S_IN(samples));
    print_unsigned(part->length);
    print_whole(whole_at(samples, least_of(index, samples->length - 1)));
    print_slice(part);
}

/* The planner at every standard deviation; printed as one slice. */
static void plan_for_all(void)
{
    double passes = count(), inner = count();
    struct slice *planned = new_slice(INT64S, 3 * DUNGDAPPLE_MOST_SIGMA);
    size_t sigma;
    for (sigma = 1; sigma <= DUNGDAPPLE_MOST_SIGMA; sigma++) {
        uint32_t radius = GARBAGE, edge = GARBAGE;
        put_element(planned, 3 * sigma - 3, dungdapple_plan_for((double)sigma, passes, inner, &radius, &edge));
        put_element(planned, 3 * sigma - 2, radius);
        put_element(planned, 3 * sigma - 1, edge);
    }
    print_unsigned(DUNGDAPPLE_MOST_SIGMA);
    print_slice(planned);
}

static const struct {
    uint64_t number;
    void (*run)(void);
} CALLS[] = {
    {1, smooth_series},
    {2, smooth_picture},
    {3, edit_series},
    {4, point},
    {5, plan_for},
    {6, doubles_in},
    {7, whole_series},
    {8, doubles_series},
    {9, summary_series},
    {10, whole_picture},
    {11, doubles_picture},
    {12, summary_picture},
    {13, read_record},
    {14, write_record},
    {15, carry_series},
    {16, carry_picture},
    {25, results_to_doubles},
    {26, doubles_to_results},
    {100, plan_by_itself},
    {101, stretch},
    {102, plan_for_all},
    {107, whole_series_even},
    {110, whole_picture_even},
};

int main(void)
{
    read_stream();
    for (;;) {
        uint64_t call = word();
        size_t i = 0, calls = sizeof CALLS / sizeof CALLS[0];
        while (i < calls && CALLS[i].number != call) i++;
        /* a number of no call ends the stream */
        if (i == calls) end_here();
        spoil();
        CALLS[i].run();
        print_line_end();
        give_all_back();
    }
}
