/*
** Dungdapple for C and C++: smoothing of series and pictures in exact whole numbers.
**
** The code behind this header is proved. What C can still get wrong is how it calls, and that stands here: first
** what holds for all calls, then each call's own contract at its declaration.
**
** SLICES.  A slice is lent as a pointer and its length in cells. The caller owes what no call can test:
**   - the pointer has so many cells, aligned as their type is;
**   - an empty slice too is lent by a pointer that is not null, though nothing is read or written there;
**   - what a call writes, slices and numbers, overlaps nothing else that it is lent.
**
** NUMBERS GIVEN are doubles, as a query engine holds them. A double that is not a whole number within the limits
** (a fraction, a NaN, an infinity, a negative, one too large) is refused by that quantity's own number: radius 1.5
** by DUNGDAPPLE_RADIUS, a bound that is NaN by DUNGDAPPLE_BOUND. Minus zero is 0.
**
** A PLAN is a slice of DUNGDAPPLE_PLAN_LENGTH doubles: radius, inner weight, edge weight, passes. A slice of another
** length is refused by DUNGDAPPLE_PASSES. One pass has the taps edge, inner, .., inner, edge, where inner stands
** 2*radius + 1 times; their sum, to the power of the passes, is the divisor of the plan.
**
** RESULTS are whole numbers: the smoothed values times the divisor, so that nothing is rounded on the way. The calls
** named whole, carry and doubles divide them.
**
** A PICTURE goes row by row: column x of row y is cell y*width + x. Its rows are smoothed by the plan across, its
** columns by the plan down. Its divisor is the product of both.
**
** ANSWERS.  Every call but dungdapple_divisor, dungdapple_reach and dungdapple_record_samples returns one number:
** DUNGDAPPLE_DONE, or why it refused. Where several reasons apply it is the lowest. A call that refuses changes no
** cell of any slice. The rest of the answer is written through pointers, and always written; what stood there plays
** no part.
**   place   at DUNGDAPPLE_SAMPLE and DUNGDAPPLE_RESULT the index of the first cell that offends, else 0
**   bad     at DUNGDAPPLE_SAMPLE how many of the samples that the call tests are not acceptable, else 0
**   others  0 where the call refused
**
** OWNERSHIP.  Nothing is kept and nothing is allocated. When a call returns, all it was lent is the caller's again.
**
** THREADS.  Calls share no state and take no lock. They may run in any thread, side by side, as long as none writes
** what another is lent. They call nothing back and leave errno alone; of the C library they need `memset`.
**
** STACK.  An edit and a point take up to DUNGDAPPLE_STACK bytes, every other call up to DUNGDAPPLE_STACK_OTHERS.
*/
#ifndef DUNGDAPPLE_H
#define DUNGDAPPLE_H

#include <stddef.h>
#include <stdint.h>

#define DUNGDAPPLE_VERSION "0.5.0"
#define DUNGDAPPLE_VERSION_MAJOR 0
#define DUNGDAPPLE_VERSION_MINOR 5
#define DUNGDAPPLE_VERSION_PATCH 0

/*
** The numbers that calls answer. 15 to 20 are not used.
*/
#define DUNGDAPPLE_DONE      0  /* done */
#define DUNGDAPPLE_PASSES    1  /* passes not allowed, or a plan of another length */
#define DUNGDAPPLE_RADIUS    2  /* radius not allowed */
#define DUNGDAPPLE_INNER     3  /* inner weight not allowed */
#define DUNGDAPPLE_EDGE      4  /* edge weight not allowed */
#define DUNGDAPPLE_BOUND     5  /* bound of the samples' size not allowed */
#define DUNGDAPPLE_PRODUCT   6  /* bound times divisor too large */
#define DUNGDAPPLE_SIZE      7  /* a length, a width, a height or the count of cells not allowed */
#define DUNGDAPPLE_LENGTH    8  /* a slice is not of the length asked */
#define DUNGDAPPLE_POSITION  9  /* position at or past the end */
#define DUNGDAPPLE_VALUE    10  /* new value of a size above the bound */
#define DUNGDAPPLE_SAMPLE   11  /* a sample is not acceptable: place is its index, bad how many there are */
#define DUNGDAPPLE_RESULT   12  /* a result has, or would get, a size that no smoothing gives: place is its index */
#define DUNGDAPPLE_SIGMA    13  /* standard deviation not allowed */
#define DUNGDAPPLE_RECORD   14  /* not a well-formed job record */
#define DUNGDAPPLE_MODE     21  /* mode of rounding not allowed */

/*
** What is allowed. Least are: passes 1, radius 0, inner weight 1, edge weight 0, bound 1, every length, width and
** height 1, sigma 1. An edge weight is below its inner weight. A product is the bound times the divisor; for a
** picture, times both divisors.
*/
#define DUNGDAPPLE_MOST_PASSES         8
#define DUNGDAPPLE_MOST_RADIUS         1023
#define DUNGDAPPLE_MOST_INNER          255
#define DUNGDAPPLE_MOST_BOUND          2147483647
#define DUNGDAPPLE_MOST_PRODUCT        9007199254740991
#define DUNGDAPPLE_MOST_SAMPLES        65536  /* of a series; cells of a picture too */
#define DUNGDAPPLE_MOST_SIDE           4096   /* width and height of a picture, each */
#define DUNGDAPPLE_MOST_SIGMA          25600  /* in hundredths */
#define DUNGDAPPLE_MOST_RECORD_SAMPLES 1024

#define DUNGDAPPLE_PLAN_LENGTH 4

/* Modes of rounding: where a half goes. */
#define DUNGDAPPLE_EVEN   0  /* to the even neighbour, so that negated samples give negated cells */
#define DUNGDAPPLE_UPWARD 1

/*
** Bytes of stack below the caller's frame: of an edit and a point, and of every other call. stack.c measures both.
*/
#define DUNGDAPPLE_STACK        69632
#define DUNGDAPPLE_STACK_OTHERS 8192

/* A sentence for a number that a call answered. It is never null, and stands as long as the program. */
static inline const char *dungdapple_explain(uint32_t number)
{
    switch (number) {
    case DUNGDAPPLE_DONE:
        return "done";
    case DUNGDAPPLE_PASSES:
        return "passes must be a whole number from 1 to 8, and a plan must have four numbers: radius, inner weight, "
               "edge weight and passes";
    case DUNGDAPPLE_RADIUS:
        return "the radius must be a whole number from 0 to 1023";
    case DUNGDAPPLE_INNER:
        return "the inner weight must be a whole number from 1 to 255";
    case DUNGDAPPLE_EDGE:
        return "the edge weight must be a whole number from 0 to the inner weight less 1";
    case DUNGDAPPLE_BOUND:
        return "the bound of the samples' size must be a whole number from 1 to 2147483647";
    case DUNGDAPPLE_PRODUCT:
        return "the bound times the divisor is above 9007199254740991";
    case DUNGDAPPLE_SIZE:
        return "a series has 1 to 65536 samples, a picture 1 to 4096 columns and rows and at most 65536 cells, "
               "a job record 1 to 1024 samples";
    case DUNGDAPPLE_LENGTH:
        return "a slice is not of the length that the call asks";
    case DUNGDAPPLE_POSITION:
        return "the position must be a whole number from 0 to the number of samples less 1";
    case DUNGDAPPLE_VALUE:
        return "the new value must be a whole number of a size at most the bound";
    case DUNGDAPPLE_SAMPLE:
        return "a sample is not a whole number of a size at most the bound, or a double to become a result not one of "
               "a size at most 9007199254740991";
    case DUNGDAPPLE_RESULT:
        return "a result has, or would get, a size above the bound times the divisor, or above 9007199254740991";
    case DUNGDAPPLE_SIGMA:
        return "the standard deviation must be a whole number of hundredths from 1 to 25600";
    case DUNGDAPPLE_RECORD:
        return "the bytes are not a well-formed job record";
    case DUNGDAPPLE_MODE:
        return "the mode must be 0, a half to the even neighbour, or 1, a half upward";
    default:
        return "a number that no call answers";
    }
}

/* Cells of work that smoothing asks. An edit and a point are lent none. */
static inline size_t dungdapple_series_work(size_t samples)
{
    return samples;
}

static inline size_t dungdapple_picture_work(size_t width, size_t height)
{
    return width * height;
}

/* Bytes of a job record of so many samples. */
static inline size_t dungdapple_record_size(size_t samples)
{
    return 27 + 4 * samples;
}

#ifdef __cplusplus
extern "C" {
#endif

/*
** Smooths the samples into the results. Beyond its ends a series is continued by reflection, the end sample repeated.
** results: as many cells as samples. work: dungdapple_series_work() cells, which hold zeros after a done call.
** Refuses by 1 to 8, and by DUNGDAPPLE_SAMPLE where a sample has a size above the bound.
*/
uint32_t dungdapple_smooth_series(
    const double *plan, size_t plan_length,
    double bound,
    const int32_t *samples, size_t samples_length,
    int64_t *results, size_t results_length,
    int64_t *work, size_t work_length,
    uint32_t *place,
    uint32_t *bad);

/*
** Smooths a picture.
** samples, results: width times height cells. work: dungdapple_picture_work() cells, zeros after a done call.
** Refuses as the call above; 1 to 4 speak of either plan.
*/
uint32_t dungdapple_smooth_picture(
    const double *across, size_t across_length,
    const double *down, size_t down_length,
    double bound,
    double width,
    double height,
    const int32_t *samples, size_t samples_length,
    int64_t *results, size_t results_length,
    int64_t *work, size_t work_length,
    uint32_t *place,
    uint32_t *bad);

/*
** Sets the sample at the position to the value, and gives each result within reach of it what it gains. Results
** that were the samples' smoothing are so again. Nothing beyond the reach of the plan is read or written.
** results: as many cells as samples.
** count: how many results changed; 0 where the sample had this value.
** Refuses by 1 to 10; by DUNGDAPPLE_SAMPLE where the sample that is replaced has a size above the bound; and by
** DUNGDAPPLE_RESULT where a result within reach has, or would get, a size above the bound times the divisor, which
** no true smoothing does. Samples and results out of reach are not tested.
*/
uint32_t dungdapple_edit_series(
    const double *plan, size_t plan_length,
    double bound,
    double position,
    double value,
    int32_t *samples, size_t samples_length,
    int64_t *results, size_t results_length,
    uint32_t *place,
    uint32_t *count,
    uint32_t *bad);

/*
** The smoothed value at the position alone.
** value: the result there over the divisor, by one division.
** Refuses by 1 to 7 and DUNGDAPPLE_POSITION, and by DUNGDAPPLE_SAMPLE where a sample within reach has a size above
** the bound. Samples out of reach are not tested.
*/
uint32_t dungdapple_point(
    const double *plan, size_t plan_length,
    double bound,
    double position,
    const int32_t *samples, size_t samples_length,
    double *value,
    uint32_t *place,
    uint32_t *bad);

/*
** Finds the radius and the edge weight of the plan that comes nearest to a standard deviation, in hundredths, by
** these passes with this inner weight.
** Refuses by DUNGDAPPLE_PASSES, DUNGDAPPLE_INNER and DUNGDAPPLE_SIGMA.
*/
uint32_t dungdapple_plan_for(
    double sigma_hundredths,
    double passes,
    double inner,
    uint32_t *radius,
    uint32_t *edge);

/*
** The divisor of a plan: what its taps sum to, to the power of its passes. 0 where the plan is not accepted under
** any bound.
*/
double dungdapple_divisor(
    const double *plan, size_t plan_length);

/*
** The reach of a plan: how many cells to either side a sample is felt. 0 where the plan is not accepted under any
** bound, and of a plan of one tap.
*/
uint32_t dungdapple_reach(
    const double *plan, size_t plan_length);

/*
** Takes doubles as samples. Minus zero becomes 0.
** samples: as many cells as doubles.
** Refuses by DUNGDAPPLE_BOUND, DUNGDAPPLE_SIZE, DUNGDAPPLE_LENGTH, and by DUNGDAPPLE_SAMPLE where a double is not
** a whole number of a size at most the bound.
*/
uint32_t dungdapple_doubles_in(
    double bound,
    const double *doubles, size_t doubles_length,
    int32_t *samples, size_t samples_length,
    uint32_t *place,
    uint32_t *bad);

/*
** Each result over the divisor, to the nearest whole number; a half goes by the mode, DUNGDAPPLE_EVEN or
** DUNGDAPPLE_UPWARD.
** cells: as many as results; of a picture, both are width times height.
** Refuse by 1 to 8, by DUNGDAPPLE_RESULT where a result has a size above the bound times the divisor, and by
** DUNGDAPPLE_MODE.
*/
uint32_t dungdapple_whole_series(
    const double *plan, size_t plan_length,
    double bound,
    double mode,
    const int64_t *results, size_t results_length,
    int32_t *cells, size_t cells_length,
    uint32_t *place);

uint32_t dungdapple_whole_picture(
    const double *across, size_t across_length,
    const double *down, size_t down_length,
    double bound,
    double width,
    double height,
    double mode,
    const int64_t *results, size_t results_length,
    int32_t *cells, size_t cells_length,
    uint32_t *place);

/*
** Each result over the divisor as a whole number, so that the cells add up: a cell is its result and the rest
** before it over the divisor, rounded down, and what that leaves is carried on to the next. Each is less than 1
** from its quotient.
** cells: as many as results; of a picture, both are width times height.
** carry: what the last cell leaves, a whole number below the divisor; 0 where the results are a smoothing.
** Refuse by 1 to 8, and by DUNGDAPPLE_RESULT where a result has a size above the bound times the divisor.
*/
uint32_t dungdapple_carry_series(
    const double *plan, size_t plan_length,
    double bound,
    const int64_t *results, size_t results_length,
    int32_t *cells, size_t cells_length,
    uint32_t *place,
    double *carry);

uint32_t dungdapple_carry_picture(
    const double *across, size_t across_length,
    const double *down, size_t down_length,
    double bound,
    double width,
    double height,
    const int64_t *results, size_t results_length,
    int32_t *cells, size_t cells_length,
    uint32_t *place,
    double *carry);

/*
** Each result over the divisor as a double, by one division. Result 0 gives plus zero.
** cells: as many as results; of a picture, both are width times height.
** Refuse as the carry calls do.
*/
uint32_t dungdapple_doubles_series(
    const double *plan, size_t plan_length,
    double bound,
    const int64_t *results, size_t results_length,
    double *cells, size_t cells_length,
    uint32_t *place);

uint32_t dungdapple_doubles_picture(
    const double *across, size_t across_length,
    const double *down, size_t down_length,
    double bound,
    double width,
    double height,
    const int64_t *results, size_t results_length,
    double *cells, size_t cells_length,
    uint32_t *place);

/*
** The lowest and the highest result over the divisor, each by one division, and the first index of each.
** results: of a picture, width times height.
** Refuse as the carry calls do; that of a series has no slice to refuse by DUNGDAPPLE_LENGTH.
*/
uint32_t dungdapple_summary_series(
    const double *plan, size_t plan_length,
    double bound,
    const int64_t *results, size_t results_length,
    uint32_t *place,
    double *lowest,
    double *highest,
    uint32_t *lowest_at,
    uint32_t *highest_at);

uint32_t dungdapple_summary_picture(
    const double *across, size_t across_length,
    const double *down, size_t down_length,
    double bound,
    double width,
    double height,
    const int64_t *results, size_t results_length,
    uint32_t *place,
    double *lowest,
    double *highest,
    uint32_t *lowest_at,
    uint32_t *highest_at);

/*
** Each result as the double that is the same number; and back, so that a column stored as doubles can be edited.
** cells: as many as results. results: as many as doubles.
** Both refuse by DUNGDAPPLE_SIZE and DUNGDAPPLE_LENGTH. The first refuses by DUNGDAPPLE_RESULT a result of a size
** above DUNGDAPPLE_MOST_PRODUCT, the second by DUNGDAPPLE_SAMPLE a double that is not a whole number of a size up
** to that.
*/
uint32_t dungdapple_results_to_doubles(
    const int64_t *results, size_t results_length,
    double *cells, size_t cells_length,
    uint32_t *place);

uint32_t dungdapple_doubles_to_results(
    const double *doubles, size_t doubles_length,
    int64_t *results, size_t results_length,
    uint32_t *place,
    uint32_t *bad);

/*
** Reads a job record: its numbers, which are not judged, and the stretch of its bytes that holds the samples, for
** the call below.
** start, size: in bytes; the samples are size / 4.
** Refuses by DUNGDAPPLE_RECORD.
*/
uint32_t dungdapple_read_record(
    const uint8_t *bytes, size_t bytes_length,
    uint32_t *radius,
    uint32_t *inner,
    uint32_t *edge,
    uint32_t *passes,
    uint32_t *bound,
    uint32_t *start,
    uint32_t *size);

/*
** Each cell of samples gets its sample of such a stretch, 0 where the stretch has not the four bytes of one. It
** refuses nothing.
*/
void dungdapple_record_samples(
    const uint8_t *stretch, size_t stretch_length,
    int32_t *samples, size_t samples_length);

/*
** Writes a job record. Numbers are not judged but by whether their fields hold them: radius up to 65535, inner
** weight, edge weight and passes up to 255, bound up to 4294967295; else 1 to 5.
** samples: 1 to DUNGDAPPLE_MOST_RECORD_SAMPLES, else DUNGDAPPLE_SIZE. bytes: dungdapple_record_size() of them, else
** DUNGDAPPLE_LENGTH.
*/
uint32_t dungdapple_write_record(
    const double *plan, size_t plan_length,
    double bound,
    const int32_t *samples, size_t samples_length,
    uint8_t *bytes, size_t bytes_length);

#ifdef __cplusplus
}
#endif

#endif
