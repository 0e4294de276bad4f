/*
** The forms that stand beside Dungdapple. gcc compiles each, and clang where it is installed: COMPILER is the ending
** of their names. None tests what it is lent but doubles_in, and none is called with what Dungdapple would refuse.
*/
#ifndef FORMS_H
#define FORMS_H

#include <stddef.h>
#include <stdint.h>

struct plan {
    int64_t radius, inner, edge, passes;
};

#define JOINED(name, compiler) name##_##compiler
#define ENDING(name, compiler) JOINED(name, compiler)
#define FORM(name) ENDING(name, COMPILER)

#define FORMS_OF(compiler)                                                                                            \
    void ENDING(separate_series, compiler)(struct plan plan, const int32_t *samples, size_t n, int64_t *results,      \
                                           int64_t *work);                                                            \
    void ENDING(fused_series, compiler)(struct plan plan, const int32_t *samples, size_t n, int64_t *results);        \
    void ENDING(separate_picture, compiler)(struct plan plan, const int32_t *samples, size_t width, size_t height,    \
                                            int64_t *results, int64_t *work);                                         \
    void ENDING(edit_by_taps, compiler)(const int64_t *taps, size_t reach, size_t position, int32_t value,            \
                                        int32_t *samples, size_t n, int64_t *results);                                \
    int64_t ENDING(point_by_taps, compiler)(const int64_t *taps, size_t reach, size_t position,                       \
                                            const int32_t *samples, size_t n);                                        \
    size_t ENDING(doubles_in, compiler)(double bound, const double *doubles, size_t n, int32_t *samples);             \
    void ENDING(doubles_out, compiler)(int64_t divisor, const int64_t *results, size_t n, double *cells);             \
    void ENDING(whole_even, compiler)(int64_t divisor, const int64_t *results, size_t n, int32_t *cells);             \
    void ENDING(whole_upward, compiler)(int64_t divisor, const int64_t *results, size_t n, int32_t *cells);           \
    void ENDING(carry_out, compiler)(int64_t divisor, const int64_t *results, size_t n, int32_t *cells);              \
    void ENDING(summary_out, compiler)(int64_t divisor, const int64_t *results, size_t n, double *summary);           \
    void ENDING(exact_out, compiler)(const int64_t *results, size_t n, double *cells);                                \
    void ENDING(exact_in, compiler)(const double *doubles, size_t n, int64_t *results);                               \
    size_t ENDING(read_samples, compiler)(const uint8_t *bytes, size_t length, int32_t *samples);

/* The index of the sample at place i of the extension, which repeats after twice the length. */
static inline size_t fold(ptrdiff_t i, size_t n)
{
    const ptrdiff_t period = 2 * (ptrdiff_t)n;
    ptrdiff_t at = i % period;
    if (at < 0) at += period;
    return (size_t)(at < (ptrdiff_t)n ? at : period - 1 - at);
}

#endif
