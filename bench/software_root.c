/*
 * musl's portable root, which stands in its source alone: its own build for x86-64 has the hardware's instruction. The loops are
 * those of crates/bench.
 */
#include <stddef.h>
#include <stdint.h>
#include <string.h>

/* What musl's own libm.h would say, which does not go with another C library's headers. */
#define _LIBM_H
#define hidden
#define predict_false(x) __builtin_expect(x, 0)
static inline uint64_t asuint64(double x)
{
    uint64_t n;
    memcpy(&n, &x, sizeof n);
    return n;
}
static inline double asdouble(uint64_t n)
{
    double x;
    memcpy(&x, &n, sizeof x);
    return x;
}
static inline double eval_as_double(double x)
{
    return x;
}
static double __math_invalid(double x)
{
    return (x - x) / (x - x);
}

#define sqrt portable_sqrt
#include "sqrt.c"
#include "sqrt_data.c"
#undef sqrt

uint64_t software_root(const double *values, size_t len)
{
    uint64_t sum = 0;
    for (size_t i = 0; i < len; i++)
        sum = (sum << 1 | sum >> 63) ^ asuint64(portable_sqrt(values[i]));
    return sum;
}

uint64_t software_root_chain(const double *values, size_t len)
{
    double x = 1;
    for (size_t i = 0; i < len; i++)
        x = portable_sqrt(x + values[i]);
    return asuint64(x);
}
