/* What the plain C of the bank and of the projections share: lines, and the filters along them. */

#ifndef PLAIN_LINES_H
#define PLAIN_LINES_H

#include "plain.h"

/* Room beside each line, for its reflected places. 16 numbers let lines start where cache lines do. */
enum { BESIDE = 16 };

/* What lies under the taps of a filter. */
struct three {
    const int32_t *a, *b, *c;
};

struct five {
    const int32_t *a, *b, *c, *d, *e;
};

/* As `reflected`, of any index. The estimates, which have none so far outside, would be slower by this loop. */
static inline size_t reflected_far(size_t n, ptrdiff_t i)
{
    ptrdiff_t last = (ptrdiff_t)n - 1;
    if (last == 0) {
        return 0;
    }
    while (i < 0 || i > last) {
        i = i < 0 ? -i : 2 * last - i;
    }
    return (size_t)i;
}

/* So many reflected places on either side of a line of n. */
static inline void fill_beside(size_t n, ptrdiff_t count, int32_t *line)
{
    ptrdiff_t end = (ptrdiff_t)n;
    for (ptrdiff_t k = 0; k < count; k++) {
        line[-1 - k] = line[reflected_far(n, -1 - k)];
        line[end + k] = line[reflected_far(n, end + k)];
    }
}

/* A line and its neighbours, so far apart, as so many lines. */
static inline struct three three_along(ptrdiff_t spacing, const int32_t *line)
{
    return (struct three){line - spacing, line, line + spacing};
}

static inline struct five five_along(ptrdiff_t spacing, const int32_t *line)
{
    return (struct five){line - 2 * spacing, line - spacing, line, line + spacing, line + 2 * spacing};
}

/* Both split filters, 1 2 1 and 1 -2 1. */
static inline void split_line(size_t n, struct three x, int32_t *restrict low, int32_t *restrict high)
{
    for (size_t k = 0; k < n; k++) {
        int32_t outer = x.a[k] + x.c[k];
        int32_t inner = 2 * x.b[k];
        low[k] = outer + inner;
        high[k] = outer - inner;
    }
}

/* The low join filter, -1 2 6 2 -1, and the high one, 1 2 -6 2 1. */
static inline int32_t low_join(struct five x, size_t k)
{
    return 2 * (x.b[k] + 3 * x.c[k] + x.d[k]) - (x.a[k] + x.e[k]);
}

static inline int32_t high_join(struct five x, size_t k)
{
    return x.a[k] + x.e[k] + 2 * (x.b[k] + x.d[k] - 3 * x.c[k]);
}

/* As in the engine, the high filter is a loop of its own where both are needed. */
static inline void low_line(size_t n, struct five x, int32_t *restrict out)
{
    for (size_t k = 0; k < n; k++) {
        out[k] = low_join(x, k);
    }
}

#endif
