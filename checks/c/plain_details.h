/*
 * What the plain C of the projection at one level and at two share: the lines of a sweep down the rows, and a
 * row's way from the differences to the guide to the joined parts of its details outside the limit.
 */

#ifndef PLAIN_DETAILS_H
#define PLAIN_DETAILS_H

#include "plain.h"
#include "plain_lines.h"

/* The lines of a sweep, one behind another, and the size of its plane. */
struct lines {
    size_t width, height;
    int32_t *first;
};

/* The lines that a row goes through. */
struct passed {
    int32_t *low, *high, *parts, *minus, *plus;
};

/* Lines of a power of two would fall on the same places of the cache; the room beside keeps them apart. */
static inline int32_t *line_of(struct lines s, size_t number)
{
    size_t step = (s.width + 15) / 16 * 16 + 2 * BESIDE;
    return s.first + number * step + BESIDE;
}

/* The line of the row so far away from row r, in a ring of so many lines. */
static inline int32_t *ring_line(struct lines s, size_t ring, size_t count, size_t r, ptrdiff_t away)
{
    return line_of(s, ring + reflected_far(s.height, (ptrdiff_t)r + away) % count);
}

/* Three rows of a ring, so far apart. */
static inline struct three three_rows(struct lines s, size_t ring, size_t count, size_t r, ptrdiff_t spacing)
{
    return (struct three){ring_line(s, ring, count, r, -spacing), line_of(s, ring + r % count),
                          ring_line(s, ring, count, r, spacing)};
}

/* Five rows, from two rings in turn. */
static inline struct five crossed_rows(struct lines s, size_t outer, size_t inner, size_t count, size_t r,
                                       ptrdiff_t spacing)
{
    return (struct five){ring_line(s, outer, count, r, -2 * spacing), ring_line(s, inner, count, r, -spacing),
                         line_of(s, outer + r % count), ring_line(s, inner, count, r, spacing),
                         ring_line(s, outer, count, r, 2 * spacing)};
}

static inline void difference_line(size_t n, const int32_t *restrict plane, const uint16_t *restrict guide,
                                   size_t across, int32_t *restrict out)
{
    for (size_t k = 0; k < n; k++) {
        out[k] = plane[k] - guide[across * k];
    }
}

/* The part of z outside -limit..limit. A sum of two takes fewer vector operations than a choice of three. */
static inline int32_t outside(int32_t limit, int32_t z)
{
    int32_t above = z - limit;
    int32_t below = z + limit;
    return (above > 0 ? above : 0) + (below < 0 ? below : 0);
}

/* Along a line that is low along the columns: what of band 2 lies outside the limit. */
static inline void outer_line(size_t n, int32_t limit, struct three x, int32_t *restrict parts)
{
    for (size_t k = 0; k < n; k++) {
        parts[k] = outside(limit, x.a[k] - 2 * x.b[k] + x.c[k]);
    }
}

/* Along a line that is high along the columns: the same of bands 4 and 3, their difference and their sum. */
static inline void outer_lines(size_t n, int32_t limit, struct three x, int32_t *restrict minus,
                               int32_t *restrict plus)
{
    for (size_t k = 0; k < n; k++) {
        int32_t outer = x.a[k] + x.c[k];
        int32_t inner = 2 * x.b[k];
        int32_t high = outside(limit, outer - inner);
        int32_t low = outside(limit, outer + inner);
        minus[k] = high - low;
        plus[k] = high + low;
    }
}

/*
 * The joins along a row, their difference and their sum. The taps of the low join filter differ from those of
 * the high one in the signs of every second one only, so differences and sums in turn, through the high
 * filter, give what the two filters would.
 */
static inline void join_line(size_t n, struct five parts, struct five crossed, int32_t *restrict apart,
                             int32_t *restrict together)
{
    for (size_t k = 0; k < n; k++) {
        int32_t p = high_join(parts, k);
        int32_t q = high_join(crossed, k);
        apart[k] = q - p;
        together[k] = q + p;
    }
}

/* A row along the columns, from three rows, with room for taps so far apart. */
static inline void split_rows(size_t n, ptrdiff_t spacing, struct three rows, struct passed line)
{
    split_line(n, rows, line.low, line.high);
    fill_beside(n, spacing, line.low);
    fill_beside(n, spacing, line.high);
}

/* The parts of bands 3 and 4, and their joins with those of band 2, which are there. */
static inline void join_parts(size_t n, int32_t limit, ptrdiff_t spacing, struct passed line,
                              int32_t *restrict apart, int32_t *restrict together)
{
    outer_lines(n, limit, three_along(spacing, line.high), line.minus, line.plus);
    fill_beside(n, 2 * spacing, line.parts);
    fill_beside(n, 2 * spacing, line.minus);
    fill_beside(n, 2 * spacing, line.plus);
    struct five crossed = {line.minus - 2 * spacing, line.plus - spacing, line.minus, line.plus + spacing,
                           line.minus + 2 * spacing};
    join_line(n, five_along(spacing, line.parts), crossed, apart, together);
}

#endif
