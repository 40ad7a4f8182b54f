/*
 * The projection at two levels of the bank in plain C.
 *
 * Of the difference between a plane and its guide, what the details of both levels have outside their limits
 * is joined and taken off the plane, in one sweep down the rows, all in 32 bits. The second level's joined
 * lines are too large for that at the largest values: they go on as whole parts by 1,024, which are merged
 * into the first level's rows, and as rests, which stand beside them until the last rounding.
 */

#include "plain_details.h"

#include <stdalign.h>

/* How many lines the rings have. */
enum { OF_DIFFERENCES = 3, OF_BAND = 5, OF_FIRST = 7, OF_SECOND = 9, OF_BOTH = 5 };

/* The lines of a sweep by number. A row of a ring has the number of the ring and the row's remainder. */
enum {
    DIFFERENCES,
    BAND = DIFFERENCES + OF_DIFFERENCES,
    FIRST_APART = BAND + OF_BAND,
    FIRST_TOGETHER = FIRST_APART + OF_FIRST,
    SECOND_APART = FIRST_TOGETHER + OF_FIRST,
    SECOND_TOGETHER = SECOND_APART + OF_SECOND,
    APART = SECOND_TOGETHER + OF_SECOND,
    TOGETHER = APART + OF_BOTH,
    RESTS = TOGETHER + OF_BOTH,
    LOW = RESTS + OF_BOTH,
    HIGH,
    PARTS,
    MINUS,
    PLUS,
    LINES
};

/* How many rows after its differences a row goes through each stage: then the rows that it needs are there. */
enum { FIRST_LATER = 1, SECOND_LATER = 3, MERGED_LATER = 7, SETTLED_LATER = 9 };

struct sweep {
    struct lines lines;
    struct passed line;
    int32_t limit, second_limit;
    const uint16_t *guide;
    int32_t *plane;
    struct ends kept;
};

/* Along a line that is low along the columns: what of band 2 lies outside the limit, and band 1. */
static void outer_and_band_line(size_t n, int32_t limit, struct three x, int32_t *restrict parts,
                                int32_t *restrict band)
{
    for (size_t k = 0; k < n; k++) {
        int32_t outer = x.a[k] + x.c[k];
        int32_t inner = 2 * x.b[k];
        parts[k] = outside(limit, outer - inner);
        band[k] = outer + inner;
    }
}

/* The second level's join along the columns: of the whole parts by 1,024. The shift is a signed one. */
static void whole_line(size_t n, struct five x, int32_t *restrict out)
{
    for (size_t k = 0; k < n; k++) {
        int32_t inner = (x.b[k] >> 10) + (x.d[k] >> 10) - 3 * (x.c[k] >> 10);
        out[k] = (x.a[k] >> 10) + (x.e[k] >> 10) + 2 * inner;
    }
}

/* And of the rests. */
static void rest_line(size_t n, struct five x, int32_t *restrict out)
{
    for (size_t k = 0; k < n; k++) {
        int32_t inner = (x.b[k] & 1023) + (x.d[k] & 1023) - 3 * (x.c[k] & 1023);
        out[k] = (x.a[k] & 1023) + (x.e[k] & 1023) + 2 * inner;
    }
}

/* The low join along a line, merged into the first level's row, so that the high join along the columns does. */
static void merge_line(size_t n, struct five x, const int32_t *restrict first_apart,
                       const int32_t *restrict first_together, int32_t *restrict apart,
                       int32_t *restrict together)
{
    for (size_t k = 0; k < n; k++) {
        int32_t joined = low_join(x, k);
        apart[k] = first_apart[k] - joined;
        together[k] = first_together[k] + joined;
    }
}

/*
 * The join along the columns and the whole part of the rests, taken off, brought back by a signed shift and
 * clipped.
 */
static void settle_line(size_t n, struct five x, const int32_t *restrict rests, struct ends kept,
                        int32_t *restrict plane)
{
    for (size_t k = 0; k < n; k++) {
        plane[k] = clipped(kept, (1024 * plane[k] - high_join(x, k) + (-rests[k] >> 10) + 512) >> 10);
    }
}

static void difference_row(const struct sweep *s, size_t r)
{
    size_t n = s->lines.width;
    int32_t *out = line_of(s->lines, DIFFERENCES + r % OF_DIFFERENCES);
    difference_line(n, s->plane + r * n, s->guide + r * n, 1, out);
}

/* A row of the first level's joined parts and of its band 1, from three rows of differences. */
static void first_row(const struct sweep *s, size_t r)
{
    size_t n = s->lines.width, slot = r % OF_FIRST;
    split_rows(n, 1, three_rows(s->lines, DIFFERENCES, OF_DIFFERENCES, r, 1), s->line);
    outer_and_band_line(n, s->limit, three_along(1, s->line.low), s->line.parts,
                        line_of(s->lines, BAND + r % OF_BAND));
    join_parts(n, s->limit, 1, s->line, line_of(s->lines, FIRST_APART + slot),
               line_of(s->lines, FIRST_TOGETHER + slot));
}

/* A row of the second level's joined parts, from every second of five rows of band 1. */
static void second_row(const struct sweep *s, size_t r)
{
    size_t n = s->lines.width, slot = r % OF_SECOND;
    split_rows(n, 2, three_rows(s->lines, BAND, OF_BAND, r, 2), s->line);
    outer_line(n, s->second_limit, three_along(2, s->line.low), s->line.parts);
    join_parts(n, s->second_limit, 2, s->line, line_of(s->lines, SECOND_APART + slot),
               line_of(s->lines, SECOND_TOGETHER + slot));
}

/* A row of both levels, from every second of nine rows of the second one. */
static void merged_row(const struct sweep *s, size_t r)
{
    size_t n = s->lines.width, first = r % OF_FIRST, slot = r % OF_BOTH;
    int32_t *whole = s->line.low, *rest = s->line.high;
    struct five rows = crossed_rows(s->lines, SECOND_APART, SECOND_TOGETHER, OF_SECOND, r, 2);
    whole_line(n, rows, whole);
    rest_line(n, rows, rest);
    fill_beside(n, 2, whole);
    fill_beside(n, 2, rest);
    merge_line(n, five_along(1, whole), line_of(s->lines, FIRST_APART + first),
               line_of(s->lines, FIRST_TOGETHER + first), line_of(s->lines, APART + slot),
               line_of(s->lines, TOGETHER + slot));
    low_line(n, five_along(1, rest), line_of(s->lines, RESTS + slot));
}

/* A row of the plane, from five rows of both levels. */
static void settled_row(const struct sweep *s, size_t r)
{
    size_t n = s->lines.width;
    low_line(n, crossed_rows(s->lines, RESTS, RESTS, OF_BOTH, r, 1), s->line.low);
    settle_line(n, crossed_rows(s->lines, APART, TOGETHER, OF_BOTH, r, 1), s->line.low, s->kept,
                s->plane + r * n);
}

/* A stage's row, if there is one when the differences are at row t. */
static inline void stage(const struct sweep *s, size_t t, size_t later, void row(const struct sweep *, size_t))
{
    if (t >= later && t - later < s->lines.height) {
        row(s, t - later);
    }
}

void PLAIN(project_two)(size_t width, size_t height, int32_t *plane, const uint16_t *guide, int32_t limit,
                        int32_t second_limit, struct ends kept)
{
    alignas(64) int32_t numbers[LINES * (LONGEST + 2 * BESIDE)];
    struct lines lines = {width, height, numbers};
    struct passed line = {line_of(lines, LOW), line_of(lines, HIGH), line_of(lines, PARTS),
                          line_of(lines, MINUS), line_of(lines, PLUS)};
    struct sweep s = {lines, line, limit, second_limit, guide, plane, kept};
    for (size_t t = 0; t < height + SETTLED_LATER; t++) {
        stage(&s, t, 0, difference_row);
        stage(&s, t, FIRST_LATER, first_row);
        stage(&s, t, SECOND_LATER, second_row);
        stage(&s, t, MERGED_LATER, merged_row);
        stage(&s, t, SETTLED_LATER, settled_row);
    }
}
