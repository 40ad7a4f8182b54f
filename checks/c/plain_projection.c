/*
 * The projection in plain C, which the update and the rounds share.
 *
 * Of the difference between a plane and its guide, what bands 2, 3 and 4 have outside the limit is joined
 * and taken off the plane, in one sweep down the rows. Three rows of differences and five rows of joined
 * parts stand in rings.
 */

#include "plain_details.h"

#include <stdalign.h>

/* The lines of a sweep by number. A row of a ring has the number of the ring and the row's remainder. */
enum { DIFFERENCES, LOW = 3, HIGH, PARTS, MINUS, PLUS, APART, TOGETHER = APART + 5, LINES = TOGETHER + 5 };

struct sweep {
    struct lines lines;
    struct passed line;
    int32_t limit;
    struct guide guide;
    int32_t *plane;
    struct ends kept;
};

/* The join along the columns, taken off, brought back by a signed shift and clipped. */
static void settle_line(size_t n, struct five x, struct ends kept, int32_t *restrict plane)
{
    for (size_t k = 0; k < n; k++) {
        plane[k] = clipped(kept, (1024 * plane[k] - high_join(x, k) + 512) >> 10);
    }
}

/* With the step between the guide's columns as a number, the loop reads whole vectors of it. */
static void difference_row(const struct sweep *s, size_t r)
{
    size_t n = s->lines.width;
    const int32_t *plane = s->plane + r * n;
    const uint16_t *guide = s->guide.samples + r * s->guide.down;
    int32_t *out = line_of(s->lines, DIFFERENCES + r % 3);
    if (s->guide.across == 1) {
        difference_line(n, plane, guide, 1, out);
    } else {
        difference_line(n, plane, guide, 2, out);
    }
}

/* A row of the joined parts, from the differences of three rows. */
static void parts_row(const struct sweep *s, size_t r)
{
    size_t n = s->lines.width;
    split_rows(n, 1, three_rows(s->lines, DIFFERENCES, 3, r, 1), s->line);
    outer_line(n, s->limit, three_along(1, s->line.low), s->line.parts);
    join_parts(n, s->limit, 1, s->line, line_of(s->lines, APART + r % 5), line_of(s->lines, TOGETHER + r % 5));
}

/* A row of the plane, from five rows of the joined parts. */
static void settle_row(const struct sweep *s, size_t r)
{
    size_t n = s->lines.width;
    settle_line(n, crossed_rows(s->lines, APART, TOGETHER, 5, r, 1), s->kept, s->plane + r * n);
}

/* The sweep. A row is settled two rows later, when the parts that it needs are there. */
void PLAIN(project)(size_t width, size_t height, int32_t *plane, struct guide guide, int32_t limit,
                    struct ends kept)
{
    alignas(64) int32_t numbers[LINES * (LONGEST + 2 * BESIDE)];
    struct lines lines = {width, height, numbers};
    struct passed line = {line_of(lines, LOW), line_of(lines, HIGH), line_of(lines, PARTS),
                          line_of(lines, MINUS), line_of(lines, PLUS)};
    struct sweep s = {lines, line, limit, guide, plane, kept};
    difference_row(&s, 0);
    for (size_t r = 0; r < height + 2; r++) {
        if (r + 1 < height) {
            difference_row(&s, r + 1);
        }
        if (r < height) {
            parts_row(&s, r);
        }
        if (r >= 2) {
            settle_row(&s, r - 2);
        }
    }
}
