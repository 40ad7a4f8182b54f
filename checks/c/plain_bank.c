/*
 * Split and join in plain C.
 *
 * Row by row: along the columns into two lines, whose ends are reflected, and then along the lines.
 */

#include "plain.h"
#include "plain_lines.h"

#include <stdalign.h>

/* A line with room beside it. */
struct line {
    alignas(64) int32_t numbers[BESIDE + LONGEST + BESIDE];
};

/* Question 15. Every value is looked at, even after one out of range: only so is the scan vectorised. */
static int within(int32_t most, size_t n, const int32_t *values)
{
    int32_t outside = 0;
    for (size_t k = 0; k < n; k++) {
        outside |= (values[k] < -most) | (values[k] > most);
    }
    return !outside;
}

/* Where the row begins that lies so far away from row r. */
static size_t row_start(size_t width, size_t height, size_t r, ptrdiff_t away)
{
    return width * reflected(height, (ptrdiff_t)r + away);
}

uint32_t PLAIN(split)(size_t width, size_t height, const int32_t *plane, size_t plane_length, int32_t *band1,
                      size_t length1, int32_t *band2, size_t length2, int32_t *band3, size_t length3,
                      int32_t *band4, size_t length4)
{
    uint32_t refusal = sizes_refusal(1, width, height);
    if (refusal != 0) {
        return refusal;
    }
    size_t n = width * height;
    if (plane_length != n) {
        return 6;
    }
    if (length1 != n || length2 != n || length3 != n || length4 != n) {
        return 7;
    }
    if (!within(8190, n, plane)) {
        return 15;
    }
    struct line lines[2];
    int32_t *low = lines[0].numbers + BESIDE, *high = lines[1].numbers + BESIDE;
    for (size_t r = 0; r < height; r++) {
        size_t here = r * width;
        struct three rows = {plane + row_start(width, height, r, -1), plane + here,
                             plane + row_start(width, height, r, 1)};
        split_line(width, rows, low, high);
        fill_beside(width, 1, low);
        fill_beside(width, 1, high);
        split_line(width, three_along(1, low), band1 + here, band2 + here);
        split_line(width, three_along(1, high), band3 + here, band4 + here);
    }
    return 0;
}

static void add_high_line(size_t n, struct five x, int32_t *restrict out)
{
    for (size_t k = 0; k < n; k++) {
        out[k] += high_join(x, k);
    }
}

/* A row of two bands along the columns: the one through the low filter, the other through the high one. */
static void join_rows(size_t width, size_t height, size_t r, const int32_t *low, const int32_t *high,
                      int32_t *out)
{
    size_t a = row_start(width, height, r, -2), b = row_start(width, height, r, -1), c = r * width;
    size_t d = row_start(width, height, r, 1), e = row_start(width, height, r, 2);
    low_line(width, (struct five){low + a, low + b, low + c, low + d, low + e}, out);
    add_high_line(width, (struct five){high + a, high + b, high + c, high + d, high + e}, out);
    fill_beside(width, 2, out);
}

uint32_t PLAIN(join)(size_t width, size_t height, const int32_t *band1, size_t length1, const int32_t *band2,
                     size_t length2, const int32_t *band3, size_t length3, const int32_t *band4,
                     size_t length4, int32_t *sums, size_t sums_length)
{
    uint32_t refusal = sizes_refusal(1, width, height);
    if (refusal != 0) {
        return refusal;
    }
    size_t n = width * height;
    if (length1 != n || length2 != n || length3 != n || length4 != n) {
        return 6;
    }
    if (sums_length != n) {
        return 7;
    }
    if (!within(131040, n, band1) || !within(131040, n, band2) || !within(131040, n, band3) ||
        !within(131040, n, band4)) {
        return 15;
    }
    struct line lines[2];
    int32_t *low = lines[0].numbers + BESIDE, *high = lines[1].numbers + BESIDE;
    for (size_t r = 0; r < height; r++) {
        join_rows(width, height, r, band1, band3, low);
        join_rows(width, height, r, band2, band4, high);
        low_line(width, five_along(1, low), sums + r * width);
        add_high_line(width, five_along(1, high), sums + r * width);
    }
    return 0;
}
