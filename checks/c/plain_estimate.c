/*
 * The first estimates in plain C.
 *
 * Both estimates take the 5 by 5 neighbourhood of a place by value. Two places at each end of a row, and two
 * rows at the top and at the bottom, go place by place, reflected. The rest of a row goes plane by plane.
 */

#include "plain.h"

#include <stdlib.h>

/* Five samples of a row, or of a column. */
struct samples {
    int32_t a, b, c, d, e;
};

/* The neighbourhood of a place, five rows. */
struct near {
    struct samples a, b, c, d, e;
};

struct frame {
    size_t width, height, red_row, red_column;
    const uint16_t *mosaic;
    uint16_t *red, *green, *blue;
};

static inline struct samples samples_inside(const uint16_t *at)
{
    return (struct samples){at[-2], at[-1], at[0], at[1], at[2]};
}

/* The neighbourhood of a place two places or more from the border. */
static inline struct near near_inside(const uint16_t *at, ptrdiff_t width)
{
    return (struct near){samples_inside(at - 2 * width), samples_inside(at - width), samples_inside(at),
                         samples_inside(at + width), samples_inside(at + 2 * width)};
}

static inline struct samples samples_at(const uint16_t *row, const size_t columns[5])
{
    return (struct samples){row[columns[0]], row[columns[1]], row[columns[2]], row[columns[3]],
                            row[columns[4]]};
}

/* The neighbourhood of any place. */
static struct near near_reflected(const struct frame *f, size_t r, size_t c)
{
    size_t columns[5];
    struct samples rows[5];
    for (size_t k = 0; k < 5; k++) {
        columns[k] = reflected(f->width, (ptrdiff_t)(c + k) - 2);
    }
    for (size_t k = 0; k < 5; k++) {
        rows[k] = samples_at(f->mosaic + f->width * reflected(f->height, (ptrdiff_t)(r + k) - 2), columns);
    }
    return (struct near){rows[0], rows[1], rows[2], rows[3], rows[4]};
}

/* 2C less the two values two away. */
static inline int32_t detail(struct samples x)
{
    return 2 * x.c - (x.a + x.e);
}

/* H of a row, or V of a column. */
static inline int32_t gradient(struct samples x)
{
    return abs(x.b - x.d) + abs(detail(x));
}

/* Four times the green by a row, or by a column. */
static inline int32_t four_greens(struct samples x)
{
    return 2 * (x.b + x.d) + detail(x);
}

/* Hamilton and Adams: by the smaller of H and V twice, or once by each. Both sums are there: no branch. */
static inline uint16_t green_estimate(struct near n)
{
    struct samples column = {n.a.c, n.b.c, n.c.c, n.d.c, n.e.c};
    int32_t h = gradient(n.c), v = gradient(column);
    int32_t across = four_greens(n.c), down = four_greens(column);
    int32_t sum = (h < v ? across : down) + (v < h ? down : across) + 4;
    int32_t quotient = (sum > 0 ? sum : 0) >> 3;
    return (uint16_t)(quotient < CEILING ? quotient : CEILING);
}

/* Red or blue, by whether the place's row, and its column, have the parity of the colour's places. */
static inline uint16_t bilinear_estimate(struct near n, int on_row, int on_column)
{
    if (on_row) {
        int32_t between = (n.c.b + n.c.d + 1) >> 1;
        return (uint16_t)(on_column ? n.c.c : between);
    }
    int32_t between = (n.b.c + n.d.c + 1) >> 1;
    int32_t amid = (n.b.b + n.b.d + n.d.b + n.d.d + 2) >> 2;
    return (uint16_t)(on_column ? between : amid);
}

/*
 * Green at n places inside a row; at odd ones it was observed. They are counted in 16 bits, beside k, so that
 * the choice is one over vectors of samples.
 */
static void green_inside(size_t n, size_t width, uint16_t place, const uint16_t *restrict mosaic,
                         uint16_t *restrict green)
{
    for (size_t k = 0; k < n; k++, place++) {
        struct near near = near_inside(mosaic + k, (ptrdiff_t)width);
        uint16_t estimated = green_estimate(near);
        green[k] = place % 2 ? (uint16_t)near.c.c : estimated;
    }
}

/* Red or blue at n places inside a row; even ones have the parity of the colour's columns. */
static void colour_inside(size_t n, size_t width, int on_row, uint16_t place, const uint16_t *restrict mosaic,
                          uint16_t *restrict plane)
{
    for (size_t k = 0; k < n; k++, place++) {
        plane[k] = bilinear_estimate(near_inside(mosaic + k, (ptrdiff_t)width), on_row, place % 2 == 0);
    }
}

/* The places of row r from `first` on and before `last`, wherever they lie. */
static void estimate_part(const struct frame *f, size_t r, size_t first, size_t last)
{
    int row = r % 2 == f->red_row;
    for (size_t c = first; c < last; c++) {
        struct near near = near_reflected(f, r, c);
        int column = c % 2 == f->red_column;
        size_t at = r * f->width + c;
        f->red[at] = bilinear_estimate(near, row, column);
        f->green[at] = row == column ? green_estimate(near) : (uint16_t)near.c.c;
        f->blue[at] = bilinear_estimate(near, !row, !column);
    }
}

static void estimate_row(const struct frame *f, size_t r)
{
    size_t width = f->width;
    if (r < 2 || r + 2 >= f->height || width <= 4) {
        estimate_part(f, r, 0, width);
        return;
    }
    int row = r % 2 == f->red_row;
    uint16_t red = (uint16_t)f->red_column, blue = 1 - red;
    size_t at = r * width + 2;
    estimate_part(f, r, 0, 2);
    colour_inside(width - 4, width, row, red, f->mosaic + at, f->red + at);
    green_inside(width - 4, width, row ? red : blue, f->mosaic + at, f->green + at);
    colour_inside(width - 4, width, !row, blue, f->mosaic + at, f->blue + at);
    estimate_part(f, r, width - 2, width);
}

uint32_t PLAIN(estimate)(size_t width, size_t height, uint32_t layout, const uint16_t *mosaic,
                         size_t mosaic_length, uint16_t *red, size_t red_length, uint16_t *green,
                         size_t green_length, uint16_t *blue, size_t blue_length)
{
    uint32_t refusal = shape_refusal(width, height, layout);
    if (refusal != 0) {
        return refusal;
    }
    size_t n = width * height;
    if (mosaic_length != n) {
        return 6;
    }
    if (red_length != n || green_length != n || blue_length != n) {
        return 7;
    }
    if (!in_range(n, mosaic)) {
        return 9;
    }
    struct frame f = {width, height, red_row(layout), red_column(layout), mosaic, red, green, blue};
    for (size_t r = 0; r < height; r++) {
        estimate_row(&f, r);
    }
    return 0;
}
