/*
 * The rounds call in plain C.
 *
 * A colour's plane stands in the work buffer through all its rounds, where it may go below zero and above a
 * sample. A round projects it on green, at one level of the bank or at two, and then puts the observed samples
 * in. The projection at two levels needs no wide work buffer: what is lent is zeroed.
 */

#include "plain.h"

#include <string.h>

/* One colour on its way through the rounds. Its places have these parities of row and of column. */
struct colour {
    size_t width, height, row, column;
    int two_levels;
    int32_t threshold;
    const uint16_t *mosaic, *green;
    int32_t *plane;
};

/* The observed samples, at every second place of every second row. */
static void put_observed(const struct colour *c)
{
    for (size_t i = c->row; i < c->height; i += 2) {
        const uint16_t *restrict mosaic = c->mosaic + i * c->width;
        int32_t *restrict plane = c->plane + i * c->width;
        for (size_t j = c->column; j < c->width; j += 2) {
            plane[j] = mosaic[j];
        }
    }
}

static void widen(size_t n, const uint16_t *restrict samples, int32_t *restrict plane)
{
    for (size_t k = 0; k < n; k++) {
        plane[k] = samples[k];
    }
}

/* After the last round, clipped to samples. */
static void narrow(size_t n, const int32_t *restrict plane, uint16_t *restrict samples)
{
    for (size_t k = 0; k < n; k++) {
        samples[k] = (uint16_t)clipped((struct ends){0, CEILING}, plane[k]);
    }
}

static void project(const struct colour *c)
{
    struct guide green = {c->green, c->width, 1};
    struct ends kept = {-CEILING, 2 * CEILING};
    int32_t limit = 16 * c->threshold;
    if (c->two_levels) {
        PLAIN(project_two)(c->width, c->height, c->plane, c->green, limit, 16 * limit, kept);
    } else {
        PLAIN(project)(c->width, c->height, c->plane, green, limit, kept);
    }
}

/* All rounds of a colour. */
static void run(const struct colour *c, uint32_t rounds, uint16_t *samples)
{
    size_t n = c->width * c->height;
    widen(n, samples, c->plane);
    for (uint32_t t = 0; t < rounds; t++) {
        project(c);
        put_observed(c);
    }
    narrow(n, c->plane, samples);
}

uint32_t PLAIN(rounds)(size_t width, size_t height, uint32_t layout, uint32_t rounds, uint32_t threshold,
                       const uint16_t *mosaic, size_t mosaic_length, uint16_t *red, size_t red_length,
                       const uint16_t *green, size_t green_length, uint16_t *blue, size_t blue_length,
                       int32_t *work, size_t work_length, int64_t *wide_work, size_t wide_work_length)
{
    uint32_t refusal = lent_refusal(width, height, layout, rounds, threshold, mosaic, mosaic_length,
                                    red_length, green_length, blue_length, work_length, wide_work_length);
    if (refusal != 0) {
        return refusal;
    }
    size_t n = width * height;
    if (!in_range(n, red) || !in_range(n, green) || !in_range(n, blue)) {
        return 10;
    }
    struct colour c = {.width = width, .height = height, .row = red_row(layout), .column = red_column(layout),
                       .two_levels = has_two_levels(layout), .threshold = (int32_t)threshold, .mosaic = mosaic,
                       .green = green, .plane = work};
    run(&c, rounds, red);
    c.row = 1 - c.row;
    c.column = 1 - c.column;
    run(&c, rounds, blue);
    memset(work, 0, 8 * n * sizeof *work);
    if (has_two_levels(layout)) {
        memset(wide_work, 0, 8 * n * sizeof *wide_work);
    }
    return 0;
}
