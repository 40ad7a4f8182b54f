/*
 * The green update in plain C.
 *
 * Green at a colour's places is gathered into the work buffer, projected on the colour's samples with the
 * limit 0, and put back.
 */

#include "plain.h"

#include <string.h>

/* The places of a colour: where its first one stands in the frame, how many columns and rows it has. */
struct places {
    size_t first, columns, rows;
};

static struct places places_of(size_t width, size_t height, size_t row, size_t column)
{
    return (struct places){row * width + column, (width + 1 - column) / 2, (height + 1 - row) / 2};
}

static void gather_row(size_t n, const uint16_t *restrict samples, int32_t *restrict plane)
{
    for (size_t k = 0; k < n; k++) {
        plane[k] = samples[2 * k];
    }
}

static void scatter_row(size_t n, const int32_t *restrict plane, uint16_t *restrict samples)
{
    for (size_t k = 0; k < n; k++) {
        samples[2 * k] = (uint16_t)plane[k];
    }
}

static void update_places(size_t width, struct places at, const uint16_t *mosaic, uint16_t *green,
                          int32_t *work)
{
    size_t down = 2 * width;
    for (size_t i = 0; i < at.rows; i++) {
        gather_row(at.columns, green + at.first + i * down, work + i * at.columns);
    }
    struct guide colour = {mosaic + at.first, down, 2};
    PLAIN(project)(at.columns, at.rows, work, colour, 0, (struct ends){0, CEILING});
    for (size_t i = 0; i < at.rows; i++) {
        scatter_row(at.columns, work + i * at.columns, green + at.first + i * down);
    }
}

uint32_t PLAIN(update)(size_t width, size_t height, uint32_t layout, const uint16_t *mosaic,
                       size_t mosaic_length, uint16_t *green, size_t green_length, int32_t *work,
                       size_t work_length)
{
    uint32_t refusal = shape_refusal(width, height, layout);
    if (refusal != 0) {
        return refusal;
    }
    size_t n = width * height;
    if (mosaic_length != n || green_length != n) {
        return 6;
    }
    if (work_length < 8 * n) {
        return 8;
    }
    if (!in_range(n, mosaic)) {
        return 9;
    }
    if (!in_range(n, green)) {
        return 10;
    }
    size_t row = red_row(layout), column = red_column(layout);
    update_places(width, places_of(width, height, 1 - row, 1 - column), mosaic, green, work);
    update_places(width, places_of(width, height, row, column), mosaic, green, work);
    memset(work, 0, 8 * n * sizeof *work);
    return 0;
}
