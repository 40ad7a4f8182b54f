/*
 * The engine's calls in plain C, which the benchmark times beside the engine's own.
 *
 * They have the engine's form: the same questions and the same passes over the same buffers. Each call has
 * the parameters of the one in include/demosaic.h, asks the same and leaves the same.
 *
 * Every name with external linkage goes through the macro PLAIN, which the command line defines, so that the
 * calls of two compilers fit into one program.
 */

#ifndef PLAIN_H
#define PLAIN_H

#include <stddef.h>
#include <stdint.h>

enum { LONGEST = 2048, CEILING = 4095 };

uint32_t PLAIN(split)(size_t width, size_t height, const int32_t *plane, size_t plane_length, int32_t *band1,
                      size_t length1, int32_t *band2, size_t length2, int32_t *band3, size_t length3,
                      int32_t *band4, size_t length4);

uint32_t PLAIN(join)(size_t width, size_t height, const int32_t *band1, size_t length1, const int32_t *band2,
                     size_t length2, const int32_t *band3, size_t length3, const int32_t *band4,
                     size_t length4, int32_t *sums, size_t sums_length);

uint32_t PLAIN(estimate)(size_t width, size_t height, uint32_t layout, const uint16_t *mosaic,
                         size_t mosaic_length, uint16_t *red, size_t red_length, uint16_t *green,
                         size_t green_length, uint16_t *blue, size_t blue_length);

uint32_t PLAIN(update)(size_t width, size_t height, uint32_t layout, const uint16_t *mosaic,
                       size_t mosaic_length, uint16_t *green, size_t green_length, int32_t *work,
                       size_t work_length);

uint32_t PLAIN(rounds)(size_t width, size_t height, uint32_t layout, uint32_t rounds, uint32_t threshold,
                       const uint16_t *mosaic, size_t mosaic_length, uint16_t *red, size_t red_length,
                       const uint16_t *green, size_t green_length, uint16_t *blue, size_t blue_length,
                       int32_t *work, size_t work_length, int64_t *wide_work, size_t wide_work_length);

uint32_t PLAIN(finish)(size_t width, size_t height, uint32_t layout, uint32_t rounds, uint32_t threshold,
                       const uint16_t *mosaic, size_t mosaic_length, uint16_t *red, size_t red_length,
                       uint16_t *green, size_t green_length, uint16_t *blue, size_t blue_length,
                       int32_t *work, size_t work_length, int64_t *wide_work, size_t wide_work_length);

uint32_t PLAIN(spot)(size_t width, size_t height, const uint16_t *red, size_t red_length,
                     const uint16_t *green, size_t green_length, const uint16_t *blue, size_t blue_length,
                     size_t row, size_t column, double *spot_red, double *spot_green, double *spot_blue,
                     uint8_t *lit, uint8_t *reading);

/* The samples that a plane is projected on. Their columns stand 1 or 2 apart. */
struct guide {
    const uint16_t *samples;
    size_t down, across;
};

/* The least and the most that a clip keeps. */
struct ends {
    int32_t least, most;
};

static inline int32_t clipped(struct ends kept, int32_t value)
{
    int32_t at_least = value < kept.least ? kept.least : value;
    return at_least > kept.most ? kept.most : at_least;
}

/* Holds the plane's details within the guide's, plus or minus the limit, joins, brings back and clips. */
void PLAIN(project)(size_t width, size_t height, int32_t *plane, struct guide guide, int32_t limit,
                    struct ends kept);

/* The same at two levels of the bank, on a guide row by row. */
void PLAIN(project_two)(size_t width, size_t height, int32_t *plane, const uint16_t *guide, int32_t limit,
                        int32_t second_limit, struct ends kept);

/* The place that index i means in a line of n. It lies at most 2 places outside. */
static inline size_t reflected(size_t n, ptrdiff_t i)
{
    ptrdiff_t last = (ptrdiff_t)n - 1;
    if (last == 0) {
        return 0;
    }
    if (i < 0) {
        i = -i;
    }
    if (i > last) {
        i = 2 * last - i;
    }
    return (size_t)(i < 0 ? -i : i);
}

/* Questions 1 and 2, from this size on. */
static inline uint32_t sizes_refusal(size_t least, size_t width, size_t height)
{
    if (width < least || width > LONGEST) {
        return 1;
    }
    return height < least || height > LONGEST ? 2 : 0;
}

/* Questions 1, 2 and 3 of a frame. */
static inline uint32_t shape_refusal(size_t width, size_t height, uint32_t layout)
{
    uint32_t refusal = sizes_refusal(2, width, height);
    if (refusal != 0) {
        return refusal;
    }
    return layout > 7 ? 3 : 0;
}

/* A layout of 4 and more is that less 4, with two levels. */
static inline int has_two_levels(uint32_t layout)
{
    return layout >= 4;
}

/* The parities of red's rows and of its columns. */
static inline size_t red_row(uint32_t layout)
{
    return layout % 4 / 2;
}

static inline size_t red_column(uint32_t layout)
{
    return layout % 2;
}

/* For questions 9 and 10: samples are at most 4,095 each if together they have no bit above the lowest 12. */
static inline int in_range(size_t n, const uint16_t *samples)
{
    uint16_t bits = 0;
    for (size_t k = 0; k < n; k++) {
        bits |= samples[k];
    }
    return bits <= CEILING;
}

/* Questions 1 to 9 of the rounds and of finishing, 18 among them. */
static inline uint32_t lent_refusal(size_t width, size_t height, uint32_t layout, uint32_t rounds,
                                    uint32_t threshold, const uint16_t *mosaic, size_t mosaic_length,
                                    size_t red_length, size_t green_length, size_t blue_length,
                                    size_t work_length, size_t wide_work_length)
{
    uint32_t refusal = shape_refusal(width, height, layout);
    if (refusal != 0) {
        return refusal;
    }
    if (rounds > 64) {
        return 4;
    }
    if (threshold > CEILING) {
        return 5;
    }
    size_t n = width * height;
    if (mosaic_length != n) {
        return 6;
    }
    if (red_length != n || green_length != n || blue_length != n) {
        return 7;
    }
    if (work_length < 8 * n) {
        return 8;
    }
    if (has_two_levels(layout) && wide_work_length < 8 * n) {
        return 18;
    }
    return in_range(n, mosaic) ? 0 : 9;
}

#endif
