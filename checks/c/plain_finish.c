/* Finishing in plain C: estimate, update and rounds, by their calls. */

#include "plain.h"

uint32_t PLAIN(finish)(size_t width, size_t height, uint32_t layout, uint32_t rounds, uint32_t threshold,
                       const uint16_t *mosaic, size_t mosaic_length, uint16_t *red, size_t red_length,
                       uint16_t *green, size_t green_length, uint16_t *blue, size_t blue_length,
                       int32_t *work, size_t work_length, int64_t *wide_work, size_t wide_work_length)
{
    uint32_t refusal = lent_refusal(width, height, layout, rounds, threshold, mosaic, mosaic_length,
                                    red_length, green_length, blue_length, work_length, wide_work_length);
    if (refusal != 0) {
        return refusal;
    }
    PLAIN(estimate)(width, height, layout, mosaic, mosaic_length, red, red_length, green, green_length, blue,
                    blue_length);
    PLAIN(update)(width, height, layout, mosaic, mosaic_length, green, green_length, work, work_length);
    PLAIN(rounds)(width, height, layout, rounds, threshold, mosaic, mosaic_length, red, red_length, green,
                  green_length, blue, blue_length, work, work_length, wide_work, wide_work_length);
    return 0;
}
