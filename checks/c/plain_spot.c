/* The spot in plain C: three sums over the window, and one step of the smoothing. */

#include "plain.h"

enum { SIDE = 32, STARTING = 0, DARK = 1, STEADY = 2 };

/* Questions 1, 2, 6 and 19. */
static uint32_t spot_refusal(size_t width, size_t height, size_t red_length, size_t green_length,
                             size_t blue_length, size_t row, size_t column)
{
    uint32_t refusal = sizes_refusal(2, width, height);
    if (refusal != 0) {
        return refusal;
    }
    size_t n = width * height;
    if (red_length != n || green_length != n || blue_length != n) {
        return 6;
    }
    if (height < SIDE || row > height - SIDE || width < SIDE || column > width - SIDE) {
        return 19;
    }
    return 0;
}

/* Over the window that begins here. */
static uint32_t window_sum(size_t width, const uint16_t *plane)
{
    uint32_t sum = 0;
    for (size_t r = 0; r < SIDE; r++) {
        for (size_t c = 0; c < SIDE; c++) {
            sum += plane[r * width + c];
        }
    }
    return sum;
}

static double smoothed(double old, double new)
{
    return old + (new - old) * 0.125;
}

uint32_t PLAIN(spot)(size_t width, size_t height, const uint16_t *red, size_t red_length,
                     const uint16_t *green, size_t green_length, const uint16_t *blue, size_t blue_length,
                     size_t row, size_t column, double *spot_red, double *spot_green, double *spot_blue,
                     uint8_t *lit, uint8_t *reading)
{
    uint32_t refusal = spot_refusal(width, height, red_length, green_length, blue_length, row, column);
    if (refusal != 0) {
        return refusal;
    }
    size_t first = row * width + column;
    double of_red = window_sum(width, red + first), of_green = window_sum(width, green + first);
    double of_blue = window_sum(width, blue + first);
    int was_lit = *lit != 0, is_lit = of_blue > 0;
    if (is_lit) {
        *spot_red = was_lit ? smoothed(*spot_red, of_red) : of_red;
        *spot_green = was_lit ? smoothed(*spot_green, of_green) : of_green;
        *spot_blue = was_lit ? smoothed(*spot_blue, of_blue) : of_blue;
    }
    *lit = was_lit || is_lit;
    *reading = is_lit ? STEADY : was_lit ? DARK : STARTING;
    return 0;
}
