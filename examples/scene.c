/*
 * Makes a frame of the burning zone and writes its packet to standard output.
 *
 * A white flame stands on the left. A ring has broken off, and a black hole gapes right beside the flame. Below lies
 * the bed: lumps of clinker with sharp edges and dark gaps, from a few pixels across far away to some thirty close by.
 * All three colours change together at an edge, as they mostly do before a lens. Everything is whole numbers, so every
 * machine makes the same frame.
 */

#include "demosaic.h"

#include <inttypes.h>
#include <stdio.h>

enum { WIDTH = 320, HEIGHT = 240, SAMPLES = WIDTH * HEIGHT, LAYOUT = DEMOSAIC_RGGB, ROUNDS = 8, THRESHOLD = 8 };

/* The light is drawn on a grid FINE times finer than the chip's. The lens spreads a point over LENS of its places. */
enum { FINE = 4, LENS = 6, ACROSS = WIDTH * FINE, DOWN = HEIGHT * FINE };

/* The row of that grid where the bed begins, at the left. */
enum { BED = 96 * FINE };

enum { BLACK = 0, GAP = 480, WHITE = DEMOSAIC_MAX_SAMPLE };

/* What a colour has of the warmth: red lies above green, blue below it. */
enum { BLUE = -1, GREEN = 0, RED = 1 };

/* In pixels. */
struct disc {
    int32_t row, column, radius;
};

static const struct disc FLAME[] = {{52, 0, 52}, {58, 43, 47}, {52, 82, 42}, {58, 117, 37}, {52, 148, 32}};
static const struct disc HOLE[] = {{48, 166, 34}, {68, 184, 28}};

/* The sides of a lump face these ways, clockwise from the right, each 256 long. */
enum { SIDES = 8 };
static const int32_t FACES_RIGHT[SIDES] = {256, 181, 0, -181, -256, -181, 0, 181};
static const int32_t FACES_DOWN[SIDES] = {0, 181, 256, 181, 0, -181, -256, -181};

/* A lump of clinker, in places of the fine grid. Each side has its distance from the middle and its light. */
struct lump {
    int32_t row, column, radius, light_in_front;
    int32_t distance[SIDES], light[SIDES];
};

static int failed(const char *what)
{
    fprintf(stderr, "scene: %s\n", what);
    return 1;
}

static int32_t smaller(int32_t a, int32_t b)
{
    return a < b ? a : b;
}

static int32_t larger(int32_t a, int32_t b)
{
    return a < b ? b : a;
}

/* The next of a series that looks like chance, 0 to bound - 1. */
static int32_t chance(uint32_t *series, int32_t bound)
{
    *series = UINT32_C(1664525) * *series + UINT32_C(1013904223);
    return (int32_t)((*series >> 16) % (uint32_t)bound);
}

/* Whether a place of the fine grid lies in one of the discs. */
static int covered(const struct disc *discs, size_t count, int32_t row, int32_t column)
{
    for (size_t k = 0; k < count; k++) {
        int32_t y = row - discs[k].row * FINE;
        int32_t x = column - discs[k].column * FINE;
        int32_t radius = discs[k].radius * FINE;
        if (y * y + x * x < radius * radius) {
            return 1;
        }
    }
    return 0;
}

/* How far the bed lies lower in this column than at the left, since the kiln turns. */
static int32_t slant(int32_t column)
{
    return column / 16;
}

/* The light at a place, lumps left out: the hole before the flame, that before the lining, and the bed's ground. */
static int32_t light_behind(int32_t row, int32_t column)
{
    if (covered(HOLE, sizeof HOLE / sizeof HOLE[0], row, column)) {
        return BLACK;
    }
    if (covered(FLAME, sizeof FLAME / sizeof FLAME[0], row, column)) {
        return WHITE;
    }
    if (row > BED + slant(column)) {
        return GAP;
    }

    /* Bricks of 30 by 16 pixels with their joints, every other course shifted. */
    int32_t down = row + column / 6;
    int32_t along = column + down / (16 * FINE) % 2 * 15 * FINE;
    if (down % (16 * FINE) < 2 * FINE || along % (30 * FINE) < 2 * FINE) {
        return GAP;
    }
    return 1500 - column / 2;
}

static void draw_behind(int32_t *light)
{
    for (int32_t place = 0; place < DOWN * ACROSS; place++) {
        light[place] = light_behind(place / ACROSS, place % ACROSS);
    }
}

/* A lump of about this place and radius. The flame, above on the left, lights the sides that face it. */
static struct lump new_lump(uint32_t *series, int32_t row, int32_t column, int32_t radius)
{
    struct lump lump;
    lump.row = row + slant(column) + chance(series, radius) / 2;
    lump.column = column + chance(series, radius);
    lump.radius = radius - chance(series, radius / 3);
    lump.light_in_front = 2500 - column / 3 + chance(series, 500);
    for (int side = 0; side < SIDES; side++) {
        lump.distance[side] = lump.radius * (160 + chance(series, 96)) / 256;
        lump.light[side] = lump.light_in_front - 2 * (FACES_RIGHT[side] + FACES_DOWN[side]) + chance(series, 200);
    }
    return lump;
}

/* Draws what a lump has y below and x to the right of its middle: the front, a side, the gap round it or nothing. */
static void draw_place(int32_t *light, const struct lump *lump, int32_t y, int32_t x)
{
    int32_t out = 0; /* how far out, in 256ths of the way to the side that is nearest */
    int nearest = 0;
    for (int side = 0; side < SIDES; side++) {
        int32_t towards = (x * FACES_RIGHT[side] + y * FACES_DOWN[side]) / lump->distance[side];
        if (towards > out) {
            out = towards;
            nearest = side;
        }
    }
    int32_t *place = light + (lump->row + y) * ACROSS + lump->column + x;
    if (out < 140) {
        *place = lump->light_in_front;
    } else if (out < 256) {
        *place = lump->light[nearest];
    } else if (out < 256 + 256 * 5 * FINE / (2 * lump->radius)) {
        *place = GAP;
    }
}

static void draw_lump(int32_t *light, const struct lump *lump)
{
    int32_t reach = 2 * lump->radius;
    int32_t bottom = smaller(reach, DOWN - 1 - lump->row);
    int32_t right = smaller(reach, ACROSS - 1 - lump->column);
    for (int32_t y = larger(-reach, -lump->row); y <= bottom; y++) {
        for (int32_t x = larger(-reach, -lump->column); x <= right; x++) {
            draw_place(light, lump, y, x);
        }
    }
}

/* Lumps look larger closer by, which is lower down. */
static int32_t radius_at(int32_t row)
{
    return 4 * FINE + (row - BED) / 8;
}

static void draw_lumps(int32_t *light, uint32_t *series, int32_t row)
{
    int32_t radius = radius_at(row);
    for (int32_t column = -radius; column < ACROSS + radius; column += radius * 7 / 4) {
        struct lump lump = new_lump(series, row, column, radius);
        draw_lump(light, &lump);
    }
}

/* Draws the bed from the back to the front, down to lumps of which only the top is seen. */
static void draw_bed(int32_t *light, uint32_t *series)
{
    for (int32_t row = BED; row < DOWN + radius_at(row); row += radius_at(row) * 9 / 8) {
        draw_lumps(light, series, row);
    }
}

/* How far a light is from black and from white, whichever is nearer. */
static int32_t room(int32_t light)
{
    return smaller(light - BLACK, WHITE - light);
}

/* Roughens every surface. Black stays black, and white stays white. */
static void roughen(int32_t *light, uint32_t *series)
{
    for (int32_t place = 0; place < DOWN * ACROSS; place++) {
        light[place] += room(light[place]) * (chance(series, 257) - 128) / 1024;
    }
}

/* How far red lies above green, and blue below: not at all in black and white, in a gap as far as on a lump. */
static int32_t warmth(int32_t light)
{
    return smaller(room(light), GAP);
}

/* The colour that the chip's filter lets through at a pixel. */
static int32_t colour_at(int32_t row, int32_t column)
{
    int red_row = row % 2 == LAYOUT / 2;
    int red_column = column % 2 == LAYOUT % 2;
    if (red_row != red_column) {
        return GREEN;
    }
    return red_row ? RED : BLUE;
}

/* What a pixel measures: the mean of a colour over the places of the fine grid that the lens brings to it. */
static uint16_t measured(const int32_t *light, int32_t row, int32_t column, int32_t colour)
{
    int32_t sum = 0;
    for (int32_t k = 0; k < LENS * LENS; k++) {
        int32_t y = row * FINE + k / LENS - (LENS - FINE) / 2;
        int32_t x = column * FINE + k % LENS - (LENS - FINE) / 2;
        int32_t here = light[smaller(larger(y, 0), DOWN - 1) * ACROSS + smaller(larger(x, 0), ACROSS - 1)];
        sum += here + colour * warmth(here);
    }
    return (uint16_t)(sum / (LENS * LENS));
}

static void expose(const int32_t *light, uint16_t *mosaic)
{
    for (int32_t k = 0; k < SAMPLES; k++) {
        int32_t row = k / WIDTH, column = k % WIDTH;
        mosaic[k] = measured(light, row, column, colour_at(row, column));
    }
}

int main(void)
{
    static int32_t light[DOWN * ACROSS];
    static uint16_t mosaic[SAMPLES];
    static uint8_t packet[DEMOSAIC_PACKET_BYTES(WIDTH, HEIGHT)];

    uint32_t series = 1;
    draw_behind(light);
    draw_bed(light, &series);
    roughen(light, &series);
    expose(light, mosaic);

    size_t written = 0;
    uint32_t number = demosaic_packet_write(WIDTH, HEIGHT, LAYOUT, ROUNDS, THRESHOLD, mosaic, SAMPLES, packet,
                                            sizeof packet, &written);
    if (number != 0) {
        fprintf(stderr, "scene: the frame is refused: %" PRIu32 "\n", number);
        return 1;
    }
    if (fwrite(packet, 1, written, stdout) != written || fflush(stdout) != 0) {
        return failed("cannot write the packet");
    }
    return 0;
}
