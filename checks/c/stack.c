/*
 * Makes the calls that need the most stack, and the spot's, each on a thread with a stack of its own, and prints a line
 * for each: its name, the layout, and how many bytes of the stack it has written, those of the thread itself left out.
 */

#define _POSIX_C_SOURCE 200809L

#include "demosaic.h"

#include <inttypes.h>
#include <pthread.h>
#include <stdio.h>
#include <stdlib.h>
#include <string.h>

/* The longest lines, and enough of them. */
enum { WIDTH = DEMOSAIC_MAX_SIDE, HEIGHT = DEMOSAIC_SPOT_SIDE, COUNT = WIDTH * HEIGHT };

/* Far more than any call needs, and what it holds before. */
enum { STACK = 1 << 24, UNTOUCHED = 0x5a };

static uint16_t mosaic[COUNT], red[COUNT], green[COUNT], blue[COUNT];
static int32_t plane[COUNT], bands[4][COUNT], work[DEMOSAIC_WORK_LEN(WIDTH, HEIGHT)];
static int64_t wide_work[DEMOSAIC_WIDE_WORK_LEN(WIDTH, HEIGHT)];

struct call {
    const char *name;
    uint32_t (*make)(uint32_t layout);
};

/* What is left of a call when the thread returns. */
struct made {
    const struct call *call;
    uint32_t layout, number;
};

static uint32_t nothing(uint32_t layout)
{
    (void)layout;
    return DEMOSAIC_ACCEPTED;
}

static uint32_t finish(uint32_t layout)
{
    return demosaic_finish(WIDTH, HEIGHT, layout, 2, 20, mosaic, COUNT, red, COUNT, green, COUNT, blue, COUNT, work,
                           DEMOSAIC_WORK_LEN(WIDTH, HEIGHT), wide_work, DEMOSAIC_WIDE_WORK_LEN(WIDTH, HEIGHT));
}

static uint32_t rounds(uint32_t layout)
{
    return demosaic_rounds(WIDTH, HEIGHT, layout, 2, 20, mosaic, COUNT, red, COUNT, green, COUNT, blue, COUNT, work,
                           DEMOSAIC_WORK_LEN(WIDTH, HEIGHT), wide_work, DEMOSAIC_WIDE_WORK_LEN(WIDTH, HEIGHT));
}

static uint32_t update(uint32_t layout)
{
    return demosaic_update(WIDTH, HEIGHT, layout, mosaic, COUNT, green, COUNT, work, DEMOSAIC_WORK_LEN(WIDTH, HEIGHT));
}

static uint32_t estimate(uint32_t layout)
{
    return demosaic_estimate(WIDTH, HEIGHT, layout, mosaic, COUNT, red, COUNT, green, COUNT, blue, COUNT);
}

static uint32_t split(uint32_t layout)
{
    (void)layout;
    return demosaic_split(WIDTH, HEIGHT, plane, COUNT, bands[0], COUNT, bands[1], COUNT, bands[2], COUNT, bands[3],
                          COUNT);
}

static uint32_t join(uint32_t layout)
{
    (void)layout;
    return demosaic_join(WIDTH, HEIGHT, bands[0], COUNT, bands[1], COUNT, bands[2], COUNT, bands[3], COUNT, plane,
                         COUNT);
}

/* Lit, and smoothed from the second call on. */
static uint32_t spot(uint32_t layout)
{
    static double of_red, of_green, of_blue;
    static uint8_t lit, reading;
    (void)layout;
    blue[0] = 1;
    return demosaic_spot(WIDTH, HEIGHT, red, COUNT, green, COUNT, blue, COUNT, 0, 0, &of_red, &of_green, &of_blue, &lit,
                         &reading);
}

static const struct call NOTHING = {"nothing", nothing};
static const struct call CALLS[] = {{"finish", finish}, {"rounds", rounds}, {"update", update}, {"estimate", estimate},
                                    {"split", split},   {"join", join},     {"spot", spot}};

static void *run(void *argument)
{
    struct made *made = argument;
    made->number = made->call->make(made->layout);
    return NULL;
}

/* Runs the call on this stack. Answers how many bytes were written, from its end on, and 0 where it cannot. */
static size_t written(uint8_t *stack, struct made *made)
{
    pthread_attr_t attributes;
    pthread_t thread;
    memset(stack, UNTOUCHED, STACK);
    if (pthread_attr_init(&attributes) != 0 || pthread_attr_setstack(&attributes, stack, STACK) != 0
        || pthread_create(&thread, &attributes, run, made) != 0 || pthread_join(thread, NULL) != 0) {
        return 0;
    }
    size_t untouched = 0;
    while (untouched < STACK && stack[untouched] == UNTOUCHED) {
        untouched++;
    }
    return STACK - untouched;
}

/* Answers 0 where a call cannot be made or is refused. */
static int print_call(uint8_t *stack, const struct call *call, uint32_t layout)
{
    struct made before = {&NOTHING, layout, DEMOSAIC_ACCEPTED}, made = {call, layout, DEMOSAIC_ACCEPTED};
    size_t of_the_thread = written(stack, &before), of_both = written(stack, &made);
    printf("%s %" PRIu32 " %zu\n", call->name, layout, of_both > of_the_thread ? of_both - of_the_thread : 0);
    return of_the_thread > 0 && of_both > 0 && made.number == DEMOSAIC_ACCEPTED;
}

int main(void)
{
    void *stack = NULL;
    int right = posix_memalign(&stack, 65536, STACK) == 0;
    for (size_t k = 0; k < sizeof CALLS / sizeof CALLS[0] && right; k++) {
        right = print_call(stack, &CALLS[k], DEMOSAIC_BGGR) && print_call(stack, &CALLS[k], DEMOSAIC_BGGR_TWO_LEVELS);
    }
    free(stack);
    return right && fflush(stdout) == 0 && !ferror(stdout) ? 0 : 1;
}
