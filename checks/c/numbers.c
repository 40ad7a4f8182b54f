/*
 * Hands numbers of 32 bits to every call that takes a turn, a layout, rounds or a threshold, and takes them back from
 * those that hand some back: as they are, without a cast, so that a compiler warns where the header has fewer bits.
 *
 * A line of standard input has a turn, a width, a height, a layout, rounds and a threshold; all buffers suffice for 2
 * by 2. A line is printed for each: the calls' answers in their order; how many rounds a tally has that had the
 * threshold's number of them and takes in these; and, where a packet could be written, its fields as they are read
 * back. Behind the answer of a call that wrote what it may not stands "touched".
 */

#include "demosaic.h"

#include <inttypes.h>
#include <stdio.h>
#include <string.h>

enum { SIDE = 2, COUNT = SIDE * SIDE };

static const uint16_t MOSAIC[COUNT] = {100, 50, 50, 20};

struct ask {
    uint32_t turn;
    size_t width, height;
    uint32_t layout, rounds, threshold;
};

/* The numbers that calls hand back. Between them stand some that no call may write. */
struct handed {
    uint32_t guard, layout, guard2, rounds, guard3, threshold, guard4;
};

/* All that a call may write. */
static struct {
    uint16_t red[COUNT], green[COUNT], blue[COUNT];
    int32_t work[DEMOSAIC_WORK_LEN(SIDE, SIDE)];
    int64_t wide_work[DEMOSAIC_WIDE_WORK_LEN(SIDE, SIDE)];
    uint8_t packet[DEMOSAIC_PACKET_BYTES(SIDE, SIDE)];
    size_t written, width, height;
    struct handed handed;
} memory, before;

static uint32_t turn(const struct ask *ask)
{
    return demosaic_turn(ask->turn, ask->width, ask->height, ask->layout, MOSAIC, COUNT, memory.red, COUNT,
                         &memory.width, &memory.height, &memory.handed.layout);
}

static uint32_t turned_shape(const struct ask *ask)
{
    return demosaic_turned_shape(ask->turn, ask->width, ask->height, ask->layout, &memory.width, &memory.height,
                                 &memory.handed.layout);
}

/* Rounds for want of a second turn. */
static uint32_t then_another(const struct ask *ask)
{
    return demosaic_then_another(ask->turn, ask->rounds, &memory.handed.layout);
}

static uint32_t packet_write(const struct ask *ask)
{
    return demosaic_packet_write(ask->width, ask->height, ask->layout, ask->rounds, ask->threshold, MOSAIC, COUNT,
                                 memory.packet, sizeof memory.packet, &memory.written);
}

static uint32_t finish(const struct ask *ask)
{
    return demosaic_finish(ask->width, ask->height, ask->layout, ask->rounds, ask->threshold, MOSAIC, COUNT,
                           memory.red, COUNT, memory.green, COUNT, memory.blue, COUNT, memory.work,
                           DEMOSAIC_WORK_LEN(SIDE, SIDE), memory.wide_work, DEMOSAIC_WIDE_WORK_LEN(SIDE, SIDE));
}

static uint32_t estimate(const struct ask *ask)
{
    return demosaic_estimate(ask->width, ask->height, ask->layout, MOSAIC, COUNT, memory.red, COUNT, memory.green,
                             COUNT, memory.blue, COUNT);
}

static uint32_t update(const struct ask *ask)
{
    return demosaic_update(ask->width, ask->height, ask->layout, MOSAIC, COUNT, memory.green, COUNT, memory.work,
                           DEMOSAIC_WORK_LEN(SIDE, SIDE));
}

static uint32_t rounds(const struct ask *ask)
{
    return demosaic_rounds(ask->width, ask->height, ask->layout, ask->rounds, ask->threshold, MOSAIC, COUNT,
                           memory.red, COUNT, memory.green, COUNT, memory.blue, COUNT, memory.work,
                           DEMOSAIC_WORK_LEN(SIDE, SIDE), memory.wide_work, DEMOSAIC_WIDE_WORK_LEN(SIDE, SIDE));
}

static uint32_t (*const CALLS[])(const struct ask *) = {turn,   turned_shape, then_another, packet_write,
                                                        finish, estimate,     update,       rounds};

/* Every byte is 7: a number that is handed back has upper bytes to clear, and samples are in range. */
static void prepare(void)
{
    memset(&memory, 7, sizeof memory);
    memcpy(&before, &memory, sizeof memory);
}

static int guards_touched(void)
{
    const struct handed *now = &memory.handed, *then = &before.handed;
    return now->guard != then->guard || now->guard2 != then->guard2 || now->guard3 != then->guard3 ||
           now->guard4 != then->guard4;
}

static void print_answer(uint32_t number)
{
    int refused_wrote = number != DEMOSAIC_ACCEPTED && memcmp(&memory, &before, sizeof memory) != 0;
    printf("%" PRIu32 "%s ", number, refused_wrote || guards_touched() ? " touched" : "");
}

/* The fields of the line's packet, as one call hands them to another. */
static void print_fields(const struct ask *ask)
{
    struct handed *handed = &memory.handed;
    prepare();
    if (packet_write(ask) != DEMOSAIC_ACCEPTED) {
        return;
    }
    print_answer(demosaic_packet_fields(memory.packet, memory.written, &memory.width, &memory.height, &handed->layout,
                                        &handed->rounds, &handed->threshold));
    printf("%zu %zu %" PRIu32 " %" PRIu32 " %" PRIu32 " ", memory.width, memory.height, handed->layout,
           handed->rounds, handed->threshold);
    struct ask read = {ask->turn, memory.width, memory.height, handed->layout, handed->rounds, handed->threshold};
    prepare();
    print_answer(finish(&read));
}

int main(void)
{
    struct ask ask;
    while (scanf("%" SCNu32 "%zu%zu%" SCNu32 "%" SCNu32 "%" SCNu32, &ask.turn, &ask.width, &ask.height, &ask.layout,
                 &ask.rounds, &ask.threshold) == 6) {
        for (size_t k = 0; k < sizeof CALLS / sizeof CALLS[0]; k++) {
            prepare();
            print_answer(CALLS[k](&ask));
        }
        printf("%" PRIu32 " ", demosaic_tally_rounds(ask.threshold, DEMOSAIC_ACCEPTED, ask.rounds));
        print_fields(&ask);
        printf("\n");
    }
    return feof(stdin) && fflush(stdout) == 0 && !ferror(stdout) ? 0 : 1;
}
