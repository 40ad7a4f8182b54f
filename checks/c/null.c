/*
 * Makes every call that has buffers with empty ones: for a frame of 2 by 2 and for one of 0 by 0, with one level and with
 * two, each set of the call's buffers has length 0, once as NULL and once with a pointer to numbers. All else is sound,
 * but that the spot's window has no room in such a frame.
 *
 * A line is printed each time: the call, the frame's side and layout, the set as a number with a bit for each buffer, and
 * the two answers. Behind the answer of a call that was refused and wrote something all the same, or that wrote into the
 * wide work buffer of a frame with one level, stands "touched".
 */

#include "demosaic.h"

#include <inttypes.h>
#include <stdio.h>
#include <string.h>

/* How many buffers a call has at most, the number of the wide one, and how many numbers there are for each. */
enum { MOST = 6, WIDE = 5, NUMBERS = DEMOSAIC_WIDE_WORK_LEN(2, 2) };

/* What a call is told of its frame, which is square. */
struct shape {
    size_t side;
    uint32_t layout;
};

/* A packet of 2 by 2, and where its layout stands. */
static const uint8_t PACKET[] = {100, 0, 50, 0, 50, 0, 20, 0, 2, 0, 2, 0, 0, 8, 0, 0, 20, 0, 0, 0};
enum { PACKET_LAYOUT = 12 };

struct buffer {
    void *start;
    size_t len;
};

/* All that a call may write. */
static struct {
    int64_t buffers[MOST][NUMBERS];
    size_t width, height, written;
    uint32_t layout, rounds, threshold;
    double red, green, blue;
    uint8_t same, lit, reading;
} memory, before;

struct call {
    const char *name;
    uint32_t (*make)(struct shape f, const struct buffer *b);
    size_t packets; /* how many buffers hold a packet, from the first on */
    size_t buffers;
    size_t lengths[MOST];
};

static uint32_t packet_refusal(struct shape f, const struct buffer *b)
{
    (void)f;
    return demosaic_packet_refusal(b[0].start, b[0].len);
}

static uint32_t packet_fields(struct shape f, const struct buffer *b)
{
    (void)f;
    return demosaic_packet_fields(b[0].start, b[0].len, &memory.width, &memory.height, &memory.layout, &memory.rounds,
                                  &memory.threshold);
}

static uint32_t packet_samples(struct shape f, const struct buffer *b)
{
    (void)f;
    return demosaic_packet_samples(b[0].start, b[0].len, b[1].start, b[1].len);
}

static uint32_t packet_write(struct shape f, const struct buffer *b)
{
    return demosaic_packet_write(f.side, f.side, f.layout, 1, 20, b[0].start, b[0].len, b[1].start, b[1].len,
                                 &memory.written);
}

static uint32_t packet_repeats(struct shape f, const struct buffer *b)
{
    (void)f;
    return demosaic_packet_repeats(b[0].start, b[0].len, b[1].start, b[1].len, &memory.same);
}

static uint32_t turn(struct shape f, const struct buffer *b)
{
    return demosaic_turn(5, f.side, f.side, f.layout, b[0].start, b[0].len, b[1].start, b[1].len, &memory.width,
                         &memory.height, &memory.layout);
}

static uint32_t finish(struct shape f, const struct buffer *b)
{
    return demosaic_finish(f.side, f.side, f.layout, 1, 20, b[0].start, b[0].len, b[1].start, b[1].len, b[2].start,
                           b[2].len, b[3].start, b[3].len, b[4].start, b[4].len, b[5].start, b[5].len);
}

static uint32_t spot(struct shape f, const struct buffer *b)
{
    return demosaic_spot(f.side, f.side, b[0].start, b[0].len, b[1].start, b[1].len, b[2].start, b[2].len, 0, 0,
                         &memory.red, &memory.green, &memory.blue, &memory.lit, &memory.reading);
}

static uint32_t estimate(struct shape f, const struct buffer *b)
{
    return demosaic_estimate(f.side, f.side, f.layout, b[0].start, b[0].len, b[1].start, b[1].len, b[2].start,
                             b[2].len, b[3].start, b[3].len);
}

static uint32_t update(struct shape f, const struct buffer *b)
{
    return demosaic_update(f.side, f.side, f.layout, b[0].start, b[0].len, b[1].start, b[1].len, b[2].start,
                           b[2].len);
}

static uint32_t rounds(struct shape f, const struct buffer *b)
{
    return demosaic_rounds(f.side, f.side, f.layout, 1, 20, b[0].start, b[0].len, b[1].start, b[1].len, b[2].start,
                           b[2].len, b[3].start, b[3].len, b[4].start, b[4].len, b[5].start, b[5].len);
}

static uint32_t split(struct shape f, const struct buffer *b)
{
    return demosaic_split(f.side, f.side, b[0].start, b[0].len, b[1].start, b[1].len, b[2].start, b[2].len, b[3].start,
                          b[3].len, b[4].start, b[4].len);
}

static uint32_t join(struct shape f, const struct buffer *b)
{
    return demosaic_join(f.side, f.side, b[0].start, b[0].len, b[1].start, b[1].len, b[2].start, b[2].len, b[3].start,
                         b[3].len, b[4].start, b[4].len);
}

static const struct call CALLS[] = {
    {"demosaic_packet_refusal", packet_refusal, 1, 1, {sizeof PACKET}},
    {"demosaic_packet_fields", packet_fields, 1, 1, {sizeof PACKET}},
    {"demosaic_packet_samples", packet_samples, 1, 2, {sizeof PACKET, 4}},
    {"demosaic_packet_write", packet_write, 0, 2, {4, DEMOSAIC_PACKET_BYTES(2, 2)}},
    {"demosaic_packet_repeats", packet_repeats, 2, 2, {sizeof PACKET, sizeof PACKET}},
    {"demosaic_turn", turn, 0, 2, {4, 4}},
    {"demosaic_finish", finish, 0, 6, {4, 4, 4, 4, DEMOSAIC_WORK_LEN(2, 2), NUMBERS}},
    {"demosaic_spot", spot, 0, 3, {4, 4, 4}},
    {"demosaic_estimate", estimate, 0, 4, {4, 4, 4, 4}},
    {"demosaic_update", update, 0, 3, {4, 4, DEMOSAIC_WORK_LEN(2, 2)}},
    {"demosaic_rounds", rounds, 0, 6, {4, 4, 4, 4, DEMOSAIC_WORK_LEN(2, 2), NUMBERS}},
    {"demosaic_split", split, 0, 5, {4, 4, 4, 4, 4}},
    {"demosaic_join", join, 0, 5, {4, 4, 4, 4, 4}},
};

/* The numbers are in range, as samples and as values of the bank, and not all 0, so that zeroing them shows. */
static void prepare(const struct call *call, uint32_t layout)
{
    memset(&memory, 5, sizeof memory);
    for (size_t k = 0; k < MOST; k++) {
        for (size_t place = 0; place < NUMBERS; place++) {
            memory.buffers[k][place] = 7;
        }
        if (k < call->packets) {
            memcpy(memory.buffers[k], PACKET, sizeof PACKET);
            ((uint8_t *)memory.buffers[k])[PACKET_LAYOUT] = (uint8_t)layout;
        }
    }
    memcpy(&before, &memory, sizeof memory);
}

/* Whether a call wrote what one that answers so may not. */
static int touched(uint32_t layout, uint32_t number)
{
    if (number != DEMOSAIC_ACCEPTED) {
        return memcmp(&memory, &before, sizeof memory) != 0;
    }
    return layout < DEMOSAIC_RGGB_TWO_LEVELS &&
           memcmp(memory.buffers[WIDE], before.buffers[WIDE], sizeof memory.buffers[WIDE]) != 0;
}

static void print_answer(const struct call *call, struct shape shape, unsigned set, int null)
{
    struct buffer b[MOST];
    prepare(call, shape.layout);
    for (size_t k = 0; k < call->buffers; k++) {
        int empty = (set >> k & 1) != 0;
        b[k].start = empty && null ? NULL : memory.buffers[k];
        b[k].len = empty ? 0 : call->lengths[k];
    }
    uint32_t number = call->make(shape, b);
    printf(" %" PRIu32 "%s", number, touched(shape.layout, number) ? " touched" : "");
}

static void print_line(const struct call *call, struct shape shape, unsigned set)
{
    printf("%s, side %zu, layout %" PRIu32 ", set %u:", call->name, shape.side, shape.layout, set);
    print_answer(call, shape, set, 1);
    print_answer(call, shape, set, 0);
    printf("\n");
}

int main(void)
{
    static const struct shape SHAPES[] = {
        {0, DEMOSAIC_GRBG}, {0, DEMOSAIC_GRBG_TWO_LEVELS}, {2, DEMOSAIC_GRBG}, {2, DEMOSAIC_GRBG_TWO_LEVELS}};
    for (size_t k = 0; k < sizeof CALLS / sizeof CALLS[0]; k++) {
        for (unsigned set = 0; set < 1u << CALLS[k].buffers; set++) {
            for (size_t shape = 0; shape < sizeof SHAPES / sizeof SHAPES[0]; shape++) {
                print_line(&CALLS[k], SHAPES[shape], set);
            }
        }
    }
    return fflush(stdout) == 0 && !ferror(stdout) ? 0 : 1;
}
