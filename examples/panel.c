/*
 * A panel's program: it reads packets, refuses damaged ones, skips repeats, turns a mirrored head's frames, finishes
 * them, with one level or two as each packet says, reads the bed's spot, and keeps the tally. It is C from C99 on, and
 * C++ too.
 *
 *     panel TURN FILE...
 *
 * Each FILE holds a packet, which older bytes may precede. TURN is how the head's frames have to be turned to stand
 * upright: 0 not at all, 1 for a head that reads its chip out from right to left, 2 from bottom to top, 3 both; 4 and
 * more exchange rows and columns first. A line is printed for each FILE, and at last the tally of the finishing calls
 * and how many frames were refused before one. The line of a finished frame ends with the bed: its spot, smoothed over
 * the frames so far, or why there is none.
 */

#include "demosaic.h"

#include <inttypes.h>
#include <stdio.h>
#include <stdlib.h>
#include <string.h>

struct store {
    uint8_t *bytes;
    size_t len;
};

struct frame {
    size_t width, height;
    uint32_t layout, rounds, threshold;
};

/* What a frame needs to be turned and finished. A frame with one level has no wide work. */
struct buffers {
    uint16_t *given, *mosaic, *red, *green, *blue;
    int32_t *work;
    int64_t *wide_work;
    size_t wide_work_len;
};

struct tally {
    uint32_t finished, refused, rounds;
};

/* What is kept of the bed from frame to frame. */
struct bed {
    double red, green, blue;
    uint8_t lit;
};

/* The turn of the head, the last store that was finished, the bed, the tally, and the refusals that are no part of it. */
struct panel {
    uint32_t turn;
    struct store last;
    struct bed bed;
    struct tally tally;
    size_t not_read, not_turned;
};

static int failed(const char *what, const char *why)
{
    fprintf(stderr, "panel: %s: %s\n", what, why);
    return 0;
}

/* Reads a file of any length. One byte more than is there shows that the end was met. */
static int load(const char *path, struct store *store)
{
    FILE *file = fopen(path, "rb");
    size_t room = 0;
    store->bytes = NULL;
    store->len = 0;
    if (file == NULL) {
        return failed(path, "cannot be opened");
    }
    while (store->len == room) {
        room = 2 * room + 65536;
        uint8_t *more = (uint8_t *)realloc(store->bytes, room); /* this cast, as those of malloc, is for C++ */
        if (more == NULL) {
            fclose(file);
            return failed(path, "no memory");
        }
        store->bytes = more;
        store->len += fread(more + store->len, 1, room - store->len, file);
    }
    int wrong = ferror(file);
    fclose(file);
    return wrong ? failed(path, "cannot be read") : 1;
}

static uint16_t *new_samples(size_t count)
{
    return (uint16_t *)malloc(count * sizeof(uint16_t));
}

/* Whether the packet asks for two levels of the filter bank. A turn keeps that. */
static int has_two_levels(const struct frame *frame)
{
    return frame->layout >= DEMOSAIC_RGGB_TWO_LEVELS;
}

static int allocate(struct buffers *b, const struct frame *frame)
{
    size_t count = frame->width * frame->height;
    b->given = new_samples(count);
    b->mosaic = new_samples(count);
    b->red = new_samples(count);
    b->green = new_samples(count);
    b->blue = new_samples(count);
    b->work = (int32_t *)malloc(DEMOSAIC_WORK_LEN(frame->width, frame->height) * sizeof(int32_t));
    b->wide_work = NULL;
    b->wide_work_len = 0;
    if (has_two_levels(frame)) {
        b->wide_work_len = DEMOSAIC_WIDE_WORK_LEN(frame->width, frame->height);
        b->wide_work = (int64_t *)malloc(b->wide_work_len * sizeof(int64_t));
    }
    return b->given != NULL && b->mosaic != NULL && b->red != NULL && b->green != NULL && b->blue != NULL &&
           b->work != NULL && (b->wide_work != NULL || b->wide_work_len == 0);
}

static void release(struct buffers *b)
{
    free(b->given);
    free(b->mosaic);
    free(b->red);
    free(b->green);
    free(b->blue);
    free(b->work);
    free(b->wide_work);
}

static uint32_t read_frame(const struct store *store, struct frame *frame)
{
    return demosaic_packet_fields(store->bytes, store->len, &frame->width, &frame->height, &frame->layout,
                                  &frame->rounds, &frame->threshold);
}

/* The frame's width, height and layout are turned along. Refused, they stay. */
static uint32_t turn_frame(uint32_t turn, struct frame *frame, struct buffers *b)
{
    size_t count = frame->width * frame->height;
    return demosaic_turn(turn, frame->width, frame->height, frame->layout, b->given, count, b->mosaic, count,
                         &frame->width, &frame->height, &frame->layout);
}

static uint32_t finish_frame(const struct frame *frame, struct buffers *b)
{
    size_t count = frame->width * frame->height;
    return demosaic_finish(frame->width, frame->height, frame->layout, frame->rounds, frame->threshold, b->mosaic,
                           count, b->red, count, b->green, count, b->blue, count, b->work,
                           DEMOSAIC_WORK_LEN(frame->width, frame->height), b->wide_work, b->wide_work_len);
}

/* After every finishing call, and after no other. */
static void count_finishing(struct tally *tally, uint32_t number, uint32_t rounds)
{
    tally->finished = demosaic_tally_finished(tally->finished, number);
    tally->refused = demosaic_tally_refused(tally->refused, number);
    tally->rounds = demosaic_tally_rounds(tally->rounds, number, rounds);
}

/* Reads, turns and finishes. The number is that of the first call that refuses, which is counted as what it is. */
static uint32_t make_planes(struct panel *panel, const struct store *store, struct frame *frame, struct buffers *b)
{
    size_t count = frame->width * frame->height;
    uint32_t number = demosaic_packet_samples(store->bytes, store->len, b->given, count);
    if (number != DEMOSAIC_ACCEPTED) {
        panel->not_read++;
        return number;
    }
    number = turn_frame(panel->turn, frame, b);
    if (number != DEMOSAIC_ACCEPTED) {
        panel->not_turned++;
        return number;
    }
    number = finish_frame(frame, b);
    count_finishing(&panel->tally, number, frame->rounds);
    return number;
}

static uint64_t mean(const uint16_t *plane, size_t count)
{
    uint64_t sum = 0;
    for (size_t k = 0; k < count; k++) {
        sum += plane[k];
    }
    return sum / count;
}

static void print_refusal(const char *path, uint32_t number)
{
    printf("%s: refused %" PRIu32 ", %s\n", path, number, demosaic_refusal_text(number));
}

/* What the panel compares; the bed follows on the same line. */
static void print_frame(const char *path, const struct frame *frame, const struct buffers *b)
{
    size_t count = frame->width * frame->height;
    printf("%s: %zu by %zu, red %" PRIu64 ", blue %" PRIu64 "; ", path, frame->width, frame->height,
           mean(b->red, count), mean(b->blue, count));
}

/* The window stands in the middle of the frame. A side that is shorter than it leaves no place, and 19 refuses that. */
static size_t window_place(size_t side)
{
    return side < DEMOSAIC_SPOT_SIDE ? 0 : (side - DEMOSAIC_SPOT_SIDE) / 2;
}

static uint32_t read_bed(struct bed *bed, const struct frame *frame, const struct buffers *b, uint8_t *reading)
{
    size_t count = frame->width * frame->height;
    return demosaic_spot(frame->width, frame->height, b->red, count, b->green, count, b->blue, count,
                         window_place(frame->height), window_place(frame->width), &bed->red, &bed->green, &bed->blue,
                         &bed->lit, reading);
}

static void print_bed(struct bed *bed, const struct frame *frame, const struct buffers *b)
{
    uint8_t reading = DEMOSAIC_STARTING;
    uint32_t number = read_bed(bed, frame, b, &reading);
    if (number != DEMOSAIC_ACCEPTED) {
        printf("bed refused %" PRIu32 ", %s\n", number, demosaic_refusal_text(number));
    } else if (reading == DEMOSAIC_STARTING) {
        printf("bed starting\n");
    } else if (reading == DEMOSAIC_DARK) {
        printf("bed dark\n");
    } else {
        printf("bed red %.3f, green %.3f, blue %.3f\n", bed->red, bed->green, bed->blue);
    }
}

/*
 * Whether the store's packet, which is sound, repeats the last one that was finished: all fields and all samples agree.
 * With another threshold, other rounds or another level, the same samples are no repeat, and are finished.
 */
static int is_repeat(const struct panel *panel, const struct store *store)
{
    uint8_t same = 0;
    if (panel->last.bytes == NULL) {
        return 0;
    }
    demosaic_packet_repeats(store->bytes, store->len, panel->last.bytes, panel->last.len, &same);
    return same == 1;
}

/* Keeps the store as the last one; the one before is the caller's to free. */
static void keep(struct panel *panel, struct store *store)
{
    struct store before = panel->last;
    panel->last = *store;
    *store = before;
}

/* Prints a line about the store. It is kept where its frame was finished. */
static int show_store(struct panel *panel, const char *path, struct store *store)
{
    struct frame frame;
    struct buffers b;
    uint32_t number = read_frame(store, &frame);
    if (number != DEMOSAIC_ACCEPTED) {
        panel->not_read++;
        print_refusal(path, number);
        return 1;
    }
    if (is_repeat(panel, store)) {
        printf("%s: repeats the one before\n", path);
        return 1;
    }
    if (!allocate(&b, &frame)) {
        release(&b);
        return failed(path, "no memory");
    }
    number = make_planes(panel, store, &frame, &b);
    if (number == DEMOSAIC_ACCEPTED) {
        print_frame(path, &frame, &b);
        print_bed(&panel->bed, &frame, &b);
        keep(panel, store);
    } else {
        print_refusal(path, number);
    }
    release(&b);
    return 1;
}

/* A turn as an argument: any number of 32 bits, since the engine itself refuses those above 7. */
static int read_turn(const char *text, uint32_t *turn)
{
    char *end = NULL;
    unsigned long long number = strtoull(text, &end, 10);
    if (strspn(text, "0123456789") != strlen(text) || end == text || number > UINT32_MAX) {
        return 0;
    }
    *turn = (uint32_t)number;
    return 1;
}

int main(int argc, char **argv)
{
    struct panel panel = {0, {NULL, 0}, {0, 0, 0, 0}, {0, 0, 0}, 0, 0};
    int right = 1;
    if (argc < 2 || !read_turn(argv[1], &panel.turn)) {
        fprintf(stderr, "usage: panel TURN FILE...\n");
        return 2;
    }
    for (int k = 2; k < argc && right; k++) {
        struct store store;
        right = load(argv[k], &store) && show_store(&panel, argv[k], &store);
        free(store.bytes);
    }
    free(panel.last.bytes);
    if (!right) {
        return 1;
    }
    printf("finished %" PRIu32 ", refused %" PRIu32 ", rounds %" PRIu32 "; not read %zu, not turned %zu\n",
           panel.tally.finished, panel.tally.refused, panel.tally.rounds, panel.not_read, panel.not_turned);
    return fflush(stdout) == 0 && !ferror(stdout) ? 0 : 1;
}
