/*
 * Reads a packet from standard input and writes two pictures of its frame, binary PPM of 16 bits a sample, to the two
 * files that its arguments name: first each colour averaged from its own neighbours, then the finished frame.
 *
 * A refusal is printed with its number. It and everything else that goes wrong end the program with status 1.
 */

#include "demosaic.h"

#include <inttypes.h>
#include <stdio.h>
#include <stdlib.h>
#include <time.h>

/* The bytes of a store that were read so far, and how many fit. */
struct store {
    uint8_t *bytes;
    size_t length, room;
};

struct frame {
    size_t width, height, samples;
    uint32_t layout, rounds, threshold;
    uint16_t *mosaic, *red, *green, *blue;
    int32_t *work;
    int64_t *wide_work; /* of two levels alone */
    size_t wide_work_length;
};

static int failed(const char *what)
{
    fprintf(stderr, "picture: %s\n", what);
    return 1;
}

static int refused(const char *what, uint32_t number)
{
    fprintf(stderr, "picture: %s refused: %" PRIu32 ", %s\n", what, number, demosaic_refusal_text(number));
    return 1;
}

/* Doubles a store's room. What was read stays where this fails. */
static int grow(struct store *store)
{
    if (store->room > SIZE_MAX / 2) {
        return failed("the input is too long");
    }
    size_t room = store->room > 0 ? 2 * store->room : 65536;
    uint8_t *bytes = realloc(store->bytes, room);
    if (bytes == NULL) {
        return failed("no memory for the input");
    }
    store->bytes = bytes;
    store->room = room;
    return 0;
}

/* Reads standard input to its end. */
static int read_store(struct store *store)
{
    while (!feof(stdin)) {
        if (store->length == store->room && grow(store) != 0) {
            return 1;
        }
        store->length += fread(store->bytes + store->length, 1, store->room - store->length, stdin);
        if (ferror(stdin)) {
            return failed("cannot read the input");
        }
    }
    return 0;
}

/* Room for the planes and for the work. The frame is filled with zeros before. */
static int make_room(struct frame *frame)
{
    size_t n = frame->width * frame->height;
    frame->samples = n;
    frame->mosaic = calloc(n, sizeof *frame->mosaic);
    frame->red = calloc(n, sizeof *frame->red);
    frame->green = calloc(n, sizeof *frame->green);
    frame->blue = calloc(n, sizeof *frame->blue);
    frame->work = calloc(DEMOSAIC_WORK_LEN(frame->width, frame->height), sizeof *frame->work);
    if (frame->mosaic == NULL || frame->red == NULL || frame->green == NULL || frame->blue == NULL
        || frame->work == NULL) {
        return failed("no memory for the frame");
    }
    if (frame->layout < DEMOSAIC_RGGB_TWO_LEVELS) {
        return 0;
    }
    frame->wide_work_length = DEMOSAIC_WIDE_WORK_LEN(frame->width, frame->height);
    frame->wide_work = calloc(frame->wide_work_length, sizeof *frame->wide_work);
    return frame->wide_work == NULL ? failed("no memory for two levels") : 0;
}

/* Takes the frame out of its packet. */
static int open_frame(const struct store *store, struct frame *frame)
{
    uint32_t number = demosaic_packet_fields(store->bytes, store->length, &frame->width, &frame->height,
                                             &frame->layout, &frame->rounds, &frame->threshold);
    if (number != 0) {
        return refused("the packet is", number);
    }
    if (make_room(frame) != 0) {
        return 1;
    }
    number = demosaic_packet_samples(store->bytes, store->length, frame->mosaic, frame->samples);
    return number != 0 ? refused("the packet is", number) : 0;
}

static void close_frame(struct frame *frame)
{
    free(frame->mosaic);
    free(frame->red);
    free(frame->green);
    free(frame->blue);
    free(frame->work);
    free(frame->wide_work);
}

/* The mean of the four green neighbours of a place, rounded. The border is reflected, the edge not repeated. */
static uint16_t mean_green(const struct frame *frame, size_t row, size_t column)
{
    size_t above = row > 0 ? row - 1 : 1;
    size_t below = row + 1 < frame->height ? row + 1 : row - 1;
    size_t left = column > 0 ? column - 1 : 1;
    size_t right = column + 1 < frame->width ? column + 1 : column - 1;
    const uint16_t *line = frame->mosaic + row * frame->width;
    uint32_t sum = (uint32_t)line[left] + line[right] + frame->mosaic[above * frame->width + column]
                   + frame->mosaic[below * frame->width + column];
    return (uint16_t)((sum + 2) / 4);
}

/* Each colour by itself: red and blue are the first estimates, green is put in at the places of red and blue. */
static int average(struct frame *frame)
{
    size_t n = frame->samples;
    uint32_t number = demosaic_estimate(frame->width, frame->height, frame->layout, frame->mosaic, n, frame->red, n,
                                        frame->green, n, frame->blue, n);
    if (number != 0) {
        return refused("the estimate is", number);
    }

    /* Row and column add up to the same parity at every place of red and of blue, and to the other at green's; the 4 of
       a layout with two levels changes no place. */
    size_t parity = (frame->layout / 2 + frame->layout % 2) % 2;
    for (size_t k = 0; k < n; k++) {
        size_t row = k / frame->width, column = k % frame->width;
        if ((row + column) % 2 == parity) {
            frame->green[k] = mean_green(frame, row, column);
        }
    }
    return 0;
}

static int finish(struct frame *frame)
{
    size_t n = frame->samples;
    clock_t began = clock();
    uint32_t number = demosaic_finish(frame->width, frame->height, frame->layout, frame->rounds, frame->threshold,
                                      frame->mosaic, n, frame->red, n, frame->green, n, frame->blue, n, frame->work,
                                      DEMOSAIC_WORK_LEN(frame->width, frame->height), frame->wide_work,
                                      frame->wide_work_length);
    double seconds = (double)(clock() - began) / CLOCKS_PER_SEC;
    if (number != 0) {
        return refused("the frame is", number);
    }
    if (printf("%zu by %zu pixels, rounds %" PRIu32 ", threshold %" PRIu32 ": finished in %.1f ms\n", frame->width,
               frame->height, frame->rounds, frame->threshold, 1000 * seconds) < 0) {
        return failed("cannot write to standard output");
    }
    return 0;
}

/*
 * A sample of 12 bits as 16, high byte first: its own bits, then its highest four again. So 0 stays 0, 4,095 becomes
 * 65,535, and the sample is a sixteenth of the number, the fraction dropped. A PPM may also name 4,095 as its largest
 * sample, but a viewer that passes over that number would show it nearly black.
 */
static void put_sample(uint8_t *place, uint16_t sample)
{
    place[0] = (uint8_t)(sample >> 4);
    place[1] = (uint8_t)((sample << 4 | sample >> 8) & 255);
}

/* Answers 1 where it cannot write. */
static int write_pixels(FILE *file, const struct frame *frame)
{
    if (fprintf(file, "P6\n%zu %zu\n65535\n", frame->width, frame->height) < 0) {
        return 1;
    }
    for (size_t k = 0; k < frame->samples; k++) {
        uint8_t pixel[6];
        put_sample(pixel, frame->red[k]);
        put_sample(pixel + 2, frame->green[k]);
        put_sample(pixel + 4, frame->blue[k]);
        if (fwrite(pixel, 1, sizeof pixel, file) != sizeof pixel) {
            return 1;
        }
    }
    return 0;
}

static int write_picture(const char *name, const struct frame *frame)
{
    FILE *file = fopen(name, "wb");
    int status = file != NULL ? write_pixels(file, frame) : 1;
    if (file != NULL && fclose(file) != 0) {
        status = 1;
    }
    if (status != 0) {
        fprintf(stderr, "picture: cannot write %s\n", name);
    }
    return status;
}

/* The planes are filled twice, and written each time. */
static int make_pictures(struct frame *frame, const char *bilinear, const char *finished)
{
    if (average(frame) != 0 || write_picture(bilinear, frame) != 0) {
        return 1;
    }
    if (finish(frame) != 0 || write_picture(finished, frame) != 0) {
        return 1;
    }
    return fflush(stdout) != 0 ? failed("cannot write to standard output") : 0;
}

int main(int argc, char **argv)
{
    if (argc != 3) {
        return failed("usage: picture BILINEAR.ppm FINISHED.ppm < PACKET");
    }
    struct store store = {0};
    struct frame frame = {0};
    int status = read_store(&store);
    if (status == 0) {
        status = open_frame(&store, &frame);
    }
    if (status == 0) {
        status = make_pictures(&frame, argv[1], argv[2]);
    }
    close_frame(&frame);
    free(store.bytes);
    return status;
}
