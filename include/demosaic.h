#ifndef DEMOSAIC_H
#define DEMOSAIC_H

#include <stddef.h>
#include <stdint.h>

#ifdef __cplusplus
extern "C" {
#endif

/*
 * The burning-zone colour engine, for C from C99 on and C++ from C++11 on. Link target/staticlib/libdemosaic_c.a.
 *
 * Answers. A call that can refuse answers a number: 0 if it was accepted, else the number of the first question that
 * is answered no. A refused call leaves every buffer as it was, and every number behind a pointer too. What a call
 * hands back beside its number stands behind pointers, and is written only where the answer is 0.
 *
 * Numbers. Turn, layout, rounds and threshold have 32 bits in every call, in and out, so that no conversion hides a
 * value from its question: 320 rounds are refused, where a byte would have made them 64. Only from a type of 64 bits
 * would C still cut them.
 *
 * Buffers. Each is a pointer and how many numbers it has (never how many bytes, but for bytes). Mosaics, planes and
 * bands are width * height numbers, row by row. The work buffer, and the wide one of a two-level frame, may hold anything
 * before; after an accepted call the first 8 * width * height numbers of each hold 0 and the rest is untouched. A call
 * with a one-level frame neither asks for a wide work buffer nor touches it: NULL with length 0 will do.
 *
 * NULL. A buffer may be NULL where its length is 0. A pointer to a single number may never be NULL.
 *
 * What the caller has to keep besides, since no question can ask it:
 *   - each pointer is aligned for its type, and valid for its length or its one number;
 *   - what a call writes (buffers and numbers behind pointers that are not const) overlaps nothing else that the call
 *     is given, and nobody else reads or writes it meanwhile;
 *   - a call may need 160 KiB of stack, and the rounds or the finishing of a two-level frame 512 KiB;
 *   - for the spot, floats are rounded as C starts a program: to nearest, with subnormal numbers.
 * The calls keep nothing and share nothing: several threads may call at once, each with buffers of its own.
 */

/* 4 follows the customer's own versions one to three; the second is the last request of document 02 that is in it. */
#define DEMOSAIC_VERSION_MAJOR 4
#define DEMOSAIC_VERSION_MINOR 5

/*
 * ---- Questions
 *
 * Each call asks those about what it was given, in this order; its comment lists them. A call may be given any numbers
 * that its types hold: one out of range is refused by its question.
 */
enum demosaic_refusal {
    DEMOSAIC_ACCEPTED = 0,
    DEMOSAIC_REFUSED_TURN = 16,             /* the turn is 0 to 7? */
    DEMOSAIC_REFUSED_STORE_LENGTH = 11,     /* the store has 12 bytes or more? */
    DEMOSAIC_REFUSED_WIDTH = 1,             /* the width is 2 to 2,048? (1 to 2,048 in the filter bank) */
    DEMOSAIC_REFUSED_HEIGHT = 2,            /* the height is 2 to 2,048? (1 to 2,048 in the filter bank) */
    DEMOSAIC_REFUSED_LAYOUT = 3,            /* the layout is 0 to 7? */
    DEMOSAIC_REFUSED_ROUNDS = 4,            /* the rounds are at most 64? */
    DEMOSAIC_REFUSED_THRESHOLD = 5,         /* the threshold is at most 4,095? */
    DEMOSAIC_REFUSED_DISTANCE = 12,         /* the packet's distance back is 2 * width * height + 12? */
    DEMOSAIC_REFUSED_DISTANCE_OUTSIDE = 13, /* the distance back lies within the store? */
    DEMOSAIC_REFUSED_GIVEN_LENGTH = 6,      /* what is given has exactly width * height numbers? */
    DEMOSAIC_REFUSED_FILLED_LENGTH = 7,     /* what is filled (in the rounds, each plane) has exactly width * height? */
    DEMOSAIC_REFUSED_WINDOW = 19,           /* the spot's window lies wholly inside the frame? */
    DEMOSAIC_REFUSED_WORK_LENGTH = 8,       /* the work buffer has at least 8 * width * height numbers? */
    DEMOSAIC_REFUSED_WIDE_WORK_LENGTH = 18, /* the wide work buffer of a two-level frame likewise? */
    DEMOSAIC_REFUSED_SAMPLE = 9,            /* the samples of the mosaic, or of the packet, are at most 4,095 each? */
    DEMOSAIC_REFUSED_PLANE_SAMPLE = 10,     /* the samples of the planes that are given are at most 4,095 each? */
    DEMOSAIC_REFUSED_BANK_VALUE = 15,       /* the values are in the filter bank's range? */
    DEMOSAIC_REFUSED_PACKET_ROOM = 14,      /* the buffer is long enough for the packet? */
    DEMOSAIC_REFUSED_PROGRAM_INPUT = 17     /* the program alone: is its input short enough? No call asks this. */
};

/* What is wrong, in a few words, for people to read. */
static inline const char *demosaic_refusal_text(uint32_t number)
{
    switch (number) {
    case DEMOSAIC_ACCEPTED: return "accepted";
    case DEMOSAIC_REFUSED_TURN: return "turn out of range";
    case DEMOSAIC_REFUSED_STORE_LENGTH: return "store too short for a packet";
    case DEMOSAIC_REFUSED_WIDTH: return "width out of range";
    case DEMOSAIC_REFUSED_HEIGHT: return "height out of range";
    case DEMOSAIC_REFUSED_LAYOUT: return "layout out of range";
    case DEMOSAIC_REFUSED_ROUNDS: return "rounds out of range";
    case DEMOSAIC_REFUSED_THRESHOLD: return "threshold out of range";
    case DEMOSAIC_REFUSED_DISTANCE: return "distance back does not match width and height";
    case DEMOSAIC_REFUSED_DISTANCE_OUTSIDE: return "distance back reaches outside the store";
    case DEMOSAIC_REFUSED_GIVEN_LENGTH: return "a given buffer's length is not width * height";
    case DEMOSAIC_REFUSED_FILLED_LENGTH: return "a filled buffer's length is not width * height";
    case DEMOSAIC_REFUSED_WINDOW: return "window not wholly inside the frame";
    case DEMOSAIC_REFUSED_WORK_LENGTH: return "work buffer too short";
    case DEMOSAIC_REFUSED_WIDE_WORK_LENGTH: return "wide work buffer too short";
    case DEMOSAIC_REFUSED_SAMPLE: return "a sample out of range";
    case DEMOSAIC_REFUSED_PLANE_SAMPLE: return "a plane's sample out of range";
    case DEMOSAIC_REFUSED_BANK_VALUE: return "a value out of the filter bank's range";
    case DEMOSAIC_REFUSED_PACKET_ROOM: return "buffer too short for the packet";
    case DEMOSAIC_REFUSED_PROGRAM_INPUT: return "input too long for the program";
    default: return "no number of a refusal";
    }
}

/*
 * ---- Frames
 */

#define DEMOSAIC_MIN_SIDE 2 /* of width and height; 1 in the filter bank */
#define DEMOSAIC_MAX_SIDE 2048
#define DEMOSAIC_MAX_ROUNDS 64
#define DEMOSAIC_MAX_SAMPLE 4095 /* the threshold's largest too */

/*
 * A layout: the colours of rows 0 and 1 at columns 0 and 1, which repeat all over the mosaic. Blue has the other
 * parity than red in row and in column, all else is green. 4 more means the same colours, and rounds with two levels
 * of the filter bank, which settle in fewer rounds; estimates and green update are the same.
 */
enum demosaic_layout {
    DEMOSAIC_RGGB = 0, /* red on even rows and even columns */
    DEMOSAIC_GRBG = 1, /* red on even rows and odd columns */
    DEMOSAIC_GBRG = 2, /* red on odd rows and even columns */
    DEMOSAIC_BGGR = 3, /* red on odd rows and odd columns */
    DEMOSAIC_RGGB_TWO_LEVELS = 4,
    DEMOSAIC_GRBG_TWO_LEVELS = 5,
    DEMOSAIC_GBRG_TWO_LEVELS = 6,
    DEMOSAIC_BGGR_TWO_LEVELS = 7
};

/* How many bytes the packet of a frame has. */
#define DEMOSAIC_PACKET_BYTES(width, height) (2 * (size_t)(width) * (size_t)(height) + 12)

/*
 * How many numbers its work buffer has at least, and the wide one if the frame has two levels: 128 MiB and 256 MiB at
 * 2,048 by 2,048.
 */
#define DEMOSAIC_WORK_LEN(width, height) (8 * (size_t)(width) * (size_t)(height))
#define DEMOSAIC_WIDE_WORK_LEN(width, height) (8 * (size_t)(width) * (size_t)(height))

/*
 * ---- Packets
 *
 * A packet is 2 * width * height sample bytes, then a trailer of 12 bytes: width (2), height (2), layout (1),
 * rounds (1), threshold (2), distance back (4). Every number has its low byte first. The distance runs from the
 * packet's end to its first sample. A store's end is its packet's end; older bytes may precede the packet.
 */

/* A packet's refusal number, 0 for sound. Asks 11, 1, 2, 3, 4, 5, 12, 13, 9. */
uint32_t demosaic_packet_refusal(const uint8_t *store, size_t store_len);

/* What a packet says of its frame. Asks 11, 1, 2, 3, 4, 5, 12, 13, 9. */
uint32_t demosaic_packet_fields(const uint8_t *store, size_t store_len, size_t *width, size_t *height,
                                uint32_t *layout, uint32_t *rounds, uint32_t *threshold);

/*
 * Fills `samples` with a packet's samples: as many as the packet's width * height. Asks 11, 1, 2, 3, 4, 5, 12, 13,
 * 7, 9.
 */
uint32_t demosaic_packet_samples(const uint8_t *store, size_t store_len, uint16_t *samples, size_t samples_len);

/*
 * Writes a packet into the first bytes of `out`, and how many they are into `written`; the bytes after them stay. Asks
 * 1, 2, 3, 4, 5, 6, 9, 14.
 */
uint32_t demosaic_packet_write(size_t width, size_t height, uint32_t layout, uint32_t rounds, uint32_t threshold,
                               const uint16_t *samples, size_t samples_len, uint8_t *out, size_t out_len,
                               size_t *written);

/*
 * Whether the packet of store `a` repeats that of store `b`: `same` becomes 1 where width, height, layout (with it the
 * level), rounds, threshold and samples agree, else 0. Older bytes before either packet do not count. Asks 11, 1, 2, 3,
 * 4, 5, 12, 13, 9 of `a`, then of `b`. The two may be one store.
 */
uint32_t demosaic_packet_repeats(const uint8_t *a, size_t a_len, const uint8_t *b, size_t b_len, uint8_t *same);

/*
 * ---- Turns
 *
 * Turn t is 0 to 7. From 4 on, rows and columns are exchanged first; then t mod 4 mirrors: 0 none, 1 left-right,
 * 2 top-bottom, 3 both. A head that reads its chip out in mirrored order gives a turned frame; the turn that turns it
 * back is the turn itself, but for 5 and 6, which turn each other back. A turned frame is finished with its turned
 * width, height and layout.
 */

/*
 * Fills `out` with the turned samples, of a mosaic or of a plane, and hands back the turned width, height and layout;
 * the layout changes no sample. Asks 16, 1, 2, 3, 6, 7.
 */
uint32_t demosaic_turn(uint32_t turn, size_t width, size_t height, uint32_t layout, const uint16_t *samples,
                       size_t samples_len, uint16_t *out, size_t out_len, size_t *turned_width,
                       size_t *turned_height, uint32_t *turned_layout);

/* The turned width, height and layout alone, for whoever needs them before there are samples. Asks 16, 1, 2, 3. */
uint32_t demosaic_turned_shape(uint32_t turn, size_t width, size_t height, uint32_t layout, size_t *turned_width,
                               size_t *turned_height, uint32_t *turned_layout);

/* The one turn that does what `turn` and then `next` do. Asks 16 of both. */
uint32_t demosaic_then_another(uint32_t turn, uint32_t next, uint32_t *single);

/*
 * ---- Finishing
 */

/*
 * Finishes a frame into three planes, which may hold anything before. Asks 1, 2, 3, 4, 5, 6 (the mosaic), 7 (each
 * plane), 8, 18 (two levels), 9. A frame that was turned has the same answer, and each of its planes is the frame's
 * plane turned alike.
 */
uint32_t demosaic_finish(size_t width, size_t height, uint32_t layout, uint32_t rounds, uint32_t threshold,
                         const uint16_t *mosaic, size_t mosaic_len, uint16_t *red, size_t red_len,
                         uint16_t *green, size_t green_len, uint16_t *blue, size_t blue_len,
                         int32_t *work, size_t work_len, int64_t *wide_work, size_t wide_work_len);

/*
 * The tally: frames finished, frames refused, rounds run. The caller holds the three counts, at first 0, and takes the
 * next of each after every finishing call: an accepted frame (number 0) adds 1 to the first and its rounds to the
 * third, a refused one adds 1 to the second only. Each count stops at 4,294,967,295. `number` is what demosaic_finish
 * answered, `rounds` what it was given; nothing is asked of them. A frame that another call refused before is no part
 * of the tally.
 */
uint32_t demosaic_tally_finished(uint32_t before, uint32_t number);
uint32_t demosaic_tally_refused(uint32_t before, uint32_t number);
uint32_t demosaic_tally_rounds(uint32_t before, uint32_t number, uint32_t rounds);

/*
 * ---- The spot
 *
 * The bed, not the picture: the sums of red, green and blue over a window of a finished frame, smoothed from frame to
 * frame. A frame is lit when its blue sum is above 0. The first lit frame gives its sums; a later one gives, colour by
 * colour, old + (new - old) * 0.125, each operation rounded once. An unlit frame changes nothing that is kept. So where
 * every lit frame has the same sums, the spot is the same to the bit from the first of them on.
 *
 * The caller keeps four numbers between frames, at first all 0: the spot's red, green and blue, and `lit`, whether a lit
 * frame has come (0 means no, anything else yes).
 */

#define DEMOSAIC_SPOT_SIDE 32 /* of the window, in rows and in columns */

enum demosaic_reading {
    DEMOSAIC_STARTING = 0, /* no lit frame so far, this one included */
    DEMOSAIC_DARK = 1,     /* this frame is unlit, after a lit one; the old spot is kept */
    DEMOSAIC_STEADY = 2    /* this frame is lit; the spot is the smoothed one */
};

/*
 * Reads the spot of three planes, over the window whose first row and column are `row` and `column`. `reading` becomes
 * one of the three above, and `lit` 0 or 1. The three floats may be any, a NaN too; they are written only where the
 * frame is lit, and the first lit frame takes nothing from them. Samples may be any numbers of 16 bits, rows and columns
 * any numbers. Asks 1, 2, 6 (each plane), 19.
 */
uint32_t demosaic_spot(size_t width, size_t height, const uint16_t *red, size_t red_len, const uint16_t *green,
                       size_t green_len, const uint16_t *blue, size_t blue_len, size_t row, size_t column,
                       double *spot_red, double *spot_green, double *spot_blue, uint8_t *lit, uint8_t *reading);

/*
 * ---- The parts of finishing, one by one
 */

/* Fills red, green and blue with the first estimates; observed samples are kept. Asks 1, 2, 3, 6 (the mosaic), 7, 9. */
uint32_t demosaic_estimate(size_t width, size_t height, uint32_t layout, const uint16_t *mosaic, size_t mosaic_len,
                           uint16_t *red, size_t red_len, uint16_t *green, size_t green_len,
                           uint16_t *blue, size_t blue_len);

/*
 * Updates green, as estimated, in place: at the places of red and of blue; the others stay. Asks 1, 2, 3, 6 (the
 * mosaic and green), 8, 9, 10 (green).
 */
uint32_t demosaic_update(size_t width, size_t height, uint32_t layout, const uint16_t *mosaic, size_t mosaic_len,
                         uint16_t *green, size_t green_len, int32_t *work, size_t work_len);

/*
 * Runs the rounds on three planes: red and blue are rewritten in place, green stays. Each round splits a colour, holds
 * its details within 16 * threshold of green's, joins, brings back to -4,095..8,190, and then puts the observed samples
 * in; after the last round the planes are clipped to 0..4,095. With two levels band 1 is split again, with the taps two
 * places apart, its details are held within 256 * threshold of green's, and it is joined before the rest; only the whole
 * is brought back. With 0 rounds no plane changes. Asks 1, 2, 3, 4, 5, 6 (the mosaic), 7 (each plane), 8, 18 (two
 * levels), 9, 10 (each plane).
 */
uint32_t demosaic_rounds(size_t width, size_t height, uint32_t layout, uint32_t rounds, uint32_t threshold,
                         const uint16_t *mosaic, size_t mosaic_len, uint16_t *red, size_t red_len,
                         const uint16_t *green, size_t green_len, uint16_t *blue, size_t blue_len,
                         int32_t *work, size_t work_len, int64_t *wide_work, size_t wide_work_len);

/*
 * ---- The filter bank
 *
 * Width and height are from 1 on here. Joining what was split gives exactly 1,024 times the plane.
 */

/*
 * Splits a plane of values in -8,190..8,190 into four bands, 16 times the paper's: band 1 is low along rows and
 * columns, band 2 high along rows and low along columns, band 3 the reverse, band 4 high along both. Asks 1, 2, 6 (the
 * plane), 7 (each band), 15.
 */
uint32_t demosaic_split(size_t width, size_t height, const int32_t *plane, size_t plane_len,
                        int32_t *band1, size_t band1_len, int32_t *band2, size_t band2_len,
                        int32_t *band3, size_t band3_len, int32_t *band4, size_t band4_len);

/*
 * Joins four bands of values in -131,040..131,040 into sums, 1,024 times the paper's, within -75,479,040..75,479,040.
 * Asks 1, 2, 6 (each band), 7 (the sums), 15.
 */
uint32_t demosaic_join(size_t width, size_t height, const int32_t *band1, size_t band1_len,
                       const int32_t *band2, size_t band2_len, const int32_t *band3, size_t band3_len,
                       const int32_t *band4, size_t band4_len, int32_t *sums, size_t sums_len);

/*
 * A sum brought back: (sum + 512) divided by 1,024, the fraction dropped downward, then clipped to 0..4,095. It takes
 * every sum and refuses none.
 */
uint16_t demosaic_bring_back(int32_t sum);

#ifdef __cplusplus
}
#endif

#endif
