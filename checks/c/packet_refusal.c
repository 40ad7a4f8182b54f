/*
 * Prints the refusal number of every store on standard input, a line each.
 *
 * A store comes as 8 bytes, its length with the low byte first, and that many bytes. Each is read into a
 * buffer of exactly its length. Bad input or a failed allocation ends the program with status 1.
 */

#include "demosaic.h"

#include <inttypes.h>
#include <stdio.h>
#include <stdlib.h>

static int failed(const char *what)
{
    fprintf(stderr, "packet_refusal: %s\n", what);
    return 1;
}

int main(void)
{
    for (;;) {
        uint8_t head[8];
        size_t got = fread(head, 1, sizeof head, stdin);
        if (got == 0 && feof(stdin)) {
            break;
        }
        if (got != sizeof head) {
            return failed("the input ends within a length");
        }

        uint64_t number = 0;
        for (size_t k = sizeof head; k > 0; k--) {
            number = 256 * number + head[k - 1];
        }
        size_t length = (size_t)number;
        uint8_t *store = length == number ? malloc(length > 0 ? length : 1) : NULL;
        if (store == NULL) {
            return failed("no memory for a store");
        }
        if (fread(store, 1, length, stdin) != length) {
            free(store);
            return failed("the input ends within a store");
        }

        uint32_t refusal = demosaic_packet_refusal(store, length);
        free(store);
        if (printf("%" PRIu32 "\n", refusal) < 0) {
            return failed("cannot write");
        }
    }
    if (fflush(stdout) != 0) {
        return failed("cannot write");
    }
    return 0;
}
