/* The C functions at their edges: every kind number from 0 to 255 and some larger, and of each kind the lengths 0, 1, one byte and
 * one number short and long, and the right one. The list lies in memory of exactly its size, so that a tool sees every byte
 * that is read or written past it.
 *
 *   cc -g -Iinclude examples/edge.c target/staticlib/libtablet.a -o edge && valgrind -q --error-exitcode=9 ./edge
 *   cc -g -fsanitize=address,undefined -Iinclude examples/edge.c target/staticlib/libtablet.a -o edge && ./edge
 */
#include <stdio.h>
#include <stdlib.h>
#include <string.h>

#include "vardct.h"

static int failures;
static int calls;

static size_t expected_bytes(uint32_t kind)
{
    /* width, height in cells of the kinds 0 to 23; 0 where there is none */
    static const uint8_t cells[24][2] = {
        {1, 1}, {1, 1}, {1, 1}, {1, 1}, {2, 2}, {4, 4}, {1, 2}, {2, 1}, {1, 4}, {4, 1}, {2, 4}, {4, 2},
        {1, 1}, {1, 1}, {0, 0}, {0, 0}, {0, 0}, {0, 0}, {8, 8}, {4, 8}, {8, 4}, {16, 16}, {8, 16}, {16, 8},
    };
    return kind < 24 ? 256u * cells[kind][0] * cells[kind][1] : 0;
}

static void call(uint32_t kind, size_t length)
{
    size_t size = expected_bytes(kind);
    uint32_t expected = size == 0 ? VARDCT_KIND : length != size ? VARDCT_SHAPE : VARDCT_DONE;
    uint8_t *bytes = malloc(length ? length : 1);
    uint8_t *old = malloc(length ? length : 1);
    if (!bytes || !old)
        exit(3);
    for (size_t i = 0; i < length; i++)
        old[i] = bytes[i] = (uint8_t)(i * 37 + kind * 11 + 5);
    uint32_t answer = vardct_inverse(kind, length ? bytes : NULL, length);
    calls++;
    if (answer != expected || (answer != VARDCT_DONE && memcmp(old, bytes, length) != 0)) {
        printf("kind %u length %zu: answer %u, expected %u\n", (unsigned)kind, length, (unsigned)answer, (unsigned)expected);
        failures++;
    }
    free(bytes);
    free(old);
}

int main(void)
{
    static const uint32_t large[] = {256, 65536, 0x7fffffff, 0x80000000, 0xffffffff};
    for (uint32_t k = 0; k < 256 + sizeof large / sizeof *large; k++) {
        uint32_t kind = k < 256 ? k : large[k - 256];
        size_t size = expected_bytes(kind);
        if (vardct_block_bytes(kind) != size) {
            printf("kind %u: %zu bytes, expected %zu\n", (unsigned)kind, vardct_block_bytes(kind), size);
            failures++;
        }
        size_t right = size ? size : 256;
        size_t lengths[] = {0, 1, right - 4, right - 1, right, right + 1, right + 4, 2 * right};
        for (size_t i = 0; i < sizeof lengths / sizeof *lengths; i++)
            call(kind, lengths[i]);
    }
    /* every pattern of NaN comes out as 7FC00000: a cell of kind 2 that is all NaN */
    static const uint32_t nans[] = {0x7fc00000, 0xffc00000, 0x7f800001, 0xffffffff, 0x7fffffff, 0xff800001};
    for (size_t i = 0; i < sizeof nans / sizeof *nans; i++) {
        uint8_t bytes[256];
        for (int j = 0; j < 256; j++)
            bytes[j] = (uint8_t)(nans[i] >> (8 * (j % 4)));
        uint32_t answer = vardct_inverse(2, bytes, 256);
        calls++;
        for (int j = 0; j < 256; j++)
            if (answer != 0 || bytes[j] != (uint8_t)(0x7fc00000u >> (8 * (j % 4)))) {
                printf("NaN %08x: byte %d is %02x\n", (unsigned)nans[i], j, bytes[j]);
                failures++;
                break;
            }
    }
    printf("%d calls, %d failures\n", calls, failures);
    return failures != 0;
}
