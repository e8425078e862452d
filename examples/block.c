/* A cell of kind Hornuss with 4 at (0, 0) and 16 at (2, 0): its samples, row by row.
 *
 *   tools/staticlib
 *   cc -O2 -Iinclude examples/block.c target/staticlib/libtablet.a -o block && ./block
 */
#include <stdio.h>
#include <string.h>

#include "vardct.h"

int main(void)
{
    float samples[64] = {0};
    uint8_t bytes[256];
    samples[0] = 4.0f;
    samples[2] = 16.0f;
    memcpy(bytes, samples, sizeof bytes); /* on a machine that stores the lowest byte first */
    uint32_t answer = vardct_inverse(1, bytes, vardct_block_bytes(1));
    if (answer != VARDCT_DONE) {
        printf("refused %u\n", (unsigned)answer);
        return 1;
    }
    memcpy(samples, bytes, sizeof bytes);
    for (int y = 0; y < 8; y++)
        for (int x = 0; x < 8; x++)
            printf("%g%c", samples[8 * y + x], x < 7 ? ' ' : '\n');
    return 0;
}
