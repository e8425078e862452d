/* The inverse transforms of VarDCT blocks, one block at a time.
 *
 * A block is 8 bw x 8 bh samples in row order, four bytes to a sample, lowest first (the f32 of IEEE 754).
 * The functions keep no state, allocate nothing and do no input or output; the stack that they take is below 88 KiB
 * (83.1 KiB were measured, for blocks of 16,384 samples).
 */
#ifndef VARDCT_H
#define VARDCT_H

#include <stddef.h>
#include <stdint.h>

#ifdef __cplusplus
extern "C" {
#endif

/* What vardct_inverse answers. */
enum {
    VARDCT_DONE = 0,  /* the block was transformed */
    VARDCT_SHAPE = 2, /* the list has another length than a block of this kind */
    VARDCT_KIND = 5   /* the kind is not carried, or its blocks have more than 16,384 samples */
};

/* How many bytes a block of this kind has, 256 bw bh; 0 for a kind that vardct_inverse answers with VARDCT_KIND.
 *
 *   kind  name       samples (width x height)    kind  name       samples
 *   0     Dct8       8 x 8                       10    Dct32x16   16 x 32
 *   1     Hornuss    8 x 8                       11    Dct16x32   32 x 16
 *   2     Dct2       8 x 8                       12    Dct4x8     8 x 8
 *   3     Dct4       8 x 8                       13    Dct8x4     8 x 8
 *   4     Dct16      16 x 16                     18    Dct64      64 x 64
 *   5     Dct32      32 x 32                     19    Dct64x32   32 x 64
 *   6     Dct16x8    8 x 16                      20    Dct32x64   64 x 32
 *   7     Dct8x16    16 x 8                      21    Dct128     128 x 128
 *   8     Dct32x8    8 x 32                      22    Dct128x64  64 x 128
 *   9     Dct8x32    32 x 8                      23    Dct64x128  128 x 64
 */
size_t vardct_block_bytes(uint32_t kind);

/* Replaces a block of coefficients by its samples, over the same bytes. VARDCT_KIND comes before VARDCT_SHAPE, and where the
 * answer is not VARDCT_DONE no byte has changed. A NaN is read from any of its patterns and written as 7FC00000 hexadecimal.
 * `bytes` may be null if `length` is 0. */
uint32_t vardct_inverse(uint32_t kind, uint8_t *bytes, size_t length);

#ifdef __cplusplus
}
#endif

#endif
