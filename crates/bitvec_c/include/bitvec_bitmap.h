/* Bitmaps by the names of the Linux kernel, <linux/bitmap.h> and <linux/find.h>, over bitvec.h.
 *
 *   What is made      bitmap_zero, bitmap_fill, bitmap_set, bitmap_clear, bitmap_copy,
 *                     bitmap_complement, bitmap_write
 *   Two to a third    bitmap_and, bitmap_or, bitmap_xor, bitmap_andnot
 *   Moves             bitmap_shift_left, bitmap_shift_right
 *   Questions         test_bit, bitmap_read, bitmap_empty, bitmap_full, bitmap_equal,
 *                     bitmap_intersects, bitmap_subset, bitmap_weight, bitmap_weight_and,
 *                     bitmap_weight_andnot
 *   Searches          find_first_bit, find_first_zero_bit, find_last_bit, find_next_bit,
 *                     find_next_zero_bit, find_first_and_bit, find_first_andnot_bit,
 *                     find_next_and_bit, find_next_andnot_bit, bitmap_find_next_zero_area
 *   Macros            BITS_TO_LONGS, DECLARE_BITMAP, for_each_set_bit, for_each_clear_bit
 *
 * A bitmap of `nbits` bits is an array of BITS_TO_LONGS(nbits) words; bit n is the digit n % 64 of
 * the word n / 64. Where the kernel's calls take an `unsigned int`, these take an `unsigned long`.
 *
 * As there, a target may be one of the sources, or share no word with it, and no call is atomic.
 * Unlike there, no call reads or changes a bit past the last of its bitmap, also in its last word.
 *
 * What a bitmap has is at most BITVEC_MAX_BITS bits, and an `assert` says so; with NDEBUG a call of
 * more changes nothing. */
#ifndef BITVEC_BITMAP_H
#define BITVEC_BITMAP_H

#include "bitvec.h"

#include <assert.h>
#include <limits.h>

#if ULONG_MAX != UINT64_MAX
#error "the bitmaps are for machines whose unsigned long has 64 bits"
#endif

#ifndef BITS_TO_LONGS
#define BITS_TO_LONGS(nbits) (((nbits) + 63) / 64)
#endif

#ifndef DECLARE_BITMAP
#define DECLARE_BITMAP(name, nbits) unsigned long name[BITS_TO_LONGS(nbits)]
#endif

/* For each bit that is one, from the first on: `bit` is an unsigned long, and its number. */
#ifndef for_each_set_bit
#define for_each_set_bit(bit, map, size)                                                           \
    for ((bit) = find_first_bit((map), (size)); (bit) < (size);                                    \
         (bit) = find_next_bit((map), (size), (bit) + 1))
#endif

/* The same of the bits that are zero. */
#ifndef for_each_clear_bit
#define for_each_clear_bit(bit, map, size)                                                         \
    for ((bit) = find_first_zero_bit((map), (size)); (bit) < (size);                               \
         (bit) = find_next_zero_bit((map), (size), (bit) + 1))
#endif

/* The words of a bitmap, as bitvec.h takes them, and how many they are. */
static inline uint64_t *bitvec_bitmap_edit(unsigned long *map) { return (uint64_t *)(void *)map; }

static inline const uint64_t *bitvec_bitmap_words(const unsigned long *map) {
    return (const uint64_t *)(const void *)map;
}

static inline size_t bitvec_bitmap_count(unsigned long nbits) {
    return nbits / 64 + (nbits % 64 != 0);
}

/* What is done is what was asked. */
static inline void bitvec_bitmap_done(uint8_t status) {
    assert(status == BITVEC_OK);
    (void)status;
}

/* Makes `len` bits from `start` on one. */
static inline void bitmap_set(unsigned long *map, unsigned long start, unsigned long len) {
    bitvec_bitmap_done(bitvec_c_fill_u64(BITVEC_LSB0, bitvec_bitmap_edit(map),
                                         bitvec_bitmap_count(start + len), start, len, true));
}

/* Makes `len` bits from `start` on zero. */
static inline void bitmap_clear(unsigned long *map, unsigned long start, unsigned long len) {
    bitvec_bitmap_done(bitvec_c_fill_u64(BITVEC_LSB0, bitvec_bitmap_edit(map),
                                         bitvec_bitmap_count(start + len), start, len, false));
}

/* Makes all bits one. */
static inline void bitmap_fill(unsigned long *dst, unsigned long nbits) {
    bitmap_set(dst, 0, nbits);
}

/* Makes all bits zero. */
static inline void bitmap_zero(unsigned long *dst, unsigned long nbits) {
    bitmap_clear(dst, 0, nbits);
}

/* Copies all bits. */
static inline void bitmap_copy(unsigned long *dst, const unsigned long *src, unsigned long nbits) {
    size_t words = bitvec_bitmap_count(nbits);
    if (dst != src)
        bitvec_bitmap_done(bitvec_c_copy_u64(BITVEC_LSB0, bitvec_bitmap_edit(dst), words, 0,
                                             bitvec_bitmap_words(src), words, 0, nbits));
}

/* Makes each bit the opposite of the source's. */
static inline void bitmap_complement(unsigned long *dst, const unsigned long *src,
                                     unsigned long nbits) {
    bitmap_copy(dst, src, nbits);
    bitvec_bitmap_done(bitvec_c_invert_u64(BITVEC_LSB0, bitvec_bitmap_edit(dst),
                                           bitvec_bitmap_count(nbits), 0, nbits));
}

/* Makes `nbits` bits from `start` on the lowest digits of a number; `nbits` is at most 64. */
static inline void bitmap_write(unsigned long *map, unsigned long value, unsigned long start,
                                unsigned long nbits) {
    bitvec_bitmap_done(bitvec_c_store_u64(BITVEC_LSB0, false, bitvec_bitmap_edit(map),
                                          bitvec_bitmap_count(start + nbits), start, nbits,
                                          value));
}

/* Returns the number of `nbits` bits from `start` on; `nbits` is at most 64. */
static inline unsigned long bitmap_read(const unsigned long *map, unsigned long start,
                                        unsigned long nbits) {
    uint64_t value = 0;
    bitvec_bitmap_done(bitvec_c_load_u64(BITVEC_LSB0, false, bitvec_bitmap_words(map),
                                         bitvec_bitmap_count(start + nbits), start, nbits,
                                         &value));
    return (unsigned long)value;
}

/* Returns whether a bit is one. */
static inline bool test_bit(unsigned long nr, const unsigned long *map) {
    bool bit = false;
    bitvec_bitmap_done(
        bitvec_c_get_u64(BITVEC_LSB0, bitvec_bitmap_words(map), nr / 64 + 1, nr, &bit));
    return bit;
}

/* Returns the first bit that is one, or `size`. */
static inline unsigned long find_first_bit(const unsigned long *map, unsigned long size) {
    size_t index = size;
    bitvec_bitmap_done(bitvec_c_first_one_u64(BITVEC_LSB0, bitvec_bitmap_words(map),
                                              bitvec_bitmap_count(size), 0, size, &index));
    return index;
}

/* Returns the first bit that is zero, or `size`. */
static inline unsigned long find_first_zero_bit(const unsigned long *map, unsigned long size) {
    size_t index = size;
    bitvec_bitmap_done(bitvec_c_first_zero_u64(BITVEC_LSB0, bitvec_bitmap_words(map),
                                               bitvec_bitmap_count(size), 0, size, &index));
    return index;
}

/* Returns the last bit that is one, or `size`. */
static inline unsigned long find_last_bit(const unsigned long *map, unsigned long size) {
    size_t index = size;
    bitvec_bitmap_done(bitvec_c_last_one_u64(BITVEC_LSB0, bitvec_bitmap_words(map),
                                             bitvec_bitmap_count(size), 0, size, &index));
    return index;
}

/* Returns the first bit that is one, of those from `offset` on, or `size`. */
static inline unsigned long find_next_bit(const unsigned long *map, unsigned long size,
                                          unsigned long offset) {
    size_t index = size;
    bitvec_bitmap_done(bitvec_c_next_one_u64(BITVEC_LSB0, bitvec_bitmap_words(map),
                                             bitvec_bitmap_count(size), 0, size, offset, &index));
    return index;
}

/* Returns the first bit that is zero, of those from `offset` on, or `size`. */
static inline unsigned long find_next_zero_bit(const unsigned long *map, unsigned long size,
                                               unsigned long offset) {
    size_t index = size;
    bitvec_bitmap_done(bitvec_c_next_zero_u64(BITVEC_LSB0, bitvec_bitmap_words(map),
                                              bitvec_bitmap_count(size), 0, size, offset, &index));
    return index;
}

/* Returns the first bit that is one in both, of those from `offset` on, or `size`. */
static inline unsigned long find_next_and_bit(const unsigned long *map1, const unsigned long *map2,
                                              unsigned long size, unsigned long offset) {
    size_t index = 0, words = bitvec_bitmap_count(size);
    if (offset >= size)
        return size;
    bitvec_bitmap_done(bitvec_c_first_and_u64(BITVEC_LSB0, bitvec_bitmap_words(map1), words, offset,
                                              BITVEC_LSB0, bitvec_bitmap_words(map2), words, offset,
                                              size - offset, &index));
    return offset + index;
}

/* Returns the first bit that is one in the first, and zero in the second, of those from `offset`
 * on, or `size`. */
static inline unsigned long find_next_andnot_bit(const unsigned long *map1,
                                                 const unsigned long *map2, unsigned long size,
                                                 unsigned long offset) {
    size_t index = 0, words = bitvec_bitmap_count(size);
    if (offset >= size)
        return size;
    bitvec_bitmap_done(bitvec_c_first_and_not_u64(
        BITVEC_LSB0, bitvec_bitmap_words(map1), words, offset, BITVEC_LSB0,
        bitvec_bitmap_words(map2), words, offset, size - offset, &index));
    return offset + index;
}

/* The same from the first bit on. */
static inline unsigned long find_first_and_bit(const unsigned long *map1, const unsigned long *map2,
                                               unsigned long size) {
    return find_next_and_bit(map1, map2, size, 0);
}

static inline unsigned long find_first_andnot_bit(const unsigned long *map1,
                                                  const unsigned long *map2, unsigned long size) {
    return find_next_andnot_bit(map1, map2, size, 0);
}

/* Returns the first bit, of those from `start` on that are multiples of `align_mask` + 1, from
 * which on `nr` bits, at least one, are zero, or a number past `size`. */
static inline unsigned long bitmap_find_next_zero_area(const unsigned long *map, unsigned long size,
                                                       unsigned long start, unsigned long nr,
                                                       unsigned long align_mask) {
    size_t index = size;
    bitvec_bitmap_done(bitvec_c_find_zeros_from_u64(BITVEC_LSB0, bitvec_bitmap_words(map),
                                                    bitvec_bitmap_count(size), 0, size, start, nr,
                                                    align_mask + 1, &index));
    return index == size ? size + 1 : index;
}

/* Returns whether no bit is one. */
static inline bool bitmap_empty(const unsigned long *map, unsigned long nbits) {
    return find_first_bit(map, nbits) == nbits;
}

/* Returns whether each bit is one. */
static inline bool bitmap_full(const unsigned long *map, unsigned long nbits) {
    return find_first_zero_bit(map, nbits) == nbits;
}

/* Returns whether two bitmaps are the same. */
static inline bool bitmap_equal(const unsigned long *map1, const unsigned long *map2,
                                unsigned long nbits) {
    bool same = false;
    size_t words = bitvec_bitmap_count(nbits);
    bitvec_bitmap_done(bitvec_c_equal_u64(BITVEC_LSB0, bitvec_bitmap_words(map1), words, 0,
                                          bitvec_bitmap_words(map2), words, 0, nbits, &same));
    return same;
}

/* Returns whether a bit is one in both. */
static inline bool bitmap_intersects(const unsigned long *map1, const unsigned long *map2,
                                     unsigned long nbits) {
    return find_first_and_bit(map1, map2, nbits) != nbits;
}

/* Returns whether each bit that is one in the first is one in the second. */
static inline bool bitmap_subset(const unsigned long *map1, const unsigned long *map2,
                                 unsigned long nbits) {
    return find_first_andnot_bit(map1, map2, nbits) == nbits;
}

/* Returns how many bits are one. */
static inline unsigned long bitmap_weight(const unsigned long *map, unsigned long nbits) {
    size_t ones = 0;
    bitvec_bitmap_done(bitvec_c_count_ones_u64(BITVEC_LSB0, bitvec_bitmap_words(map),
                                               bitvec_bitmap_count(nbits), 0, nbits, &ones));
    return ones;
}

/* Returns how many bits are one in both. */
static inline unsigned long bitmap_weight_and(const unsigned long *map1, const unsigned long *map2,
                                              unsigned long nbits) {
    size_t ones = 0, words = bitvec_bitmap_count(nbits);
    bitvec_bitmap_done(bitvec_c_count_and_u64(BITVEC_LSB0, bitvec_bitmap_words(map1), words, 0,
                                              BITVEC_LSB0, bitvec_bitmap_words(map2), words, 0,
                                              nbits, &ones));
    return ones;
}

/* Returns how many bits are one in the first, and zero in the second. */
static inline unsigned long bitmap_weight_andnot(const unsigned long *map1,
                                                 const unsigned long *map2, unsigned long nbits) {
    return bitmap_weight(map1, nbits) - bitmap_weight_and(map1, map2, nbits);
}

/* Makes each bit what an operator, a call of bitvec.h, makes of those of two bitmaps, of which
 * neither is the other: the target is none of them, or the first, or the second where the operator
 * does not ask which is which. */
#define BITVEC_BITMAP_COMBINED(call)                                                               \
    size_t words = bitvec_bitmap_count(nbits);                                                     \
    const unsigned long *other = dst == src2 ? src1 : src2;                                        \
    bitmap_copy(dst, dst == src2 ? src2 : src1, nbits);                                            \
    bitvec_bitmap_done(call(BITVEC_LSB0, bitvec_bitmap_edit(dst), words, 0, BITVEC_LSB0,           \
                            bitvec_bitmap_words(other), words, 0, nbits))

/* Makes one the bits that are one in both, and returns whether there is any. */
static inline bool bitmap_and(unsigned long *dst, const unsigned long *src1,
                              const unsigned long *src2, unsigned long nbits) {
    if (src1 == src2) {
        bitmap_copy(dst, src1, nbits);
    } else {
        BITVEC_BITMAP_COMBINED(bitvec_c_and_u64);
    }
    return !bitmap_empty(dst, nbits);
}

/* Makes one the bits that are one in at least one. */
static inline void bitmap_or(unsigned long *dst, const unsigned long *src1,
                             const unsigned long *src2, unsigned long nbits) {
    if (src1 == src2) {
        bitmap_copy(dst, src1, nbits);
    } else {
        BITVEC_BITMAP_COMBINED(bitvec_c_or_u64);
    }
}

/* Makes one the bits that are one in just one. */
static inline void bitmap_xor(unsigned long *dst, const unsigned long *src1,
                              const unsigned long *src2, unsigned long nbits) {
    if (src1 == src2) {
        bitmap_zero(dst, nbits);
    } else {
        BITVEC_BITMAP_COMBINED(bitvec_c_xor_u64);
    }
}

/* Makes one the bits that are one in the first, and zero in the second, and returns whether there
 * is any. */
static inline bool bitmap_andnot(unsigned long *dst, const unsigned long *src1,
                                 const unsigned long *src2, unsigned long nbits) {
    if (src1 == src2) {
        bitmap_zero(dst, nbits);
    } else if (dst == src2) {
        bitmap_complement(dst, dst, nbits);
        return bitmap_and(dst, src1, dst, nbits);
    } else {
        BITVEC_BITMAP_COMBINED(bitvec_c_and_not_u64);
    }
    return !bitmap_empty(dst, nbits);
}

#undef BITVEC_BITMAP_COMBINED

/* Moves each bit `shift` places up, to a greater number, and makes the first `shift` zero. */
static inline void bitmap_shift_left(unsigned long *dst, const unsigned long *src,
                                     unsigned long shift, unsigned long nbits) {
    bitmap_copy(dst, src, nbits);
    bitvec_bitmap_done(bitvec_c_shift_right_u64(BITVEC_LSB0, bitvec_bitmap_edit(dst),
                                                bitvec_bitmap_count(nbits), 0, nbits,
                                                shift < nbits ? shift : nbits));
}

/* Moves each bit `shift` places down, to a less number, and makes the last `shift` zero. */
static inline void bitmap_shift_right(unsigned long *dst, const unsigned long *src,
                                      unsigned long shift, unsigned long nbits) {
    bitmap_copy(dst, src, nbits);
    bitvec_bitmap_done(bitvec_c_shift_left_u64(BITVEC_LSB0, bitvec_bitmap_edit(dst),
                                               bitvec_bitmap_count(nbits), 0, nbits,
                                               shift < nbits ? shift : nbits));
}

#endif
