/* The Linux kernel's bitmap_set, of <linux/bitmap.h>: an array of words of 64 bits, bit n at the digit n % 64 of word
 * n / 64. */
#include "bitvec.h"

/*@ logic integer words_of(integer bits) = (bits + 63) / 64;
  @ predicate is_set{L}(unsigned long *map, integer n) = bit_u64{L}(BITVEC_LSB0, (uint64_t *)map, n);
  @*/

/*@ requires start + len <= BITVEC_MAX_BITS;
  @ requires \valid(map + (0 .. words_of(start + len) - 1));
  @ assigns map[0 .. words_of(start + len) - 1];
  @ ensures ones: \forall integer n; start <= n < start + len ==> is_set{Post}(map, n);
  @ ensures others: \forall integer n; 0 <= n < words_of(start + len) * 64 ==> (n < start || start + len <= n) ==>
  @   (is_set{Post}(map, n) <==> is_set{Pre}(map, n));
  @*/
void bitmap_set(unsigned long *map, unsigned long start, unsigned long len) {
#ifdef WRONG_1 /* the words are rounded down: bitmap_set_assert_done */
    size_t words = (start + len) / 64;
#else
    size_t words = (start + len) / 64 + ((start + len) % 64 != 0);
#endif
#ifdef WRONG_2 /* the kernel's order of a big-endian word: bitmap_set_ensures_ones */
    uint8_t status = bitvec_c_fill_u64(BITVEC_MSB0, map, words, start, len, true);
#else
    uint8_t status = bitvec_c_fill_u64(BITVEC_LSB0, map, words, start, len, true);
#endif
    //@ assert done: status == BITVEC_OK;
}
