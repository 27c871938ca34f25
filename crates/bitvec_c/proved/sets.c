/* Sets of numbers below a bound, a bit for each. */
#include "bitvec.h"

#define MOST 128
#define WORDS 2 /* of 64 bits */

/*@ predicate has{L}(uint64_t *members, integer n) = bit_u64{L}(BITVEC_LSB0, members, n); */

/*@ requires \valid(target + (0 .. WORDS - 1)) && \valid_read(a + (0 .. WORDS - 1)) && \valid_read(b + (0 .. WORDS - 1));
  @ requires \separated(target + (0 .. WORDS - 1), a + (0 .. WORDS - 1));
  @ requires \separated(target + (0 .. WORDS - 1), b + (0 .. WORDS - 1));
  @ assigns target[0 .. WORDS - 1];
  @ ensures in_one: \forall integer n; 0 <= n < MOST ==> (has{Post}(target, n) <==> (has{Pre}(a, n) ^^ has{Pre}(b, n)));
  @*/
void symmetric_difference(uint64_t *target, const uint64_t *a, const uint64_t *b) {
    uint64_t other[WORDS] = {0, 0};
    uint8_t status = bitvec_c_copy_u64(BITVEC_LSB0, target, WORDS, 0, a, WORDS, 0, MOST);
    //@ assert copied: status == BITVEC_OK;
    //@ assert b_stays: \forall integer n; 0 <= n < MOST ==> (has{Here}(b, n) <==> has{Pre}(b, n));
    status = bitvec_c_and_not_u64(BITVEC_LSB0, target, WORDS, 0, BITVEC_LSB0, b, WORDS, 0, MOST);
    //@ assert left: status == BITVEC_OK;
    //@ assert a_stays: \forall integer n; 0 <= n < MOST ==> (has{Here}(a, n) <==> has{Pre}(a, n));
    //@ assert b_still: \forall integer n; 0 <= n < MOST ==> (has{Here}(b, n) <==> has{Pre}(b, n));
    //@ assert in_a: \forall integer n; 0 <= n < MOST ==> (has{Here}(target, n) <==> has{Pre}(a, n) && !has{Pre}(b, n));
    status = bitvec_c_copy_u64(BITVEC_LSB0, other, WORDS, 0, b, WORDS, 0, MOST);
    //@ assert other_copied: status == BITVEC_OK;
    //@ assert a_still: \forall integer n; 0 <= n < MOST ==> (has{Here}(a, n) <==> has{Pre}(a, n));
    //@ assert in_other: \forall integer n; 0 <= n < MOST ==> (has{Here}((uint64_t *)other, n) <==> has{Pre}(b, n));
#ifdef WRONG_1 /* the same operand twice: symmetric_difference_assert_in_b */
    status = bitvec_c_and_not_u64(BITVEC_LSB0, other, WORDS, 0, BITVEC_LSB0, b, WORDS, 0, MOST);
#else
    status = bitvec_c_and_not_u64(BITVEC_LSB0, other, WORDS, 0, BITVEC_LSB0, a, WORDS, 0, MOST);
#endif
    //@ assert other_left: status == BITVEC_OK;
    //@ assert in_b: \forall integer n; 0 <= n < MOST ==> (has{Here}((uint64_t *)other, n) <==> has{Pre}(b, n) && !has{Pre}(a, n));
    //@ assert in_a_still: \forall integer n; 0 <= n < MOST ==> (has{Here}(target, n) <==> has{Pre}(a, n) && !has{Pre}(b, n));
    status = bitvec_c_or_u64(BITVEC_LSB0, target, WORDS, 0, BITVEC_LSB0, other, WORDS, 0, MOST);
    //@ assert done: status == BITVEC_OK;
}

/*@ requires \valid_read(a + (0 .. WORDS - 1)) && \valid_read(b + (0 .. WORDS - 1));
  @ assigns \nothing;
  @ ensures \result <==> (\forall integer n; 0 <= n < MOST ==> (has{Pre}(a, n) ==> has{Pre}(b, n)));
  @*/
bool is_within(const uint64_t *a, const uint64_t *b) {
    bool subset = false;
#ifdef WRONG_2 /* the last number is not looked at: is_within_ensures */
    uint8_t status = bitvec_c_is_subset_u64(BITVEC_LSB0, a, WORDS, 0, BITVEC_LSB0, b, WORDS, 0, MOST - 1, &subset);
#else
    uint8_t status = bitvec_c_is_subset_u64(BITVEC_LSB0, a, WORDS, 0, BITVEC_LSB0, b, WORDS, 0, MOST, &subset);
#endif
    //@ assert done: status == BITVEC_OK;
    return subset;
}
