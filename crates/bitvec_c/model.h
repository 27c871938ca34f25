/* A model of the calls in plain C: loops over two functions, of which one reads a bit and one puts it. fuzz.c compares the
 * archive with it, and `proved/check` proves it by the contracts of bitvec_acsl.h: for Frama-C each function here is the call
 * of its name, so that its contract is that of the call. */
#ifndef MODEL_BITS
#ifndef BITVEC_MODEL_H
#define BITVEC_MODEL_H
#define MODEL_BITS 8
#include "model.h"
#undef MODEL_BITS
#define MODEL_BITS 16
#include "model.h"
#undef MODEL_BITS
#define MODEL_BITS 32
#include "model.h"
#undef MODEL_BITS
#define MODEL_BITS 64
#include "model.h"
#undef MODEL_BITS
#endif
#else
#include "bitvec.h"

#ifndef MODEL_JOIN
#define MODEL_JOIN_(a, b, c) a##b##c
#define MODEL_JOIN(a, b, c) MODEL_JOIN_(a, b, c)

/* What is known of the powers of two up to the 64th. */
/*@ ghost
  /@ assigns \nothing;
   @ ensures \forall integer m, n; 0 <= m <= n <= 64 ==> 1 <= power_of_two(m) <= power_of_two(n);
   @ ensures power_of_two(63) == 9223372036854775808;
   @ ensures power_of_two(64) == 18446744073709551616;
   @/
  void model_powers(void) {
      /@ assert power_of_two(8) == 256; @/
      /@ assert power_of_two(16) == 65536; @/
      /@ assert power_of_two(24) == 16777216; @/
      /@ assert power_of_two(32) == 4294967296; @/
      /@ assert power_of_two(40) == 1099511627776; @/
      /@ assert power_of_two(48) == 281474976710656; @/
      /@ assert power_of_two(56) == 72057594037927936; @/
      /@ assert power_of_two(64) == 18446744073709551616; @/
      size_t n = 0;
      /@ loop invariant 0 <= n <= 64;
       @ loop invariant \forall integer m, k; 0 <= m <= k <= n ==> 1 <= power_of_two(m) <= power_of_two(k);
       @ loop assigns n;
       @ loop variant 64 - n;
       @/
      while (n < 64)
          n++;
  }
*/

/* Two to a power. */
/*@ requires n < 64;
  @ assigns \nothing;
  @ ensures \result == power_of_two(n) && 1 <= \result;
  @*/
static uint64_t model_power(size_t n) {
    //@ ghost model_powers();
    uint64_t power = 1;
    /*@ loop invariant 0 <= k <= n;
      @ loop invariant power == power_of_two(k);
      @ loop assigns k, power;
      @ loop variant n - k;
      @*/
    for (size_t k = 0; k < n; k++)
        power *= 2;
    return power;
}

/* The number whose two's complement of so many digits a number is. */
/*@ requires count <= 64 && number < power_of_two(count);
  @ assigns \nothing;
  @ ensures \result == signed_of(count, number);
  @*/
static int64_t model_signed(size_t count, uint64_t number) {
    //@ ghost model_powers();
    if (count == 0)
        return 0;
    uint64_t half = model_power(count - 1);
    if (number < half)
        return (int64_t)number;
    return (int64_t)(number - half) - (int64_t)(half - 1) - 1;
}

/* The two's complement of so many digits of a number. */
/*@ requires count <= 64;
  @ assigns \nothing;
  @ ensures \result == complement_of(count, number);
  @*/
static uint64_t model_complement(size_t count, int64_t number) {
    //@ ghost model_powers();
    if (count == 64)
        return number < 0 ? UINT64_MAX - (uint64_t)(-1 - number) : (uint64_t)number;
    if (count == 63)
        return (uint64_t)(number < 0 ? number + INT64_MAX + 1 : number);
    int64_t power = (int64_t)model_power(count), left = number % power;
    return (uint64_t)(left < 0 ? left + power : left);
}

/* The operators by which two bits are made one, and what each makes of them. */
enum { MODEL_AND, MODEL_OR, MODEL_XOR, MODEL_AND_NOT };

/*@ assigns \nothing;
  @ ensures by == MODEL_AND ==> (\result <==> here && there);
  @ ensures by == MODEL_OR ==> (\result <==> here || there);
  @ ensures by == MODEL_XOR ==> (\result <==> (here ^^ there));
  @ ensures by == MODEL_AND_NOT ==> (\result <==> here && !there);
  @*/
static bool model_operated(int by, bool here, bool there) {
    if (by == MODEL_AND)
        return here && there;
    if (by == MODEL_OR)
        return here || there;
    if (by == MODEL_XOR)
        return here != there;
    return here && !there;
}

/* Lemmas on digits, by which three functions are proved, and nothing else, as the provers find more without them. The proof
 * of digits_bound, powers_least, top_all and powers_rise is by induction, as proved/script says; that of the others the
 * provers find. */
#ifdef MODEL_LEMMAS
/*@ lemma digits_bound: \forall integer n; 1 <= n ==>
  @   1 <= digit_count(n) && power_of_two(digit_count(n) - 1) <= n < power_of_two(digit_count(n));
  @ lemma quotient: \forall integer a, p, q; 0 < p && 0 <= q && p * q <= a < p * q + p ==> a / p == q;
  @ lemma quotient_parts: \forall integer a, p; 0 < p && 0 <= a ==> 0 <= a / p && p * (a / p) <= a < p * (a / p) + p;
  @ lemma quotient_even: \forall integer a, p; 0 < p && 0 <= a ==> (2 * a) / (2 * p) == a / p;
  @ lemma quotient_odd: \forall integer a, p; 0 < p && 0 <= a ==> (2 * a + 1) / (2 * p) == a / p;
  @ lemma powers_least: \forall integer n; 0 <= n ==> 1 <= power_of_two(n);
  @ lemma digit_even: \forall integer n, k; 0 <= n && 0 <= k ==> (2 * n) / power_of_two(k + 1) == n / power_of_two(k);
  @ lemma digit_odd: \forall integer n, k; 0 <= n && 0 <= k ==> (2 * n + 1) / power_of_two(k + 1) == n / power_of_two(k);
  @ lemma digit_halved: \forall integer n, k; 0 <= n && 0 < k ==> (digit_of(n, k) <==> digit_of(n / 2, k - 1));
  @ lemma half_of: \forall integer n, k; 0 < k && power_of_two(k) <= n < power_of_two(k + 1) ==>
  @   power_of_two(k - 1) <= n / 2 < power_of_two(k);
  @ predicate has_top(integer k) = \forall integer n; power_of_two(k) <= n < power_of_two(k + 1) ==> digit_of(n, k);
  @ lemma top_none: has_top(0);
  @ lemma top_more: \forall integer k; 0 < k && has_top(k - 1) ==> has_top(k);
  @ lemma top_all: \forall integer k; 0 <= k ==> has_top(k);
  @ lemma digit_top: \forall integer n, k; 0 <= k && power_of_two(k) <= n < power_of_two(k + 1) ==> digit_of(n, k);
  @ lemma powers_rise: \forall integer m, n; 0 <= m <= n ==> power_of_two(m) <= power_of_two(n);
  @ lemma digits_are: \forall integer n, k; 0 <= k && power_of_two(k) <= n < power_of_two(k + 1) ==> digit_count(n) == k + 1;
  @*/
#endif

/* A digit of a number is one of its half; the greatest one; and how many digits there are. */
/*@ ghost
  /@ assigns \nothing;
   @ ensures \forall integer n, k; 0 <= n && 0 < k ==> (digit_of(n, k) <==> digit_of(n / 2, k - 1));
   @/
  void model_halved(void) {}
  /@ assigns \nothing;
   @ ensures \forall integer n; 1 <= n ==> 1 <= digit_count(n) && n < power_of_two(digit_count(n)) &&
   @   digit_of(n, digit_count(n) - 1);
   @/
  void model_top(void) {}
  /@ requires 0 <= k;
   @ assigns \nothing;
   @ ensures 1 <= power_of_two(k);
   @ ensures \forall integer n; power_of_two(k) <= n < power_of_two(k + 1) ==> digit_count(n) == k + 1;
   @ ensures 64 < k ==> 36893488147419103232 <= power_of_two(k);
   @/
  void model_length(size_t k) {
      model_powers();
      /@ assert power_of_two(65) == 36893488147419103232; @/
  }
*/
#endif
#ifdef __FRAMAC__
#define MODEL(call) MODEL_JOIN(bitvec_c_##call, _u, MODEL_BITS)
#else
#define MODEL(call) MODEL_JOIN(model_##call, _u, MODEL_BITS)
#endif
#define BIT MODEL_JOIN(bit, _u, MODEL_BITS)
#define ONES MODEL_JOIN(ones, _u, MODEL_BITS)
#define PAIRS MODEL_JOIN(pairs, _u, MODEL_BITS)
#define OTHERS MODEL_JOIN(others, _u, MODEL_BITS)
#define WORD MODEL_JOIN(uint, MODEL_BITS, _t)
#define READ MODEL_JOIN(model_bit, _u, MODEL_BITS)
#define PUT MODEL_JOIN(model_put, _u, MODEL_BITS)
#define STATUS MODEL_JOIN(model_status, _u, MODEL_BITS)
#define LEFT MODEL_JOIN(model_left, _u, MODEL_BITS)
#define NUMBER MODEL_JOIN(number, _u, MODEL_BITS)
#define HOLDS MODEL_JOIN(holds, _u, MODEL_BITS)
#define IS_CODE MODEL_JOIN(code, _u, MODEL_BITS)
#define IS_CODED MODEL_JOIN(coded, _u, MODEL_BITS)
#define KEPT MODEL_JOIN(kept, _u, MODEL_BITS)
#define DOUBLED MODEL_JOIN(model_doubled, _u, MODEL_BITS)
#define NEXT MODEL_JOIN(model_next, _u, MODEL_BITS)
#define READABLE MODEL_JOIN(model_readable, _u, MODEL_BITS)
#define FIRST MODEL_JOIN(model_first, _u, MODEL_BITS)
#define SUMMED MODEL_JOIN(model_summed, _u, MODEL_BITS)
#define MADE MODEL_JOIN(model_made, _u, MODEL_BITS)
#define HELD MODEL_JOIN(model_held, _u, MODEL_BITS)
#define PARTED MODEL_JOIN(model_parted, _u, MODEL_BITS)
#define ONLY MODEL_JOIN(model_only, _u, MODEL_BITS)
#define CODE MODEL_JOIN(model_code, _u, MODEL_BITS)
#define PUT_BITS MODEL_JOIN(model_put_bits, _u, MODEL_BITS)
#define PUT_CODE MODEL_JOIN(model_put_code, _u, MODEL_BITS)
#define SPANS MODEL_JOIN(model_spans, _u, MODEL_BITS)
#define PLACE MODEL_JOIN(model_place, _u, MODEL_BITS)
#define GROWS MODEL_JOIN(model_grows, _u, MODEL_BITS)
#define TAKEN MODEL_JOIN(model_taken, _u, MODEL_BITS)
#define GIVEN MODEL_JOIN(model_given, _u, MODEL_BITS)
#define IS_OPERATED MODEL_JOIN(is_operated, _u, MODEL_BITS)
#define WITHIN MODEL_JOIN(model_within, _u, MODEL_BITS)
#define THIRD MODEL_JOIN(model_third, _u, MODEL_BITS)
#define IS_FREE MODEL_JOIN(free, _u, MODEL_BITS)
#define FREE MODEL_JOIN(model_free, _u, MODEL_BITS)

/* The bit of a place. */
/*@ requires order <= 1 && \valid_read(memory + place / MODEL_BITS);
  @ assigns \nothing;
  @ ensures \result <==> BIT{Pre}(order, memory, place);
  @*/
static bool READ(uint8_t order, const WORD *memory, size_t place)
#ifdef __FRAMAC__
    ;
#else
{
    size_t index = place % MODEL_BITS, digit = order == 0 ? index : MODEL_BITS - 1 - index;
    return memory[place / MODEL_BITS] >> digit & 1;
}
#endif

/* Makes the bit of a place another. */
/*@ requires order <= 1 && \valid(memory + place / MODEL_BITS);
  @ assigns memory[place / MODEL_BITS];
  @ ensures BIT{Post}(order, memory, place) <==> bit;
  @ ensures \forall integer p; 0 <= p && p != place ==> (BIT{Post}(order, memory, p) <==> BIT{Pre}(order, memory, p));
  @*/
static void PUT(uint8_t order, WORD *memory, size_t place, bool bit)
#ifdef __FRAMAC__
    ;
#else
{
    size_t index = place % MODEL_BITS, digit = order == 0 ? index : MODEL_BITS - 1 - index;
    WORD mask = (WORD)((WORD)1 << digit), *word = &memory[place / MODEL_BITS];
    *word = (WORD)(bit ? *word | mask : *word & (WORD)~mask);
}
#endif

/* The status of a range: the words up to its end are counted, which no number of words overflows. That the places of a
 * memory are numbers of type size_t is taken as it is, as no machine has a memory where they are not. */
/*@ assigns \nothing;
  @ ensures \result == range_status(MODEL_BITS, order, words, start, count);
  @ ensures words * MODEL_BITS <= 18446744073709551615;
  @*/
static uint8_t STATUS(uint8_t order, size_t words, size_t start, size_t count) {
    //@ admit places: words * MODEL_BITS <= 18446744073709551615;
    if (order > 1)
        return BITVEC_NO_ORDER;
    if (count > BITVEC_MAX_BITS)
        return BITVEC_TOO_LONG;
    size_t needed = start / MODEL_BITS + (start % MODEL_BITS + count + MODEL_BITS - 1) / MODEL_BITS;
    return needed > words ? BITVEC_OUTSIDE : BITVEC_OK;
}

/* The status of what is left of a stream. */
/*@ assigns \nothing;
  @ ensures \result == left_status(MODEL_BITS, order, words, place, end);
  @ ensures words * MODEL_BITS <= 18446744073709551615;
  @*/
static uint8_t LEFT(uint8_t order, size_t words, size_t place, size_t end) {
    uint8_t status = STATUS(order, words, place, end < place ? 0 : end - place);
    return status == BITVEC_OK && end < place ? BITVEC_OUTSIDE : status;
}

uint8_t MODEL(get)(uint8_t order, const WORD *memory, size_t words, size_t place, bool *bit) {
    uint8_t status = STATUS(order, words, place, 1);
    if (status == BITVEC_OK)
        *bit = READ(order, memory, place);
    return status;
}

uint8_t MODEL(set)(uint8_t order, WORD *memory, size_t words, size_t place, bool bit) {
    uint8_t status = STATUS(order, words, place, 1);
    if (status == BITVEC_OK)
        PUT(order, memory, place, bit);
    return status;
}

uint8_t MODEL(replace)(uint8_t order, WORD *memory, size_t words, size_t place, bool bit, bool *before) {
    uint8_t status = STATUS(order, words, place, 1);
    if (status == BITVEC_OK) {
        *before = READ(order, memory, place);
        PUT(order, memory, place, bit);
    }
    return status;
}

uint8_t MODEL(swap)(uint8_t order, WORD *memory, size_t words, size_t place, size_t other_place) {
    uint8_t status = STATUS(order, words, place, 1);
    if (status == BITVEC_OK)
        status = STATUS(order, words, other_place, 1);
    if (status == BITVEC_OK) {
        bool bit = READ(order, memory, place), other = READ(order, memory, other_place);
        PUT(order, memory, place, other);
        PUT(order, memory, other_place, bit);
    }
    return status;
}

uint8_t MODEL(fill)(uint8_t order, WORD *memory, size_t words, size_t start, size_t count, bool bit) {
    uint8_t status = STATUS(order, words, start, count);
    if (status != BITVEC_OK)
        return status;
    /*@ loop invariant 0 <= i <= count;
      @ loop invariant \forall integer p; start <= p < start + i ==> (BIT{Here}(order, memory, p) <==> bit);
      @ loop invariant OTHERS{Pre, Here}(order, memory, words, start, i);
      @ loop assigns i, memory[0 .. words - 1];
      @ loop variant count - i;
      @*/
    for (size_t i = 0; i < count; i++)
        PUT(order, memory, start + i, bit);
    return status;
}

uint8_t MODEL(invert)(uint8_t order, WORD *memory, size_t words, size_t start, size_t count) {
    uint8_t status = STATUS(order, words, start, count);
    if (status != BITVEC_OK)
        return status;
    /*@ loop invariant 0 <= i <= count;
      @ loop invariant \forall integer p; start <= p < start + i ==> (BIT{Here}(order, memory, p) <==> !BIT{Pre}(order, memory, p));
      @ loop invariant OTHERS{Pre, Here}(order, memory, words, start, i);
      @ loop assigns i, memory[0 .. words - 1];
      @ loop variant count - i;
      @*/
    for (size_t i = 0; i < count; i++) {
        bool bit = READ(order, memory, start + i);
        PUT(order, memory, start + i, !bit);
    }
    return status;
}

uint8_t MODEL(copy)(uint8_t order, WORD *target, size_t target_words, size_t target_start, const WORD *source,
                    size_t source_words, size_t source_start, size_t count) {
    uint8_t status = STATUS(order, source_words, source_start, count);
    if (status == BITVEC_OK)
        status = STATUS(order, target_words, target_start, count);
    if (status != BITVEC_OK)
        return status;
    /*@ loop invariant 0 <= i <= count;
      @ loop invariant \forall integer p; target_start <= p < target_start + i ==>
      @   (BIT{Here}(order, target, p) <==> BIT{Pre}(order, source, source_start + (p - target_start)));
      @ loop invariant OTHERS{Pre, Here}(order, target, target_words, target_start, i);
      @ loop assigns i, target[0 .. target_words - 1];
      @ loop variant count - i;
      @*/
    for (size_t i = 0; i < count; i++) {
        bool bit = READ(order, source, source_start + i);
        PUT(order, target, target_start + i, bit);
    }
    return status;
}

uint8_t MODEL(and)(uint8_t order, WORD *target, size_t target_words, size_t target_start, uint8_t source_order,
                   const WORD *source, size_t source_words, size_t source_start, size_t count) {
    uint8_t status = STATUS(source_order, source_words, source_start, count);
    if (status == BITVEC_OK)
        status = STATUS(order, target_words, target_start, count);
    if (status != BITVEC_OK)
        return status;
    /*@ loop invariant 0 <= i <= count;
      @ loop invariant \forall integer p; target_start <= p < target_start + i ==> (BIT{Here}(order, target, p) <==>
      @   (BIT{Pre}(order, target, p) && BIT{Pre}(source_order, source, source_start + (p - target_start))));
      @ loop invariant OTHERS{Pre, Here}(order, target, target_words, target_start, i);
      @ loop assigns i, target[0 .. target_words - 1];
      @ loop variant count - i;
      @*/
    for (size_t i = 0; i < count; i++) {
        bool there = READ(source_order, source, source_start + i), here = READ(order, target, target_start + i);
        PUT(order, target, target_start + i, here && there);
    }
    return status;
}

uint8_t MODEL(or)(uint8_t order, WORD *target, size_t target_words, size_t target_start, uint8_t source_order,
                  const WORD *source, size_t source_words, size_t source_start, size_t count) {
    uint8_t status = STATUS(source_order, source_words, source_start, count);
    if (status == BITVEC_OK)
        status = STATUS(order, target_words, target_start, count);
    if (status != BITVEC_OK)
        return status;
    /*@ loop invariant 0 <= i <= count;
      @ loop invariant \forall integer p; target_start <= p < target_start + i ==> (BIT{Here}(order, target, p) <==>
      @   (BIT{Pre}(order, target, p) || BIT{Pre}(source_order, source, source_start + (p - target_start))));
      @ loop invariant OTHERS{Pre, Here}(order, target, target_words, target_start, i);
      @ loop assigns i, target[0 .. target_words - 1];
      @ loop variant count - i;
      @*/
    for (size_t i = 0; i < count; i++) {
        bool there = READ(source_order, source, source_start + i), here = READ(order, target, target_start + i);
        PUT(order, target, target_start + i, here || there);
    }
    return status;
}

uint8_t MODEL(xor)(uint8_t order, WORD *target, size_t target_words, size_t target_start, uint8_t source_order,
                   const WORD *source, size_t source_words, size_t source_start, size_t count) {
    uint8_t status = STATUS(source_order, source_words, source_start, count);
    if (status == BITVEC_OK)
        status = STATUS(order, target_words, target_start, count);
    if (status != BITVEC_OK)
        return status;
    /*@ loop invariant 0 <= i <= count;
      @ loop invariant \forall integer p; target_start <= p < target_start + i ==> (BIT{Here}(order, target, p) <==>
      @   (BIT{Pre}(order, target, p) ^^ BIT{Pre}(source_order, source, source_start + (p - target_start))));
      @ loop invariant OTHERS{Pre, Here}(order, target, target_words, target_start, i);
      @ loop assigns i, target[0 .. target_words - 1];
      @ loop variant count - i;
      @*/
    for (size_t i = 0; i < count; i++) {
        bool there = READ(source_order, source, source_start + i), here = READ(order, target, target_start + i);
        PUT(order, target, target_start + i, here != there);
    }
    return status;
}

uint8_t MODEL(and_not)(uint8_t order, WORD *target, size_t target_words, size_t target_start, uint8_t source_order,
                       const WORD *source, size_t source_words, size_t source_start, size_t count) {
    uint8_t status = STATUS(source_order, source_words, source_start, count);
    if (status == BITVEC_OK)
        status = STATUS(order, target_words, target_start, count);
    if (status != BITVEC_OK)
        return status;
    /*@ loop invariant 0 <= i <= count;
      @ loop invariant \forall integer p; target_start <= p < target_start + i ==> (BIT{Here}(order, target, p) <==>
      @   (BIT{Pre}(order, target, p) && !BIT{Pre}(source_order, source, source_start + (p - target_start))));
      @ loop invariant OTHERS{Pre, Here}(order, target, target_words, target_start, i);
      @ loop assigns i, target[0 .. target_words - 1];
      @ loop variant count - i;
      @*/
    for (size_t i = 0; i < count; i++) {
        bool there = READ(source_order, source, source_start + i), here = READ(order, target, target_start + i);
        PUT(order, target, target_start + i, here && !there);
    }
    return status;
}

uint8_t MODEL(equal)(uint8_t order, const WORD *memory, size_t words, size_t start, const WORD *other,
                     size_t other_words, size_t other_start, size_t count, bool *same) {
    uint8_t status = STATUS(order, words, start, count);
    if (status == BITVEC_OK)
        status = STATUS(order, other_words, other_start, count);
    if (status != BITVEC_OK)
        return status;
    size_t i = 0;
    /*@ loop invariant 0 <= i <= count;
      @ loop invariant \forall integer p; start <= p < start + i ==>
      @   (BIT{Pre}(order, memory, p) <==> BIT{Pre}(order, other, other_start + (p - start)));
      @ loop assigns i;
      @ loop variant count - i;
      @*/
    while (i < count && READ(order, memory, start + i) == READ(order, other, other_start + i))
        i++;
    *same = i == count;
    return status;
}

uint8_t MODEL(count_ones)(uint8_t order, const WORD *memory, size_t words, size_t start, size_t count, size_t *ones) {
    uint8_t status = STATUS(order, words, start, count);
    if (status != BITVEC_OK)
        return status;
    size_t found = 0;
    /*@ loop invariant 0 <= i <= count && 0 <= found <= i;
      @ loop invariant found == ONES{Pre}(order, memory, start, i);
      @ loop assigns i, found;
      @ loop variant count - i;
      @*/
    for (size_t i = 0; i < count; i++)
        if (READ(order, memory, start + i))
            found++;
    *ones = found;
    return status;
}

uint8_t MODEL(count_and)(uint8_t order, const WORD *memory, size_t words, size_t start, uint8_t other_order,
                         const WORD *other, size_t other_words, size_t other_start, size_t count, size_t *ones) {
    uint8_t status = STATUS(order, words, start, count);
    if (status == BITVEC_OK)
        status = STATUS(other_order, other_words, other_start, count);
    if (status != BITVEC_OK)
        return status;
    size_t found = 0;
    /*@ loop invariant 0 <= i <= count && 0 <= found <= i;
      @ loop invariant found == PAIRS{Pre}(order, memory, start, other_order, other, other_start, i);
      @ loop assigns i, found;
      @ loop variant count - i;
      @*/
    for (size_t i = 0; i < count; i++) {
        bool here = READ(order, memory, start + i), there = READ(other_order, other, other_start + i);
        if (here && there)
            found++;
    }
    *ones = found;
    return status;
}

uint8_t MODEL(first)(uint8_t order, const WORD *memory, size_t words, size_t start, size_t count, bool bit,
                     size_t *index) {
    uint8_t status = STATUS(order, words, start, count);
    if (status != BITVEC_OK)
        return status;
    size_t i = 0;
    /*@ loop invariant 0 <= i <= count;
      @ loop invariant \forall integer p; start <= p < start + i ==> (BIT{Pre}(order, memory, p) <==> !bit);
      @ loop assigns i;
      @ loop variant count - i;
      @*/
    while (i < count && READ(order, memory, start + i) != bit)
        i++;
    *index = i;
    return status;
}

uint8_t MODEL(first_one)(uint8_t order, const WORD *memory, size_t words, size_t start, size_t count, size_t *index) {
    uint8_t status = STATUS(order, words, start, count);
    if (status != BITVEC_OK)
        return status;
    size_t i = 0;
    /*@ loop invariant 0 <= i <= count;
      @ loop invariant \forall integer p; start <= p < start + i ==> !BIT{Pre}(order, memory, p);
      @ loop assigns i;
      @ loop variant count - i;
      @*/
    while (i < count && !READ(order, memory, start + i))
        i++;
    *index = i;
    return status;
}

uint8_t MODEL(last)(uint8_t order, const WORD *memory, size_t words, size_t start, size_t count, bool bit,
                    size_t *index) {
    uint8_t status = STATUS(order, words, start, count);
    if (status != BITVEC_OK)
        return status;
    size_t i = count;
    /*@ loop invariant 0 <= i <= count;
      @ loop invariant \forall integer p; start + i <= p < start + count ==> (BIT{Pre}(order, memory, p) <==> !bit);
      @ loop assigns i;
      @ loop variant i;
      @*/
    while (i > 0 && READ(order, memory, start + i - 1) != bit)
        i--;
    *index = i > 0 ? i - 1 : count;
    return status;
}

uint8_t MODEL(next)(uint8_t order, const WORD *memory, size_t words, size_t start, size_t count, size_t from, bool bit,
                    size_t *index) {
    uint8_t status = STATUS(order, words, start, count);
    if (status != BITVEC_OK)
        return status;
    size_t i = from < count ? from : count;
    /*@ loop invariant 0 <= i <= count && (from <= i || i == count);
      @ loop invariant \forall integer p; start + from <= p < start + i ==> (BIT{Pre}(order, memory, p) <==> !bit);
      @ loop assigns i;
      @ loop variant count - i;
      @*/
    while (i < count && READ(order, memory, start + i) != bit)
        i++;
    *index = i;
    return status;
}

uint8_t MODEL(previous)(uint8_t order, const WORD *memory, size_t words, size_t start, size_t count, size_t before,
                        bool bit, size_t *index) {
    uint8_t status = STATUS(order, words, start, count);
    if (status != BITVEC_OK)
        return status;
    size_t end = before < count ? before : count, i = end;
    /*@ loop invariant 0 <= i <= end;
      @ loop invariant \forall integer p; start + i <= p < start + end ==> (BIT{Pre}(order, memory, p) <==> !bit);
      @ loop assigns i;
      @ loop variant i;
      @*/
    while (i > 0 && READ(order, memory, start + i - 1) != bit)
        i--;
    *index = i > 0 ? i - 1 : count;
    return status;
}

uint8_t MODEL(first_and)(uint8_t order, const WORD *memory, size_t words, size_t start, uint8_t other_order,
                         const WORD *other, size_t other_words, size_t other_start, size_t count, size_t *index) {
    uint8_t status = STATUS(order, words, start, count);
    if (status == BITVEC_OK)
        status = STATUS(other_order, other_words, other_start, count);
    if (status != BITVEC_OK)
        return status;
    size_t i = 0;
    /*@ loop invariant 0 <= i <= count;
      @ loop invariant \forall integer p; start <= p < start + i ==>
      @   !(BIT{Pre}(order, memory, p) && BIT{Pre}(other_order, other, other_start + (p - start)));
      @ loop assigns i;
      @ loop variant count - i;
      @*/
    while (i < count && !(READ(order, memory, start + i) && READ(other_order, other, other_start + i)))
        i++;
    *index = i;
    return status;
}

uint8_t MODEL(first_and_not)(uint8_t order, const WORD *memory, size_t words, size_t start, uint8_t other_order,
                             const WORD *other, size_t other_words, size_t other_start, size_t count, size_t *index) {
    uint8_t status = STATUS(order, words, start, count);
    if (status == BITVEC_OK)
        status = STATUS(other_order, other_words, other_start, count);
    if (status != BITVEC_OK)
        return status;
    size_t i = 0;
    /*@ loop invariant 0 <= i <= count;
      @ loop invariant \forall integer p; start <= p < start + i ==>
      @   !(BIT{Pre}(order, memory, p) && !BIT{Pre}(other_order, other, other_start + (p - start)));
      @ loop assigns i;
      @ loop variant count - i;
      @*/
    while (i < count && !(READ(order, memory, start + i) && !READ(other_order, other, other_start + i)))
        i++;
    *index = i;
    return status;
}

uint8_t MODEL(first_difference)(uint8_t order, const WORD *memory, size_t words, size_t start, uint8_t other_order,
                                const WORD *other, size_t other_words, size_t other_start, size_t count,
                                size_t *index) {
    uint8_t status = STATUS(order, words, start, count);
    if (status == BITVEC_OK)
        status = STATUS(other_order, other_words, other_start, count);
    if (status != BITVEC_OK)
        return status;
    size_t i = 0;
    /*@ loop invariant 0 <= i <= count;
      @ loop invariant \forall integer p; start <= p < start + i ==>
      @   (BIT{Pre}(order, memory, p) <==> BIT{Pre}(other_order, other, other_start + (p - start)));
      @ loop assigns i;
      @ loop variant count - i;
      @*/
    while (i < count && READ(order, memory, start + i) == READ(other_order, other, other_start + i))
        i++;
    *index = i;
    return status;
}

uint8_t MODEL(reverse)(uint8_t order, WORD *memory, size_t words, size_t start, size_t count) {
    uint8_t status = STATUS(order, words, start, count);
    if (status != BITVEC_OK)
        return status;
    /*@ loop invariant 0 <= i && 2 * i <= count + 1;
      @ loop invariant \forall integer p; start <= p < start + i ==>
      @   (BIT{Here}(order, memory, p) <==> BIT{Pre}(order, memory, start + (count - 1 - (p - start))));
      @ loop invariant \forall integer p; start + count - i <= p < start + count ==>
      @   (BIT{Here}(order, memory, p) <==> BIT{Pre}(order, memory, start + (count - 1 - (p - start))));
      @ loop invariant \forall integer p; start + i <= p < start + count - i ==>
      @   (BIT{Here}(order, memory, p) <==> BIT{Pre}(order, memory, p));
      @ loop invariant OTHERS{Pre, Here}(order, memory, words, start, count);
      @ loop assigns i, memory[0 .. words - 1];
      @ loop variant count - i;
      @*/
    for (size_t i = 0; i < count / 2; i++) {
        size_t first = start + i, last = start + (count - 1 - i);
        bool here = READ(order, memory, first), there = READ(order, memory, last);
        PUT(order, memory, first, there);
        PUT(order, memory, last, here);
    }
    return status;
}

uint8_t MODEL(copy_within)(uint8_t order, WORD *memory, size_t words, size_t target_start, size_t source_start,
                           size_t count) {
    uint8_t status = STATUS(order, words, source_start, count);
    if (status == BITVEC_OK)
        status = STATUS(order, words, target_start, count);
    if (status != BITVEC_OK)
        return status;
    if (target_start <= source_start) {
        /*@ loop invariant 0 <= i <= count;
          @ loop invariant \forall integer p; target_start <= p < target_start + i ==>
          @   (BIT{Here}(order, memory, p) <==> BIT{Pre}(order, memory, source_start + (p - target_start)));
          @ loop invariant OTHERS{Pre, Here}(order, memory, words, target_start, i);
          @ loop assigns i, memory[0 .. words - 1];
          @ loop variant count - i;
          @*/
        for (size_t i = 0; i < count; i++) {
            bool bit = READ(order, memory, source_start + i);
            //@ assert bit <==> BIT{Pre}(order, memory, source_start + i);
            PUT(order, memory, target_start + i, bit);
            //@ assert BIT{Here}(order, memory, target_start + i) <==> BIT{Pre}(order, memory, source_start + i);
            /*@ assert \forall integer p; target_start <= p < target_start + i ==>
              @   (BIT{Here}(order, memory, p) <==> BIT{Pre}(order, memory, source_start + (p - target_start))); */
        }
    } else {
        size_t i = count;
        /*@ loop invariant 0 <= i <= count;
          @ loop invariant \forall integer p; target_start + i <= p < target_start + count ==>
          @   (BIT{Here}(order, memory, p) <==> BIT{Pre}(order, memory, source_start + (p - target_start)));
          @ loop invariant OTHERS{Pre, Here}(order, memory, words, target_start + i, count - i);
          @ loop assigns i, memory[0 .. words - 1];
          @ loop variant i;
          @*/
        while (i > 0) {
            i--;
            bool bit = READ(order, memory, source_start + i);
            //@ assert bit <==> BIT{Pre}(order, memory, source_start + i);
            PUT(order, memory, target_start + i, bit);
        }
    }
    return status;
}

/* Whether an operator makes a one of a bit of one memory and a bit of another. */
/*@ predicate IS_OPERATED{L}(integer by, integer order, WORD *memory, integer place, WORD *other, integer other_place) =
  @   by == MODEL_AND ? BIT{L}(order, memory, place) && BIT{L}(order, other, other_place)
  @   : (by == MODEL_OR ? BIT{L}(order, memory, place) || BIT{L}(order, other, other_place)
  @   : (by == MODEL_XOR ? BIT{L}(order, memory, place) ^^ BIT{L}(order, other, other_place)
  @   : BIT{L}(order, memory, place) && !BIT{L}(order, other, other_place)));
  @*/

/* Combines two ranges of a memory, upwards or downwards, so that each bit of the source is read before it is put. */
/*@ requires MODEL_AND <= by <= MODEL_AND_NOT && \valid(memory + (0 .. words - 1));
  @ assigns memory[0 .. words - 1];
  @ ensures \result == then_status(range_status(MODEL_BITS, order, words, source_start, count),
  @   range_status(MODEL_BITS, order, words, target_start, count));
  @ ensures \result == BITVEC_OK ==> \forall integer p; target_start <= p < target_start + count ==>
  @   (BIT{Post}(order, memory, p) <==> IS_OPERATED{Pre}(by, order, memory, p, memory, source_start + (p - target_start)));
  @ ensures \result == BITVEC_OK ==> OTHERS{Pre, Post}(order, memory, words, target_start, count);
  @ ensures \result != BITVEC_OK ==> KEPT{Pre, Post}(memory, words);
  @*/
static uint8_t WITHIN(int by, uint8_t order, WORD *memory, size_t words, size_t target_start, size_t source_start,
                      size_t count) {
    uint8_t status = STATUS(order, words, source_start, count);
    if (status == BITVEC_OK)
        status = STATUS(order, words, target_start, count);
    if (status != BITVEC_OK)
        return status;
    if (target_start <= source_start) {
        /*@ loop invariant 0 <= i <= count;
          @ loop invariant \forall integer p; target_start <= p < target_start + i ==> (BIT{Here}(order, memory, p) <==>
          @   IS_OPERATED{Pre}(by, order, memory, p, memory, source_start + (p - target_start)));
          @ loop invariant OTHERS{Pre, Here}(order, memory, words, target_start, i);
          @ loop assigns i, memory[0 .. words - 1];
          @ loop variant count - i;
          @*/
        for (size_t i = 0; i < count; i++) {
            bool there = READ(order, memory, source_start + i), here = READ(order, memory, target_start + i);
            //@ assert there <==> BIT{Pre}(order, memory, source_start + i);
            //@ assert here <==> BIT{Pre}(order, memory, target_start + i);
            bool bit = model_operated(by, here, there);
            //@ assert bit <==> IS_OPERATED{Pre}(by, order, memory, target_start + i, memory, source_start + i);
            PUT(order, memory, target_start + i, bit);
            /*@ assert BIT{Here}(order, memory, target_start + i) <==>
              @   IS_OPERATED{Pre}(by, order, memory, target_start + i, memory, source_start + i); */
            /*@ assert \forall integer p; target_start + i <= p < target_start + (i + 1) ==> (BIT{Here}(order, memory, p) <==>
              @   IS_OPERATED{Pre}(by, order, memory, p, memory, source_start + (p - target_start))); */
            /*@ assert \forall integer p; target_start <= p < target_start + i ==> (BIT{Here}(order, memory, p) <==>
              @   IS_OPERATED{Pre}(by, order, memory, p, memory, source_start + (p - target_start))); */
        }
    } else {
        size_t i = count;
        /*@ loop invariant 0 <= i <= count;
          @ loop invariant \forall integer p; target_start + i <= p < target_start + count ==> (BIT{Here}(order, memory, p) <==>
          @   IS_OPERATED{Pre}(by, order, memory, p, memory, source_start + (p - target_start)));
          @ loop invariant OTHERS{Pre, Here}(order, memory, words, target_start + i, count - i);
          @ loop assigns i, memory[0 .. words - 1];
          @ loop variant i;
          @*/
        while (i > 0) {
            i--;
            bool there = READ(order, memory, source_start + i), here = READ(order, memory, target_start + i);
            //@ assert there <==> BIT{Pre}(order, memory, source_start + i);
            //@ assert here <==> BIT{Pre}(order, memory, target_start + i);
            bool bit = model_operated(by, here, there);
            //@ assert bit <==> IS_OPERATED{Pre}(by, order, memory, target_start + i, memory, source_start + i);
            PUT(order, memory, target_start + i, bit);
            /*@ assert BIT{Here}(order, memory, target_start + i) <==>
              @   IS_OPERATED{Pre}(by, order, memory, target_start + i, memory, source_start + i); */
            /*@ assert \forall integer p; target_start + i <= p < target_start + (i + 1) ==> (BIT{Here}(order, memory, p) <==>
              @   IS_OPERATED{Pre}(by, order, memory, p, memory, source_start + (p - target_start))); */
            /*@ assert \forall integer p; target_start + (i + 1) <= p < target_start + count ==>
              @   (BIT{Here}(order, memory, p) <==>
              @   IS_OPERATED{Pre}(by, order, memory, p, memory, source_start + (p - target_start))); */
        }
    }
    return status;
}

uint8_t MODEL(and_within)(uint8_t order, WORD *memory, size_t words, size_t target_start, size_t source_start,
                          size_t count) {
    return WITHIN(MODEL_AND, order, memory, words, target_start, source_start, count);
}

uint8_t MODEL(or_within)(uint8_t order, WORD *memory, size_t words, size_t target_start, size_t source_start,
                         size_t count) {
    return WITHIN(MODEL_OR, order, memory, words, target_start, source_start, count);
}

uint8_t MODEL(xor_within)(uint8_t order, WORD *memory, size_t words, size_t target_start, size_t source_start,
                          size_t count) {
    return WITHIN(MODEL_XOR, order, memory, words, target_start, source_start, count);
}

uint8_t MODEL(and_not_within)(uint8_t order, WORD *memory, size_t words, size_t target_start, size_t source_start,
                              size_t count) {
    return WITHIN(MODEL_AND_NOT, order, memory, words, target_start, source_start, count);
}

/* Combines two ranges to a third. */
/*@ requires MODEL_AND <= by <= MODEL_AND_NOT && \valid(target + (0 .. target_words - 1));
  @ requires \valid_read(first + (0 .. first_words - 1)) && \valid_read(second + (0 .. second_words - 1));
  @ requires \separated(target + (0 .. target_words - 1), first + (0 .. first_words - 1));
  @ requires \separated(target + (0 .. target_words - 1), second + (0 .. second_words - 1));
  @ assigns target[0 .. target_words - 1];
  @ ensures \result == then_status(then_status(range_status(MODEL_BITS, order, first_words, first_start, count),
  @   range_status(MODEL_BITS, order, second_words, second_start, count)),
  @   range_status(MODEL_BITS, order, target_words, target_start, count));
  @ ensures \result == BITVEC_OK ==> \forall integer p; target_start <= p < target_start + count ==>
  @   (BIT{Post}(order, target, p) <==> IS_OPERATED{Pre}(by, order, first, first_start + (p - target_start),
  @   second, second_start + (p - target_start)));
  @ ensures \result == BITVEC_OK ==> OTHERS{Pre, Post}(order, target, target_words, target_start, count);
  @ ensures \result != BITVEC_OK ==> KEPT{Pre, Post}(target, target_words);
  @*/
static uint8_t THIRD(int by, uint8_t order, WORD *target, size_t target_words, size_t target_start,
                     const WORD *first, size_t first_words, size_t first_start, const WORD *second,
                     size_t second_words, size_t second_start, size_t count) {
    uint8_t status = STATUS(order, first_words, first_start, count);
    if (status == BITVEC_OK)
        status = STATUS(order, second_words, second_start, count);
    if (status == BITVEC_OK)
        status = STATUS(order, target_words, target_start, count);
    if (status != BITVEC_OK)
        return status;
    /*@ loop invariant 0 <= i <= count;
      @ loop invariant \forall integer p; target_start <= p < target_start + i ==> (BIT{Here}(order, target, p) <==>
      @   IS_OPERATED{Pre}(by, order, first, first_start + (p - target_start),
      @   second, second_start + (p - target_start)));
      @ loop invariant OTHERS{Pre, Here}(order, target, target_words, target_start, i);
      @ loop assigns i, target[0 .. target_words - 1];
      @ loop variant count - i;
      @*/
    for (size_t i = 0; i < count; i++) {
        bool here = READ(order, first, first_start + i), there = READ(order, second, second_start + i);
        //@ assert here <==> BIT{Pre}(order, first, first_start + i);
        //@ assert there <==> BIT{Pre}(order, second, second_start + i);
        bool bit = model_operated(by, here, there);
        //@ assert bit <==> IS_OPERATED{Pre}(by, order, first, first_start + i, second, second_start + i);
        PUT(order, target, target_start + i, bit);
        /*@ assert BIT{Here}(order, target, target_start + i) <==>
          @   IS_OPERATED{Pre}(by, order, first, first_start + i, second, second_start + i); */
        /*@ assert \forall integer p; target_start + i <= p < target_start + (i + 1) ==> (BIT{Here}(order, target, p) <==>
          @   IS_OPERATED{Pre}(by, order, first, first_start + (p - target_start),
          @   second, second_start + (p - target_start))); */
        /*@ assert \forall integer p; target_start <= p < target_start + i ==> (BIT{Here}(order, target, p) <==>
          @   IS_OPERATED{Pre}(by, order, first, first_start + (p - target_start),
          @   second, second_start + (p - target_start))); */
    }
    return status;
}

uint8_t MODEL(and_of)(uint8_t order, WORD *target, size_t target_words, size_t target_start, const WORD *first,
                      size_t first_words, size_t first_start, const WORD *second, size_t second_words,
                      size_t second_start, size_t count) {
    return THIRD(MODEL_AND, order, target, target_words, target_start, first, first_words, first_start, second,
                 second_words, second_start, count);
}

uint8_t MODEL(or_of)(uint8_t order, WORD *target, size_t target_words, size_t target_start, const WORD *first,
                     size_t first_words, size_t first_start, const WORD *second, size_t second_words,
                     size_t second_start, size_t count) {
    return THIRD(MODEL_OR, order, target, target_words, target_start, first, first_words, first_start, second,
                 second_words, second_start, count);
}

uint8_t MODEL(xor_of)(uint8_t order, WORD *target, size_t target_words, size_t target_start, const WORD *first,
                      size_t first_words, size_t first_start, const WORD *second, size_t second_words,
                      size_t second_start, size_t count) {
    return THIRD(MODEL_XOR, order, target, target_words, target_start, first, first_words, first_start, second,
                 second_words, second_start, count);
}

uint8_t MODEL(and_not_of)(uint8_t order, WORD *target, size_t target_words, size_t target_start, const WORD *first,
                          size_t first_words, size_t first_start, const WORD *second, size_t second_words,
                          size_t second_start, size_t count) {
    return THIRD(MODEL_AND_NOT, order, target, target_words, target_start, first, first_words, first_start, second,
                 second_words, second_start, count);
}

uint8_t MODEL(shift_left)(uint8_t order, WORD *memory, size_t words, size_t start, size_t count, size_t by) {
    uint8_t status = STATUS(order, words, start, count);
    if (status == BITVEC_OK && by > count)
        status = BITVEC_OUTSIDE;
    if (status != BITVEC_OK)
        return status;
    /*@ loop invariant 0 <= i <= count;
      @ loop invariant \forall integer p; start <= p < start + i ==> (BIT{Here}(order, memory, p) <==>
      @   (p - start < count - by && BIT{Pre}(order, memory, start + ((p - start) + by))));
      @ loop invariant OTHERS{Pre, Here}(order, memory, words, start, i);
      @ loop assigns i, memory[0 .. words - 1];
      @ loop variant count - i;
      @*/
    for (size_t i = 0; i < count; i++) {
        bool bit = i < count - by && READ(order, memory, start + (i + by));
        PUT(order, memory, start + i, bit);
    }
    return status;
}

uint8_t MODEL(shift_right)(uint8_t order, WORD *memory, size_t words, size_t start, size_t count, size_t by) {
    uint8_t status = STATUS(order, words, start, count);
    if (status == BITVEC_OK && by > count)
        status = BITVEC_OUTSIDE;
    if (status != BITVEC_OK)
        return status;
    size_t i = count;
    /*@ loop invariant 0 <= i <= count;
      @ loop invariant \forall integer p; start + i <= p < start + count ==> (BIT{Here}(order, memory, p) <==>
      @   (by <= p - start && BIT{Pre}(order, memory, start + ((p - start) - by))));
      @ loop invariant OTHERS{Pre, Here}(order, memory, words, start + i, count - i);
      @ loop assigns i, memory[0 .. words - 1];
      @ loop variant i;
      @*/
    while (i > 0) {
        i--;
        bool bit = i >= by && READ(order, memory, start + (i - by));
        //@ assert bit <==> (by <= i && BIT{Pre}(order, memory, start + (i - by)));
        PUT(order, memory, start + i, bit);
    }
    return status;
}

/* (the first part is turned round, then the other, then all) */
uint8_t MODEL(rotate_left)(uint8_t order, WORD *memory, size_t words, size_t start, size_t count, size_t by) {
    uint8_t status = STATUS(order, words, start, count);
    if (status == BITVEC_OK && by > count)
        status = BITVEC_OUTSIDE;
    if (status != BITVEC_OK)
        return status;
    status = MODEL(reverse)(order, memory, words, start, by);
    //@ assert first_done: status == BITVEC_OK;
    //@ ghost First: ;
    status = MODEL(reverse)(order, memory, words, start + by, count - by);
    //@ assert second_done: status == BITVEC_OK;
    /*@ assert turned: \forall integer p; start <= p < start + by ==>
      @   (BIT{Here}(order, memory, p) <==> BIT{Pre}(order, memory, start + (by - 1 - (p - start)))); */
    /*@ assert other_turned: \forall integer p; start + by <= p < start + count ==>
      @   (BIT{Here}(order, memory, p) <==> BIT{Pre}(order, memory, start + by + (count - 1 - (p - start)))); */
    /*@ assert OTHERS{Pre, Here}(order, memory, words, start, count); */
    status = MODEL(reverse)(order, memory, words, start, count);
    //@ assert third_done: status == BITVEC_OK;
    return status;
}

/* Whether from an index of a range on so many bits are in it and zero. */
/*@ requires order <= 1 && \valid_read(memory + (0 .. words - 1));
  @ requires start + count <= words * MODEL_BITS <= 18446744073709551615;
  @ assigns \nothing;
  @ ensures \result <==> IS_FREE{Pre}(order, memory, start, count, index, zeros);
  @*/
static bool FREE(uint8_t order, const WORD *memory, size_t words, size_t start, size_t count, size_t index,
                 size_t zeros) {
    (void)words;
    if (index > count || zeros > count - index)
        return false;
    size_t i = 0;
    /*@ loop invariant 0 <= i <= zeros;
      @ loop invariant \forall integer p; start + index <= p < start + index + i ==> !BIT{Pre}(order, memory, p);
      @ loop assigns i;
      @ loop variant zeros - i;
      @*/
    while (i < zeros && !READ(order, memory, start + index + i))
        i++;
    return i == zeros;
}

uint8_t MODEL(find_zeros)(uint8_t order, const WORD *memory, size_t words, size_t start, size_t count, size_t zeros,
                          size_t *index) {
    uint8_t status = STATUS(order, words, start, count);
    if (status != BITVEC_OK)
        return status;
    size_t i = 0;
    /*@ loop invariant 0 <= i <= count;
      @ loop invariant \forall integer k; 0 <= k < i ==> !IS_FREE{Pre}(order, memory, start, count, k, zeros);
      @ loop assigns i;
      @ loop variant count - i;
      @*/
    while (i < count && !FREE(order, memory, words, start, count, i, zeros))
        i++;
    *index = i;
    return status;
}

uint8_t MODEL(find_zeros_from)(uint8_t order, const WORD *memory, size_t words, size_t start, size_t count,
                               size_t from, size_t zeros, size_t multiple_of, size_t *index) {
    uint8_t status = STATUS(order, words, start, count);
    if (status != BITVEC_OK)
        return status;
    size_t i = from < count ? from : count;
    /*@ loop invariant 0 <= i <= count && (from <= i || i == count);
      @ loop invariant \forall integer k; from <= k < i ==> !((multiple_of == 0 || k % multiple_of == 0) &&
      @   IS_FREE{Pre}(order, memory, start, count, k, zeros));
      @ loop assigns i;
      @ loop variant count - i;
      @*/
    while (i < count &&
           !((multiple_of == 0 || i % multiple_of == 0) && FREE(order, memory, words, start, count, i, zeros)))
        i++;
    *index = i;
    return status;
}

/* Which digit of a number a bit of a range is, or of what is read of a stream. */
/*@ requires j < count <= 64;
  @ assigns \nothing;
  @ ensures \result == place_of(stream, big, MODEL_BITS, order, start, count, j);
  @ ensures \result < count;
  @*/
static size_t PLACE(bool stream, bool big, uint8_t order, size_t start, size_t count, size_t j) {
    //@ assert 0 <= place_of(stream, big, MODEL_BITS, order, start, count, j) < count;
    size_t digit = j;
    if (!stream && big == (order == 0)) {
        size_t head = start % MODEL_BITS, word = (head + j) / MODEL_BITS;
        size_t first = word == 0 ? 0 : word * MODEL_BITS - head, end = word * MODEL_BITS + MODEL_BITS - head;
        digit = first + (count < end ? count : end) - 1 - j;
    }
    return big ? count - 1 - digit : digit;
}

/* A number of more bits is no less. */
/*@ ghost
  /@ requires 0 <= count <= 64;
   @ assigns \nothing;
   @ ensures \forall integer m; 0 <= m <= count ==> NUMBER{Pre}(stream, big, order, memory, start, count, m)
   @   <= NUMBER{Pre}(stream, big, order, memory, start, count, count);
   @/
  void GROWS(bool stream, bool big, uint8_t order, const WORD *memory, size_t start, size_t count) {
      model_powers();
      size_t n = 0;
      /@ loop invariant 0 <= n <= count;
       @ loop invariant \forall integer m; 0 <= m <= n ==> NUMBER{Pre}(stream, big, order, memory, start, count, m)
       @   <= NUMBER{Pre}(stream, big, order, memory, start, count, n);
       @ loop assigns n;
       @ loop variant count - n;
       @/
      while (n < count) {
          /@ assert 0 <= place_of(stream, big, MODEL_BITS, order, start, count, n) < count; @/
          n++;
      }
  }
*/

/* The number of which the bits of a range are digits. */
/*@ requires order <= 1 && \valid_read(memory + (0 .. words - 1));
  @ requires count <= 64 && start + count <= words * MODEL_BITS <= 18446744073709551615;
  @ assigns \nothing;
  @ ensures \result == NUMBER{Pre}(stream, big, order, memory, start, count, count);
  @ ensures \result < power_of_two(count);
  @*/
static uint64_t TAKEN(bool stream, bool big, uint8_t order, const WORD *memory, size_t words, size_t start,
                      size_t count) {
    //@ ghost model_powers();
    //@ ghost GROWS(stream, big, order, memory, start, count);
    uint64_t number = 0;
    (void)words;
    /*@ loop invariant 0 <= i <= count;
      @ loop invariant number == NUMBER{Pre}(stream, big, order, memory, start, count, i);
      @ loop assigns i, number;
      @ loop variant count - i;
      @*/
    for (size_t i = 0; i < count; i++) {
        /*@ assert bounded: NUMBER{Pre}(stream, big, order, memory, start, count, i + 1)
          @   <= NUMBER{Pre}(stream, big, order, memory, start, count, count) < 18446744073709551616; */
        if (READ(order, memory, start + i)) {
            uint64_t power = model_power(PLACE(stream, big, order, start, count, i));
            //@ assert more: number + power == NUMBER{Pre}(stream, big, order, memory, start, count, i + 1);
            number += power;
        }
    }
    return number;
}

/* Makes the bits of a range the digits of a number. */
/*@ requires order <= 1 && \valid(memory + (0 .. words - 1));
  @ requires count <= 64 && start + count <= words * MODEL_BITS <= 18446744073709551615;
  @ assigns memory[0 .. words - 1];
  @ ensures HOLDS{Post}(stream, big, order, memory, start, count, number);
  @ ensures OTHERS{Pre, Post}(order, memory, words, start, count);
  @*/
static void GIVEN(bool stream, bool big, uint8_t order, WORD *memory, size_t words, size_t start, size_t count,
                  uint64_t number) {
    (void)words;
    /*@ loop invariant 0 <= i <= count;
      @ loop invariant \forall integer p; start <= p < start + i ==> (BIT{Here}(order, memory, p) <==>
      @   digit_of(number, place_of(stream, big, MODEL_BITS, order, start, count, p - start)));
      @ loop invariant OTHERS{Pre, Here}(order, memory, words, start, i);
      @ loop assigns i, memory[0 .. words - 1];
      @ loop variant count - i;
      @*/
    for (size_t i = 0; i < count; i++) {
        uint64_t power = model_power(PLACE(stream, big, order, start, count, i));
        PUT(order, memory, start + i, number / power % 2 == 1);
    }
}

uint8_t MODEL(load)(uint8_t order, bool big_endian, const WORD *memory, size_t words, size_t start, size_t count,
                    uint64_t *number) {
    uint8_t status = STATUS(order, words, start, count);
    if (status == BITVEC_OK && count > 64)
        status = BITVEC_TOO_WIDE;
    if (status == BITVEC_OK)
        *number = TAKEN(false, big_endian, order, memory, words, start, count);
    return status;
}

uint8_t MODEL(store)(uint8_t order, bool big_endian, WORD *memory, size_t words, size_t start, size_t count,
                     uint64_t number) {
    uint8_t status = STATUS(order, words, start, count);
    if (status == BITVEC_OK && count > 64)
        status = BITVEC_TOO_WIDE;
    if (status == BITVEC_OK)
        GIVEN(false, big_endian, order, memory, words, start, count, number);
    return status;
}

uint8_t MODEL(load_signed)(uint8_t order, bool big_endian, const WORD *memory, size_t words, size_t start,
                           size_t count, int64_t *number) {
    uint8_t status = STATUS(order, words, start, count);
    if (status == BITVEC_OK && count > 64)
        status = BITVEC_TOO_WIDE;
    if (status == BITVEC_OK)
        *number = model_signed(count, TAKEN(false, big_endian, order, memory, words, start, count));
    return status;
}

uint8_t MODEL(store_signed)(uint8_t order, bool big_endian, WORD *memory, size_t words, size_t start, size_t count,
                            int64_t number) {
    uint8_t status = STATUS(order, words, start, count);
    if (status == BITVEC_OK && count > 64)
        status = BITVEC_TOO_WIDE;
    if (status == BITVEC_OK)
        GIVEN(false, big_endian, order, memory, words, start, count, model_complement(count, number));
    return status;
}

uint8_t MODEL(read)(uint8_t order, bool big_endian, const WORD *memory, size_t words, size_t *place, size_t end,
                    size_t count, uint64_t *number) {
    uint8_t status = LEFT(order, words, *place, end);
    if (status == BITVEC_OK && count > 64)
        status = BITVEC_TOO_WIDE;
    if (status == BITVEC_OK && count > end - *place)
        status = BITVEC_TOO_FEW;
    if (status != BITVEC_OK)
        return status;
    size_t from = *place;
    *number = TAKEN(true, big_endian, order, memory, words, from, count);
    *place = from + count;
    return status;
}

uint8_t MODEL(read_signed)(uint8_t order, bool big_endian, const WORD *memory, size_t words, size_t *place,
                           size_t end, size_t count, int64_t *number) {
    uint8_t status = LEFT(order, words, *place, end);
    if (status == BITVEC_OK && count > 64)
        status = BITVEC_TOO_WIDE;
    if (status == BITVEC_OK && count > end - *place)
        status = BITVEC_TOO_FEW;
    if (status != BITVEC_OK)
        return status;
    size_t from = *place;
    *number = model_signed(count, TAKEN(true, big_endian, order, memory, words, from, count));
    *place = from + count;
    return status;
}

uint8_t MODEL(write)(uint8_t order, bool big_endian, WORD *memory, size_t words, size_t *place, size_t end,
                     size_t count, uint64_t number) {
    //@ ghost model_powers();
    uint8_t status = LEFT(order, words, *place, end);
    if (status == BITVEC_OK && count > 64)
        status = BITVEC_TOO_WIDE;
    if (status == BITVEC_OK && count > end - *place)
        status = BITVEC_TOO_FEW;
    if (status == BITVEC_OK && count < 64 && number >= model_power(count))
        status = BITVEC_TOO_LARGE;
    if (status != BITVEC_OK)
        return status;
    size_t from = *place;
    GIVEN(true, big_endian, order, memory, words, from, count, number);
    //@ ghost Done: ;
    *place = from + count;
    //@ assert kept: KEPT{Done, Here}(memory, words);
    //@ assert same: OTHERS{Done, Here}(order, memory, words, 0, 0);
    return status;
}

uint8_t MODEL(write_signed)(uint8_t order, bool big_endian, WORD *memory, size_t words, size_t *place, size_t end,
                            size_t count, int64_t number) {
    //@ ghost model_powers();
    uint8_t status = LEFT(order, words, *place, end);
    if (status == BITVEC_OK && count > 64)
        status = BITVEC_TOO_WIDE;
    if (status == BITVEC_OK && count > end - *place)
        status = BITVEC_TOO_FEW;
    if (status == BITVEC_OK && count == 0 && number != 0)
        status = BITVEC_TOO_LARGE;
    if (status == BITVEC_OK && count != 0 &&
        (number < 0 ? (uint64_t)(-1 - number) : (uint64_t)number) >= model_power(count - 1))
        status = BITVEC_TOO_LARGE;
    if (status != BITVEC_OK)
        return status;
    size_t from = *place;
    GIVEN(true, big_endian, order, memory, words, from, count, model_complement(count, number));
    //@ ghost Done: ;
    *place = from + count;
    //@ assert kept: KEPT{Done, Here}(memory, words);
    //@ assert same: OTHERS{Done, Here}(order, memory, words, 0, 0);
    return status;
}

uint8_t MODEL(read_unary)(uint8_t order, const WORD *memory, size_t words, size_t *place, size_t end, bool bit,
                          size_t *count) {
    uint8_t status = LEFT(order, words, *place, end);
    if (status != BITVEC_OK)
        return status;
    size_t from = *place, i = from;
    /*@ loop invariant from <= i <= end;
      @ loop invariant \forall integer p; from <= p < i ==> (BIT{Pre}(order, memory, p) <==> bit);
      @ loop assigns i;
      @ loop variant end - i;
      @*/
    while (i < end && READ(order, memory, i) == bit)
        i++;
    if (i == end)
        return BITVEC_TOO_FEW;
    *count = i - from;
    *place = i + 1;
    return status;
}

uint8_t MODEL(write_unary)(uint8_t order, WORD *memory, size_t words, size_t *place, size_t end, bool bit,
                           size_t count) {
    uint8_t status = LEFT(order, words, *place, end);
    if (status == BITVEC_OK && count >= end - *place)
        status = BITVEC_TOO_FEW;
    if (status != BITVEC_OK)
        return status;
    size_t from = *place;
    /*@ loop invariant 0 <= i <= count;
      @ loop invariant \forall integer p; from <= p < from + i ==> (BIT{Here}(order, memory, p) <==> bit);
      @ loop invariant OTHERS{Pre, Here}(order, memory, words, from, i);
      @ loop assigns i, memory[0 .. words - 1];
      @ loop variant count - i;
      @*/
    for (size_t i = 0; i < count; i++)
        PUT(order, memory, from + i, bit);
    PUT(order, memory, from + count, !bit);
    //@ ghost Done: ;
    *place = from + count + 1;
    //@ assert kept: KEPT{Done, Here}(memory, words);
    //@ assert same: OTHERS{Done, Here}(order, memory, words, 0, 0);
    return status;
}

/* The bits of a stream, of which the first is the greatest digit: with one more behind them they are digits of twice the
 * number. */
/*@ ghost
  /@ requires start + count < 18446744073709551615;
   @ assigns \nothing;
   @ ensures NUMBER{Pre}(1, 1, order, memory, start, count + 1, count)
   @   == 2 * NUMBER{Pre}(1, 1, order, memory, start, count, count);
   @/
  void DOUBLED(uint8_t order, const WORD *memory, size_t start, size_t count) {
      size_t n = 0;
      /@ loop invariant 0 <= n <= count;
       @ loop invariant NUMBER{Pre}(1, 1, order, memory, start, count + 1, n)
       @   == 2 * NUMBER{Pre}(1, 1, order, memory, start, count, n);
       @ loop assigns n;
       @ loop variant count - n;
       @/
      while (n < count)
          n++;
  }
*/

/* So what was a digit is the next one, and the bit behind them is the lowest. */
/*@ ghost
  /@ requires start + count < 18446744073709551615;
   @ assigns \nothing;
   @ ensures \forall integer k; 0 < k ==> (digit_of(NUMBER{Pre}(1, 1, order, memory, start, count + 1, count + 1), k) <==>
   @   digit_of(NUMBER{Pre}(1, 1, order, memory, start, count, count), k - 1));
   @ ensures digit_of(NUMBER{Pre}(1, 1, order, memory, start, count + 1, count + 1), 0) <==>
   @   BIT{Pre}(order, memory, start + count);
   @ ensures 2 * NUMBER{Pre}(1, 1, order, memory, start, count, count)
   @   <= NUMBER{Pre}(1, 1, order, memory, start, count + 1, count + 1);
   @/
  void NEXT(uint8_t order, const WORD *memory, size_t start, size_t count) {
      DOUBLED(order, memory, start, count);
      model_halved();
      /@ assert least: 0 <= NUMBER{Pre}(1, 1, order, memory, start, count, count); @/
      /@ assert one: BIT{Pre}(order, memory, start + count) ==> NUMBER{Pre}(1, 1, order, memory, start, count + 1, count + 1)
       @   == 2 * NUMBER{Pre}(1, 1, order, memory, start, count, count) + 1; @/
      /@ assert zero: !BIT{Pre}(order, memory, start + count) ==> NUMBER{Pre}(1, 1, order, memory, start, count + 1, count + 1)
       @   == 2 * NUMBER{Pre}(1, 1, order, memory, start, count, count); @/
      /@ assert half: NUMBER{Pre}(1, 1, order, memory, start, count + 1, count + 1) / 2
       @   == NUMBER{Pre}(1, 1, order, memory, start, count, count); @/
  }
*/

/* They are the digits of the number that they make up, which has as many where the first is a one. */
/*@ ghost
  /@ requires start + count < 18446744073709551615;
   @ assigns \nothing;
   @ ensures \forall integer p; start <= p < start + count ==> (BIT{Pre}(order, memory, p) <==>
   @   digit_of(NUMBER{Pre}(1, 1, order, memory, start, count, count), start + count - 1 - p));
   @ ensures 0 < count && BIT{Pre}(order, memory, start) ==>
   @   power_of_two(count - 1) <= NUMBER{Pre}(1, 1, order, memory, start, count, count);
   @/
  void HELD(uint8_t order, const WORD *memory, size_t start, size_t count) {
      size_t n = 0;
      /@ loop invariant 0 <= n <= count;
       @ loop invariant \forall integer p; start <= p < start + n ==> (BIT{Pre}(order, memory, p) <==>
       @   digit_of(NUMBER{Pre}(1, 1, order, memory, start, n, n), start + n - 1 - p));
       @ loop invariant 0 < n && BIT{Pre}(order, memory, start) ==>
       @   power_of_two(n - 1) <= NUMBER{Pre}(1, 1, order, memory, start, n, n);
       @ loop assigns n;
       @ loop variant count - n;
       @/
      while (n < count) {
          NEXT(order, memory, start, n);
          /@ assert rest: \forall integer p; start <= p < start + n ==> (BIT{Pre}(order, memory, p) <==>
           @   digit_of(NUMBER{Pre}(1, 1, order, memory, start, n + 1, n + 1), start + n - p)); @/
          /@ assert all: \forall integer p; start <= p <= start + n ==> (BIT{Pre}(order, memory, p) <==>
           @   digit_of(NUMBER{Pre}(1, 1, order, memory, start, n + 1, n + 1), start + n - p)); @/
          /@ assert first: n == 0 && BIT{Pre}(order, memory, start) ==>
           @   1 <= NUMBER{Pre}(1, 1, order, memory, start, n + 1, n + 1); @/
          n++;
      }
  }
*/

/* Where the first is a one, they make up a power of two, and what those behind it make up. */
/*@ ghost
  /@ requires start + count < 18446744073709551615;
   @ requires BIT{Pre}(order, memory, start);
   @ assigns \nothing;
   @ ensures NUMBER{Pre}(1, 1, order, memory, start, count + 1, count + 1)
   @   == power_of_two(count) + NUMBER{Pre}(1, 1, order, memory, start + 1, count, count);
   @/
  void PARTED(uint8_t order, const WORD *memory, size_t start, size_t count) {
      size_t n = 0;
      /@ assert NUMBER{Pre}(1, 1, order, memory, start, count + 1, 0) == 0; @/
      /@ loop invariant 0 <= n <= count;
       @ loop invariant NUMBER{Pre}(1, 1, order, memory, start, count + 1, n + 1)
       @   == power_of_two(count) + NUMBER{Pre}(1, 1, order, memory, start + 1, count, n);
       @ loop assigns n;
       @ loop variant count - n;
       @/
      while (n < count)
          n++;
  }
*/

/* Where a code begins with so many zeros, the number has as many digits, and one more; */
/*@ ghost
  /@ requires \forall integer p; place <= p < place + zeros ==> !BIT{Pre}(order, memory, p);
   @ requires BIT{Pre}(order, memory, place + zeros);
   @ assigns \nothing;
   @ ensures \forall integer n, left; 0 <= n && IS_CODE{Pre}(order, memory, place, left, n) ==>
   @   digit_count(n + 1) == zeros + 1 && code_length(n) == 2 * zeros + 1 && n + 1 < power_of_two(zeros + 1);
   @/
  void FIRST(uint8_t order, const WORD *memory, size_t place, size_t zeros) {
      model_top();
      /@ assert least: \forall integer n; 0 <= n ==> 1 <= digit_count(n + 1); @/
      /@ assert most: \forall integer n; 0 <= n ==> n + 1 < power_of_two(digit_count(n + 1)); @/
      /@ assert top: \forall integer n; 0 <= n ==> digit_of(n + 1, digit_count(n + 1) - 1); @/
      /@ assert first: \forall integer n, left; 0 <= n && IS_CODE{Pre}(order, memory, place, left, n) ==>
       @   BIT{Pre}(order, memory, place + digit_count(n + 1) - 1); @/
      /@ assert zeros: \forall integer n, left; 0 <= n && IS_CODE{Pre}(order, memory, place, left, n) ==>
       @   digit_count(n + 1) == zeros + 1; @/
  }
*/

/* its bits hold a number where they are its digits from the greatest on; */
/*@ ghost
  /@ requires start + count <= 18446744073709551615;
   @ assigns \nothing;
   @ ensures \forall integer n; digit_count(n) == count && (\forall integer p; start <= p < start + count ==>
   @   (BIT{Pre}(order, memory, p) <==> digit_of(n, start + count - 1 - p))) ==>
   @   HOLDS{Pre}(1, 1, order, memory, start, count, n);
   @/
  void READABLE(uint8_t order, const WORD *memory, size_t start, size_t count) {
      /@ assert places: \forall integer j; place_of(1, 1, MODEL_BITS, order, start, count, j) == count - 1 - j; @/
  }
*/

/* and it is the code of one number alone. */
/*@ ghost
  /@ requires place + 2 * zeros + 1 <= 18446744073709551615;
   @ requires \forall integer p; place <= p < place + zeros ==> !BIT{Pre}(order, memory, p);
   @ requires BIT{Pre}(order, memory, place + zeros);
   @ assigns \nothing;
   @ ensures \forall integer n; 0 <= n && IS_CODE{Pre}(order, memory, place, left, n) ==>
   @   n + 1 == NUMBER{Pre}(1, 1, order, memory, place + zeros, zeros + 1, zeros + 1);
   @/
  void ONLY(uint8_t order, const WORD *memory, size_t place, size_t left, size_t zeros) {
      FIRST(order, memory, place, zeros);
      READABLE(order, memory, place + zeros, zeros + 1);
      /@ assert digits: \forall integer m; 1 <= m && IS_CODE{Pre}(order, memory, place, left, m - 1) ==>
       @   digit_count(m) == zeros + 1 && m < power_of_two(zeros + 1); @/
      /@ assert own: \forall integer m, p; 1 <= m && IS_CODE{Pre}(order, memory, place, left, m - 1) &&
       @   place + zeros <= p < place + zeros + (zeros + 1) ==>
       @   (BIT{Pre}(order, memory, p) <==> digit_of(m, place + zeros + (zeros + 1) - 1 - p)); @/
      /@ assert held: \forall integer m; 1 <= m && IS_CODE{Pre}(order, memory, place, left, m - 1) ==>
       @   HOLDS{Pre}(1, 1, order, memory, place + zeros, zeros + 1, m); @/
      /@ assert held_too: \forall integer n; 0 <= n && IS_CODE{Pre}(order, memory, place, left, n) ==>
       @   HOLDS{Pre}(1, 1, order, memory, place + zeros, zeros + 1, n + 1); @/
  }
*/

/* So of a power of two and a number below it. */
/*@ ghost
  /@ requires start + zeros + 1 < 18446744073709551615;
   @ requires NUMBER{Pre}(1, 1, order, memory, start, zeros + 1, zeros + 1) == power_of_two(zeros) + low;
   @ assigns \nothing;
   @ ensures \forall integer p; start <= p <= start + zeros ==>
   @   (BIT{Pre}(order, memory, p) <==> digit_of(power_of_two(zeros) + low, start + zeros - p));
   @/
  void SUMMED(uint8_t order, const WORD *memory, size_t start, size_t zeros, uint64_t low) {
      HELD(order, memory, start, zeros + 1);
      /@ assert own: \forall integer p; start <= p <= start + zeros ==> (BIT{Pre}(order, memory, p) <==>
       @   digit_of(NUMBER{Pre}(1, 1, order, memory, start, zeros + 1, zeros + 1), start + zeros - p)); @/
  }
*/

/* What makes a code. */
/*@ ghost
  /@ requires digit_count(power_of_two(zeros) + low) == zeros + 1 && 2 * zeros + 1 <= left;
   @ requires \forall integer p; place <= p < place + zeros ==> !BIT{Pre}(order, memory, p);
   @ requires one == place + zeros;
   @ requires \forall integer p; one <= p <= one + zeros ==>
   @   (BIT{Pre}(order, memory, p) <==> digit_of(power_of_two(zeros) + low, one + zeros - p));
   @ assigns \nothing;
   @ ensures IS_CODE{Pre}(order, memory, place, left, power_of_two(zeros) + low - 1);
   @/
  void MADE(uint8_t order, const WORD *memory, size_t place, size_t one, size_t left, size_t zeros, uint64_t low) {
      /@ assert length: code_length(power_of_two(zeros) + low - 1) == 2 * zeros + 1; @/
  }
*/

/* Of an Exp-Golomb code how many zeros it begins with, which are as many as the digits behind the first one. */
/*@ requires \valid_read(memory + (0 .. words - 1)) && \valid(zeros) && \separated(memory + (0 .. words - 1), zeros);
  @ assigns *zeros;
  @ ensures status: left_status(MODEL_BITS, order, words, place, end) != BITVEC_OK ==>
  @   \result == left_status(MODEL_BITS, order, words, place, end);
  @ ensures statuses: left_status(MODEL_BITS, order, words, place, end) == BITVEC_OK ==>
  @   \result == BITVEC_OK || \result == BITVEC_TOO_FEW;
  @ ensures none: left_status(MODEL_BITS, order, words, place, end) == BITVEC_OK && \result == BITVEC_TOO_FEW ==>
  @   !IS_CODED{Pre}(order, memory, place, left_of(place, end));
  @ ensures inside: \result == BITVEC_OK ==>
  @   order <= 1 && place + 2 * *zeros + 1 <= end <= words * MODEL_BITS <= 18446744073709551615;
  @ ensures first: \result == BITVEC_OK ==> BIT{Pre}(order, memory, place + *zeros);
  @ ensures bounds: \result == BITVEC_OK ==>
  @   power_of_two(*zeros) <= NUMBER{Pre}(1, 1, order, memory, place + *zeros, *zeros + 1, *zeros + 1) < power_of_two(*zeros + 1);
  @ ensures one: \result == BITVEC_OK ==>
  @   IS_CODE{Pre}(order, memory, place, left_of(place, end),
  @   NUMBER{Pre}(1, 1, order, memory, place + *zeros, *zeros + 1, *zeros + 1) - 1);
  @ ensures coded: \result == BITVEC_OK ==> IS_CODED{Pre}(order, memory, place, left_of(place, end));
  @ ensures length: \result == BITVEC_OK ==>
  @   code_length(NUMBER{Pre}(1, 1, order, memory, place + *zeros, *zeros + 1, *zeros + 1) - 1) == 2 * *zeros + 1;
  @ ensures only: \result == BITVEC_OK ==>
  @   (\forall integer n; 0 <= n && IS_CODE{Pre}(order, memory, place, left_of(place, end), n) ==>
  @   n + 1 == NUMBER{Pre}(1, 1, order, memory, place + *zeros, *zeros + 1, *zeros + 1));
  @*/
static uint8_t CODE(uint8_t order, const WORD *memory, size_t words, size_t place, size_t end, size_t *zeros) {
    uint8_t status = LEFT(order, words, place, end);
    if (status != BITVEC_OK)
        return status;
    size_t one = place;
    /*@ loop invariant place <= one <= end;
      @ loop invariant \forall integer p; place <= p < one ==> !BIT{Pre}(order, memory, p);
      @ loop assigns one;
      @ loop variant end - one;
      @*/
    while (one < end && !READ(order, memory, one))
        one++;
    size_t count = one - place;
    if (one == end) {
        //@ ghost model_top();
        //@ assert least: \forall integer n; 0 <= n ==> 1 <= digit_count(n + 1);
        //@ assert top: \forall integer n; 0 <= n ==> digit_of(n + 1, digit_count(n + 1) - 1);
        /*@ assert first: \forall integer n; 0 <= n && IS_CODE{Pre}(order, memory, place, left_of(place, end), n) ==>
          @   BIT{Pre}(order, memory, place + digit_count(n + 1) - 1); */
        return BITVEC_TOO_FEW;
    }
    //@ ghost FIRST(order, memory, place, count);
    if (count > end - one - 1)
        return BITVEC_TOO_FEW;
    //@ ghost ONLY(order, memory, place, end - place, count);
    //@ ghost HELD(order, memory, one, count + 1);
    //@ ghost model_length(count);
    /*@ assert bounds: power_of_two(count) <= NUMBER{Pre}(1, 1, order, memory, one, count + 1, count + 1)
      @   < power_of_two(count + 1); */
    //@ assert digits: digit_count(NUMBER{Pre}(1, 1, order, memory, one, count + 1, count + 1)) == count + 1;
    /*@ assert is_code: IS_CODE{Pre}(order, memory, place, left_of(place, end),
      @   NUMBER{Pre}(1, 1, order, memory, one, count + 1, count + 1) - 1); */
    *zeros = count;
    return status;
}

uint8_t MODEL(read_exp_golomb)(uint8_t order, const WORD *memory, size_t words, size_t *place, size_t end,
                               uint64_t *number) {
    //@ ghost model_powers();
    size_t zeros = 0, from = *place;
    uint8_t status = CODE(order, memory, words, from, end, &zeros);
    if (status != BITVEC_OK)
        return status;
    //@ ghost model_length(zeros);
    if (zeros > 64)
        return BITVEC_TOO_LARGE;
    uint64_t found = UINT64_MAX;
    //@ assert least: 1 <= NUMBER{Pre}(1, 1, order, memory, from + zeros, zeros + 1, zeros + 1);
    if (zeros < 64) {
        size_t one = from + zeros, count = zeros + 1;
        //@ assert no_overflow: one == from + zeros && count == zeros + 1;
        uint64_t more = TAKEN(true, true, order, memory, words, one, count);
        //@ assert short_found: more == NUMBER{Pre}(1, 1, order, memory, from + zeros, zeros + 1, zeros + 1);
        found = more - 1;
    } else {
        //@ ghost PARTED(order, memory, from + zeros, zeros);
        uint64_t low = TAKEN(true, true, order, memory, words, from + zeros + 1, zeros);
        /*@ assert long_found: NUMBER{Pre}(1, 1, order, memory, from + zeros, zeros + 1, zeros + 1)
          @   == 18446744073709551616 + low; */
        if (low != 0)
            return BITVEC_TOO_LARGE;
    }
    //@ assert found: found + 1 == NUMBER{Pre}(1, 1, order, memory, from + zeros, zeros + 1, zeros + 1);
    //@ assert is_code: IS_CODE{Pre}(order, memory, from, left_of(from, end), found);
    //@ assert length: code_length(found) == 2 * zeros + 1;
    *number = found;
    *place = from + 2 * zeros + 1;
    return status;
}

uint8_t MODEL(read_signed_exp_golomb)(uint8_t order, const WORD *memory, size_t words, size_t *place, size_t end,
                                      int64_t *number) {
    //@ ghost model_powers();
    size_t zeros = 0, from = *place;
    uint8_t status = CODE(order, memory, words, from, end, &zeros);
    if (status != BITVEC_OK)
        return status;
    //@ ghost model_length(zeros);
    /*@ assert fitting: \forall integer z; fits_signed(64, z) ==>
      @   0 <= signed_place(z) <= 18446744073709551616 && signed_place(z) != 18446744073709551615; */
    if (zeros > 64)
        return BITVEC_TOO_LARGE;
    int64_t found = -INT64_MAX - 1;
    if (zeros < 64) {
        size_t one = from + zeros, count = zeros + 1;
        //@ assert no_overflow: one == from + zeros && count == zeros + 1;
        uint64_t code = TAKEN(true, true, order, memory, words, one, count) - 1;
        //@ assert code: code + 1 == NUMBER{Pre}(1, 1, order, memory, from + zeros, zeros + 1, zeros + 1) <= 18446744073709551615;
        uint64_t half = code / 2;
        found = code - 2 * half == 1 ? (int64_t)half + 1 : -(int64_t)half;
    } else {
        //@ ghost PARTED(order, memory, from + zeros, zeros);
        uint64_t low = TAKEN(true, true, order, memory, words, from + zeros + 1, zeros);
        /*@ assert long_found: NUMBER{Pre}(1, 1, order, memory, from + zeros, zeros + 1, zeros + 1)
          @   == 18446744073709551616 + low; */
        if (low != 1)
            return BITVEC_TOO_LARGE;
    }
    //@ assert found: signed_place(found) + 1 == NUMBER{Pre}(1, 1, order, memory, from + zeros, zeros + 1, zeros + 1);
    //@ assert is_code: IS_CODE{Pre}(order, memory, from, left_of(from, end), signed_place(found));
    //@ assert length: code_length(signed_place(found)) == 2 * zeros + 1;
    *number = found;
    *place = from + 2 * zeros + 1;
    return status;
}

/* Makes the bits from a place on a code: as many zeros as are said, a one, and as many digits. */
/*@ requires order <= 1 && \valid(memory + (0 .. words - 1));
  @ requires from + 2 * zeros + 1 <= end <= words * MODEL_BITS <= 18446744073709551615;
  @ requires zeros <= 64 && low < power_of_two(zeros);
  @ assigns memory[0 .. words - 1];
  @ ensures range: IS_CODE{Post}(order, memory, from, end - from, power_of_two(zeros) + low - 1);
  @ ensures others: OTHERS{Pre, Post}(order, memory, words, from, 2 * zeros + 1);
  @*/
static void PUT_BITS(uint8_t order, WORD *memory, size_t words, size_t from, size_t end, size_t zeros, uint64_t low) {
    //@ ghost model_length(zeros);
    //@ assert digits: digit_count(power_of_two(zeros) + low) == zeros + 1;
    (void)end;
    size_t one = from + zeros;
    /*@ loop invariant 0 <= i <= zeros;
      @ loop invariant \forall integer p; from <= p < from + i ==> !BIT{Here}(order, memory, p);
      @ loop invariant OTHERS{Pre, Here}(order, memory, words, from, i);
      @ loop assigns i, memory[0 .. words - 1];
      @ loop variant zeros - i;
      @*/
    for (size_t i = 0; i < zeros; i++)
        PUT(order, memory, from + i, false);
    PUT(order, memory, one, true);
    GIVEN(true, true, order, memory, words, one + 1, zeros, low);
    //@ assert first: BIT{Here}(order, memory, one);
    //@ assert zeros: \forall integer p; from <= p < one ==> !BIT{Here}(order, memory, p);
    //@ assert given: HOLDS{Here}(1, 1, order, memory, one + 1, zeros, low);
    //@ assert low: NUMBER{Here}(1, 1, order, memory, one + 1, zeros, zeros) == low;
    //@ ghost PARTED(order, memory, one, zeros);
    //@ assert value: NUMBER{Here}(1, 1, order, memory, one, zeros + 1, zeros + 1) == power_of_two(zeros) + low;
    //@ ghost SUMMED(order, memory, one, zeros, low);
    /*@ assert held: \forall integer p; one <= p <= one + zeros ==>
      @   (BIT{Here}(order, memory, p) <==> digit_of(power_of_two(zeros) + low, one + zeros - p)); */
    //@ ghost MADE(order, memory, from, one, end - from, zeros, low);
}

/* Writes such a code, where it has room. */
/*@ requires \valid(memory + (0 .. words - 1)) && \valid(place) && \separated(memory + (0 .. words - 1), place);
  @ requires zeros <= 64 && low < power_of_two(zeros);
  @ assigns memory[0 .. words - 1], *place;
  @ ensures status: \result == then_status(left_status(MODEL_BITS, order, words, \old(*place), end),
  @   2 * zeros + 1 <= left_of(\old(*place), end) ? BITVEC_OK : BITVEC_TOO_FEW);
  @ ensures length: code_length(power_of_two(zeros) + low - 1) == 2 * zeros + 1;
  @ ensures range: \result == BITVEC_OK ==>
  @   IS_CODE{Post}(order, memory, \old(*place), left_of(\old(*place), end), power_of_two(zeros) + low - 1);
  @ ensures others: \result == BITVEC_OK ==> OTHERS{Pre, Post}(order, memory, words, \old(*place), 2 * zeros + 1);
  @ ensures moved: \result == BITVEC_OK ==> *place == \old(*place) + 2 * zeros + 1;
  @ ensures refused: \result != BITVEC_OK ==> KEPT{Pre, Post}(memory, words) && *place == \old(*place);
  @*/
static uint8_t PUT_CODE(uint8_t order, WORD *memory, size_t words, size_t *place, size_t end, size_t zeros,
                        uint64_t low) {
    //@ ghost model_length(zeros);
    uint8_t status = LEFT(order, words, *place, end);
    //@ assert digits: digit_count(power_of_two(zeros) + low) == zeros + 1;
    if (status == BITVEC_OK && 2 * zeros + 1 > end - *place)
        status = BITVEC_TOO_FEW;
    if (status != BITVEC_OK)
        return status;
    size_t from = *place;
    PUT_BITS(order, memory, words, from, end, zeros, low);
    //@ ghost Done: ;
    *place = from + 2 * zeros + 1;
    //@ assert kept: KEPT{Done, Here}(memory, words);
    //@ assert same: OTHERS{Done, Here}(order, memory, words, 0, 0);
    return status;
}

uint8_t MODEL(write_exp_golomb)(uint8_t order, WORD *memory, size_t words, size_t *place, size_t end,
                                uint64_t number) {
    //@ ghost model_powers();
    if (number == UINT64_MAX)
        return PUT_CODE(order, memory, words, place, end, 64, 0);
    size_t zeros = 0;
    /*@ loop invariant 0 <= zeros <= 63 && power_of_two(zeros) <= number + 1;
      @ loop assigns zeros;
      @ loop variant 63 - zeros;
      @*/
    while (zeros < 63 && number + 1 >= model_power(zeros + 1))
        zeros++;
    //@ assert most: number + 1 < power_of_two(zeros + 1);
    return PUT_CODE(order, memory, words, place, end, zeros, number + 1 - model_power(zeros));
}

uint8_t MODEL(write_signed_exp_golomb)(uint8_t order, WORD *memory, size_t words, size_t *place, size_t end,
                                       int64_t number) {
    //@ ghost model_powers();
    if (number == -INT64_MAX - 1) {
        //@ assert least: signed_place(number) == power_of_two(64);
        return PUT_CODE(order, memory, words, place, end, 64, 1);
    }
    uint64_t code = number > 0 ? 2 * (uint64_t)number - 1 : 2 * (uint64_t)-number;
    //@ assert code: code == signed_place(number);
    return MODEL(write_exp_golomb)(order, memory, words, place, end, code);
}

/* The status of spans that may be as many as they are. */
/*@ requires \valid_read(spans + (0 .. count - 1));
  @ assigns \nothing;
  @ ensures is_spans_status{Pre}(\result, MODEL_BITS, 0, BITVEC_OK, spans, count, words);
  @*/
static uint8_t SPANS(size_t words, const struct bitvec_span *spans, size_t count) {
    /*@ loop invariant 0 <= i <= count;
      @ loop invariant short_spans{Here}(spans, i);
      @ loop assigns i;
      @ loop variant count - i;
      @*/
    for (size_t i = 0; i < count; i++)
        if (spans[i].count > BITVEC_MAX_BITS) {
            //@ assert too_long: !short_spans{Here}(spans, count);
            return BITVEC_TOO_LONG;
        }
    /*@ loop invariant 0 <= i <= count;
      @ loop invariant inside_spans{Here}(MODEL_BITS, words, spans, i);
      @ loop invariant 0 < i ==> words * MODEL_BITS <= 18446744073709551615;
      @ loop assigns i;
      @ loop variant count - i;
      @*/
    for (size_t i = 0; i < count; i++)
        if (STATUS(0, words, spans[i].start, spans[i].count) != BITVEC_OK) {
            //@ assert outside: !inside_spans{Here}(MODEL_BITS, words, spans, count);
            return BITVEC_OUTSIDE;
        }
    /*@ loop invariant 0 <= k <= count;
      @ loop invariant apart_spans{Here}(spans, k);
      @ loop assigns k;
      @ loop variant count - k;
      @*/
    for (size_t k = 0; k < count; k++) {
        /*@ loop invariant 0 <= j <= k;
          @ loop invariant \forall integer i; 0 <= i < j && 0 < spans[i].count && 0 < spans[k].count ==>
          @   spans[i].start + spans[i].count <= spans[k].start || spans[k].start + spans[k].count <= spans[i].start;
          @ loop assigns j;
          @ loop variant k - j;
          @*/
        for (size_t j = 0; j < k; j++)
            if (spans[j].count != 0 && spans[k].count != 0 && spans[k].start < spans[j].start + spans[j].count &&
                spans[j].start < spans[k].start + spans[k].count) {
                //@ assert common: !apart_spans{Here}(spans, count);
                return BITVEC_OVERLAP;
            }
    }
    return BITVEC_OK;
}

uint8_t MODEL(can_run)(uint8_t order, size_t words, const struct bitvec_span *spans, size_t span_count) {
    if (order > 1)
        return BITVEC_NO_ORDER;
    return span_count > BITVEC_MAX_SPANS ? BITVEC_TOO_MANY_SPANS : SPANS(words, spans, span_count);
}

/* (a sort by insertion, of which a test of two spans tells nothing more) */
uint8_t MODEL(can_run_in)(uint8_t order, size_t words, const struct bitvec_span *spans, size_t span_count,
                          size_t *room, size_t room_count) {
    if (order > 1)
        return BITVEC_NO_ORDER;
    if (room_count != span_count)
        return BITVEC_NO_ROOM;
    uint8_t status = SPANS(words, spans, span_count);
    if (status != BITVEC_OK && status != BITVEC_OVERLAP)
        return status;
    /*@ loop invariant 0 <= i <= span_count;
      @ loop invariant rising{Pre, Here}(spans, i, room);
      @ loop invariant \forall integer k; 0 <= k < span_count ==> spans[k].start == \at(spans[k].start, Pre);
      @ loop assigns i, room[0 .. room_count - 1];
      @ loop variant span_count - i;
      @*/
    for (size_t i = 0; i < span_count; i++) {
        size_t j = i;
        /*@ loop invariant 0 <= j <= i;
          @ loop invariant \forall integer k; 0 <= k <= i && k != j ==> room[k] < i;
          @ loop invariant \forall integer k, l; 0 <= k < l <= i && k != j && l != j ==> room[k] != room[l];
          @ loop invariant \forall integer k, l; 0 <= k < l <= i && k != j && l != j ==>
          @   \at(spans[\at(room[k], Here)].start, Pre) <= \at(spans[\at(room[l], Here)].start, Pre);
          @ loop invariant \forall integer k; j < k <= i ==>
          @   \at(spans[\at(i, Here)].start, Pre) < \at(spans[\at(room[k], Here)].start, Pre);
          @ loop invariant \forall integer k; 0 <= k < span_count ==> spans[k].start == \at(spans[k].start, Pre);
          @ loop assigns j, room[0 .. room_count - 1];
          @ loop variant j;
          @*/
        while (j > 0 && spans[room[j - 1]].start > spans[i].start) {
            room[j] = room[j - 1];
            j--;
        }
        /*@ assert last: j == 0 ||
          @   \at(spans[\at(room[j - 1], Here)].start, Pre) <= \at(spans[\at(i, Here)].start, Pre); */
        /*@ assert before: \forall integer k; 0 <= k < j ==>
          @   \at(spans[\at(room[k], Here)].start, Pre) <= \at(spans[\at(i, Here)].start, Pre); */
        room[j] = i;
        //@ assert numbers: \forall integer k; 0 <= k <= i ==> room[k] <= i;
        //@ assert once: \forall integer k, l; 0 <= k < l <= i ==> room[k] != room[l];
        /*@ assert others: \forall integer k, l; 0 <= k < l <= i && k != j && l != j ==>
          @   \at(spans[\at(room[k], Here)].start, Pre) <= \at(spans[\at(room[l], Here)].start, Pre); */
        /*@ assert below: \forall integer k; 0 <= k < j ==>
          @   \at(spans[\at(room[k], Here)].start, Pre) <= \at(spans[\at(room[j], Here)].start, Pre); */
        /*@ assert above: \forall integer k; j < k <= i ==>
          @   \at(spans[\at(room[j], Here)].start, Pre) <= \at(spans[\at(room[k], Here)].start, Pre); */
        /*@ assert sorted: \forall integer k, l; 0 <= k < l <= i ==>
          @   \at(spans[\at(room[k], Here)].start, Pre) <= \at(spans[\at(room[l], Here)].start, Pre); */
    }
    return status;
}
#endif
