/* The model of the calls on words of two widths, of MODEL_OTHER bits, which are read alone, and of MODEL_BITS: as model.h,
 * of which it takes the functions that read a bit and put one. */
#ifndef BITVEC_MODEL_PAIRS_H
#define BITVEC_MODEL_PAIRS_H
#include "model.h"

#define PAIR_JOIN_(a, b, c, d) a##b##c##d
#define PAIR_JOIN(a, b, c, d) PAIR_JOIN_(a, b, c, d)
#ifdef __FRAMAC__
#define PAIR(call, first, link, second) PAIR_JOIN(bitvec_c_##call##_u, first, link, second)
#else
#define PAIR(call, first, link, second) PAIR_JOIN(model_##call##_u, first, link, second)
#endif
#define OTHER_WORD MODEL_JOIN(uint, MODEL_OTHER, _t)
#define OTHER_BIT MODEL_JOIN(bit, _u, MODEL_OTHER)
#define READ_OTHER MODEL_JOIN(model_bit, _u, MODEL_OTHER)
#define OTHER_STATUS MODEL_JOIN(model_status, _u, MODEL_OTHER)

#define MODEL_BITS 8
#include "model_pairs.h"
#undef MODEL_BITS
#define MODEL_BITS 16
#include "model_pairs.h"
#undef MODEL_BITS
#define MODEL_BITS 32
#include "model_pairs.h"
#undef MODEL_BITS
#define MODEL_BITS 64
#include "model_pairs.h"
#undef MODEL_BITS
#elif !defined(MODEL_OTHER)
#define MODEL_OTHER 8
#include "model_pairs.h"
#undef MODEL_OTHER
#define MODEL_OTHER 16
#include "model_pairs.h"
#undef MODEL_OTHER
#define MODEL_OTHER 32
#include "model_pairs.h"
#undef MODEL_OTHER
#define MODEL_OTHER 64
#include "model_pairs.h"
#undef MODEL_OTHER
#else

uint8_t PAIR(copy, MODEL_OTHER, _to_u, MODEL_BITS)(uint8_t order, WORD *target, size_t target_words,
                                                   size_t target_start, uint8_t source_order,
                                                   const OTHER_WORD *source, size_t source_words,
                                                   size_t source_start, size_t count) {
    uint8_t status = OTHER_STATUS(source_order, source_words, source_start, count);
    if (status == BITVEC_OK)
        status = STATUS(order, target_words, target_start, count);
    if (status != BITVEC_OK)
        return status;
    /*@ loop invariant 0 <= i <= count;
      @ loop invariant \forall integer p; target_start <= p < target_start + i ==>
      @   (BIT{Here}(order, target, p) <==> OTHER_BIT{Pre}(source_order, source, source_start + (p - target_start)));
      @ loop invariant OTHERS{Pre, Here}(order, target, target_words, target_start, i);
      @ loop assigns i, target[0 .. target_words - 1];
      @ loop variant count - i;
      @*/
    for (size_t i = 0; i < count; i++) {
        bool bit = READ_OTHER(source_order, source, source_start + i);
        PUT(order, target, target_start + i, bit);
    }
    return status;
}

uint8_t PAIR(first_difference, MODEL_BITS, _with_u, MODEL_OTHER)(uint8_t order, const WORD *memory, size_t words,
                                                                 size_t start, uint8_t other_order,
                                                                 const OTHER_WORD *other, size_t other_words,
                                                                 size_t other_start, size_t count, size_t *index) {
    uint8_t status = STATUS(order, words, start, count);
    if (status == BITVEC_OK)
        status = OTHER_STATUS(other_order, other_words, other_start, count);
    if (status != BITVEC_OK)
        return status;
    size_t i = 0;
    /*@ loop invariant 0 <= i <= count;
      @ loop invariant \forall integer p; start <= p < start + i ==>
      @   (BIT{Pre}(order, memory, p) <==> OTHER_BIT{Pre}(other_order, other, other_start + (p - start)));
      @ loop assigns i;
      @ loop variant count - i;
      @*/
    while (i < count && READ(order, memory, start + i) == READ_OTHER(other_order, other, other_start + i))
        i++;
    *index = i;
    return status;
}
#endif
