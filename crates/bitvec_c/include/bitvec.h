/* Bits in words: any range of bits in an array of words.
 *
 *   Job           Calls; `get` is bitvec_c_get_u8, _u16, _u32 and _u64, and so each but `version`
 *   The version   version
 *   One bit       get, set, replace, swap
 *   A range       fill, invert, reverse
 *   Searching     first_one, first, first_zero, last, last_one, last_zero, next, next_one,
 *                 next_zero, previous, previous_one, previous_zero, find_zeros, find_zeros_from
 *   Counting      count_ones, count_zeros, is_empty, is_full
 *   Moving        copy, copy_within, copy_V_to_W, shift_left, shift_right, rotate_left
 *   Two ranges    and, or, xor, and_not, and_within, or_within, xor_within, and_not_within, and_of,
 *                 or_of, xor_of, and_not_of, equal, count_and, first_and, intersects,
 *                 first_and_not, is_subset, first_difference, first_difference_V_with_W
 *   Numbers       load, store, load_signed, store_signed
 *   Streams       read, read_signed, read_unary, read_exp_golomb, read_signed_exp_golomb, write,
 *                 write_signed, write_unary, write_exp_golomb, write_signed_exp_golomb
 *   Runs          can_run, run, can_run_in, run_in
 *
 * The order of a call's arguments is always the same: the order of the bits; what is changed or, as
 * in memcpy, the target; the source, or another memory; what is asked; and where answers go. Each
 * memory is a pointer, the number of its words, and where its range starts in it.
 *
 * A memory is an array of words of 8, 16, 32 or 64 bits, and each call has the width in its name:
 * u8, u16, u32 or u64. A place counts the bits of a memory from 0 on: it is the bit of the index
 * `place % width` in the word `place / width`. A range of bits is the place of its first bit, and
 * how many bits it has. The order says where the bit of an index lies in a word: BITVEC_LSB0 has
 * index 0 at the least digit, BITVEC_MSB0 at the greatest.
 *
 * Each call returns a status: BITVEC_OK, or, of the conditions below that the call names and that
 * do not hold, the one with the lowest number. Two kinds of calls test in another order: one with
 * an order for each of two memories tests the source, or the first where there is none, whole
 * before the other, and bitvec_c_can_run_in_W and bitvec_c_run_in_W test that `room_count` is
 * `span_count` right behind the order. Where the status is not BITVEC_OK, nothing is changed and no
 * answer is written, but for the room of these two calls, which say what it holds then. A call that
 * changes bits changes those of its range alone, also in words that the range shares.
 *
 * What a caller sees to, since nothing tests it:
 *
 * - A pointer is aligned for its type, and as many items as the number after it says can be read
 *   there, or written where the call writes. Each item has a value before the call, also where the
 *   call writes it.
 * - A pointer whose number is 0 is never followed, and may be NULL: tests show this, no proof does.
 *   A pointer to an answer, or to a place that is moved, has no such number after it, and is never
 *   NULL. An answer needs no value before the call, which writes it and does not read it; a place
 *   that is moved needs one.
 * - What a call writes shares nothing with its other arguments; where it does, the behaviour is
 *   undefined. So the source and the target of bitvec_c_copy_W, bitvec_c_copy_V_to_W,
 *   bitvec_c_and_W and its like do not overlap: bitvec_c_copy_within_W is the call for a copy
 *   inside one array. What a call only reads may overlap.
 * - Two calls may run at the same time, in two threads, where neither writes what the other reads
 *   or writes. A word belongs to one thread at a time, also where the ranges in it are disjoint.
 *
 * No call allocates, keeps a pointer, calls back, or touches anything but its arguments. What each
 * costs is said in words of the memory that its range meets; where nothing is said, it is constant.
 *
 * The archive libbitvec_c.a is for x86-64 of level 2 or later (`-march=x86-64-v2`: it has popcnt).
 * It needs nothing but memcpy, memmove, memset and memcmp. */
#ifndef BITVEC_H
#define BITVEC_H

#include <stdbool.h>
#include <stddef.h>
#include <stdint.h>

#if SIZE_MAX != UINT64_MAX
#error "the archive is for machines whose size_t has 64 bits"
#endif

/* The version of this header: 10000 times its first part, 100 times its second, and its third. The
 * archive is of the same release where bitvec_c_version() returns it too. */
#define BITVEC_VERSION 500

/* Before a call whose status a caller may not ignore. */
#if defined(__GNUC__)
#define BITVEC_CHECKED __attribute__((warn_unused_result))
#elif defined(__cplusplus) && __cplusplus >= 201703L
#define BITVEC_CHECKED [[nodiscard]]
#elif defined(__STDC_VERSION__) && __STDC_VERSION__ >= 202311L
#define BITVEC_CHECKED [[nodiscard]]
#else
#define BITVEC_CHECKED
#endif

/* Behind a call whose argument of that number, from 1 on, is never NULL. */
#if defined(__GNUC__)
#define BITVEC_NONNULL(argument) __attribute__((nonnull(argument)))
#else
#define BITVEC_NONNULL(argument)
#endif

/* A function of the header: in C one of each file, in C++ one of the program. */
#if defined(__cplusplus)
#define BITVEC_INLINE inline
#else
#define BITVEC_INLINE static inline
#endif

/* An enum of bytes, as each argument of one is, so that no conversion is warned of. */
#if (defined(__cplusplus) && __cplusplus >= 201103L) || \
    (defined(__STDC_VERSION__) && __STDC_VERSION__ >= 202311L)
#define BITVEC_ENUM(name) enum name : uint8_t
#elif defined(__GNUC__)
#define BITVEC_ENUM(name) enum __attribute__((packed)) name
#else
#define BITVEC_ENUM(name) enum name
#endif

/* How many words an array has; not for a pointer. */
#define BITVEC_WORDS(array) (sizeof(array) / sizeof((array)[0]))

#ifdef __cplusplus
extern "C" {
#endif

/* Where the bit of an index lies in a word: an `order` of every call below. */
BITVEC_ENUM(bitvec_order) {
    BITVEC_LSB0 = 0, /* index i at digit i */
    BITVEC_MSB0 = 1  /* index i at digit width - 1 - i */
};

/* What a call returns; each says which of these it refuses with. */
BITVEC_ENUM(bitvec_status) {
    BITVEC_OK = 0,
    BITVEC_NO_ORDER = 1,       /* the order is neither of the two */
    BITVEC_TOO_MANY_SPANS = 2, /* a run has more than BITVEC_MAX_SPANS spans */
    BITVEC_TOO_LONG = 3,       /* a range has more than BITVEC_MAX_BITS bits */
    BITVEC_OUTSIDE = 4,        /* a range ends past the last bit of its memory, or a move goes past
                                  its range */
    BITVEC_TOO_WIDE = 5,       /* a number is to have more than 64 bits */
    BITVEC_OVERLAP = 6,        /* two spans of a run have a bit in common */
    BITVEC_NO_ROOM = 7,        /* a run has not as many replies as requests, or room for the numbers
                                  of its spans */
    BITVEC_NO_COMMAND = 8,     /* the command of a request is none of those below */
    BITVEC_TOO_FEW = 9,        /* fewer bits are left of a stream than are to be read or written, or
                                  they end before a run or a code does */
    BITVEC_TOO_LARGE = 10      /* the number of a code has more digits than what it is read to, or
                                  a number more than the bits that it is to be written in */
};

/* Returns what a status says, in a few words. */
BITVEC_INLINE const char *bitvec_status_text(uint8_t status) {
    switch (status) {
    case BITVEC_OK:
        return "done";
    case BITVEC_NO_ORDER:
        return "the order is neither of the two";
    case BITVEC_TOO_MANY_SPANS:
        return "more spans than a run may have";
    case BITVEC_TOO_LONG:
        return "more bits than a range may have";
    case BITVEC_OUTSIDE:
        return "past the end of the memory or of the range";
    case BITVEC_TOO_WIDE:
        return "a number of more than 64 bits";
    case BITVEC_OVERLAP:
        return "two spans have a bit in common";
    case BITVEC_NO_ROOM:
        return "no room for the replies or the numbers of the spans";
    case BITVEC_NO_COMMAND:
        return "there is no such command";
    case BITVEC_TOO_FEW:
        return "too few bits are left";
    case BITVEC_TOO_LARGE:
        return "the number is too large";
    default:
        return "no status";
    }
}

/* How many spans a run has at most. */
#define BITVEC_MAX_SPANS 64

/* How many bits a range has at most. */
#define BITVEC_MAX_BITS UINT64_C(2305843009213693951)

/* A range of bits, for a run: the place of the first bit, and how many there are. */
struct bitvec_span {
    size_t start;
    size_t count;
};

/* What a request asks of its span. A `word k` is the k-th of the words that the span meets, from 0
 * on, and a bit is named by its place in the span, from 0 on. */
BITVEC_ENUM(bitvec_command) {
    BITVEC_LOAD = 0,    /* a = k: what the word has of the span, all other digits 0 */
    BITVEC_STORE = 1,   /* a = k, number: puts its digits where the word has bits of the span */
    BITVEC_SET = 2,     /* a = k: makes the span's bits in the word one */
    BITVEC_CLEAR = 3,   /* a = k: makes them zero */
    BITVEC_INVERT = 4,  /* a = k: turns them over */
    BITVEC_READ = 5,    /* a: the bit */
    BITVEC_REPLACE = 6, /* a, number: makes the bit the number's least digit */
    BITVEC_SWAP = 7,    /* a, b: exchanges two bits */
    BITVEC_COPY = 8,    /* a, b, count: copies `count` bits from a to b, which may overlap */
    BITVEC_FILL = 9     /* a, b, number: makes the bits from a to before b its least digit */
};

/* A command to the span of a number, from 0 on. What the command does not name is not read, and the
 * digits of a number that are past the word's width are dropped. */
struct bitvec_request {
    size_t span;
    size_t a;
    size_t b;
    size_t count;
    uint64_t number;
    uint8_t command; /* an enum bitvec_command */
};

/* What a reply's number is. */
BITVEC_ENUM(bitvec_reply_kind) {
    BITVEC_WORD = 0,     /* to LOAD, STORE, SET, CLEAR, INVERT: what LOAD gives, as it was before */
    BITVEC_BIT = 1,      /* to READ, REPLACE: the bit as it was before, 0 or 1 */
    BITVEC_DONE = 2,     /* to SWAP, COPY, FILL: 0 */
    BITVEC_PAST_END = 3, /* a word, a bit or a stretch is not in the span, or a FILL has its a past
                            its b: 0, and nothing is changed */
    BITVEC_NO_SPAN = 4   /* there is no span of that number: 0, and nothing is changed */
};

struct bitvec_reply {
    uint64_t number;
    uint8_t kind; /* an enum bitvec_reply_kind */
};

/* Frama-C reads what each call promises. */
#if defined(__FRAMAC__) && !defined(BITVEC_NO_ACSL)
#include "bitvec_acsl.h"
#endif

/* --------------------------------------- The version ---------------------------------------- */

/* Returns the version of the archive, to be compared with that of the header, BITVEC_VERSION. */
uint32_t bitvec_c_version(void);

/* ----------------------------------------- One bit ------------------------------------------ */

/* A place names a bit of the memory, or the call refuses with BITVEC_OUTSIDE. */

/* Writes to `bit` the bit at a place. Refuses with BITVEC_NO_ORDER or BITVEC_OUTSIDE. */
BITVEC_CHECKED uint8_t bitvec_c_get_u8(
    uint8_t order, const uint8_t *memory, size_t words, size_t place, bool *bit) BITVEC_NONNULL(5);
BITVEC_CHECKED uint8_t bitvec_c_get_u16(
    uint8_t order, const uint16_t *memory, size_t words, size_t place, bool *bit) BITVEC_NONNULL(5);
BITVEC_CHECKED uint8_t bitvec_c_get_u32(
    uint8_t order, const uint32_t *memory, size_t words, size_t place, bool *bit) BITVEC_NONNULL(5);
BITVEC_CHECKED uint8_t bitvec_c_get_u64(
    uint8_t order, const uint64_t *memory, size_t words, size_t place, bool *bit) BITVEC_NONNULL(5);

/* Makes the bit at a place the same as `bit`. Refuses with BITVEC_NO_ORDER or BITVEC_OUTSIDE. */
BITVEC_CHECKED uint8_t bitvec_c_set_u8(
    uint8_t order, uint8_t *memory, size_t words, size_t place, bool bit);
BITVEC_CHECKED uint8_t bitvec_c_set_u16(
    uint8_t order, uint16_t *memory, size_t words, size_t place, bool bit);
BITVEC_CHECKED uint8_t bitvec_c_set_u32(
    uint8_t order, uint32_t *memory, size_t words, size_t place, bool bit);
BITVEC_CHECKED uint8_t bitvec_c_set_u64(
    uint8_t order, uint64_t *memory, size_t words, size_t place, bool bit);

/* Writes to `before` the bit at a place, and makes it the same as `bit`. Refuses with
 * BITVEC_NO_ORDER or BITVEC_OUTSIDE. */
BITVEC_CHECKED uint8_t bitvec_c_replace_u8(
    uint8_t order, uint8_t *memory, size_t words, size_t place, bool bit, bool *before)
    BITVEC_NONNULL(6);
BITVEC_CHECKED uint8_t bitvec_c_replace_u16(
    uint8_t order, uint16_t *memory, size_t words, size_t place, bool bit, bool *before)
    BITVEC_NONNULL(6);
BITVEC_CHECKED uint8_t bitvec_c_replace_u32(
    uint8_t order, uint32_t *memory, size_t words, size_t place, bool bit, bool *before)
    BITVEC_NONNULL(6);
BITVEC_CHECKED uint8_t bitvec_c_replace_u64(
    uint8_t order, uint64_t *memory, size_t words, size_t place, bool bit, bool *before)
    BITVEC_NONNULL(6);

/* Exchanges the bits at two places, which may be the same one. Refuses with BITVEC_NO_ORDER or
 * BITVEC_OUTSIDE. */
BITVEC_CHECKED uint8_t bitvec_c_swap_u8(
    uint8_t order, uint8_t *memory, size_t words, size_t place, size_t other_place);
BITVEC_CHECKED uint8_t bitvec_c_swap_u16(
    uint8_t order, uint16_t *memory, size_t words, size_t place, size_t other_place);
BITVEC_CHECKED uint8_t bitvec_c_swap_u32(
    uint8_t order, uint32_t *memory, size_t words, size_t place, size_t other_place);
BITVEC_CHECKED uint8_t bitvec_c_swap_u64(
    uint8_t order, uint64_t *memory, size_t words, size_t place, size_t other_place);

/* ----------------------------------------- A range ------------------------------------------ */

/* The range has `count` bits from `start` on. */

/* Makes each bit of a range the same as `bit`. Refuses with BITVEC_NO_ORDER, BITVEC_TOO_LONG or
 * BITVEC_OUTSIDE. Costs by words. */
BITVEC_CHECKED uint8_t bitvec_c_fill_u8(
    uint8_t order, uint8_t *memory, size_t words, size_t start, size_t count, bool bit);
BITVEC_CHECKED uint8_t bitvec_c_fill_u16(
    uint8_t order, uint16_t *memory, size_t words, size_t start, size_t count, bool bit);
BITVEC_CHECKED uint8_t bitvec_c_fill_u32(
    uint8_t order, uint32_t *memory, size_t words, size_t start, size_t count, bool bit);
BITVEC_CHECKED uint8_t bitvec_c_fill_u64(
    uint8_t order, uint64_t *memory, size_t words, size_t start, size_t count, bool bit);

/* Turns over each bit of a range. Refuses with BITVEC_NO_ORDER, BITVEC_TOO_LONG or BITVEC_OUTSIDE.
 * Costs by words. */
BITVEC_CHECKED uint8_t bitvec_c_invert_u8(
    uint8_t order, uint8_t *memory, size_t words, size_t start, size_t count);
BITVEC_CHECKED uint8_t bitvec_c_invert_u16(
    uint8_t order, uint16_t *memory, size_t words, size_t start, size_t count);
BITVEC_CHECKED uint8_t bitvec_c_invert_u32(
    uint8_t order, uint32_t *memory, size_t words, size_t start, size_t count);
BITVEC_CHECKED uint8_t bitvec_c_invert_u64(
    uint8_t order, uint64_t *memory, size_t words, size_t start, size_t count);

/* Puts the bits of a range in the opposite order. Refuses with BITVEC_NO_ORDER, BITVEC_TOO_LONG or
 * BITVEC_OUTSIDE. Costs by words. */
BITVEC_CHECKED uint8_t bitvec_c_reverse_u8(
    uint8_t order, uint8_t *memory, size_t words, size_t start, size_t count);
BITVEC_CHECKED uint8_t bitvec_c_reverse_u16(
    uint8_t order, uint16_t *memory, size_t words, size_t start, size_t count);
BITVEC_CHECKED uint8_t bitvec_c_reverse_u32(
    uint8_t order, uint32_t *memory, size_t words, size_t start, size_t count);
BITVEC_CHECKED uint8_t bitvec_c_reverse_u64(
    uint8_t order, uint64_t *memory, size_t words, size_t start, size_t count);

/* ---------------------------------------- Searching ----------------------------------------- */

/* The range has `count` bits from `start` on. The answer is an index in the range, from 0 on, and
 * `count` where there is none; the place of that bit is `start` and the index. */

/* Writes to `index` the index of the first bit that is one. Refuses with BITVEC_NO_ORDER,
 * BITVEC_TOO_LONG or BITVEC_OUTSIDE. Costs by words, up to that bit. */
BITVEC_CHECKED uint8_t bitvec_c_first_one_u8(
    uint8_t order, const uint8_t *memory, size_t words, size_t start, size_t count, size_t *index)
    BITVEC_NONNULL(6);
BITVEC_CHECKED uint8_t bitvec_c_first_one_u16(
    uint8_t order, const uint16_t *memory, size_t words, size_t start, size_t count, size_t *index)
    BITVEC_NONNULL(6);
BITVEC_CHECKED uint8_t bitvec_c_first_one_u32(
    uint8_t order, const uint32_t *memory, size_t words, size_t start, size_t count, size_t *index)
    BITVEC_NONNULL(6);
BITVEC_CHECKED uint8_t bitvec_c_first_one_u64(
    uint8_t order, const uint64_t *memory, size_t words, size_t start, size_t count, size_t *index)
    BITVEC_NONNULL(6);

/* Writes to `index` the index of the first bit that is the same as `bit`. Refuses with
 * BITVEC_NO_ORDER, BITVEC_TOO_LONG or BITVEC_OUTSIDE. Costs by words, up to that bit. */
BITVEC_CHECKED uint8_t bitvec_c_first_u8(
    uint8_t order, const uint8_t *memory, size_t words, size_t start, size_t count, bool bit,
    size_t *index) BITVEC_NONNULL(7);
BITVEC_CHECKED uint8_t bitvec_c_first_u16(
    uint8_t order, const uint16_t *memory, size_t words, size_t start, size_t count, bool bit,
    size_t *index) BITVEC_NONNULL(7);
BITVEC_CHECKED uint8_t bitvec_c_first_u32(
    uint8_t order, const uint32_t *memory, size_t words, size_t start, size_t count, bool bit,
    size_t *index) BITVEC_NONNULL(7);
BITVEC_CHECKED uint8_t bitvec_c_first_u64(
    uint8_t order, const uint64_t *memory, size_t words, size_t start, size_t count, bool bit,
    size_t *index) BITVEC_NONNULL(7);

/* Writes to `index` the index of the first bit that is zero. Refuses with BITVEC_NO_ORDER,
 * BITVEC_TOO_LONG or BITVEC_OUTSIDE. Costs by words, up to that bit. */
BITVEC_CHECKED BITVEC_NONNULL(6) BITVEC_INLINE uint8_t bitvec_c_first_zero_u8(
    uint8_t order, const uint8_t *memory, size_t words, size_t start, size_t count, size_t *index) {
    return bitvec_c_first_u8(order, memory, words, start, count, false, index);
}
BITVEC_CHECKED BITVEC_NONNULL(6) BITVEC_INLINE uint8_t bitvec_c_first_zero_u16(
    uint8_t order, const uint16_t *memory, size_t words, size_t start, size_t count, size_t *index)
    {
    return bitvec_c_first_u16(order, memory, words, start, count, false, index);
}
BITVEC_CHECKED BITVEC_NONNULL(6) BITVEC_INLINE uint8_t bitvec_c_first_zero_u32(
    uint8_t order, const uint32_t *memory, size_t words, size_t start, size_t count, size_t *index)
    {
    return bitvec_c_first_u32(order, memory, words, start, count, false, index);
}
BITVEC_CHECKED BITVEC_NONNULL(6) BITVEC_INLINE uint8_t bitvec_c_first_zero_u64(
    uint8_t order, const uint64_t *memory, size_t words, size_t start, size_t count, size_t *index)
    {
    return bitvec_c_first_u64(order, memory, words, start, count, false, index);
}

/* Writes to `index` the index of the last bit that is the same as `bit`. Refuses with
 * BITVEC_NO_ORDER, BITVEC_TOO_LONG or BITVEC_OUTSIDE. Costs by words, down to that bit. */
BITVEC_CHECKED uint8_t bitvec_c_last_u8(
    uint8_t order, const uint8_t *memory, size_t words, size_t start, size_t count, bool bit,
    size_t *index) BITVEC_NONNULL(7);
BITVEC_CHECKED uint8_t bitvec_c_last_u16(
    uint8_t order, const uint16_t *memory, size_t words, size_t start, size_t count, bool bit,
    size_t *index) BITVEC_NONNULL(7);
BITVEC_CHECKED uint8_t bitvec_c_last_u32(
    uint8_t order, const uint32_t *memory, size_t words, size_t start, size_t count, bool bit,
    size_t *index) BITVEC_NONNULL(7);
BITVEC_CHECKED uint8_t bitvec_c_last_u64(
    uint8_t order, const uint64_t *memory, size_t words, size_t start, size_t count, bool bit,
    size_t *index) BITVEC_NONNULL(7);

/* Writes to `index` the index of the last bit that is one. Refuses with BITVEC_NO_ORDER,
 * BITVEC_TOO_LONG or BITVEC_OUTSIDE. Costs by words, down to that bit. */
BITVEC_CHECKED BITVEC_NONNULL(6) BITVEC_INLINE uint8_t bitvec_c_last_one_u8(
    uint8_t order, const uint8_t *memory, size_t words, size_t start, size_t count, size_t *index) {
    return bitvec_c_last_u8(order, memory, words, start, count, true, index);
}
BITVEC_CHECKED BITVEC_NONNULL(6) BITVEC_INLINE uint8_t bitvec_c_last_one_u16(
    uint8_t order, const uint16_t *memory, size_t words, size_t start, size_t count, size_t *index)
    {
    return bitvec_c_last_u16(order, memory, words, start, count, true, index);
}
BITVEC_CHECKED BITVEC_NONNULL(6) BITVEC_INLINE uint8_t bitvec_c_last_one_u32(
    uint8_t order, const uint32_t *memory, size_t words, size_t start, size_t count, size_t *index)
    {
    return bitvec_c_last_u32(order, memory, words, start, count, true, index);
}
BITVEC_CHECKED BITVEC_NONNULL(6) BITVEC_INLINE uint8_t bitvec_c_last_one_u64(
    uint8_t order, const uint64_t *memory, size_t words, size_t start, size_t count, size_t *index)
    {
    return bitvec_c_last_u64(order, memory, words, start, count, true, index);
}

/* Writes to `index` the index of the last bit that is zero. Refuses with BITVEC_NO_ORDER,
 * BITVEC_TOO_LONG or BITVEC_OUTSIDE. Costs by words, down to that bit. */
BITVEC_CHECKED BITVEC_NONNULL(6) BITVEC_INLINE uint8_t bitvec_c_last_zero_u8(
    uint8_t order, const uint8_t *memory, size_t words, size_t start, size_t count, size_t *index) {
    return bitvec_c_last_u8(order, memory, words, start, count, false, index);
}
BITVEC_CHECKED BITVEC_NONNULL(6) BITVEC_INLINE uint8_t bitvec_c_last_zero_u16(
    uint8_t order, const uint16_t *memory, size_t words, size_t start, size_t count, size_t *index)
    {
    return bitvec_c_last_u16(order, memory, words, start, count, false, index);
}
BITVEC_CHECKED BITVEC_NONNULL(6) BITVEC_INLINE uint8_t bitvec_c_last_zero_u32(
    uint8_t order, const uint32_t *memory, size_t words, size_t start, size_t count, size_t *index)
    {
    return bitvec_c_last_u32(order, memory, words, start, count, false, index);
}
BITVEC_CHECKED BITVEC_NONNULL(6) BITVEC_INLINE uint8_t bitvec_c_last_zero_u64(
    uint8_t order, const uint64_t *memory, size_t words, size_t start, size_t count, size_t *index)
    {
    return bitvec_c_last_u64(order, memory, words, start, count, false, index);
}

/* Writes to `index` the index of the first bit, of those from index `from` on, that is the same as
 * `bit`. Refuses with BITVEC_NO_ORDER, BITVEC_TOO_LONG or BITVEC_OUTSIDE. Costs by words, up to
 * that bit. */
BITVEC_CHECKED uint8_t bitvec_c_next_u8(
    uint8_t order, const uint8_t *memory, size_t words, size_t start, size_t count, size_t from,
    bool bit, size_t *index) BITVEC_NONNULL(8);
BITVEC_CHECKED uint8_t bitvec_c_next_u16(
    uint8_t order, const uint16_t *memory, size_t words, size_t start, size_t count, size_t from,
    bool bit, size_t *index) BITVEC_NONNULL(8);
BITVEC_CHECKED uint8_t bitvec_c_next_u32(
    uint8_t order, const uint32_t *memory, size_t words, size_t start, size_t count, size_t from,
    bool bit, size_t *index) BITVEC_NONNULL(8);
BITVEC_CHECKED uint8_t bitvec_c_next_u64(
    uint8_t order, const uint64_t *memory, size_t words, size_t start, size_t count, size_t from,
    bool bit, size_t *index) BITVEC_NONNULL(8);

/* Writes to `index` the index of the first bit, of those from index `from` on, that is one. Refuses
 * with BITVEC_NO_ORDER, BITVEC_TOO_LONG or BITVEC_OUTSIDE. Costs by words, up to that bit. */
BITVEC_CHECKED BITVEC_NONNULL(7) BITVEC_INLINE uint8_t bitvec_c_next_one_u8(
    uint8_t order, const uint8_t *memory, size_t words, size_t start, size_t count, size_t from,
    size_t *index) {
    return bitvec_c_next_u8(order, memory, words, start, count, from, true, index);
}
BITVEC_CHECKED BITVEC_NONNULL(7) BITVEC_INLINE uint8_t bitvec_c_next_one_u16(
    uint8_t order, const uint16_t *memory, size_t words, size_t start, size_t count, size_t from,
    size_t *index) {
    return bitvec_c_next_u16(order, memory, words, start, count, from, true, index);
}
BITVEC_CHECKED BITVEC_NONNULL(7) BITVEC_INLINE uint8_t bitvec_c_next_one_u32(
    uint8_t order, const uint32_t *memory, size_t words, size_t start, size_t count, size_t from,
    size_t *index) {
    return bitvec_c_next_u32(order, memory, words, start, count, from, true, index);
}
BITVEC_CHECKED BITVEC_NONNULL(7) BITVEC_INLINE uint8_t bitvec_c_next_one_u64(
    uint8_t order, const uint64_t *memory, size_t words, size_t start, size_t count, size_t from,
    size_t *index) {
    return bitvec_c_next_u64(order, memory, words, start, count, from, true, index);
}

/* Writes to `index` the index of the first bit, of those from index `from` on, that is zero.
 * Refuses with BITVEC_NO_ORDER, BITVEC_TOO_LONG or BITVEC_OUTSIDE. Costs by words, up to that
 * bit. */
BITVEC_CHECKED BITVEC_NONNULL(7) BITVEC_INLINE uint8_t bitvec_c_next_zero_u8(
    uint8_t order, const uint8_t *memory, size_t words, size_t start, size_t count, size_t from,
    size_t *index) {
    return bitvec_c_next_u8(order, memory, words, start, count, from, false, index);
}
BITVEC_CHECKED BITVEC_NONNULL(7) BITVEC_INLINE uint8_t bitvec_c_next_zero_u16(
    uint8_t order, const uint16_t *memory, size_t words, size_t start, size_t count, size_t from,
    size_t *index) {
    return bitvec_c_next_u16(order, memory, words, start, count, from, false, index);
}
BITVEC_CHECKED BITVEC_NONNULL(7) BITVEC_INLINE uint8_t bitvec_c_next_zero_u32(
    uint8_t order, const uint32_t *memory, size_t words, size_t start, size_t count, size_t from,
    size_t *index) {
    return bitvec_c_next_u32(order, memory, words, start, count, from, false, index);
}
BITVEC_CHECKED BITVEC_NONNULL(7) BITVEC_INLINE uint8_t bitvec_c_next_zero_u64(
    uint8_t order, const uint64_t *memory, size_t words, size_t start, size_t count, size_t from,
    size_t *index) {
    return bitvec_c_next_u64(order, memory, words, start, count, from, false, index);
}

/* Writes to `index` the index of the last bit, of those before index `before`, that is the same as
 * `bit`. Refuses with BITVEC_NO_ORDER, BITVEC_TOO_LONG or BITVEC_OUTSIDE. Costs by words, down to
 * that bit. */
BITVEC_CHECKED uint8_t bitvec_c_previous_u8(
    uint8_t order, const uint8_t *memory, size_t words, size_t start, size_t count, size_t before,
    bool bit, size_t *index) BITVEC_NONNULL(8);
BITVEC_CHECKED uint8_t bitvec_c_previous_u16(
    uint8_t order, const uint16_t *memory, size_t words, size_t start, size_t count, size_t before,
    bool bit, size_t *index) BITVEC_NONNULL(8);
BITVEC_CHECKED uint8_t bitvec_c_previous_u32(
    uint8_t order, const uint32_t *memory, size_t words, size_t start, size_t count, size_t before,
    bool bit, size_t *index) BITVEC_NONNULL(8);
BITVEC_CHECKED uint8_t bitvec_c_previous_u64(
    uint8_t order, const uint64_t *memory, size_t words, size_t start, size_t count, size_t before,
    bool bit, size_t *index) BITVEC_NONNULL(8);

/* Writes to `index` the index of the last bit, of those before index `before`, that is one. Refuses
 * with BITVEC_NO_ORDER, BITVEC_TOO_LONG or BITVEC_OUTSIDE. Costs by words, down to that bit. */
BITVEC_CHECKED BITVEC_NONNULL(7) BITVEC_INLINE uint8_t bitvec_c_previous_one_u8(
    uint8_t order, const uint8_t *memory, size_t words, size_t start, size_t count, size_t before,
    size_t *index) {
    return bitvec_c_previous_u8(order, memory, words, start, count, before, true, index);
}
BITVEC_CHECKED BITVEC_NONNULL(7) BITVEC_INLINE uint8_t bitvec_c_previous_one_u16(
    uint8_t order, const uint16_t *memory, size_t words, size_t start, size_t count, size_t before,
    size_t *index) {
    return bitvec_c_previous_u16(order, memory, words, start, count, before, true, index);
}
BITVEC_CHECKED BITVEC_NONNULL(7) BITVEC_INLINE uint8_t bitvec_c_previous_one_u32(
    uint8_t order, const uint32_t *memory, size_t words, size_t start, size_t count, size_t before,
    size_t *index) {
    return bitvec_c_previous_u32(order, memory, words, start, count, before, true, index);
}
BITVEC_CHECKED BITVEC_NONNULL(7) BITVEC_INLINE uint8_t bitvec_c_previous_one_u64(
    uint8_t order, const uint64_t *memory, size_t words, size_t start, size_t count, size_t before,
    size_t *index) {
    return bitvec_c_previous_u64(order, memory, words, start, count, before, true, index);
}

/* Writes to `index` the index of the last bit, of those before index `before`, that is zero.
 * Refuses with BITVEC_NO_ORDER, BITVEC_TOO_LONG or BITVEC_OUTSIDE. Costs by words, down to that
 * bit. */
BITVEC_CHECKED BITVEC_NONNULL(7) BITVEC_INLINE uint8_t bitvec_c_previous_zero_u8(
    uint8_t order, const uint8_t *memory, size_t words, size_t start, size_t count, size_t before,
    size_t *index) {
    return bitvec_c_previous_u8(order, memory, words, start, count, before, false, index);
}
BITVEC_CHECKED BITVEC_NONNULL(7) BITVEC_INLINE uint8_t bitvec_c_previous_zero_u16(
    uint8_t order, const uint16_t *memory, size_t words, size_t start, size_t count, size_t before,
    size_t *index) {
    return bitvec_c_previous_u16(order, memory, words, start, count, before, false, index);
}
BITVEC_CHECKED BITVEC_NONNULL(7) BITVEC_INLINE uint8_t bitvec_c_previous_zero_u32(
    uint8_t order, const uint32_t *memory, size_t words, size_t start, size_t count, size_t before,
    size_t *index) {
    return bitvec_c_previous_u32(order, memory, words, start, count, before, false, index);
}
BITVEC_CHECKED BITVEC_NONNULL(7) BITVEC_INLINE uint8_t bitvec_c_previous_zero_u64(
    uint8_t order, const uint64_t *memory, size_t words, size_t start, size_t count, size_t before,
    size_t *index) {
    return bitvec_c_previous_u64(order, memory, words, start, count, before, false, index);
}

/* Writes to `index` the first index from which on `zeros` bits are in the range and zero. For 0
 * zeros it is 0. Refuses with BITVEC_NO_ORDER, BITVEC_TOO_LONG or BITVEC_OUTSIDE. Costs by words,
 * where a run is no longer than a word, else by bits in words that are not zero. */
BITVEC_CHECKED uint8_t bitvec_c_find_zeros_u8(
    uint8_t order, const uint8_t *memory, size_t words, size_t start, size_t count, size_t zeros,
    size_t *index) BITVEC_NONNULL(7);
BITVEC_CHECKED uint8_t bitvec_c_find_zeros_u16(
    uint8_t order, const uint16_t *memory, size_t words, size_t start, size_t count, size_t zeros,
    size_t *index) BITVEC_NONNULL(7);
BITVEC_CHECKED uint8_t bitvec_c_find_zeros_u32(
    uint8_t order, const uint32_t *memory, size_t words, size_t start, size_t count, size_t zeros,
    size_t *index) BITVEC_NONNULL(7);
BITVEC_CHECKED uint8_t bitvec_c_find_zeros_u64(
    uint8_t order, const uint64_t *memory, size_t words, size_t start, size_t count, size_t zeros,
    size_t *index) BITVEC_NONNULL(7);

/* Writes to `index` the first index, not before `from` and a multiple of `multiple_of`, from which
 * on `zeros` bits are in the range and zero. A `multiple_of` of 0 is taken as 1. Refuses with
 * BITVEC_NO_ORDER, BITVEC_TOO_LONG or BITVEC_OUTSIDE. Costs as bitvec_c_find_zeros_W, and once more
 * for each run that is long enough, but not from a multiple on. */
BITVEC_CHECKED uint8_t bitvec_c_find_zeros_from_u8(
    uint8_t order, const uint8_t *memory, size_t words, size_t start, size_t count, size_t from,
    size_t zeros, size_t multiple_of, size_t *index) BITVEC_NONNULL(9);
BITVEC_CHECKED uint8_t bitvec_c_find_zeros_from_u16(
    uint8_t order, const uint16_t *memory, size_t words, size_t start, size_t count, size_t from,
    size_t zeros, size_t multiple_of, size_t *index) BITVEC_NONNULL(9);
BITVEC_CHECKED uint8_t bitvec_c_find_zeros_from_u32(
    uint8_t order, const uint32_t *memory, size_t words, size_t start, size_t count, size_t from,
    size_t zeros, size_t multiple_of, size_t *index) BITVEC_NONNULL(9);
BITVEC_CHECKED uint8_t bitvec_c_find_zeros_from_u64(
    uint8_t order, const uint64_t *memory, size_t words, size_t start, size_t count, size_t from,
    size_t zeros, size_t multiple_of, size_t *index) BITVEC_NONNULL(9);

/* ----------------------------------------- Counting ----------------------------------------- */

/* The range has `count` bits from `start` on. */

/* Writes to `ones` how many bits of a range are one. Refuses with BITVEC_NO_ORDER, BITVEC_TOO_LONG
 * or BITVEC_OUTSIDE. Costs by words. */
BITVEC_CHECKED uint8_t bitvec_c_count_ones_u8(
    uint8_t order, const uint8_t *memory, size_t words, size_t start, size_t count, size_t *ones)
    BITVEC_NONNULL(6);
BITVEC_CHECKED uint8_t bitvec_c_count_ones_u16(
    uint8_t order, const uint16_t *memory, size_t words, size_t start, size_t count, size_t *ones)
    BITVEC_NONNULL(6);
BITVEC_CHECKED uint8_t bitvec_c_count_ones_u32(
    uint8_t order, const uint32_t *memory, size_t words, size_t start, size_t count, size_t *ones)
    BITVEC_NONNULL(6);
BITVEC_CHECKED uint8_t bitvec_c_count_ones_u64(
    uint8_t order, const uint64_t *memory, size_t words, size_t start, size_t count, size_t *ones)
    BITVEC_NONNULL(6);

/* Writes to `zeros` how many bits of a range are zero. Refuses with BITVEC_NO_ORDER,
 * BITVEC_TOO_LONG or BITVEC_OUTSIDE. Costs by words. */
BITVEC_CHECKED BITVEC_NONNULL(6) BITVEC_INLINE uint8_t bitvec_c_count_zeros_u8(
    uint8_t order, const uint8_t *memory, size_t words, size_t start, size_t count, size_t *zeros) {
    size_t ones = 0;
    uint8_t status = bitvec_c_count_ones_u8(order, memory, words, start, count, &ones);
    if (status == BITVEC_OK)
        *zeros = count - ones;
    return status;
}
BITVEC_CHECKED BITVEC_NONNULL(6) BITVEC_INLINE uint8_t bitvec_c_count_zeros_u16(
    uint8_t order, const uint16_t *memory, size_t words, size_t start, size_t count, size_t *zeros)
    {
    size_t ones = 0;
    uint8_t status = bitvec_c_count_ones_u16(order, memory, words, start, count, &ones);
    if (status == BITVEC_OK)
        *zeros = count - ones;
    return status;
}
BITVEC_CHECKED BITVEC_NONNULL(6) BITVEC_INLINE uint8_t bitvec_c_count_zeros_u32(
    uint8_t order, const uint32_t *memory, size_t words, size_t start, size_t count, size_t *zeros)
    {
    size_t ones = 0;
    uint8_t status = bitvec_c_count_ones_u32(order, memory, words, start, count, &ones);
    if (status == BITVEC_OK)
        *zeros = count - ones;
    return status;
}
BITVEC_CHECKED BITVEC_NONNULL(6) BITVEC_INLINE uint8_t bitvec_c_count_zeros_u64(
    uint8_t order, const uint64_t *memory, size_t words, size_t start, size_t count, size_t *zeros)
    {
    size_t ones = 0;
    uint8_t status = bitvec_c_count_ones_u64(order, memory, words, start, count, &ones);
    if (status == BITVEC_OK)
        *zeros = count - ones;
    return status;
}

/* Writes to `empty` whether no bit of a range is one. Refuses with BITVEC_NO_ORDER, BITVEC_TOO_LONG
 * or BITVEC_OUTSIDE. Costs by words, up to the first that is. */
BITVEC_CHECKED BITVEC_NONNULL(6) BITVEC_INLINE uint8_t bitvec_c_is_empty_u8(
    uint8_t order, const uint8_t *memory, size_t words, size_t start, size_t count, bool *empty) {
    size_t index = 0;
    uint8_t status = bitvec_c_first_one_u8(order, memory, words, start, count, &index);
    if (status == BITVEC_OK)
        *empty = index == count;
    return status;
}
BITVEC_CHECKED BITVEC_NONNULL(6) BITVEC_INLINE uint8_t bitvec_c_is_empty_u16(
    uint8_t order, const uint16_t *memory, size_t words, size_t start, size_t count, bool *empty) {
    size_t index = 0;
    uint8_t status = bitvec_c_first_one_u16(order, memory, words, start, count, &index);
    if (status == BITVEC_OK)
        *empty = index == count;
    return status;
}
BITVEC_CHECKED BITVEC_NONNULL(6) BITVEC_INLINE uint8_t bitvec_c_is_empty_u32(
    uint8_t order, const uint32_t *memory, size_t words, size_t start, size_t count, bool *empty) {
    size_t index = 0;
    uint8_t status = bitvec_c_first_one_u32(order, memory, words, start, count, &index);
    if (status == BITVEC_OK)
        *empty = index == count;
    return status;
}
BITVEC_CHECKED BITVEC_NONNULL(6) BITVEC_INLINE uint8_t bitvec_c_is_empty_u64(
    uint8_t order, const uint64_t *memory, size_t words, size_t start, size_t count, bool *empty) {
    size_t index = 0;
    uint8_t status = bitvec_c_first_one_u64(order, memory, words, start, count, &index);
    if (status == BITVEC_OK)
        *empty = index == count;
    return status;
}

/* Writes to `full` whether each bit of a range is one. Refuses with BITVEC_NO_ORDER,
 * BITVEC_TOO_LONG or BITVEC_OUTSIDE. Costs by words, up to the first that is not. */
BITVEC_CHECKED BITVEC_NONNULL(6) BITVEC_INLINE uint8_t bitvec_c_is_full_u8(
    uint8_t order, const uint8_t *memory, size_t words, size_t start, size_t count, bool *full) {
    size_t index = 0;
    uint8_t status = bitvec_c_first_u8(order, memory, words, start, count, false, &index);
    if (status == BITVEC_OK)
        *full = index == count;
    return status;
}
BITVEC_CHECKED BITVEC_NONNULL(6) BITVEC_INLINE uint8_t bitvec_c_is_full_u16(
    uint8_t order, const uint16_t *memory, size_t words, size_t start, size_t count, bool *full) {
    size_t index = 0;
    uint8_t status = bitvec_c_first_u16(order, memory, words, start, count, false, &index);
    if (status == BITVEC_OK)
        *full = index == count;
    return status;
}
BITVEC_CHECKED BITVEC_NONNULL(6) BITVEC_INLINE uint8_t bitvec_c_is_full_u32(
    uint8_t order, const uint32_t *memory, size_t words, size_t start, size_t count, bool *full) {
    size_t index = 0;
    uint8_t status = bitvec_c_first_u32(order, memory, words, start, count, false, &index);
    if (status == BITVEC_OK)
        *full = index == count;
    return status;
}
BITVEC_CHECKED BITVEC_NONNULL(6) BITVEC_INLINE uint8_t bitvec_c_is_full_u64(
    uint8_t order, const uint64_t *memory, size_t words, size_t start, size_t count, bool *full) {
    size_t index = 0;
    uint8_t status = bitvec_c_first_u64(order, memory, words, start, count, false, &index);
    if (status == BITVEC_OK)
        *full = index == count;
    return status;
}

/* ------------------------------------------ Moving ------------------------------------------ */

/* A copy goes to `target_start` on, from `source_start` on. Both ranges have `count` bits, and both
 * are tested. */

/* Copies bits of one memory to another, under one order. The two arrays share no word. Refuses with
 * BITVEC_NO_ORDER, BITVEC_TOO_LONG or BITVEC_OUTSIDE. Costs by words. */
BITVEC_CHECKED uint8_t bitvec_c_copy_u8(
    uint8_t order, uint8_t *target, size_t target_words, size_t target_start, const uint8_t *source,
    size_t source_words, size_t source_start, size_t count);
BITVEC_CHECKED uint8_t bitvec_c_copy_u16(
    uint8_t order, uint16_t *target, size_t target_words, size_t target_start,
    const uint16_t *source, size_t source_words, size_t source_start, size_t count);
BITVEC_CHECKED uint8_t bitvec_c_copy_u32(
    uint8_t order, uint32_t *target, size_t target_words, size_t target_start,
    const uint32_t *source, size_t source_words, size_t source_start, size_t count);
BITVEC_CHECKED uint8_t bitvec_c_copy_u64(
    uint8_t order, uint64_t *target, size_t target_words, size_t target_start,
    const uint64_t *source, size_t source_words, size_t source_start, size_t count);

/* Copies bits of a memory to another place of it. The two ranges may overlap: the target gets the
 * bits as they were before. Refuses with BITVEC_NO_ORDER, BITVEC_TOO_LONG or BITVEC_OUTSIDE. Costs
 * by words. */
BITVEC_CHECKED uint8_t bitvec_c_copy_within_u8(
    uint8_t order, uint8_t *memory, size_t words, size_t target_start, size_t source_start,
    size_t count);
BITVEC_CHECKED uint8_t bitvec_c_copy_within_u16(
    uint8_t order, uint16_t *memory, size_t words, size_t target_start, size_t source_start,
    size_t count);
BITVEC_CHECKED uint8_t bitvec_c_copy_within_u32(
    uint8_t order, uint32_t *memory, size_t words, size_t target_start, size_t source_start,
    size_t count);
BITVEC_CHECKED uint8_t bitvec_c_copy_within_u64(
    uint8_t order, uint64_t *memory, size_t words, size_t target_start, size_t source_start,
    size_t count);

/* Copies bits of a memory of words of one width to one of words of another, each under an order of
 * its own. The two memories share no word. Refuses with BITVEC_NO_ORDER, BITVEC_TOO_LONG or
 * BITVEC_OUTSIDE. Costs by words where the orders are the same, else by bits. */
BITVEC_CHECKED uint8_t bitvec_c_copy_u8_to_u8(
    uint8_t order, uint8_t *target, size_t target_words, size_t target_start, uint8_t source_order,
    const uint8_t *source, size_t source_words, size_t source_start, size_t count);
BITVEC_CHECKED uint8_t bitvec_c_copy_u8_to_u16(
    uint8_t order, uint16_t *target, size_t target_words, size_t target_start, uint8_t source_order,
    const uint8_t *source, size_t source_words, size_t source_start, size_t count);
BITVEC_CHECKED uint8_t bitvec_c_copy_u8_to_u32(
    uint8_t order, uint32_t *target, size_t target_words, size_t target_start, uint8_t source_order,
    const uint8_t *source, size_t source_words, size_t source_start, size_t count);
BITVEC_CHECKED uint8_t bitvec_c_copy_u8_to_u64(
    uint8_t order, uint64_t *target, size_t target_words, size_t target_start, uint8_t source_order,
    const uint8_t *source, size_t source_words, size_t source_start, size_t count);
BITVEC_CHECKED uint8_t bitvec_c_copy_u16_to_u8(
    uint8_t order, uint8_t *target, size_t target_words, size_t target_start, uint8_t source_order,
    const uint16_t *source, size_t source_words, size_t source_start, size_t count);
BITVEC_CHECKED uint8_t bitvec_c_copy_u16_to_u16(
    uint8_t order, uint16_t *target, size_t target_words, size_t target_start, uint8_t source_order,
    const uint16_t *source, size_t source_words, size_t source_start, size_t count);
BITVEC_CHECKED uint8_t bitvec_c_copy_u16_to_u32(
    uint8_t order, uint32_t *target, size_t target_words, size_t target_start, uint8_t source_order,
    const uint16_t *source, size_t source_words, size_t source_start, size_t count);
BITVEC_CHECKED uint8_t bitvec_c_copy_u16_to_u64(
    uint8_t order, uint64_t *target, size_t target_words, size_t target_start, uint8_t source_order,
    const uint16_t *source, size_t source_words, size_t source_start, size_t count);
BITVEC_CHECKED uint8_t bitvec_c_copy_u32_to_u8(
    uint8_t order, uint8_t *target, size_t target_words, size_t target_start, uint8_t source_order,
    const uint32_t *source, size_t source_words, size_t source_start, size_t count);
BITVEC_CHECKED uint8_t bitvec_c_copy_u32_to_u16(
    uint8_t order, uint16_t *target, size_t target_words, size_t target_start, uint8_t source_order,
    const uint32_t *source, size_t source_words, size_t source_start, size_t count);
BITVEC_CHECKED uint8_t bitvec_c_copy_u32_to_u32(
    uint8_t order, uint32_t *target, size_t target_words, size_t target_start, uint8_t source_order,
    const uint32_t *source, size_t source_words, size_t source_start, size_t count);
BITVEC_CHECKED uint8_t bitvec_c_copy_u32_to_u64(
    uint8_t order, uint64_t *target, size_t target_words, size_t target_start, uint8_t source_order,
    const uint32_t *source, size_t source_words, size_t source_start, size_t count);
BITVEC_CHECKED uint8_t bitvec_c_copy_u64_to_u8(
    uint8_t order, uint8_t *target, size_t target_words, size_t target_start, uint8_t source_order,
    const uint64_t *source, size_t source_words, size_t source_start, size_t count);
BITVEC_CHECKED uint8_t bitvec_c_copy_u64_to_u16(
    uint8_t order, uint16_t *target, size_t target_words, size_t target_start, uint8_t source_order,
    const uint64_t *source, size_t source_words, size_t source_start, size_t count);
BITVEC_CHECKED uint8_t bitvec_c_copy_u64_to_u32(
    uint8_t order, uint32_t *target, size_t target_words, size_t target_start, uint8_t source_order,
    const uint64_t *source, size_t source_words, size_t source_start, size_t count);
BITVEC_CHECKED uint8_t bitvec_c_copy_u64_to_u64(
    uint8_t order, uint64_t *target, size_t target_words, size_t target_start, uint8_t source_order,
    const uint64_t *source, size_t source_words, size_t source_start, size_t count);

/* Moves each of the `count` bits from `start` on `by` places towards the first, so that the first
 * `by` are lost, and makes the last `by` zero. Refuses with BITVEC_NO_ORDER, BITVEC_TOO_LONG or
 * BITVEC_OUTSIDE (also where `by` is past `count`). Costs by words. */
BITVEC_CHECKED uint8_t bitvec_c_shift_left_u8(
    uint8_t order, uint8_t *memory, size_t words, size_t start, size_t count, size_t by);
BITVEC_CHECKED uint8_t bitvec_c_shift_left_u16(
    uint8_t order, uint16_t *memory, size_t words, size_t start, size_t count, size_t by);
BITVEC_CHECKED uint8_t bitvec_c_shift_left_u32(
    uint8_t order, uint32_t *memory, size_t words, size_t start, size_t count, size_t by);
BITVEC_CHECKED uint8_t bitvec_c_shift_left_u64(
    uint8_t order, uint64_t *memory, size_t words, size_t start, size_t count, size_t by);

/* Moves each of the `count` bits from `start` on `by` places towards the last, so that the last
 * `by` are lost, and makes the first `by` zero. Refuses with BITVEC_NO_ORDER, BITVEC_TOO_LONG or
 * BITVEC_OUTSIDE (also where `by` is past `count`). Costs by words. */
BITVEC_CHECKED uint8_t bitvec_c_shift_right_u8(
    uint8_t order, uint8_t *memory, size_t words, size_t start, size_t count, size_t by);
BITVEC_CHECKED uint8_t bitvec_c_shift_right_u16(
    uint8_t order, uint16_t *memory, size_t words, size_t start, size_t count, size_t by);
BITVEC_CHECKED uint8_t bitvec_c_shift_right_u32(
    uint8_t order, uint32_t *memory, size_t words, size_t start, size_t count, size_t by);
BITVEC_CHECKED uint8_t bitvec_c_shift_right_u64(
    uint8_t order, uint64_t *memory, size_t words, size_t start, size_t count, size_t by);

/* Puts the first `by` of the `count` bits from `start` on behind the others. Refuses with
 * BITVEC_NO_ORDER, BITVEC_TOO_LONG or BITVEC_OUTSIDE (also where `by` is past `count`). Costs by
 * words. */
BITVEC_CHECKED uint8_t bitvec_c_rotate_left_u8(
    uint8_t order, uint8_t *memory, size_t words, size_t start, size_t count, size_t by);
BITVEC_CHECKED uint8_t bitvec_c_rotate_left_u16(
    uint8_t order, uint16_t *memory, size_t words, size_t start, size_t count, size_t by);
BITVEC_CHECKED uint8_t bitvec_c_rotate_left_u32(
    uint8_t order, uint32_t *memory, size_t words, size_t start, size_t count, size_t by);
BITVEC_CHECKED uint8_t bitvec_c_rotate_left_u64(
    uint8_t order, uint64_t *memory, size_t words, size_t start, size_t count, size_t by);

/* ---------------------------------------- Two ranges ---------------------------------------- */

/* Both ranges have `count` bits, and both are tested. Each memory has an order of its own, `order`
 * that of the target, or of the first, but for bitvec_c_equal_W and the calls of one array
 * (`within`) and of three (`of`), which have one order. A target shares no word with another array;
 * what is only read may share words. */

/* Leaves one those bits of the target whose bit in the source is one: an intersection. Refuses with
 * BITVEC_NO_ORDER, BITVEC_TOO_LONG or BITVEC_OUTSIDE. Costs by words where the orders are the same,
 * else by bits. */
BITVEC_CHECKED uint8_t bitvec_c_and_u8(
    uint8_t order, uint8_t *target, size_t target_words, size_t target_start, uint8_t source_order,
    const uint8_t *source, size_t source_words, size_t source_start, size_t count);
BITVEC_CHECKED uint8_t bitvec_c_and_u16(
    uint8_t order, uint16_t *target, size_t target_words, size_t target_start, uint8_t source_order,
    const uint16_t *source, size_t source_words, size_t source_start, size_t count);
BITVEC_CHECKED uint8_t bitvec_c_and_u32(
    uint8_t order, uint32_t *target, size_t target_words, size_t target_start, uint8_t source_order,
    const uint32_t *source, size_t source_words, size_t source_start, size_t count);
BITVEC_CHECKED uint8_t bitvec_c_and_u64(
    uint8_t order, uint64_t *target, size_t target_words, size_t target_start, uint8_t source_order,
    const uint64_t *source, size_t source_words, size_t source_start, size_t count);

/* Makes one those bits of the target whose bit in the source is one: a union. Refuses with
 * BITVEC_NO_ORDER, BITVEC_TOO_LONG or BITVEC_OUTSIDE. Costs by words where the orders are the same,
 * else by bits. */
BITVEC_CHECKED uint8_t bitvec_c_or_u8(
    uint8_t order, uint8_t *target, size_t target_words, size_t target_start, uint8_t source_order,
    const uint8_t *source, size_t source_words, size_t source_start, size_t count);
BITVEC_CHECKED uint8_t bitvec_c_or_u16(
    uint8_t order, uint16_t *target, size_t target_words, size_t target_start, uint8_t source_order,
    const uint16_t *source, size_t source_words, size_t source_start, size_t count);
BITVEC_CHECKED uint8_t bitvec_c_or_u32(
    uint8_t order, uint32_t *target, size_t target_words, size_t target_start, uint8_t source_order,
    const uint32_t *source, size_t source_words, size_t source_start, size_t count);
BITVEC_CHECKED uint8_t bitvec_c_or_u64(
    uint8_t order, uint64_t *target, size_t target_words, size_t target_start, uint8_t source_order,
    const uint64_t *source, size_t source_words, size_t source_start, size_t count);

/* Turns over those bits of the target whose bit in the source is one: a symmetric difference.
 * Refuses with BITVEC_NO_ORDER, BITVEC_TOO_LONG or BITVEC_OUTSIDE. Costs by words where the orders
 * are the same, else by bits. */
BITVEC_CHECKED uint8_t bitvec_c_xor_u8(
    uint8_t order, uint8_t *target, size_t target_words, size_t target_start, uint8_t source_order,
    const uint8_t *source, size_t source_words, size_t source_start, size_t count);
BITVEC_CHECKED uint8_t bitvec_c_xor_u16(
    uint8_t order, uint16_t *target, size_t target_words, size_t target_start, uint8_t source_order,
    const uint16_t *source, size_t source_words, size_t source_start, size_t count);
BITVEC_CHECKED uint8_t bitvec_c_xor_u32(
    uint8_t order, uint32_t *target, size_t target_words, size_t target_start, uint8_t source_order,
    const uint32_t *source, size_t source_words, size_t source_start, size_t count);
BITVEC_CHECKED uint8_t bitvec_c_xor_u64(
    uint8_t order, uint64_t *target, size_t target_words, size_t target_start, uint8_t source_order,
    const uint64_t *source, size_t source_words, size_t source_start, size_t count);

/* Makes zero those bits of the target whose bit in the source is one: a difference. Refuses with
 * BITVEC_NO_ORDER, BITVEC_TOO_LONG or BITVEC_OUTSIDE. Costs by words where the orders are the same,
 * else by bits. */
BITVEC_CHECKED uint8_t bitvec_c_and_not_u8(
    uint8_t order, uint8_t *target, size_t target_words, size_t target_start, uint8_t source_order,
    const uint8_t *source, size_t source_words, size_t source_start, size_t count);
BITVEC_CHECKED uint8_t bitvec_c_and_not_u16(
    uint8_t order, uint16_t *target, size_t target_words, size_t target_start, uint8_t source_order,
    const uint16_t *source, size_t source_words, size_t source_start, size_t count);
BITVEC_CHECKED uint8_t bitvec_c_and_not_u32(
    uint8_t order, uint32_t *target, size_t target_words, size_t target_start, uint8_t source_order,
    const uint32_t *source, size_t source_words, size_t source_start, size_t count);
BITVEC_CHECKED uint8_t bitvec_c_and_not_u64(
    uint8_t order, uint64_t *target, size_t target_words, size_t target_start, uint8_t source_order,
    const uint64_t *source, size_t source_words, size_t source_start, size_t count);

/* Leaves one those bits of a range whose bit in another range of the same array is one. The two
 * ranges may overlap: each bit is combined with what was there before. Refuses with
 * BITVEC_NO_ORDER, BITVEC_TOO_LONG or BITVEC_OUTSIDE. Costs by words. */
BITVEC_CHECKED uint8_t bitvec_c_and_within_u8(
    uint8_t order, uint8_t *memory, size_t words, size_t target_start, size_t source_start,
    size_t count);
BITVEC_CHECKED uint8_t bitvec_c_and_within_u16(
    uint8_t order, uint16_t *memory, size_t words, size_t target_start, size_t source_start,
    size_t count);
BITVEC_CHECKED uint8_t bitvec_c_and_within_u32(
    uint8_t order, uint32_t *memory, size_t words, size_t target_start, size_t source_start,
    size_t count);
BITVEC_CHECKED uint8_t bitvec_c_and_within_u64(
    uint8_t order, uint64_t *memory, size_t words, size_t target_start, size_t source_start,
    size_t count);

/* Makes one those bits of a range whose bit in another range of the same array is one. The two
 * ranges may overlap, as in bitvec_c_and_within_W. Refuses with BITVEC_NO_ORDER, BITVEC_TOO_LONG or
 * BITVEC_OUTSIDE. Costs by words. */
BITVEC_CHECKED uint8_t bitvec_c_or_within_u8(
    uint8_t order, uint8_t *memory, size_t words, size_t target_start, size_t source_start,
    size_t count);
BITVEC_CHECKED uint8_t bitvec_c_or_within_u16(
    uint8_t order, uint16_t *memory, size_t words, size_t target_start, size_t source_start,
    size_t count);
BITVEC_CHECKED uint8_t bitvec_c_or_within_u32(
    uint8_t order, uint32_t *memory, size_t words, size_t target_start, size_t source_start,
    size_t count);
BITVEC_CHECKED uint8_t bitvec_c_or_within_u64(
    uint8_t order, uint64_t *memory, size_t words, size_t target_start, size_t source_start,
    size_t count);

/* Turns over those bits of a range whose bit in another range of the same array is one. The two
 * ranges may overlap, as in bitvec_c_and_within_W. Refuses with BITVEC_NO_ORDER, BITVEC_TOO_LONG or
 * BITVEC_OUTSIDE. Costs by words. */
BITVEC_CHECKED uint8_t bitvec_c_xor_within_u8(
    uint8_t order, uint8_t *memory, size_t words, size_t target_start, size_t source_start,
    size_t count);
BITVEC_CHECKED uint8_t bitvec_c_xor_within_u16(
    uint8_t order, uint16_t *memory, size_t words, size_t target_start, size_t source_start,
    size_t count);
BITVEC_CHECKED uint8_t bitvec_c_xor_within_u32(
    uint8_t order, uint32_t *memory, size_t words, size_t target_start, size_t source_start,
    size_t count);
BITVEC_CHECKED uint8_t bitvec_c_xor_within_u64(
    uint8_t order, uint64_t *memory, size_t words, size_t target_start, size_t source_start,
    size_t count);

/* Makes zero those bits of a range whose bit in another range of the same array is one. The two
 * ranges may overlap, as in bitvec_c_and_within_W. Refuses with BITVEC_NO_ORDER, BITVEC_TOO_LONG or
 * BITVEC_OUTSIDE. Costs by words. */
BITVEC_CHECKED uint8_t bitvec_c_and_not_within_u8(
    uint8_t order, uint8_t *memory, size_t words, size_t target_start, size_t source_start,
    size_t count);
BITVEC_CHECKED uint8_t bitvec_c_and_not_within_u16(
    uint8_t order, uint16_t *memory, size_t words, size_t target_start, size_t source_start,
    size_t count);
BITVEC_CHECKED uint8_t bitvec_c_and_not_within_u32(
    uint8_t order, uint32_t *memory, size_t words, size_t target_start, size_t source_start,
    size_t count);
BITVEC_CHECKED uint8_t bitvec_c_and_not_within_u64(
    uint8_t order, uint64_t *memory, size_t words, size_t target_start, size_t source_start,
    size_t count);

/* Makes one those bits of the target whose bits in both other ranges are one, and its other bits
 * zero: an intersection. Refuses with BITVEC_NO_ORDER, BITVEC_TOO_LONG or BITVEC_OUTSIDE. Costs by
 * words. */
BITVEC_CHECKED uint8_t bitvec_c_and_of_u8(
    uint8_t order, uint8_t *target, size_t target_words, size_t target_start, const uint8_t *first,
    size_t first_words, size_t first_start, const uint8_t *second, size_t second_words,
    size_t second_start, size_t count);
BITVEC_CHECKED uint8_t bitvec_c_and_of_u16(
    uint8_t order, uint16_t *target, size_t target_words, size_t target_start,
    const uint16_t *first, size_t first_words, size_t first_start, const uint16_t *second,
    size_t second_words, size_t second_start, size_t count);
BITVEC_CHECKED uint8_t bitvec_c_and_of_u32(
    uint8_t order, uint32_t *target, size_t target_words, size_t target_start,
    const uint32_t *first, size_t first_words, size_t first_start, const uint32_t *second,
    size_t second_words, size_t second_start, size_t count);
BITVEC_CHECKED uint8_t bitvec_c_and_of_u64(
    uint8_t order, uint64_t *target, size_t target_words, size_t target_start,
    const uint64_t *first, size_t first_words, size_t first_start, const uint64_t *second,
    size_t second_words, size_t second_start, size_t count);

/* Makes one those bits of the target whose bit in at least one of two other ranges is one, and its
 * other bits zero: a union. Refuses with BITVEC_NO_ORDER, BITVEC_TOO_LONG or BITVEC_OUTSIDE. Costs
 * by words. */
BITVEC_CHECKED uint8_t bitvec_c_or_of_u8(
    uint8_t order, uint8_t *target, size_t target_words, size_t target_start, const uint8_t *first,
    size_t first_words, size_t first_start, const uint8_t *second, size_t second_words,
    size_t second_start, size_t count);
BITVEC_CHECKED uint8_t bitvec_c_or_of_u16(
    uint8_t order, uint16_t *target, size_t target_words, size_t target_start,
    const uint16_t *first, size_t first_words, size_t first_start, const uint16_t *second,
    size_t second_words, size_t second_start, size_t count);
BITVEC_CHECKED uint8_t bitvec_c_or_of_u32(
    uint8_t order, uint32_t *target, size_t target_words, size_t target_start,
    const uint32_t *first, size_t first_words, size_t first_start, const uint32_t *second,
    size_t second_words, size_t second_start, size_t count);
BITVEC_CHECKED uint8_t bitvec_c_or_of_u64(
    uint8_t order, uint64_t *target, size_t target_words, size_t target_start,
    const uint64_t *first, size_t first_words, size_t first_start, const uint64_t *second,
    size_t second_words, size_t second_start, size_t count);

/* Makes one those bits of the target whose bits in two other ranges differ, and its other bits
 * zero: a symmetric difference. Refuses with BITVEC_NO_ORDER, BITVEC_TOO_LONG or BITVEC_OUTSIDE.
 * Costs by words. */
BITVEC_CHECKED uint8_t bitvec_c_xor_of_u8(
    uint8_t order, uint8_t *target, size_t target_words, size_t target_start, const uint8_t *first,
    size_t first_words, size_t first_start, const uint8_t *second, size_t second_words,
    size_t second_start, size_t count);
BITVEC_CHECKED uint8_t bitvec_c_xor_of_u16(
    uint8_t order, uint16_t *target, size_t target_words, size_t target_start,
    const uint16_t *first, size_t first_words, size_t first_start, const uint16_t *second,
    size_t second_words, size_t second_start, size_t count);
BITVEC_CHECKED uint8_t bitvec_c_xor_of_u32(
    uint8_t order, uint32_t *target, size_t target_words, size_t target_start,
    const uint32_t *first, size_t first_words, size_t first_start, const uint32_t *second,
    size_t second_words, size_t second_start, size_t count);
BITVEC_CHECKED uint8_t bitvec_c_xor_of_u64(
    uint8_t order, uint64_t *target, size_t target_words, size_t target_start,
    const uint64_t *first, size_t first_words, size_t first_start, const uint64_t *second,
    size_t second_words, size_t second_start, size_t count);

/* Makes one those bits of the target whose bit in the first of two other ranges is one and in the
 * second zero, and its other bits zero: a difference. Refuses with BITVEC_NO_ORDER, BITVEC_TOO_LONG
 * or BITVEC_OUTSIDE. Costs by words. */
BITVEC_CHECKED uint8_t bitvec_c_and_not_of_u8(
    uint8_t order, uint8_t *target, size_t target_words, size_t target_start, const uint8_t *first,
    size_t first_words, size_t first_start, const uint8_t *second, size_t second_words,
    size_t second_start, size_t count);
BITVEC_CHECKED uint8_t bitvec_c_and_not_of_u16(
    uint8_t order, uint16_t *target, size_t target_words, size_t target_start,
    const uint16_t *first, size_t first_words, size_t first_start, const uint16_t *second,
    size_t second_words, size_t second_start, size_t count);
BITVEC_CHECKED uint8_t bitvec_c_and_not_of_u32(
    uint8_t order, uint32_t *target, size_t target_words, size_t target_start,
    const uint32_t *first, size_t first_words, size_t first_start, const uint32_t *second,
    size_t second_words, size_t second_start, size_t count);
BITVEC_CHECKED uint8_t bitvec_c_and_not_of_u64(
    uint8_t order, uint64_t *target, size_t target_words, size_t target_start,
    const uint64_t *first, size_t first_words, size_t first_start, const uint64_t *second,
    size_t second_words, size_t second_start, size_t count);

/* Writes to `same` whether two ranges have the same bits, in order. Refuses with BITVEC_NO_ORDER,
 * BITVEC_TOO_LONG or BITVEC_OUTSIDE. Costs by words, up to the first difference. */
BITVEC_CHECKED uint8_t bitvec_c_equal_u8(
    uint8_t order, const uint8_t *memory, size_t words, size_t start, const uint8_t *other,
    size_t other_words, size_t other_start, size_t count, bool *same) BITVEC_NONNULL(9);
BITVEC_CHECKED uint8_t bitvec_c_equal_u16(
    uint8_t order, const uint16_t *memory, size_t words, size_t start, const uint16_t *other,
    size_t other_words, size_t other_start, size_t count, bool *same) BITVEC_NONNULL(9);
BITVEC_CHECKED uint8_t bitvec_c_equal_u32(
    uint8_t order, const uint32_t *memory, size_t words, size_t start, const uint32_t *other,
    size_t other_words, size_t other_start, size_t count, bool *same) BITVEC_NONNULL(9);
BITVEC_CHECKED uint8_t bitvec_c_equal_u64(
    uint8_t order, const uint64_t *memory, size_t words, size_t start, const uint64_t *other,
    size_t other_words, size_t other_start, size_t count, bool *same) BITVEC_NONNULL(9);

/* Writes to `ones` how many bits of a range are one whose bit in the other range is one too.
 * Refuses with BITVEC_NO_ORDER, BITVEC_TOO_LONG or BITVEC_OUTSIDE. Costs by words where the orders
 * are the same, else by bits. */
BITVEC_CHECKED uint8_t bitvec_c_count_and_u8(
    uint8_t order, const uint8_t *memory, size_t words, size_t start, uint8_t other_order,
    const uint8_t *other, size_t other_words, size_t other_start, size_t count, size_t *ones)
    BITVEC_NONNULL(10);
BITVEC_CHECKED uint8_t bitvec_c_count_and_u16(
    uint8_t order, const uint16_t *memory, size_t words, size_t start, uint8_t other_order,
    const uint16_t *other, size_t other_words, size_t other_start, size_t count, size_t *ones)
    BITVEC_NONNULL(10);
BITVEC_CHECKED uint8_t bitvec_c_count_and_u32(
    uint8_t order, const uint32_t *memory, size_t words, size_t start, uint8_t other_order,
    const uint32_t *other, size_t other_words, size_t other_start, size_t count, size_t *ones)
    BITVEC_NONNULL(10);
BITVEC_CHECKED uint8_t bitvec_c_count_and_u64(
    uint8_t order, const uint64_t *memory, size_t words, size_t start, uint8_t other_order,
    const uint64_t *other, size_t other_words, size_t other_start, size_t count, size_t *ones)
    BITVEC_NONNULL(10);

/* Writes to `index` the index of the first bit of a range that is one and whose bit in the other
 * range is one too, or `count` where there is none. Refuses with BITVEC_NO_ORDER, BITVEC_TOO_LONG
 * or BITVEC_OUTSIDE. Costs by words where the orders are the same, else by bits, up to that bit. */
BITVEC_CHECKED uint8_t bitvec_c_first_and_u8(
    uint8_t order, const uint8_t *memory, size_t words, size_t start, uint8_t other_order,
    const uint8_t *other, size_t other_words, size_t other_start, size_t count, size_t *index)
    BITVEC_NONNULL(10);
BITVEC_CHECKED uint8_t bitvec_c_first_and_u16(
    uint8_t order, const uint16_t *memory, size_t words, size_t start, uint8_t other_order,
    const uint16_t *other, size_t other_words, size_t other_start, size_t count, size_t *index)
    BITVEC_NONNULL(10);
BITVEC_CHECKED uint8_t bitvec_c_first_and_u32(
    uint8_t order, const uint32_t *memory, size_t words, size_t start, uint8_t other_order,
    const uint32_t *other, size_t other_words, size_t other_start, size_t count, size_t *index)
    BITVEC_NONNULL(10);
BITVEC_CHECKED uint8_t bitvec_c_first_and_u64(
    uint8_t order, const uint64_t *memory, size_t words, size_t start, uint8_t other_order,
    const uint64_t *other, size_t other_words, size_t other_start, size_t count, size_t *index)
    BITVEC_NONNULL(10);

/* Writes to `common` whether a bit of a range is one whose bit in the other range is one too.
 * Refuses with BITVEC_NO_ORDER, BITVEC_TOO_LONG or BITVEC_OUTSIDE. Costs by words where the orders
 * are the same, else by bits, up to the first such bit. */
BITVEC_CHECKED BITVEC_NONNULL(10) BITVEC_INLINE uint8_t bitvec_c_intersects_u8(
    uint8_t order, const uint8_t *memory, size_t words, size_t start, uint8_t other_order,
    const uint8_t *other, size_t other_words, size_t other_start, size_t count, bool *common) {
    size_t index = 0;
    uint8_t status = bitvec_c_first_and_u8(order, memory, words, start, other_order, other,
        other_words, other_start, count, &index);
    if (status == BITVEC_OK)
        *common = index != count;
    return status;
}
BITVEC_CHECKED BITVEC_NONNULL(10) BITVEC_INLINE uint8_t bitvec_c_intersects_u16(
    uint8_t order, const uint16_t *memory, size_t words, size_t start, uint8_t other_order,
    const uint16_t *other, size_t other_words, size_t other_start, size_t count, bool *common) {
    size_t index = 0;
    uint8_t status = bitvec_c_first_and_u16(order, memory, words, start, other_order, other,
        other_words, other_start, count, &index);
    if (status == BITVEC_OK)
        *common = index != count;
    return status;
}
BITVEC_CHECKED BITVEC_NONNULL(10) BITVEC_INLINE uint8_t bitvec_c_intersects_u32(
    uint8_t order, const uint32_t *memory, size_t words, size_t start, uint8_t other_order,
    const uint32_t *other, size_t other_words, size_t other_start, size_t count, bool *common) {
    size_t index = 0;
    uint8_t status = bitvec_c_first_and_u32(order, memory, words, start, other_order, other,
        other_words, other_start, count, &index);
    if (status == BITVEC_OK)
        *common = index != count;
    return status;
}
BITVEC_CHECKED BITVEC_NONNULL(10) BITVEC_INLINE uint8_t bitvec_c_intersects_u64(
    uint8_t order, const uint64_t *memory, size_t words, size_t start, uint8_t other_order,
    const uint64_t *other, size_t other_words, size_t other_start, size_t count, bool *common) {
    size_t index = 0;
    uint8_t status = bitvec_c_first_and_u64(order, memory, words, start, other_order, other,
        other_words, other_start, count, &index);
    if (status == BITVEC_OK)
        *common = index != count;
    return status;
}

/* Writes to `index` the index of the first bit of a range that is one and whose bit in the other
 * range is zero, or `count` where there is none. Refuses with BITVEC_NO_ORDER, BITVEC_TOO_LONG or
 * BITVEC_OUTSIDE. Costs by words where the orders are the same, else by bits, up to that bit. */
BITVEC_CHECKED uint8_t bitvec_c_first_and_not_u8(
    uint8_t order, const uint8_t *memory, size_t words, size_t start, uint8_t other_order,
    const uint8_t *other, size_t other_words, size_t other_start, size_t count, size_t *index)
    BITVEC_NONNULL(10);
BITVEC_CHECKED uint8_t bitvec_c_first_and_not_u16(
    uint8_t order, const uint16_t *memory, size_t words, size_t start, uint8_t other_order,
    const uint16_t *other, size_t other_words, size_t other_start, size_t count, size_t *index)
    BITVEC_NONNULL(10);
BITVEC_CHECKED uint8_t bitvec_c_first_and_not_u32(
    uint8_t order, const uint32_t *memory, size_t words, size_t start, uint8_t other_order,
    const uint32_t *other, size_t other_words, size_t other_start, size_t count, size_t *index)
    BITVEC_NONNULL(10);
BITVEC_CHECKED uint8_t bitvec_c_first_and_not_u64(
    uint8_t order, const uint64_t *memory, size_t words, size_t start, uint8_t other_order,
    const uint64_t *other, size_t other_words, size_t other_start, size_t count, size_t *index)
    BITVEC_NONNULL(10);

/* Writes to `subset` whether no bit of a range is one whose bit in the other range is zero. Refuses
 * with BITVEC_NO_ORDER, BITVEC_TOO_LONG or BITVEC_OUTSIDE. Costs by words where the orders are the
 * same, else by bits, up to the first such bit. */
BITVEC_CHECKED BITVEC_NONNULL(10) BITVEC_INLINE uint8_t bitvec_c_is_subset_u8(
    uint8_t order, const uint8_t *memory, size_t words, size_t start, uint8_t other_order,
    const uint8_t *other, size_t other_words, size_t other_start, size_t count, bool *subset) {
    size_t index = 0;
    uint8_t status = bitvec_c_first_and_not_u8(order, memory, words, start, other_order, other,
        other_words, other_start, count, &index);
    if (status == BITVEC_OK)
        *subset = index == count;
    return status;
}
BITVEC_CHECKED BITVEC_NONNULL(10) BITVEC_INLINE uint8_t bitvec_c_is_subset_u16(
    uint8_t order, const uint16_t *memory, size_t words, size_t start, uint8_t other_order,
    const uint16_t *other, size_t other_words, size_t other_start, size_t count, bool *subset) {
    size_t index = 0;
    uint8_t status = bitvec_c_first_and_not_u16(order, memory, words, start, other_order, other,
        other_words, other_start, count, &index);
    if (status == BITVEC_OK)
        *subset = index == count;
    return status;
}
BITVEC_CHECKED BITVEC_NONNULL(10) BITVEC_INLINE uint8_t bitvec_c_is_subset_u32(
    uint8_t order, const uint32_t *memory, size_t words, size_t start, uint8_t other_order,
    const uint32_t *other, size_t other_words, size_t other_start, size_t count, bool *subset) {
    size_t index = 0;
    uint8_t status = bitvec_c_first_and_not_u32(order, memory, words, start, other_order, other,
        other_words, other_start, count, &index);
    if (status == BITVEC_OK)
        *subset = index == count;
    return status;
}
BITVEC_CHECKED BITVEC_NONNULL(10) BITVEC_INLINE uint8_t bitvec_c_is_subset_u64(
    uint8_t order, const uint64_t *memory, size_t words, size_t start, uint8_t other_order,
    const uint64_t *other, size_t other_words, size_t other_start, size_t count, bool *subset) {
    size_t index = 0;
    uint8_t status = bitvec_c_first_and_not_u64(order, memory, words, start, other_order, other,
        other_words, other_start, count, &index);
    if (status == BITVEC_OK)
        *subset = index == count;
    return status;
}

/* Writes to `index` the index of the first bit of a range that is not the same in the other range,
 * or `count` where there is none. The bit at that index tells which of the two is less. Refuses
 * with BITVEC_NO_ORDER, BITVEC_TOO_LONG or BITVEC_OUTSIDE. Costs by words where the orders are the
 * same, else by bits, up to that bit. */
BITVEC_CHECKED uint8_t bitvec_c_first_difference_u8(
    uint8_t order, const uint8_t *memory, size_t words, size_t start, uint8_t other_order,
    const uint8_t *other, size_t other_words, size_t other_start, size_t count, size_t *index)
    BITVEC_NONNULL(10);
BITVEC_CHECKED uint8_t bitvec_c_first_difference_u16(
    uint8_t order, const uint16_t *memory, size_t words, size_t start, uint8_t other_order,
    const uint16_t *other, size_t other_words, size_t other_start, size_t count, size_t *index)
    BITVEC_NONNULL(10);
BITVEC_CHECKED uint8_t bitvec_c_first_difference_u32(
    uint8_t order, const uint32_t *memory, size_t words, size_t start, uint8_t other_order,
    const uint32_t *other, size_t other_words, size_t other_start, size_t count, size_t *index)
    BITVEC_NONNULL(10);
BITVEC_CHECKED uint8_t bitvec_c_first_difference_u64(
    uint8_t order, const uint64_t *memory, size_t words, size_t start, uint8_t other_order,
    const uint64_t *other, size_t other_words, size_t other_start, size_t count, size_t *index)
    BITVEC_NONNULL(10);

/* The same as bitvec_c_first_difference_W, where the words of the two memories may have other
 * widths. Refuses with BITVEC_NO_ORDER, BITVEC_TOO_LONG or BITVEC_OUTSIDE. Costs by words where the
 * orders are the same, else by bits, up to that bit. */
BITVEC_CHECKED uint8_t bitvec_c_first_difference_u8_with_u8(
    uint8_t order, const uint8_t *memory, size_t words, size_t start, uint8_t other_order,
    const uint8_t *other, size_t other_words, size_t other_start, size_t count, size_t *index)
    BITVEC_NONNULL(10);
BITVEC_CHECKED uint8_t bitvec_c_first_difference_u8_with_u16(
    uint8_t order, const uint8_t *memory, size_t words, size_t start, uint8_t other_order,
    const uint16_t *other, size_t other_words, size_t other_start, size_t count, size_t *index)
    BITVEC_NONNULL(10);
BITVEC_CHECKED uint8_t bitvec_c_first_difference_u8_with_u32(
    uint8_t order, const uint8_t *memory, size_t words, size_t start, uint8_t other_order,
    const uint32_t *other, size_t other_words, size_t other_start, size_t count, size_t *index)
    BITVEC_NONNULL(10);
BITVEC_CHECKED uint8_t bitvec_c_first_difference_u8_with_u64(
    uint8_t order, const uint8_t *memory, size_t words, size_t start, uint8_t other_order,
    const uint64_t *other, size_t other_words, size_t other_start, size_t count, size_t *index)
    BITVEC_NONNULL(10);
BITVEC_CHECKED uint8_t bitvec_c_first_difference_u16_with_u8(
    uint8_t order, const uint16_t *memory, size_t words, size_t start, uint8_t other_order,
    const uint8_t *other, size_t other_words, size_t other_start, size_t count, size_t *index)
    BITVEC_NONNULL(10);
BITVEC_CHECKED uint8_t bitvec_c_first_difference_u16_with_u16(
    uint8_t order, const uint16_t *memory, size_t words, size_t start, uint8_t other_order,
    const uint16_t *other, size_t other_words, size_t other_start, size_t count, size_t *index)
    BITVEC_NONNULL(10);
BITVEC_CHECKED uint8_t bitvec_c_first_difference_u16_with_u32(
    uint8_t order, const uint16_t *memory, size_t words, size_t start, uint8_t other_order,
    const uint32_t *other, size_t other_words, size_t other_start, size_t count, size_t *index)
    BITVEC_NONNULL(10);
BITVEC_CHECKED uint8_t bitvec_c_first_difference_u16_with_u64(
    uint8_t order, const uint16_t *memory, size_t words, size_t start, uint8_t other_order,
    const uint64_t *other, size_t other_words, size_t other_start, size_t count, size_t *index)
    BITVEC_NONNULL(10);
BITVEC_CHECKED uint8_t bitvec_c_first_difference_u32_with_u8(
    uint8_t order, const uint32_t *memory, size_t words, size_t start, uint8_t other_order,
    const uint8_t *other, size_t other_words, size_t other_start, size_t count, size_t *index)
    BITVEC_NONNULL(10);
BITVEC_CHECKED uint8_t bitvec_c_first_difference_u32_with_u16(
    uint8_t order, const uint32_t *memory, size_t words, size_t start, uint8_t other_order,
    const uint16_t *other, size_t other_words, size_t other_start, size_t count, size_t *index)
    BITVEC_NONNULL(10);
BITVEC_CHECKED uint8_t bitvec_c_first_difference_u32_with_u32(
    uint8_t order, const uint32_t *memory, size_t words, size_t start, uint8_t other_order,
    const uint32_t *other, size_t other_words, size_t other_start, size_t count, size_t *index)
    BITVEC_NONNULL(10);
BITVEC_CHECKED uint8_t bitvec_c_first_difference_u32_with_u64(
    uint8_t order, const uint32_t *memory, size_t words, size_t start, uint8_t other_order,
    const uint64_t *other, size_t other_words, size_t other_start, size_t count, size_t *index)
    BITVEC_NONNULL(10);
BITVEC_CHECKED uint8_t bitvec_c_first_difference_u64_with_u8(
    uint8_t order, const uint64_t *memory, size_t words, size_t start, uint8_t other_order,
    const uint8_t *other, size_t other_words, size_t other_start, size_t count, size_t *index)
    BITVEC_NONNULL(10);
BITVEC_CHECKED uint8_t bitvec_c_first_difference_u64_with_u16(
    uint8_t order, const uint64_t *memory, size_t words, size_t start, uint8_t other_order,
    const uint16_t *other, size_t other_words, size_t other_start, size_t count, size_t *index)
    BITVEC_NONNULL(10);
BITVEC_CHECKED uint8_t bitvec_c_first_difference_u64_with_u32(
    uint8_t order, const uint64_t *memory, size_t words, size_t start, uint8_t other_order,
    const uint32_t *other, size_t other_words, size_t other_start, size_t count, size_t *index)
    BITVEC_NONNULL(10);
BITVEC_CHECKED uint8_t bitvec_c_first_difference_u64_with_u64(
    uint8_t order, const uint64_t *memory, size_t words, size_t start, uint8_t other_order,
    const uint64_t *other, size_t other_words, size_t other_start, size_t count, size_t *index)
    BITVEC_NONNULL(10);

/* ----------------------------------------- Numbers ------------------------------------------ */

/* The range has `count` bits from `start` on, at most 64, or the call refuses with BITVEC_TOO_WIDE.
 * The bits that one word has of the range are digits of the number as they are digits of the word,
 * in the same order; those of the range's first word are the lowest or, where `big_endian`, the
 * highest. */

/* Writes to `number` the number whose digits the bits of a range are; its other digits are 0.
 * Refuses with BITVEC_NO_ORDER, BITVEC_TOO_LONG, BITVEC_OUTSIDE or BITVEC_TOO_WIDE. */
BITVEC_CHECKED uint8_t bitvec_c_load_u8(
    uint8_t order, bool big_endian, const uint8_t *memory, size_t words, size_t start, size_t count,
    uint64_t *number) BITVEC_NONNULL(7);
BITVEC_CHECKED uint8_t bitvec_c_load_u16(
    uint8_t order, bool big_endian, const uint16_t *memory, size_t words, size_t start,
    size_t count, uint64_t *number) BITVEC_NONNULL(7);
BITVEC_CHECKED uint8_t bitvec_c_load_u32(
    uint8_t order, bool big_endian, const uint32_t *memory, size_t words, size_t start,
    size_t count, uint64_t *number) BITVEC_NONNULL(7);
BITVEC_CHECKED uint8_t bitvec_c_load_u64(
    uint8_t order, bool big_endian, const uint64_t *memory, size_t words, size_t start,
    size_t count, uint64_t *number) BITVEC_NONNULL(7);

/* Makes the bits of a range the lowest digits of a number, so that bitvec_c_load_W gives them back.
 * Its other digits are dropped. Refuses with BITVEC_NO_ORDER, BITVEC_TOO_LONG, BITVEC_OUTSIDE or
 * BITVEC_TOO_WIDE. */
BITVEC_CHECKED uint8_t bitvec_c_store_u8(
    uint8_t order, bool big_endian, uint8_t *memory, size_t words, size_t start, size_t count,
    uint64_t number);
BITVEC_CHECKED uint8_t bitvec_c_store_u16(
    uint8_t order, bool big_endian, uint16_t *memory, size_t words, size_t start, size_t count,
    uint64_t number);
BITVEC_CHECKED uint8_t bitvec_c_store_u32(
    uint8_t order, bool big_endian, uint32_t *memory, size_t words, size_t start, size_t count,
    uint64_t number);
BITVEC_CHECKED uint8_t bitvec_c_store_u64(
    uint8_t order, bool big_endian, uint64_t *memory, size_t words, size_t start, size_t count,
    uint64_t number);

/* Writes to `number` the signed number whose two's complement of `count` digits bitvec_c_load_W
 * gives. For no bits it is 0. Refuses with BITVEC_NO_ORDER, BITVEC_TOO_LONG, BITVEC_OUTSIDE or
 * BITVEC_TOO_WIDE. */
BITVEC_CHECKED uint8_t bitvec_c_load_signed_u8(
    uint8_t order, bool big_endian, const uint8_t *memory, size_t words, size_t start, size_t count,
    int64_t *number) BITVEC_NONNULL(7);
BITVEC_CHECKED uint8_t bitvec_c_load_signed_u16(
    uint8_t order, bool big_endian, const uint16_t *memory, size_t words, size_t start,
    size_t count, int64_t *number) BITVEC_NONNULL(7);
BITVEC_CHECKED uint8_t bitvec_c_load_signed_u32(
    uint8_t order, bool big_endian, const uint32_t *memory, size_t words, size_t start,
    size_t count, int64_t *number) BITVEC_NONNULL(7);
BITVEC_CHECKED uint8_t bitvec_c_load_signed_u64(
    uint8_t order, bool big_endian, const uint64_t *memory, size_t words, size_t start,
    size_t count, int64_t *number) BITVEC_NONNULL(7);

/* Makes the bits of a range the lowest digits of a signed number's two's complement, so that
 * bitvec_c_load_signed_W gives back a number that has no more digits. Refuses with BITVEC_NO_ORDER,
 * BITVEC_TOO_LONG, BITVEC_OUTSIDE or BITVEC_TOO_WIDE. */
BITVEC_CHECKED uint8_t bitvec_c_store_signed_u8(
    uint8_t order, bool big_endian, uint8_t *memory, size_t words, size_t start, size_t count,
    int64_t number);
BITVEC_CHECKED uint8_t bitvec_c_store_signed_u16(
    uint8_t order, bool big_endian, uint16_t *memory, size_t words, size_t start, size_t count,
    int64_t number);
BITVEC_CHECKED uint8_t bitvec_c_store_signed_u32(
    uint8_t order, bool big_endian, uint32_t *memory, size_t words, size_t start, size_t count,
    int64_t number);
BITVEC_CHECKED uint8_t bitvec_c_store_signed_u64(
    uint8_t order, bool big_endian, uint64_t *memory, size_t words, size_t start, size_t count,
    int64_t number);

/* ----------------------------------------- Streams ------------------------------------------ */

/* Numbers that stand one behind the other: each call reads or writes bits from `*place` on, of
 * those that end before `end`, and moves `*place` behind them. BITVEC_TOO_LONG: more than
 * BITVEC_MAX_BITS bits lie between the two. BITVEC_OUTSIDE: `end` is before `*place`, or past the
 * last bit of the memory. BITVEC_TOO_FEW: fewer bits are left than it takes or writes. To pass over
 * bits, or to go back, a caller sets `*place` itself. */

/* Writes to `number` the number of the next `count` bits: the first is its lowest digit or, where
 * `big_endian`, the highest, whatever the order and the width are. For no bits it is 0. Refuses
 * with BITVEC_NO_ORDER, BITVEC_TOO_LONG, BITVEC_OUTSIDE, BITVEC_TOO_WIDE (`count` is past 64) or
 * BITVEC_TOO_FEW. Costs by words. */
BITVEC_CHECKED uint8_t bitvec_c_read_u8(
    uint8_t order, bool big_endian, const uint8_t *memory, size_t words, size_t *place, size_t end,
    size_t count, uint64_t *number) BITVEC_NONNULL(5) BITVEC_NONNULL(8);
BITVEC_CHECKED uint8_t bitvec_c_read_u16(
    uint8_t order, bool big_endian, const uint16_t *memory, size_t words, size_t *place, size_t end,
    size_t count, uint64_t *number) BITVEC_NONNULL(5) BITVEC_NONNULL(8);
BITVEC_CHECKED uint8_t bitvec_c_read_u32(
    uint8_t order, bool big_endian, const uint32_t *memory, size_t words, size_t *place, size_t end,
    size_t count, uint64_t *number) BITVEC_NONNULL(5) BITVEC_NONNULL(8);
BITVEC_CHECKED uint8_t bitvec_c_read_u64(
    uint8_t order, bool big_endian, const uint64_t *memory, size_t words, size_t *place, size_t end,
    size_t count, uint64_t *number) BITVEC_NONNULL(5) BITVEC_NONNULL(8);

/* Writes to `number` the signed number whose two's complement of `count` digits that is. For no
 * bits it is 0. Refuses with BITVEC_NO_ORDER, BITVEC_TOO_LONG, BITVEC_OUTSIDE, BITVEC_TOO_WIDE
 * (`count` is past 64) or BITVEC_TOO_FEW. Costs by words. */
BITVEC_CHECKED uint8_t bitvec_c_read_signed_u8(
    uint8_t order, bool big_endian, const uint8_t *memory, size_t words, size_t *place, size_t end,
    size_t count, int64_t *number) BITVEC_NONNULL(5) BITVEC_NONNULL(8);
BITVEC_CHECKED uint8_t bitvec_c_read_signed_u16(
    uint8_t order, bool big_endian, const uint16_t *memory, size_t words, size_t *place, size_t end,
    size_t count, int64_t *number) BITVEC_NONNULL(5) BITVEC_NONNULL(8);
BITVEC_CHECKED uint8_t bitvec_c_read_signed_u32(
    uint8_t order, bool big_endian, const uint32_t *memory, size_t words, size_t *place, size_t end,
    size_t count, int64_t *number) BITVEC_NONNULL(5) BITVEC_NONNULL(8);
BITVEC_CHECKED uint8_t bitvec_c_read_signed_u64(
    uint8_t order, bool big_endian, const uint64_t *memory, size_t words, size_t *place, size_t end,
    size_t count, int64_t *number) BITVEC_NONNULL(5) BITVEC_NONNULL(8);

/* Writes to `count` how many bits are the same as `bit` before the first that is not, which is
 * taken too. Refuses with BITVEC_NO_ORDER, BITVEC_TOO_LONG, BITVEC_OUTSIDE or BITVEC_TOO_FEW (all
 * bits that are left are the same as `bit`, also where none is left). Costs by words. */
BITVEC_CHECKED uint8_t bitvec_c_read_unary_u8(
    uint8_t order, const uint8_t *memory, size_t words, size_t *place, size_t end, bool bit,
    size_t *count) BITVEC_NONNULL(4) BITVEC_NONNULL(7);
BITVEC_CHECKED uint8_t bitvec_c_read_unary_u16(
    uint8_t order, const uint16_t *memory, size_t words, size_t *place, size_t end, bool bit,
    size_t *count) BITVEC_NONNULL(4) BITVEC_NONNULL(7);
BITVEC_CHECKED uint8_t bitvec_c_read_unary_u32(
    uint8_t order, const uint32_t *memory, size_t words, size_t *place, size_t end, bool bit,
    size_t *count) BITVEC_NONNULL(4) BITVEC_NONNULL(7);
BITVEC_CHECKED uint8_t bitvec_c_read_unary_u64(
    uint8_t order, const uint64_t *memory, size_t words, size_t *place, size_t end, bool bit,
    size_t *count) BITVEC_NONNULL(4) BITVEC_NONNULL(7);

/* Writes to `number` the number of an Exp-Golomb code, ue(v) of ITU-T H.264 and H.265: as many
 * zeros as the number and one have binary digits, less one, and then these digits, the highest
 * first. So 1 is 0, 010 is 1, 011 is 2 and 00100 is 3. Refuses with BITVEC_NO_ORDER,
 * BITVEC_TOO_LONG, BITVEC_OUTSIDE, BITVEC_TOO_FEW (the bits end before a code does) or
 * BITVEC_TOO_LARGE (the number has more than 64 digits). Costs by words. */
BITVEC_CHECKED uint8_t bitvec_c_read_exp_golomb_u8(
    uint8_t order, const uint8_t *memory, size_t words, size_t *place, size_t end, uint64_t *number)
    BITVEC_NONNULL(4) BITVEC_NONNULL(6);
BITVEC_CHECKED uint8_t bitvec_c_read_exp_golomb_u16(
    uint8_t order, const uint16_t *memory, size_t words, size_t *place, size_t end,
    uint64_t *number) BITVEC_NONNULL(4) BITVEC_NONNULL(6);
BITVEC_CHECKED uint8_t bitvec_c_read_exp_golomb_u32(
    uint8_t order, const uint32_t *memory, size_t words, size_t *place, size_t end,
    uint64_t *number) BITVEC_NONNULL(4) BITVEC_NONNULL(6);
BITVEC_CHECKED uint8_t bitvec_c_read_exp_golomb_u64(
    uint8_t order, const uint64_t *memory, size_t words, size_t *place, size_t end,
    uint64_t *number) BITVEC_NONNULL(4) BITVEC_NONNULL(6);

/* Writes to `number` the signed number of one, se(v) there: the codes of 0, 1, 2, 3, 4 and so on
 * are those of 0, 1, -1, 2, -2 and so on. Refuses with BITVEC_NO_ORDER, BITVEC_TOO_LONG,
 * BITVEC_OUTSIDE, BITVEC_TOO_FEW (the bits end before a code does) or BITVEC_TOO_LARGE (an int64_t
 * has not the number). Costs by words. */
BITVEC_CHECKED uint8_t bitvec_c_read_signed_exp_golomb_u8(
    uint8_t order, const uint8_t *memory, size_t words, size_t *place, size_t end, int64_t *number)
    BITVEC_NONNULL(4) BITVEC_NONNULL(6);
BITVEC_CHECKED uint8_t bitvec_c_read_signed_exp_golomb_u16(
    uint8_t order, const uint16_t *memory, size_t words, size_t *place, size_t end, int64_t *number)
    BITVEC_NONNULL(4) BITVEC_NONNULL(6);
BITVEC_CHECKED uint8_t bitvec_c_read_signed_exp_golomb_u32(
    uint8_t order, const uint32_t *memory, size_t words, size_t *place, size_t end, int64_t *number)
    BITVEC_NONNULL(4) BITVEC_NONNULL(6);
BITVEC_CHECKED uint8_t bitvec_c_read_signed_exp_golomb_u64(
    uint8_t order, const uint64_t *memory, size_t words, size_t *place, size_t end, int64_t *number)
    BITVEC_NONNULL(4) BITVEC_NONNULL(6);

/* Makes the next `count` bits the digits of a number: the first becomes its lowest digit or, where
 * `big_endian`, the highest, whatever the order and the width are. Refuses with BITVEC_NO_ORDER,
 * BITVEC_TOO_LONG, BITVEC_OUTSIDE, BITVEC_TOO_WIDE (`count` is past 64), BITVEC_TOO_FEW or
 * BITVEC_TOO_LARGE (the number is not below 2^count, where bitvec_c_store_W drops its highest
 * digits). Costs by words. */
BITVEC_CHECKED uint8_t bitvec_c_write_u8(
    uint8_t order, bool big_endian, uint8_t *memory, size_t words, size_t *place, size_t end,
    size_t count, uint64_t number) BITVEC_NONNULL(5);
BITVEC_CHECKED uint8_t bitvec_c_write_u16(
    uint8_t order, bool big_endian, uint16_t *memory, size_t words, size_t *place, size_t end,
    size_t count, uint64_t number) BITVEC_NONNULL(5);
BITVEC_CHECKED uint8_t bitvec_c_write_u32(
    uint8_t order, bool big_endian, uint32_t *memory, size_t words, size_t *place, size_t end,
    size_t count, uint64_t number) BITVEC_NONNULL(5);
BITVEC_CHECKED uint8_t bitvec_c_write_u64(
    uint8_t order, bool big_endian, uint64_t *memory, size_t words, size_t *place, size_t end,
    size_t count, uint64_t number) BITVEC_NONNULL(5);

/* Makes them the digits of a signed number's two's complement. Refuses with BITVEC_NO_ORDER,
 * BITVEC_TOO_LONG, BITVEC_OUTSIDE, BITVEC_TOO_WIDE (`count` is past 64), BITVEC_TOO_FEW or
 * BITVEC_TOO_LARGE (the number is below -2^(count - 1) or not below 2^(count - 1), or for no bits
 * not 0). Costs by words. */
BITVEC_CHECKED uint8_t bitvec_c_write_signed_u8(
    uint8_t order, bool big_endian, uint8_t *memory, size_t words, size_t *place, size_t end,
    size_t count, int64_t number) BITVEC_NONNULL(5);
BITVEC_CHECKED uint8_t bitvec_c_write_signed_u16(
    uint8_t order, bool big_endian, uint16_t *memory, size_t words, size_t *place, size_t end,
    size_t count, int64_t number) BITVEC_NONNULL(5);
BITVEC_CHECKED uint8_t bitvec_c_write_signed_u32(
    uint8_t order, bool big_endian, uint32_t *memory, size_t words, size_t *place, size_t end,
    size_t count, int64_t number) BITVEC_NONNULL(5);
BITVEC_CHECKED uint8_t bitvec_c_write_signed_u64(
    uint8_t order, bool big_endian, uint64_t *memory, size_t words, size_t *place, size_t end,
    size_t count, int64_t number) BITVEC_NONNULL(5);

/* Makes the next `count` bits the same as `bit`, and the one behind them the other. Refuses with
 * BITVEC_NO_ORDER, BITVEC_TOO_LONG, BITVEC_OUTSIDE or BITVEC_TOO_FEW (no more than `count` bits are
 * left). Costs by words. */
BITVEC_CHECKED uint8_t bitvec_c_write_unary_u8(
    uint8_t order, uint8_t *memory, size_t words, size_t *place, size_t end, bool bit, size_t count)
    BITVEC_NONNULL(4);
BITVEC_CHECKED uint8_t bitvec_c_write_unary_u16(
    uint8_t order, uint16_t *memory, size_t words, size_t *place, size_t end, bool bit,
    size_t count) BITVEC_NONNULL(4);
BITVEC_CHECKED uint8_t bitvec_c_write_unary_u32(
    uint8_t order, uint32_t *memory, size_t words, size_t *place, size_t end, bool bit,
    size_t count) BITVEC_NONNULL(4);
BITVEC_CHECKED uint8_t bitvec_c_write_unary_u64(
    uint8_t order, uint64_t *memory, size_t words, size_t *place, size_t end, bool bit,
    size_t count) BITVEC_NONNULL(4);

/* Writes the Exp-Golomb code of a number, as above: each number has one, of at most 129 bits.
 * Refuses with BITVEC_NO_ORDER, BITVEC_TOO_LONG, BITVEC_OUTSIDE or BITVEC_TOO_FEW. Costs by
 * words. */
BITVEC_CHECKED uint8_t bitvec_c_write_exp_golomb_u8(
    uint8_t order, uint8_t *memory, size_t words, size_t *place, size_t end, uint64_t number)
    BITVEC_NONNULL(4);
BITVEC_CHECKED uint8_t bitvec_c_write_exp_golomb_u16(
    uint8_t order, uint16_t *memory, size_t words, size_t *place, size_t end, uint64_t number)
    BITVEC_NONNULL(4);
BITVEC_CHECKED uint8_t bitvec_c_write_exp_golomb_u32(
    uint8_t order, uint32_t *memory, size_t words, size_t *place, size_t end, uint64_t number)
    BITVEC_NONNULL(4);
BITVEC_CHECKED uint8_t bitvec_c_write_exp_golomb_u64(
    uint8_t order, uint64_t *memory, size_t words, size_t *place, size_t end, uint64_t number)
    BITVEC_NONNULL(4);

/* Writes the code of a signed number, as above, of at most 129 bits too. Refuses with
 * BITVEC_NO_ORDER, BITVEC_TOO_LONG, BITVEC_OUTSIDE or BITVEC_TOO_FEW. Costs by words. */
BITVEC_CHECKED uint8_t bitvec_c_write_signed_exp_golomb_u8(
    uint8_t order, uint8_t *memory, size_t words, size_t *place, size_t end, int64_t number)
    BITVEC_NONNULL(4);
BITVEC_CHECKED uint8_t bitvec_c_write_signed_exp_golomb_u16(
    uint8_t order, uint16_t *memory, size_t words, size_t *place, size_t end, int64_t number)
    BITVEC_NONNULL(4);
BITVEC_CHECKED uint8_t bitvec_c_write_signed_exp_golomb_u32(
    uint8_t order, uint32_t *memory, size_t words, size_t *place, size_t end, int64_t number)
    BITVEC_NONNULL(4);
BITVEC_CHECKED uint8_t bitvec_c_write_signed_exp_golomb_u64(
    uint8_t order, uint64_t *memory, size_t words, size_t *place, size_t end, int64_t number)
    BITVEC_NONNULL(4);

/* ------------------------------------------- Runs ------------------------------------------- */

/* A run gives commands to disjoint spans of one memory. */

/* Tests the spans of a run for a memory of this many words: each lies in it, and no two have a bit
 * in common. Refuses with BITVEC_NO_ORDER, BITVEC_TOO_MANY_SPANS, BITVEC_TOO_LONG, BITVEC_OUTSIDE
 * or BITVEC_OVERLAP. Costs at most 2016 such tests, of each span with each. */
BITVEC_CHECKED uint8_t bitvec_c_can_run_u8(
    uint8_t order, size_t words, const struct bitvec_span *spans, size_t span_count);
BITVEC_CHECKED uint8_t bitvec_c_can_run_u16(
    uint8_t order, size_t words, const struct bitvec_span *spans, size_t span_count);
BITVEC_CHECKED uint8_t bitvec_c_can_run_u32(
    uint8_t order, size_t words, const struct bitvec_span *spans, size_t span_count);
BITVEC_CHECKED uint8_t bitvec_c_can_run_u64(
    uint8_t order, size_t words, const struct bitvec_span *spans, size_t span_count);

/* Serves the requests in their order, each through the span that it names, and writes the n-th
 * reply to the n-th request. It tests what bitvec_c_can_run_W does, and BITVEC_NO_ROOM and
 * BITVEC_NO_COMMAND, before it serves the first. Refuses with BITVEC_NO_ORDER,
 * BITVEC_TOO_MANY_SPANS, BITVEC_TOO_LONG, BITVEC_OUTSIDE, BITVEC_OVERLAP, BITVEC_NO_ROOM or
 * BITVEC_NO_COMMAND. Costs these tests, and what the commands cost, BITVEC_COPY and BITVEC_FILL by
 * words, each other one constant. */
BITVEC_CHECKED uint8_t bitvec_c_run_u8(
    uint8_t order, uint8_t *memory, size_t words, const struct bitvec_span *spans,
    size_t span_count, const struct bitvec_request *requests, size_t request_count,
    struct bitvec_reply *replies, size_t reply_count);
BITVEC_CHECKED uint8_t bitvec_c_run_u16(
    uint8_t order, uint16_t *memory, size_t words, const struct bitvec_span *spans,
    size_t span_count, const struct bitvec_request *requests, size_t request_count,
    struct bitvec_reply *replies, size_t reply_count);
BITVEC_CHECKED uint8_t bitvec_c_run_u32(
    uint8_t order, uint32_t *memory, size_t words, const struct bitvec_span *spans,
    size_t span_count, const struct bitvec_request *requests, size_t request_count,
    struct bitvec_reply *replies, size_t reply_count);
BITVEC_CHECKED uint8_t bitvec_c_run_u64(
    uint8_t order, uint64_t *memory, size_t words, const struct bitvec_span *spans,
    size_t span_count, const struct bitvec_request *requests, size_t request_count,
    struct bitvec_reply *replies, size_t reply_count);

/* Tests any number of spans as bitvec_c_can_run_W does: `room` has as many numbers as there are
 * spans, or the call refuses with BITVEC_NO_ROOM. Where the status is BITVEC_OK or BITVEC_OVERLAP
 * it holds the numbers of the spans in an order in which their first bits rise; else it is as it
 * was. Refuses with BITVEC_NO_ORDER, BITVEC_NO_ROOM, BITVEC_TOO_LONG, BITVEC_OUTSIDE or
 * BITVEC_OVERLAP. Costs n log n for n spans. */
BITVEC_CHECKED uint8_t bitvec_c_can_run_in_u8(
    uint8_t order, size_t words, const struct bitvec_span *spans, size_t span_count, size_t *room,
    size_t room_count);
BITVEC_CHECKED uint8_t bitvec_c_can_run_in_u16(
    uint8_t order, size_t words, const struct bitvec_span *spans, size_t span_count, size_t *room,
    size_t room_count);
BITVEC_CHECKED uint8_t bitvec_c_can_run_in_u32(
    uint8_t order, size_t words, const struct bitvec_span *spans, size_t span_count, size_t *room,
    size_t room_count);
BITVEC_CHECKED uint8_t bitvec_c_can_run_in_u64(
    uint8_t order, size_t words, const struct bitvec_span *spans, size_t span_count, size_t *room,
    size_t room_count);

/* Serves the requests through any number of spans, which are tested as bitvec_c_can_run_in_W does.
 * Where that test would answer BITVEC_OK or BITVEC_OVERLAP, `room` holds the numbers of the spans
 * afterwards, also where the run is refused; else it is as it was. Refuses with BITVEC_NO_ORDER,
 * BITVEC_NO_ROOM, BITVEC_TOO_LONG, BITVEC_OUTSIDE, BITVEC_OVERLAP or BITVEC_NO_COMMAND. Costs as
 * bitvec_c_run_W, with these tests. */
BITVEC_CHECKED uint8_t bitvec_c_run_in_u8(
    uint8_t order, uint8_t *memory, size_t words, const struct bitvec_span *spans,
    size_t span_count, const struct bitvec_request *requests, size_t request_count,
    struct bitvec_reply *replies, size_t reply_count, size_t *room, size_t room_count);
BITVEC_CHECKED uint8_t bitvec_c_run_in_u16(
    uint8_t order, uint16_t *memory, size_t words, const struct bitvec_span *spans,
    size_t span_count, const struct bitvec_request *requests, size_t request_count,
    struct bitvec_reply *replies, size_t reply_count, size_t *room, size_t room_count);
BITVEC_CHECKED uint8_t bitvec_c_run_in_u32(
    uint8_t order, uint32_t *memory, size_t words, const struct bitvec_span *spans,
    size_t span_count, const struct bitvec_request *requests, size_t request_count,
    struct bitvec_reply *replies, size_t reply_count, size_t *room, size_t room_count);
BITVEC_CHECKED uint8_t bitvec_c_run_in_u64(
    uint8_t order, uint64_t *memory, size_t words, const struct bitvec_span *spans,
    size_t span_count, const struct bitvec_request *requests, size_t request_count,
    struct bitvec_reply *replies, size_t reply_count, size_t *room, size_t room_count);

/* In C11, each of these calls with an array is there without a width, which is that of the array's
 * words: bitvec_get(order, memory, words, place, bit). Those of two widths are bitvec_copy_to and
 * bitvec_first_difference_with. With BITVEC_NO_FRONT none is. */
#if !defined(__cplusplus) && defined(__STDC_VERSION__) && __STDC_VERSION__ >= 201112L &&           \
    !defined(BITVEC_NO_FRONT)
#define BITVEC_OF(memory, call)                                                                    \
    _Generic(&(memory)[0],                                                                         \
        uint8_t *: call##_u8, const uint8_t *: call##_u8,                                          \
        uint16_t *: call##_u16, const uint16_t *: call##_u16,                                      \
        uint32_t *: call##_u32, const uint32_t *: call##_u32,                                      \
        uint64_t *: call##_u64, const uint64_t *: call##_u64)
#define BITVEC_OF_TWO(first, second, before, between)                                              \
    _Generic(&(first)[0],                                                                          \
        uint8_t *: BITVEC_OF(second, before##_u8_##between),                                       \
        const uint8_t *: BITVEC_OF(second, before##_u8_##between),                                 \
        uint16_t *: BITVEC_OF(second, before##_u16_##between),                                     \
        const uint16_t *: BITVEC_OF(second, before##_u16_##between),                               \
        uint32_t *: BITVEC_OF(second, before##_u32_##between),                                     \
        const uint32_t *: BITVEC_OF(second, before##_u32_##between),                               \
        uint64_t *: BITVEC_OF(second, before##_u64_##between),                                     \
        const uint64_t *: BITVEC_OF(second, before##_u64_##between))
#define bitvec_get(order, memory, words, place, bit) \
    BITVEC_OF(memory, bitvec_c_get)(order, memory, words, place, bit)
#define bitvec_set(order, memory, words, place, bit) \
    BITVEC_OF(memory, bitvec_c_set)(order, memory, words, place, bit)
#define bitvec_replace(order, memory, words, place, bit, before) \
    BITVEC_OF(memory, bitvec_c_replace)(order, memory, words, place, bit, before)
#define bitvec_swap(order, memory, words, place, other_place) \
    BITVEC_OF(memory, bitvec_c_swap)(order, memory, words, place, other_place)
#define bitvec_fill(order, memory, words, start, count, bit) \
    BITVEC_OF(memory, bitvec_c_fill)(order, memory, words, start, count, bit)
#define bitvec_invert(order, memory, words, start, count) \
    BITVEC_OF(memory, bitvec_c_invert)(order, memory, words, start, count)
#define bitvec_reverse(order, memory, words, start, count) \
    BITVEC_OF(memory, bitvec_c_reverse)(order, memory, words, start, count)
#define bitvec_first_one(order, memory, words, start, count, index) \
    BITVEC_OF(memory, bitvec_c_first_one)(order, memory, words, start, count, index)
#define bitvec_first(order, memory, words, start, count, bit, index) \
    BITVEC_OF(memory, bitvec_c_first)(order, memory, words, start, count, bit, index)
#define bitvec_first_zero(order, memory, words, start, count, index) \
    BITVEC_OF(memory, bitvec_c_first_zero)(order, memory, words, start, count, index)
#define bitvec_last(order, memory, words, start, count, bit, index) \
    BITVEC_OF(memory, bitvec_c_last)(order, memory, words, start, count, bit, index)
#define bitvec_last_one(order, memory, words, start, count, index) \
    BITVEC_OF(memory, bitvec_c_last_one)(order, memory, words, start, count, index)
#define bitvec_last_zero(order, memory, words, start, count, index) \
    BITVEC_OF(memory, bitvec_c_last_zero)(order, memory, words, start, count, index)
#define bitvec_next(order, memory, words, start, count, from, bit, index) \
    BITVEC_OF(memory, bitvec_c_next)(order, memory, words, start, count, from, bit, index)
#define bitvec_next_one(order, memory, words, start, count, from, index) \
    BITVEC_OF(memory, bitvec_c_next_one)(order, memory, words, start, count, from, index)
#define bitvec_next_zero(order, memory, words, start, count, from, index) \
    BITVEC_OF(memory, bitvec_c_next_zero)(order, memory, words, start, count, from, index)
#define bitvec_previous(order, memory, words, start, count, before, bit, index) \
    BITVEC_OF(memory, bitvec_c_previous)(order, memory, words, start, count, before, bit, index)
#define bitvec_previous_one(order, memory, words, start, count, before, index) \
    BITVEC_OF(memory, bitvec_c_previous_one)(order, memory, words, start, count, before, index)
#define bitvec_previous_zero(order, memory, words, start, count, before, index) \
    BITVEC_OF(memory, bitvec_c_previous_zero)(order, memory, words, start, count, before, index)
#define bitvec_find_zeros(order, memory, words, start, count, zeros, index) \
    BITVEC_OF(memory, bitvec_c_find_zeros)(order, memory, words, start, count, zeros, index)
#define bitvec_find_zeros_from(order, memory, words, start, count, from, zeros, multiple_of, \
    index) \
    BITVEC_OF(memory, bitvec_c_find_zeros_from)(order, memory, words, start, count, from, zeros, \
        multiple_of, index)
#define bitvec_count_ones(order, memory, words, start, count, ones) \
    BITVEC_OF(memory, bitvec_c_count_ones)(order, memory, words, start, count, ones)
#define bitvec_count_zeros(order, memory, words, start, count, zeros) \
    BITVEC_OF(memory, bitvec_c_count_zeros)(order, memory, words, start, count, zeros)
#define bitvec_is_empty(order, memory, words, start, count, empty) \
    BITVEC_OF(memory, bitvec_c_is_empty)(order, memory, words, start, count, empty)
#define bitvec_is_full(order, memory, words, start, count, full) \
    BITVEC_OF(memory, bitvec_c_is_full)(order, memory, words, start, count, full)
#define bitvec_copy(order, target, target_words, target_start, source, source_words, source_start, \
    count) \
    BITVEC_OF(target, bitvec_c_copy)(order, target, target_words, target_start, source, \
        source_words, source_start, count)
#define bitvec_copy_within(order, memory, words, target_start, source_start, count) \
    BITVEC_OF(memory, bitvec_c_copy_within)(order, memory, words, target_start, source_start, \
        count)
#define bitvec_copy_to(order, target, target_words, target_start, source_order, source, \
    source_words, source_start, count) \
    BITVEC_OF_TWO(source, target, bitvec_c_copy, to)(order, target, target_words, target_start, \
        source_order, source, source_words, source_start, count)
#define bitvec_shift_left(order, memory, words, start, count, by) \
    BITVEC_OF(memory, bitvec_c_shift_left)(order, memory, words, start, count, by)
#define bitvec_shift_right(order, memory, words, start, count, by) \
    BITVEC_OF(memory, bitvec_c_shift_right)(order, memory, words, start, count, by)
#define bitvec_rotate_left(order, memory, words, start, count, by) \
    BITVEC_OF(memory, bitvec_c_rotate_left)(order, memory, words, start, count, by)
#define bitvec_and(order, target, target_words, target_start, source_order, source, source_words, \
    source_start, count) \
    BITVEC_OF(target, bitvec_c_and)(order, target, target_words, target_start, source_order, \
        source, source_words, source_start, count)
#define bitvec_or(order, target, target_words, target_start, source_order, source, source_words, \
    source_start, count) \
    BITVEC_OF(target, bitvec_c_or)(order, target, target_words, target_start, source_order, \
        source, source_words, source_start, count)
#define bitvec_xor(order, target, target_words, target_start, source_order, source, source_words, \
    source_start, count) \
    BITVEC_OF(target, bitvec_c_xor)(order, target, target_words, target_start, source_order, \
        source, source_words, source_start, count)
#define bitvec_and_not(order, target, target_words, target_start, source_order, source, \
    source_words, source_start, count) \
    BITVEC_OF(target, bitvec_c_and_not)(order, target, target_words, target_start, source_order, \
        source, source_words, source_start, count)
#define bitvec_and_within(order, memory, words, target_start, source_start, count) \
    BITVEC_OF(memory, bitvec_c_and_within)(order, memory, words, target_start, source_start, \
        count)
#define bitvec_or_within(order, memory, words, target_start, source_start, count) \
    BITVEC_OF(memory, bitvec_c_or_within)(order, memory, words, target_start, source_start, count)
#define bitvec_xor_within(order, memory, words, target_start, source_start, count) \
    BITVEC_OF(memory, bitvec_c_xor_within)(order, memory, words, target_start, source_start, \
        count)
#define bitvec_and_not_within(order, memory, words, target_start, source_start, count) \
    BITVEC_OF(memory, bitvec_c_and_not_within)(order, memory, words, target_start, source_start, \
        count)
#define bitvec_and_of(order, target, target_words, target_start, first, first_words, first_start, \
    second, second_words, second_start, count) \
    BITVEC_OF(target, bitvec_c_and_of)(order, target, target_words, target_start, first, \
        first_words, first_start, second, second_words, second_start, count)
#define bitvec_or_of(order, target, target_words, target_start, first, first_words, first_start, \
    second, second_words, second_start, count) \
    BITVEC_OF(target, bitvec_c_or_of)(order, target, target_words, target_start, first, \
        first_words, first_start, second, second_words, second_start, count)
#define bitvec_xor_of(order, target, target_words, target_start, first, first_words, first_start, \
    second, second_words, second_start, count) \
    BITVEC_OF(target, bitvec_c_xor_of)(order, target, target_words, target_start, first, \
        first_words, first_start, second, second_words, second_start, count)
#define bitvec_and_not_of(order, target, target_words, target_start, first, first_words, \
    first_start, second, second_words, second_start, count) \
    BITVEC_OF(target, bitvec_c_and_not_of)(order, target, target_words, target_start, first, \
        first_words, first_start, second, second_words, second_start, count)
#define bitvec_equal(order, memory, words, start, other, other_words, other_start, count, same) \
    BITVEC_OF(memory, bitvec_c_equal)(order, memory, words, start, other, other_words, \
        other_start, count, same)
#define bitvec_count_and(order, memory, words, start, other_order, other, other_words, \
    other_start, count, ones) \
    BITVEC_OF(memory, bitvec_c_count_and)(order, memory, words, start, other_order, other, \
        other_words, other_start, count, ones)
#define bitvec_first_and(order, memory, words, start, other_order, other, other_words, \
    other_start, count, index) \
    BITVEC_OF(memory, bitvec_c_first_and)(order, memory, words, start, other_order, other, \
        other_words, other_start, count, index)
#define bitvec_intersects(order, memory, words, start, other_order, other, other_words, \
    other_start, count, common) \
    BITVEC_OF(memory, bitvec_c_intersects)(order, memory, words, start, other_order, other, \
        other_words, other_start, count, common)
#define bitvec_first_and_not(order, memory, words, start, other_order, other, other_words, \
    other_start, count, index) \
    BITVEC_OF(memory, bitvec_c_first_and_not)(order, memory, words, start, other_order, other, \
        other_words, other_start, count, index)
#define bitvec_is_subset(order, memory, words, start, other_order, other, other_words, \
    other_start, count, subset) \
    BITVEC_OF(memory, bitvec_c_is_subset)(order, memory, words, start, other_order, other, \
        other_words, other_start, count, subset)
#define bitvec_first_difference(order, memory, words, start, other_order, other, other_words, \
    other_start, count, index) \
    BITVEC_OF(memory, bitvec_c_first_difference)(order, memory, words, start, other_order, other, \
        other_words, other_start, count, index)
#define bitvec_first_difference_with(order, memory, words, start, other_order, other, other_words, \
    other_start, count, index) \
    BITVEC_OF_TWO(memory, other, bitvec_c_first_difference, with)(order, memory, words, start, \
        other_order, other, other_words, other_start, count, index)
#define bitvec_load(order, big_endian, memory, words, start, count, number) \
    BITVEC_OF(memory, bitvec_c_load)(order, big_endian, memory, words, start, count, number)
#define bitvec_store(order, big_endian, memory, words, start, count, number) \
    BITVEC_OF(memory, bitvec_c_store)(order, big_endian, memory, words, start, count, number)
#define bitvec_load_signed(order, big_endian, memory, words, start, count, number) \
    BITVEC_OF(memory, bitvec_c_load_signed)(order, big_endian, memory, words, start, count, \
        number)
#define bitvec_store_signed(order, big_endian, memory, words, start, count, number) \
    BITVEC_OF(memory, bitvec_c_store_signed)(order, big_endian, memory, words, start, count, \
        number)
#define bitvec_read(order, big_endian, memory, words, place, end, count, number) \
    BITVEC_OF(memory, bitvec_c_read)(order, big_endian, memory, words, place, end, count, number)
#define bitvec_read_signed(order, big_endian, memory, words, place, end, count, number) \
    BITVEC_OF(memory, bitvec_c_read_signed)(order, big_endian, memory, words, place, end, count, \
        number)
#define bitvec_read_unary(order, memory, words, place, end, bit, count) \
    BITVEC_OF(memory, bitvec_c_read_unary)(order, memory, words, place, end, bit, count)
#define bitvec_read_exp_golomb(order, memory, words, place, end, number) \
    BITVEC_OF(memory, bitvec_c_read_exp_golomb)(order, memory, words, place, end, number)
#define bitvec_read_signed_exp_golomb(order, memory, words, place, end, number) \
    BITVEC_OF(memory, bitvec_c_read_signed_exp_golomb)(order, memory, words, place, end, number)
#define bitvec_write(order, big_endian, memory, words, place, end, count, number) \
    BITVEC_OF(memory, bitvec_c_write)(order, big_endian, memory, words, place, end, count, number)
#define bitvec_write_signed(order, big_endian, memory, words, place, end, count, number) \
    BITVEC_OF(memory, bitvec_c_write_signed)(order, big_endian, memory, words, place, end, count, \
        number)
#define bitvec_write_unary(order, memory, words, place, end, bit, count) \
    BITVEC_OF(memory, bitvec_c_write_unary)(order, memory, words, place, end, bit, count)
#define bitvec_write_exp_golomb(order, memory, words, place, end, number) \
    BITVEC_OF(memory, bitvec_c_write_exp_golomb)(order, memory, words, place, end, number)
#define bitvec_write_signed_exp_golomb(order, memory, words, place, end, number) \
    BITVEC_OF(memory, bitvec_c_write_signed_exp_golomb)(order, memory, words, place, end, number)
#define bitvec_run(order, memory, words, spans, span_count, requests, request_count, replies, \
    reply_count) \
    BITVEC_OF(memory, bitvec_c_run)(order, memory, words, spans, span_count, requests, \
        request_count, replies, reply_count)
#define bitvec_run_in(order, memory, words, spans, span_count, requests, request_count, replies, \
    reply_count, room, room_count) \
    BITVEC_OF(memory, bitvec_c_run_in)(order, memory, words, spans, span_count, requests, \
        request_count, replies, reply_count, room, room_count)
#endif

#undef BITVEC_ENUM
#undef BITVEC_INLINE
#undef BITVEC_NONNULL
#undef BITVEC_CHECKED

#ifdef __cplusplus
}
#endif

#endif
