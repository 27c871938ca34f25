/* Calls each function of bitvec_bitmap.h with random arguments, also with a target that is a
 * source, and compares what it answers, and every bit that it leaves, with a plain loop.
 *
 *     bitmap_test SEED CALLS
 *
 * Each bitmap has just its words, so that tools see a stray access. The lines are how many calls
 * there were of each; the status is 1 where one is wrong. */
#include "bitvec_bitmap.h"

#include <inttypes.h>
#include <stdio.h>
#include <stdlib.h>
#include <string.h>

#define MAPS 3
#define MOST_WORDS 7

static uint64_t state;

static uint64_t any(void) {
    state ^= state << 13;
    state ^= state >> 7;
    state ^= state << 17;
    return state * UINT64_C(0x2545f4914f6cdd1d);
}

static unsigned long below(unsigned long bound) { return (unsigned long)(any() >> 16) % bound; }

/* The bitmaps, and what they were before the call. */
static unsigned long nbits, *maps[MAPS], was[MAPS][MOST_WORDS];

/* The sources, of which each may be the other or the target, which is the first bitmap. */
static int first, second;

static bool bit_of(const unsigned long *map, unsigned long n) {
    return map[n / 64] >> (n % 64) & 1;
}

static bool old(int map, unsigned long n) { return bit_of(was[map], n); }

/* Mostly zeros, ones, few ones, few zeros, or anything; the second is sometimes as the first. */
static void make_maps(void) {
    nbits = below(8) == 0 ? 64 * below(MOST_WORDS + 1) : below(64 * MOST_WORDS + 1);
    for (int i = 0; i < MAPS; i++) {
        size_t words = BITS_TO_LONGS(nbits);
        maps[i] = malloc(words * sizeof(unsigned long) + (words == 0));
        if (maps[i] == NULL)
            exit(2);
        unsigned long kind = below(6);
        for (size_t k = 0; k < words; k++) {
            unsigned long few = below(3) == 0 ? 1ul << below(64) : 0;
            was[i][k] = kind < 2 ? 0 - kind : kind == 2 ? few : kind == 3 ? ~few : any();
            if (i > 0 && kind == 5)
                was[i][k] = was[i - 1][k] | few;
        }
        if (words != 0)
            memcpy(maps[i], was[i], words * sizeof(unsigned long));
    }
    first = (int)below(MAPS);
    second = (int)below(MAPS);
}

static const char *name;
static uint64_t number_of_call;

static void wrong(const char *what) {
    printf("call %" PRIu64 ", %s of %lu bits: %s\n", number_of_call, name, nbits, what);
    exit(1);
}

/* What is asked of a bit, of the sources as they were. */
enum asked { ONE, ZERO, BOTH, FIRST_ALONE, OTHER };

static bool holds(enum asked asked, unsigned long n) {
    bool a = old(first, n), b = old(second, n);
    switch (asked) {
    case ONE:
        return a;
    case ZERO:
        return !a;
    case BOTH:
        return a && b;
    case FIRST_ALONE:
        return a && !b;
    default:
        return a != b;
    }
}

static unsigned long next_of(enum asked asked, unsigned long from) {
    while (from < nbits && !holds(asked, from))
        from++;
    return from < nbits ? from : nbits;
}

static unsigned long last_of(enum asked asked) {
    for (unsigned long n = nbits; n > 0; n--)
        if (holds(asked, n - 1))
            return n - 1;
    return nbits;
}

static unsigned long count_of(enum asked asked) {
    unsigned long count = 0;
    for (unsigned long n = 0; n < nbits; n++)
        count += holds(asked, n);
    return count;
}

static bool any_of(enum asked asked) { return next_of(asked, 0) != nbits; }

static unsigned long area_of(unsigned long from, unsigned long zeros, unsigned long step) {
    for (unsigned long n = from; n < nbits; n++) {
        unsigned long k = 0;
        while (n % step == 0 && k < zeros && n + k < nbits && !old(first, n + k))
            k++;
        if (k == zeros)
            return n;
    }
    return nbits + 1;
}

static unsigned long number_of(unsigned long from, unsigned long count) {
    unsigned long number = 0;
    for (unsigned long k = 0; k < count; k++)
        number |= (unsigned long)old(first, from + k) << k;
    return number;
}

/* That the target has in place of bit n what `expected` says, and that all else is as it was. */
#define MADE(CALL, EXPECTED)                                                                       \
    do {                                                                                           \
        name = #CALL;                                                                              \
        CALL;                                                                                      \
        for (unsigned long n = 0; n < nbits; n++)                                                  \
            if (bit_of(maps[0], n) != (EXPECTED))                                                  \
                wrong("a bit");                                                                    \
        is_made = true;                                                                            \
    } while (0)

#define ASKED(CALL, EXPECTED)                                                                      \
    do {                                                                                           \
        name = #CALL;                                                                              \
        if ((unsigned long)(CALL) != (unsigned long)(EXPECTED))                                    \
            wrong("the answer");                                                                   \
    } while (0)

enum { CALLS = 36 };

static uint64_t calls[CALLS];
static const char *names[CALLS];

static void call(unsigned long which) {
    unsigned long *dst = maps[0];
    const unsigned long *a = maps[first], *b = maps[second];
    unsigned long start = below(nbits + 1), len = below(nbits - start + 1), from = below(nbits + 9);
    unsigned long few = len < 64 ? len : below(65) % (len + 1), value = any(), bit, seen = 0;
    unsigned long zeros = 1 + below(9), step = 1ul << below(6), shift = below(nbits + 70);
    bool is_made = false, is_in = false;
    (void)is_in;
    switch (which) {
    case 0:
        MADE(bitmap_zero(dst, nbits), false);
        break;
    case 1:
        MADE(bitmap_fill(dst, nbits), true);
        break;
    case 2:
        MADE(bitmap_set(dst, start, len), (n >= start && n - start < len) || old(0, n));
        break;
    case 3:
        MADE(bitmap_clear(dst, start, len), !(n >= start && n - start < len) && old(0, n));
        break;
    case 4:
        MADE(bitmap_copy(dst, a, nbits), old(first, n));
        break;
    case 5:
        MADE(bitmap_complement(dst, a, nbits), !old(first, n));
        break;
    case 6:
        MADE(bitmap_write(dst, value, start, few),
             n >= start && n - start < few ? value >> (n - start) & 1 : old(0, n));
        break;
    case 7:
        MADE(ASKED(bitmap_and(dst, a, b, nbits), any_of(BOTH)), holds(BOTH, n));
        break;
    case 8:
        MADE(bitmap_or(dst, a, b, nbits), old(first, n) || old(second, n));
        break;
    case 9:
        MADE(bitmap_xor(dst, a, b, nbits), holds(OTHER, n));
        break;
    case 10:
        MADE(ASKED(bitmap_andnot(dst, a, b, nbits), any_of(FIRST_ALONE)), holds(FIRST_ALONE, n));
        break;
    case 11:
        MADE(bitmap_shift_left(dst, a, shift, nbits), n >= shift && old(first, n - shift));
        break;
    case 12:
        MADE(bitmap_shift_right(dst, a, shift, nbits), n + shift < nbits && old(first, n + shift));
        break;
    case 13:
        if (nbits != 0)
            ASKED(test_bit(from % nbits, a), old(first, from % nbits));
        break;
    case 14:
        ASKED(bitmap_read(a, start, few), number_of(start, few));
        break;
    case 15:
        ASKED(bitmap_empty(a, nbits), !any_of(ONE));
        break;
    case 16:
        ASKED(bitmap_full(a, nbits), !any_of(ZERO));
        break;
    case 17:
        ASKED(bitmap_equal(a, b, nbits), !any_of(OTHER));
        break;
    case 18:
        ASKED(bitmap_intersects(a, b, nbits), any_of(BOTH));
        break;
    case 19:
        ASKED(bitmap_subset(a, b, nbits), !any_of(FIRST_ALONE));
        break;
    case 20:
        ASKED(bitmap_weight(a, nbits), count_of(ONE));
        break;
    case 21:
        ASKED(bitmap_weight_and(a, b, nbits), count_of(BOTH));
        break;
    case 22:
        ASKED(bitmap_weight_andnot(a, b, nbits), count_of(FIRST_ALONE));
        break;
    case 23:
        ASKED(find_first_bit(a, nbits), next_of(ONE, 0));
        break;
    case 24:
        ASKED(find_first_zero_bit(a, nbits), next_of(ZERO, 0));
        break;
    case 25:
        ASKED(find_last_bit(a, nbits), last_of(ONE));
        break;
    case 26:
        ASKED(find_next_bit(a, nbits, from), next_of(ONE, from));
        break;
    case 27:
        ASKED(find_next_zero_bit(a, nbits, from), next_of(ZERO, from));
        break;
    case 28:
        ASKED(find_first_and_bit(a, b, nbits), next_of(BOTH, 0));
        break;
    case 29:
        ASKED(find_first_andnot_bit(a, b, nbits), next_of(FIRST_ALONE, 0));
        break;
    case 30:
        ASKED(find_next_and_bit(a, b, nbits, from), next_of(BOTH, from));
        break;
    case 31:
        ASKED(find_next_andnot_bit(a, b, nbits, from), next_of(FIRST_ALONE, from));
        break;
    case 32:
        ASKED(bitmap_find_next_zero_area(a, nbits, from, zeros, step - 1),
              area_of(from, zeros, step));
        break;
    case 33:
        name = "for_each_set_bit(bit, a, nbits)";
        for_each_set_bit(bit, a, nbits) if (!old(first, bit) || seen++ > nbits) wrong("a bit");
        ASKED(seen, count_of(ONE));
        name = "for_each_set_bit(bit, a, nbits)";
        break;
    case 34:
        name = "for_each_clear_bit(bit, a, nbits)";
        for_each_clear_bit(bit, a, nbits) if (old(first, bit) || seen++ > nbits) wrong("a bit");
        ASKED(seen, count_of(ZERO));
        name = "for_each_clear_bit(bit, a, nbits)";
        break;
    default: {
        DECLARE_BITMAP(own, 130);
        name = "DECLARE_BITMAP(own, 130)";
        bitmap_zero(own, 130);
        bitmap_set(own, 1, 129);
        if (BITVEC_WORDS(own) != 3 || bitmap_weight(own, 130) != 129 || test_bit(0, own))
            wrong("its bits");
        break;
    }
    }
    for (int i = 0; i < MAPS; i++)
        for (unsigned long n = 0; n < 64 * BITS_TO_LONGS(nbits); n++)
            if ((n >= nbits || i > 0 || !is_made) && bit_of(maps[i], n) != old(i, n))
                wrong("a bit that is none of its");
}

int main(int count, char **words) {
    if (count != 3)
        return 2;
    uint64_t all = strtoull(words[2], NULL, 10);
    state = strtoull(words[1], NULL, 10) * 2 + 1;
    for (number_of_call = 0; number_of_call < all; number_of_call++) {
        unsigned long which = below(CALLS);
        make_maps();
        call(which);
        if (name != NULL)
            names[which] = name;
        calls[which]++;
        for (int i = 0; i < MAPS; i++)
            free(maps[i]);
    }
    for (int i = 0; i < CALLS; i++)
        printf("%s %" PRIu64 "\n", names[i] != NULL ? names[i] : "-", calls[i]);
    return 0;
}
