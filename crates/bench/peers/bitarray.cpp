// The jobs of the bench that libbitarray does.
#include "common.hpp"
#include <bit_array.h>
#include <cstring>

constexpr size_t COPIED = (WORDS - 4) * 64;

static BIT_ARRAY *bits(const Words &words, size_t count = WORDS * 64) {
    BIT_ARRAY *made = bit_array_create(count);
    for (size_t k = 0; k < words.size(); k++)
        bit_array_set_word64(made, k * 64, words[k]);
    return made;
}

static size_t sum_of_ones(const BIT_ARRAY *bits) {
    size_t sum = 0;
    bit_index_t i = 0;
    if (!bit_array_find_first_set_bit(bits, &i))
        return 0;
    do
        sum += i;
    while (bit_array_find_next_set_bit(bits, i + 1, &i));
    return sum;
}

static void ask(const char *name, size_t (*question)(const BIT_ARRAY *, const BIT_ARRAY *), const BIT_ARRAY *bits, const BIT_ARRAY *other, size_t wanted) {
    same(name, "libbitarray", question(bits, other), wanted);
    time_job(name, "libbitarray", WORDS, [&] {
        touch(bits);
        touch(other);
        size_t answer = question(bits, other);
        touch(answer);
    });
}

static void edit(const char *name, void (*change)(BIT_ARRAY *, const BIT_ARRAY *), BIT_ARRAY *bits, const BIT_ARRAY *other, size_t units = WORDS) {
    time_job(name, "libbitarray", units, [&] {
        touch(bits);
        change(bits, other);
    });
}

static size_t ones(const BIT_ARRAY *b, const BIT_ARRAY *) {
    return sum_of_ones(b);
}

static void reads() {
    BIT_ARRAY *half = bits(words()), *copy = bits(words()), *each = bits(sparse(0)), *few = bits(sparse(64));
    BIT_ARRAY *first = bits(one_bit(0)), *last = bits(one_bit(WORDS - 1));
    const size_t all = WORDS * 64;
    const Plain of_half = plain(words(), all), of_each = plain(sparse(0), all), of_few = plain(sparse(64), all);
    ask("count-ones-lsb0", [](const BIT_ARRAY *b, const BIT_ARRAY *) { return size_t(bit_array_num_bits_set(b)); }, half, half, of_half.ones);
    ask("first-one-lsb0", [](const BIT_ARRAY *b, const BIT_ARRAY *) {
        bit_index_t at = 0;
        return bit_array_find_first_set_bit(b, &at) ? size_t(at) : 0;
    }, last, last, (WORDS - 1) * 64 + 31);
    ask("last-one-lsb0", [](const BIT_ARRAY *b, const BIT_ARRAY *) {
        bit_index_t at = 0;
        return bit_array_find_last_set_bit(b, &at) ? size_t(at) : 0;
    }, first, first, 31);
    for (auto name : {"ones-half-lsb0", "next-half-lsb0"})
        ask(name, ones, half, half, of_half.sum);
    for (auto name : {"ones-64th-lsb0", "next-64th-lsb0"})
        ask(name, ones, each, each, of_each.sum);
    for (auto name : {"ones-4096th-lsb0", "next-4096th-lsb0"})
        ask(name, ones, few, few, of_few.sum);
    ask("equal-lsb0", [](const BIT_ARRAY *b, const BIT_ARRAY *o) { return size_t(bit_array_cmp(b, o) == 0); }, half, copy, 1);
}

static void edits() {
    BIT_ARRAY *half = bits(words()), *other = bits(turned());
    edit("or-lsb0-aligned", [](BIT_ARRAY *b, const BIT_ARRAY *o) { bit_array_or(b, b, o); }, half, other);
    edit("copy-lsb0-aligned", [](BIT_ARRAY *b, const BIT_ARRAY *o) { bit_array_copy(b, 64, o, 64, COPIED); }, half, other);
    edit("copy-lsb0-shifted", [](BIT_ARRAY *b, const BIT_ARRAY *o) { bit_array_copy(b, 64 + 14, o, 64 + 3, COPIED); }, half, other);
    edit("copy-lsb0-down", [](BIT_ARRAY *b, const BIT_ARRAY *) { bit_array_copy(b, 64 + 3, b, 3 * 64 + 14, COPIED); }, half, other);
    edit("copy-lsb0-up", [](BIT_ARRAY *b, const BIT_ARRAY *) { bit_array_copy(b, 3 * 64 + 14, b, 64 + 3, COPIED); }, half, other);
    edit("copy-lsb0-shifted-200-bits", [](BIT_ARRAY *b, const BIT_ARRAY *o) { bit_array_copy(b, 64 + 14, o, 64 + 3, 200); }, half, other, 1);
    edit("fill", [](BIT_ARRAY *b, const BIT_ARRAY *) { bit_array_set_region(b, 3, BITS); }, half, other);
    edit("reverse-lsb0", [](BIT_ARRAY *b, const BIT_ARRAY *) { bit_array_reverse_region(b, 3, BITS); }, half, other);
    edit("rotate-left-lsb0", [](BIT_ARRAY *b, const BIT_ARRAY *) { bit_array_cycle_left(b, 1000); }, half, other);
}

static void at_places() {
    BIT_ARRAY *bits = ::bits(words(2 * WORDS), WORDS * 128), *other = ::bits(words(2 * WORDS + 17), WORDS * 128 + 17 * 64);
    const auto places = ::places();
    time_job("get-random-lsb0", "libbitarray", WORDS, [&] {
        touch(bits);
        size_t sum = 0;
        for (size_t place : places)
            sum += bit_array_get(bits, place);
        touch(sum);
    });
    time_job("set-random-lsb0", "libbitarray", WORDS, [&] {
        touch(bits);
        for (size_t place : places)
            bit_array_assign(bits, place, place % 3 == 0);
    });
    time_job("copy-short-lsb0", "libbitarray", WORDS, [&] {
        touch(bits);
        for (size_t place : places)
            bit_array_copy(bits, place, other, place ^ 0x2A5, (place ^ place >> 7) % 64 + 1);
    });
    time_job("load-13-lsb0", "libbitarray", WORDS, [&] {
        touch(bits);
        uint64_t sum = 0;
        for (size_t n = 0; n < WORDS; n++)
            sum += bit_array_get_wordn(bits, n * 13, 13);
        touch(sum);
    });
    time_job("store-13-lsb0", "libbitarray", WORDS, [&] {
        touch(bits);
        for (size_t n = 0; n < WORDS; n++)
            bit_array_set_wordn(bits, n * 13, n * 13, 13);
    });
}

int main() {
    reads();
    edits();
    at_places();
}
