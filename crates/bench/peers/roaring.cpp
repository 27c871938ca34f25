// The jobs of the bench that CRoaring does: bits are the numbers of a set.
#include "common.hpp"
#include <roaring/roaring.h>

using Set = roaring_bitmap_t;

static Set *set(const Words &words) {
    std::vector<uint32_t> numbers;
    for (size_t i = 0; i < words.size() * 64; i++)
        if (words[i / 64] >> (i % 64) & 1)
            numbers.push_back(uint32_t(i));
    return roaring_bitmap_of_ptr(numbers.size(), numbers.data());
}

static bool add(uint32_t number, void *sum) {
    *static_cast<size_t *>(sum) += number;
    return true;
}

static size_t sum_of_ones(const Set *set, const Set *) {
    size_t sum = 0;
    roaring_iterate(set, add, &sum);
    return sum;
}

// The same by an iterator's blocks of numbers.
static size_t sum_by_blocks(const Set *set, const Set *) {
    uint32_t block[256];
    size_t sum = 0;
    roaring_uint32_iterator_t it;
    roaring_init_iterator(set, &it);
    while (uint32_t count = roaring_read_uint32_iterator(&it, block, 256))
        for (uint32_t n = 0; n < count; n++)
            sum += block[n];
    return sum;
}

static void ask(const char *name, size_t (*question)(const Set *, const Set *), const Set *set, const Set *other, size_t wanted) {
    same(name, "croaring", question(set, other), wanted);
    time_job(name, "croaring", WORDS, [&] {
        touch(set);
        touch(other);
        size_t answer = question(set, other);
        touch(answer);
    });
}

static size_t without(const Set *a, const Set *b) {
    Set *made = roaring_bitmap_andnot(a, b);
    size_t sum = sum_by_blocks(made, made);
    roaring_bitmap_free(made);
    return sum;
}

int main() {
    Set *half = set(words()), *copy = set(words()), *other = set(turned()), *each = set(sparse(0)), *few = set(sparse(64));
    const size_t all = WORDS * 64;
    const Plain of_half = plain(words(), all), of_each = plain(sparse(0), all), of_few = plain(sparse(64), all);
    for (auto question : {sum_of_ones, sum_by_blocks}) {
        ask("ones-half-lsb0", question, half, half, of_half.sum);
        ask("ones-64th-lsb0", question, each, each, of_each.sum);
        ask("ones-4096th-lsb0", question, few, few, of_few.sum);
    }
    const Plain either = plain(words(), turned(), all, [](bool a, bool b) { return a || b; });
    const Plain alone = plain(words(), turned(), all, [](bool a, bool b) { return a && !b; });
    ask("equal-lsb0", [](const Set *a, const Set *b) { return size_t(roaring_bitmap_equals(a, b)); }, half, copy, 1);
    ask("subset-aligned-lsb0", [](const Set *a, const Set *b) { return size_t(roaring_bitmap_is_subset(a, b)); }, half, copy, 1);
    ask("count-and-aligned-lsb0", [](const Set *a, const Set *b) { return size_t(roaring_bitmap_and_cardinality(a, b)); }, half, copy, of_half.ones);
    ask("either-counted-lsb0", [](const Set *a, const Set *b) { return size_t(roaring_bitmap_or_cardinality(a, b)); }, half, other, either.ones);
    ask("without-walked-lsb0", without, half, other, alone.sum);
    Set *made = roaring_bitmap_copy(half);
    time_job("or-lsb0-aligned", "croaring", WORDS, [&] {
        touch(made);
        roaring_bitmap_or_inplace(made, other);
    });
    Set *bits = set(words(2 * WORDS));
    const auto places = ::places();
    time_job("get-random-lsb0", "croaring", WORDS, [&] {
        touch(bits);
        size_t sum = 0;
        for (size_t place : places)
            sum += roaring_bitmap_contains(bits, uint32_t(place));
        touch(sum);
    });
    time_job("set-random-lsb0", "croaring", WORDS, [&] {
        touch(bits);
        for (size_t place : places)
            if (place % 3 == 0)
                roaring_bitmap_add(bits, uint32_t(place));
            else
                roaring_bitmap_remove(bits, uint32_t(place));
    });
}
