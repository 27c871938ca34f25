// The jobs of the bench that boost::dynamic_bitset does.
#include "common.hpp"
#include <boost/dynamic_bitset.hpp>

using Bits = boost::dynamic_bitset<uint64_t>;

static Bits bits(const Words &words, size_t count = BITS) {
    Bits made(words.begin(), words.end());
    made.resize(count);
    return made;
}

static size_t sum_of_ones(const Bits &bits) {
    size_t sum = 0;
    for (size_t i = bits.find_first(); i != Bits::npos; i = bits.find_next(i))
        sum += i;
    return sum;
}

static void ask(const char *name, size_t (*question)(const Bits &), const Bits &bits, size_t wanted) {
    same(name, "boost", question(bits), wanted);
    time_job(name, "boost", WORDS, [&] {
        touch(const_cast<Bits &>(bits));
        size_t answer = question(bits);
        touch(answer);
    });
}

static void ask_two(const char *name, size_t (*question)(const Bits &, const Bits &), const Bits &bits, const Bits &other, size_t wanted) {
    same(name, "boost", question(bits, other), wanted);
    time_job(name, "boost", WORDS, [&] {
        touch(const_cast<Bits &>(bits));
        touch(const_cast<Bits &>(other));
        size_t answer = question(bits, other);
        touch(answer);
    });
}

static void edit(const char *name, void (*change)(Bits &, const Bits &), Bits bits, const Bits &other) {
    time_job(name, "boost", WORDS, [&] {
        touch(bits);
        change(bits, other);
    });
}

static void reads() {
    const Bits half = bits(words()), copy = half, other = bits(turned());
    const Bits each = bits(sparse(0)), few = bits(sparse(64)), last = bits(one_bit(WORDS - 1));
    const Plain of_half = plain(words(), BITS), of_each = plain(sparse(0), BITS), of_few = plain(sparse(64), BITS);
    const Plain without = plain(words(), turned(), BITS, [](bool a, bool b) { return a && !b; });
    const Plain either = plain(words(), turned(), BITS, [](bool a, bool b) { return a || b; });
    ask("count-ones-lsb0", [](const Bits &b) { return b.count(); }, half, of_half.ones);
    ask("first-one-lsb0", [](const Bits &b) { return b.find_first(); }, last, (WORDS - 1) * 64 + 31);
    for (auto name : {"ones-half-lsb0", "next-half-lsb0"})
        ask(name, sum_of_ones, half, of_half.sum);
    for (auto name : {"ones-64th-lsb0", "next-64th-lsb0"})
        ask(name, sum_of_ones, each, of_each.sum);
    for (auto name : {"ones-4096th-lsb0", "next-4096th-lsb0"})
        ask(name, sum_of_ones, few, of_few.sum);
    ask("iter-bits-lsb0", [](const Bits &b) {
        size_t count = 0;
        for (size_t i = 0; i < b.size(); i++)
            count += b.test(i);
        return count;
    }, half, of_half.ones);
    ask_two("equal-lsb0", [](const Bits &a, const Bits &b) { return size_t(a == b); }, half, copy, 1);
    ask_two("subset-aligned-lsb0", [](const Bits &a, const Bits &b) { return size_t(a.is_subset_of(b)); }, half, copy, 1);
    ask_two("count-and-aligned-lsb0", [](const Bits &a, const Bits &b) { return (a & b).count(); }, half, copy, of_half.ones);
    ask_two("without-walked-lsb0", [](const Bits &a, const Bits &b) { return sum_of_ones(a - b); }, half, other, without.sum);
    ask_two("either-counted-lsb0", [](const Bits &a, const Bits &b) { return (a | b).count(); }, half, other, either.ones);
}

static void edits() {
    const Bits half = bits(words()), other = bits(turned());
    edit("or-lsb0-aligned", [](Bits &b, const Bits &o) { b |= o; }, half, other);
    edit("or-lsb0-within-shifted", [](Bits &b, const Bits &) { b |= b << 3; }, half, other);
    edit("copy-lsb0-aligned", [](Bits &b, const Bits &o) { b = o; }, half, other);
    edit("copy-lsb0-down", [](Bits &b, const Bits &) { b >>= 139; }, half, other);
    edit("copy-lsb0-up", [](Bits &b, const Bits &) { b <<= 139; }, half, other);
    edit("fill", [](Bits &b, const Bits &) { b.set(); }, half, other);
}

static void at_places() {
    Bits bits = ::bits(words(2 * WORDS), WORDS * 128);
    const auto places = ::places();
    time_job("get-random-lsb0", "boost", WORDS, [&] {
        touch(bits);
        size_t sum = 0;
        for (size_t place : places)
            sum += bits.test(place);
        touch(sum);
    });
    time_job("set-random-lsb0", "boost", WORDS, [&] {
        touch(bits);
        for (size_t place : places)
            bits.set(place, place % 3 == 0);
    });
    Bits made;
    time_job("vec-push", "boost", WORDS, [&] {
        made.clear();
        for (size_t i = 0; i < WORDS; i++)
            made.push_back(bits[i]);
        touch(made);
    });
}

int main() {
    reads();
    edits();
    at_places();
}
