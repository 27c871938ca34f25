// The jobs of the bench that numbers of GMP do: bits are the digits of a number.
#include "common.hpp"
#include <gmp.h>

struct Number {
    mpz_t of;
    explicit Number(const Words &words) {
        mpz_init(of);
        mpz_import(of, words.size(), -1, sizeof(uint64_t), 0, 0, words.data());
        // one digit above the others holds the length
        mpz_setbit(of, words.size() * 64);
    }
    Number(const Number &other) { mpz_init_set(of, other.of); }
    ~Number() { mpz_clear(of); }
};

static size_t sum_of_ones(const Number &n) {
    size_t sum = 0;
    for (size_t i = mpz_scan1(n.of, 0); i < WORDS * 64; i = mpz_scan1(n.of, i + 1))
        sum += i;
    return sum;
}

static void ask(const char *name, size_t (*question)(const Number &, const Number &), const Number &n, const Number &other, size_t wanted) {
    same(name, "gmp", question(n, other), wanted);
    time_job(name, "gmp", WORDS, [&] {
        touch(const_cast<Number &>(n));
        touch(const_cast<Number &>(other));
        size_t answer = question(n, other);
        touch(answer);
    });
}

static void edit(const char *name, void (*change)(Number &, const Number &), Number &n, const Number &other) {
    time_job(name, "gmp", WORDS, [&] {
        touch(n);
        change(n, other);
    });
}

int main() {
    Number half(words()), copy = half, other(turned()), each(sparse(0)), few(sparse(64)), last(one_bit(WORDS - 1));
    const size_t all = WORDS * 64;
    const Plain of_half = plain(words(), all), either = plain(words(), turned(), all, [](bool a, bool b) { return a || b; });
    // (the digit above the others is one too)
    ask("count-ones-lsb0", [](const Number &n, const Number &) { return size_t(mpz_popcount(n.of)); }, half, half, of_half.ones + 1);
    ask("first-one-lsb0", [](const Number &n, const Number &) { return size_t(mpz_scan1(n.of, 0)); }, last, last, (WORDS - 1) * 64 + 31);
    for (auto name : {"ones-half-lsb0", "next-half-lsb0"})
        ask(name, [](const Number &n, const Number &) { return sum_of_ones(n); }, half, half, of_half.sum);
    for (auto name : {"ones-64th-lsb0", "next-64th-lsb0"})
        ask(name, [](const Number &n, const Number &) { return sum_of_ones(n); }, each, each, plain(sparse(0), all).sum);
    for (auto name : {"ones-4096th-lsb0", "next-4096th-lsb0"})
        ask(name, [](const Number &n, const Number &) { return sum_of_ones(n); }, few, few, plain(sparse(64), all).sum);
    ask("equal-lsb0", [](const Number &n, const Number &o) { return size_t(mpz_cmp(n.of, o.of) == 0); }, half, copy, 1);
    Number made = half;
    time_job("count-and-aligned-lsb0", "gmp", WORDS, [&] {
        touch(half);
        mpz_and(made.of, half.of, copy.of);
        size_t answer = mpz_popcount(made.of);
        touch(answer);
    });
    time_job("either-counted-lsb0", "gmp", WORDS, [&] {
        touch(half);
        mpz_ior(made.of, half.of, other.of);
        size_t answer = mpz_popcount(made.of);
        touch(answer);
    });
    same("either-counted-lsb0", "gmp", mpz_popcount(made.of), either.ones + 1);
    edit("or-lsb0-aligned", [](Number &n, const Number &o) { mpz_ior(n.of, n.of, o.of); }, made, other);
    edit("copy-lsb0-aligned", [](Number &n, const Number &o) { mpz_set(n.of, o.of); }, made, other);
    edit("copy-lsb0-shifted", [](Number &n, const Number &o) { mpz_mul_2exp(n.of, o.of, 11); }, made, other);
    Number bits(words(2 * WORDS));
    const auto places = ::places();
    time_job("get-random-lsb0", "gmp", WORDS, [&] {
        touch(bits);
        size_t sum = 0;
        for (size_t place : places)
            sum += mpz_tstbit(bits.of, place);
        touch(sum);
    });
    time_job("set-random-lsb0", "gmp", WORDS, [&] {
        touch(bits);
        for (size_t place : places)
            if (place % 3 == 0)
                mpz_setbit(bits.of, place);
            else
                mpz_clrbit(bits.of, place);
    });
}
