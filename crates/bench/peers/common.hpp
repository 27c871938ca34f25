// What the peers in C and C++ share: the data of the bench, and its timer. Each job prints its name, the peer and the
// nanoseconds of one unit.
#pragma once
#include <chrono>
#include <cstddef>
#include <cstdint>
#include <cstdio>
#include <cstdlib>
#include <vector>

constexpr size_t WORDS = 65536;

// Bits of a memory but for the last seven, as the bench leaves three out at the start and four at the end.
constexpr size_t BITS = WORDS * 64 - 7;

using Words = std::vector<uint64_t>;

// What the compiler cannot see through.
template <class T> inline void touch(T &it) {
    asm volatile("" : : "g"(&it) : "memory");
}

// The nanoseconds of one of the units of a job: the best of nine rounds.
template <class Job> void time_job(const char *name, const char *peer, size_t units, Job job) {
    using Clock = std::chrono::steady_clock;
    auto round = [&](size_t repeats) {
        auto start = Clock::now();
        for (size_t n = 0; n < repeats; n++)
            job();
        return std::chrono::duration<double, std::nano>(Clock::now() - start).count();
    };
    size_t repeats = 1;
    while (repeats < size_t(1) << 20 && round(repeats) < 2e6)
        repeats *= 2;
    double best = round(repeats);
    for (int n = 1; n < 9; n++) {
        double next = round(repeats);
        if (next < best)
            best = next;
    }
    std::printf("%s %s %.3f\n", name, peer, best / (double(repeats) * double(units)));
}

struct Draw {
    uint64_t word = 1;
    uint64_t next() {
        word = word * 6364136223846793005u + 1442695040888963407u;
        return word;
    }
};

inline Words words(size_t count = WORDS) {
    Draw draw;
    Words made(count);
    for (auto &word : made)
        word = draw.next();
    return made;
}

inline Words turned() {
    Words made = words();
    return Words(made.rbegin(), made.rend());
}

// Words of which each n-th has one digit that is one; all of them where n is 0.
inline Words sparse(size_t n) {
    Words made(WORDS, 0);
    for (size_t k = 0; k < WORDS; k++)
        if (n == 0 || k % n == n / 2)
            made[k] = uint64_t(1) << (k % 61);
    return made;
}

inline Words one_bit(size_t at) {
    Words made(WORDS, 0);
    made[at] = uint64_t(1) << 31;
    return made;
}

// What a plain loop says of the first bits of two memories: how many are one, and the sum of their indices.
struct Plain {
    size_t ones = 0, sum = 0;
};

template <class Bit> Plain plain(const Words &words, const Words &others, size_t count, Bit bit) {
    Plain made;
    for (size_t i = 0; i < count; i++)
        if (bit(words[i / 64] >> (i % 64) & 1, others[i / 64] >> (i % 64) & 1)) {
            made.ones++;
            made.sum += i;
        }
    return made;
}

inline Plain plain(const Words &words, size_t count) {
    return plain(words, words, count, [](bool one, bool) { return one; });
}

// Ends where an answer is not that of the plain loop, since then it is another job that is timed.
inline void same(const char *name, const char *peer, size_t answer, size_t wanted) {
    if (answer == wanted)
        return;
    std::fprintf(stderr, "%s of %s: %zu, and not %zu\n", name, peer, answer, wanted);
    std::exit(1);
}

// Places in no order.
inline std::vector<size_t> places() {
    Draw draw;
    std::vector<size_t> made(WORDS);
    for (auto &place : made)
        place = size_t(draw.next() >> 20) % (WORDS * 128 - 1024);
    return made;
}
