/* Calls each export, and each call of the header, with random and with hostile arguments, and
 * compares what it answers, and every bit that it leaves, with a plain model that goes bit by bit.
 *
 *     fuzz SEED CALLS
 *
 * Each buffer lies between two pages that may not be touched, at the first or right before the
 * second of them, and what a call only reads may not be written: a stray access ends the program.
 * The last lines are how many calls there were of each export, and a sum of all answers, by which
 * two archives are compared; the status is 1 where one is wrong. */
#define _DEFAULT_SOURCE
#include "model_pairs.h"

#include <inttypes.h>
#include <stdio.h>
#include <stdlib.h>
#include <string.h>
#include <sys/mman.h>

#define PAGE 4096
#define ROOM (2 * PAGE)

static uint64_t state;

static uint64_t any(void) {
    state ^= state << 13;
    state ^= state >> 7;
    state ^= state << 17;
    return state * UINT64_C(0x2545f4914f6cdd1d);
}

static size_t below(size_t bound) { return (size_t)(any() >> 16) % bound; }

static bool one_in(size_t n) { return below(n) == 0; }

/* A number at which sums or products pass the greatest. */
static size_t far_out(void) { return (SIZE_MAX >> below(8)) + below(3) - 1; }

/* A number that mostly is at most `most`. */
static size_t mostly(size_t most) {
    switch (below(16)) {
    case 0:
        return far_out();
    case 1:
        return most + below(9);
    case 2:
        return most;
    default:
        return most == SIZE_MAX ? most : below(most + 1);
    }
}

static uint8_t any_order(void) { return (uint8_t)(one_in(32) ? any() : below(2)); }

/* Two pages between two that may not be touched. */
struct guarded {
    uint8_t *first;
};

/* A buffer of `size` bytes at the end, or at the start, of what is guarded. */
struct buffer {
    uint8_t *at;
    size_t size;
    const struct guarded *in;
};

enum { MEMORY, OTHER, SECOND, SPANS, REQUESTS, REPLIES, NUMBERS, ANSWER, PLACE, ROOMS };

static struct guarded rooms[ROOMS];

/* (of no declared type, as words of any width are read and written there) */
static uint8_t *model, *other_model, *second_model, *old_model;

static void map_rooms(void) {
    for (int i = 0; i < ROOMS; i++) {
        uint8_t *all = mmap(NULL, ROOM + 2 * PAGE, PROT_READ | PROT_WRITE,
                            MAP_PRIVATE | MAP_ANONYMOUS, -1, 0);
        if (all == MAP_FAILED || mprotect(all, PAGE, PROT_NONE) != 0 ||
            mprotect(all + PAGE + ROOM, PAGE, PROT_NONE) != 0) {
            perror("fuzz");
            exit(2);
        }
        rooms[i].first = all + PAGE;
    }
    model = calloc(1, ROOM);
    other_model = calloc(1, ROOM);
    second_model = calloc(1, ROOM);
    old_model = calloc(1, ROOM);
    if (model == NULL || other_model == NULL || second_model == NULL || old_model == NULL)
        exit(2);
}

/* The buffers of a call. */
static struct buffer taken[ROOMS];

static struct buffer take(int room, size_t size) {
    struct buffer buffer = {rooms[room].first, size, &rooms[room]};
    if (size == 0 && one_in(2))
        buffer.at = NULL;
    else if (one_in(2))
        buffer.at += ROOM - size;
    taken[room] = buffer;
    return buffer;
}

/* The sum of all statuses, and of all bytes that the calls leave: two archives that answer the same
 * have the same. */
static uint64_t sum = UINT64_C(0xcbf29ce484222325);

static void add(uint64_t number) {
    sum = (sum ^ number) * UINT64_C(0x9e3779b97f4a7c15);
    sum ^= sum >> 29;
}

static void add_bytes(const uint8_t *bytes, size_t size) {
    for (size_t i = 0; i < size; i++)
        add(bytes[i]);
}

/* (what lies behind the command of a request and the kind of a reply may be anything, and so may the
 * order of the numbers of spans that start at one place) */
static void add_taken(void) {
    taken[REQUESTS].size = 0;
    taken[NUMBERS].size = 0;
    for (int i = 0; i < ROOMS; i++) {
        size_t step = i == REPLIES ? sizeof(struct bitvec_reply) : 1;
        size_t own = i == REPLIES ? offsetof(struct bitvec_reply, kind) + 1 : 1;
        for (size_t at = 0; at < taken[i].size; at += step)
            add_bytes(taken[i].at + at, own);
        taken[i].size = 0;
    }
}

/* Whether what is guarded may be written. */
static void protect(struct buffer buffer, int way) {
    if (mprotect(buffer.in->first, ROOM, way) != 0) {
        perror("fuzz");
        exit(2);
    }
}

/* Mostly zeros, ones, few ones, or anything. */
static void fill_any(struct buffer buffer) {
    size_t kind = below(4);
    for (size_t i = 0; i < buffer.size; i++)
        buffer.at[i] = (uint8_t)(kind == 0   ? 0
                                 : kind == 1 ? 0xff
                                 : kind == 2 ? (one_in(16) ? 1u << below(8) : 0)
                                             : any());
}

/* The model: the word and its digit of a place, in a memory of words of so many bits. */
static bool bit_at(const uint8_t *memory, unsigned width, uint8_t order, size_t place) {
    size_t word = place / width, index = place % width;
    size_t digit = order == BITVEC_LSB0 ? index : width - 1 - index;
    return memory[word * (width / 8) + digit / 8] >> (digit % 8) & 1;
}

static void put_bit(uint8_t *memory, unsigned width, uint8_t order, size_t place, bool bit) {
    size_t word = place / width, index = place % width;
    size_t digit = order == BITVEC_LSB0 ? index : width - 1 - index;
    uint8_t *byte = &memory[word * (width / 8) + digit / 8];
    *byte = (uint8_t)((*byte & ~(1u << (digit % 8))) | (unsigned)bit << (digit % 8));
}

static uint8_t range_status(unsigned width, uint8_t order, size_t words, size_t start,
                            size_t count) {
    size_t bits = words * width;
    if (order > 1)
        return BITVEC_NO_ORDER;
    if (count > BITVEC_MAX_BITS)
        return BITVEC_TOO_LONG;
    if (start > bits || count > bits - start)
        return BITVEC_OUTSIDE;
    return BITVEC_OK;
}

static const char *name;
static uint64_t number_of_call;

static void wrong(const char *what) {
    printf("call %" PRIu64 ", %s: %s\n", number_of_call, name, what);
    exit(1);
}

static void same_status(uint8_t status, uint8_t expected) {
    add(status);
    if (status != expected) {
        printf("status %d in place of %d\n", status, expected);
        wrong("the status");
    }
}

static void same_bytes(struct buffer buffer, const uint8_t *model) {
    if (buffer.size != 0 && memcmp(buffer.at, model, buffer.size) != 0)
        wrong("what it leaves");
}

/* A range of `words` words, mostly inside. */
struct range {
    size_t start, count;
};

static struct range any_range(size_t bits) {
    struct range range = {mostly(bits), 0};
    range.count = mostly(range.start < bits ? bits - range.start : 0);
    return range;
}

static struct range narrow_range(size_t bits) {
    struct range range = any_range(bits);
    if (range.count > 64 && !one_in(16))
        range.count = below(65);
    return range;
}

/* A memory of any bits, and the same in the model; mostly short. */
static struct buffer any_memory(int room, unsigned width, uint8_t *model) {
    size_t most = one_in(8) ? 512 : 40;
    struct buffer buffer = take(room, below(most / (width / 8)) * (width / 8));
    fill_any(buffer);
    if (buffer.size != 0)
        memcpy(model, buffer.at, buffer.size);
    return buffer;
}


/* Copies a stretch of the model, as it was before. */
static void model_copy(unsigned width, uint8_t order, const uint8_t *source, size_t from,
                       uint8_t *target, size_t to, size_t count) {
    for (size_t i = 0; i < count; i++)
        put_bit(target, width, order, to + i, bit_at(source, width, order, from + i));
}

/* The words that a span meets. */
static size_t span_words(unsigned width, struct bitvec_span span) {
    return span.count == 0 ? 0 : (span.start % width + span.count - 1) / width + 1;
}

/* Serves a command by the model: to the span's bits in its word k. */
static struct bitvec_reply model_word(unsigned width, uint8_t order, struct bitvec_span span,
                                      const struct bitvec_request *request) {
    struct bitvec_reply reply = {0, BITVEC_PAST_END};
    size_t k = request->a;
    if (k >= span_words(width, span))
        return reply;
    reply.kind = BITVEC_WORD;
    for (size_t index = 0; index < width; index++) {
        size_t place = (span.start / width + k) * width + index;
        if (place < span.start || place - span.start >= span.count)
            continue;
        size_t digit = order == BITVEC_LSB0 ? index : width - 1 - index;
        bool bit = bit_at(model, width, order, place);
        reply.number |= (uint64_t)bit << digit;
        switch (request->command) {
        case BITVEC_STORE:
            put_bit(model, width, order, place, request->number >> digit & 1);
            break;
        case BITVEC_SET:
        case BITVEC_CLEAR:
            put_bit(model, width, order, place, request->command == BITVEC_SET);
            break;
        case BITVEC_INVERT:
            put_bit(model, width, order, place, !bit);
            break;
        }
    }
    return reply;
}

/* The same of a command that names bits. */
static struct bitvec_reply model_bits(unsigned width, uint8_t order, struct bitvec_span span,
                                      const struct bitvec_request *request) {
    struct bitvec_reply reply = {0, BITVEC_PAST_END};
    size_t a = request->a, b = request->b, n = request->count, first = span.start;
    bool value = request->number & 1;
    switch (request->command) {
    case BITVEC_READ:
    case BITVEC_REPLACE:
        if (a >= span.count)
            return reply;
        reply.kind = BITVEC_BIT;
        reply.number = bit_at(model, width, order, first + a);
        if (request->command == BITVEC_REPLACE)
            put_bit(model, width, order, first + a, value);
        return reply;
    case BITVEC_SWAP:
        if (a >= span.count || b >= span.count)
            return reply;
        value = bit_at(model, width, order, first + a);
        put_bit(model, width, order, first + a, bit_at(model, width, order, first + b));
        put_bit(model, width, order, first + b, value);
        break;
    case BITVEC_COPY:
        if (a > span.count || n > span.count - a || b > span.count || n > span.count - b)
            return reply;
        memcpy(old_model, model, ROOM);
        model_copy(width, order, old_model, first + a, model, first + b, n);
        break;
    case BITVEC_FILL:
        if (a > b || b > span.count)
            return reply;
        for (size_t i = a; i < b; i++)
            put_bit(model, width, order, first + i, value);
        break;
    }
    reply.kind = BITVEC_DONE;
    return reply;
}

#define MOST_SPANS 70

/* The room that the model is given. */
static size_t model_room[MOST_SPANS];

/* Spans that mostly lie in a memory and have no bit in common. */
static struct buffer any_spans(size_t bits) {
    size_t count = one_in(32) ? 60 + below(MOST_SPANS - 60) : below(9), place = 0;
    struct buffer buffer = take(SPANS, count * sizeof(struct bitvec_span));
    struct bitvec_span *spans = (struct bitvec_span *)(void *)buffer.at;
    for (size_t i = 0; i < count; i++) {
        size_t left = place < bits ? bits - place : 0;
        struct bitvec_span span = {place + below(left / 8 + 1), 0};
        span.count = below(left / 4 + 1);
        if (one_in(40))
            span = (struct bitvec_span){mostly(bits), mostly(bits)};
        else
            place = span.start + span.count;
        spans[i] = span;
    }
    for (size_t i = count; i > 1; i--) {
        size_t j = below(i);
        struct bitvec_span span = spans[i - 1];
        spans[i - 1] = spans[j];
        spans[j] = span;
    }
    return buffer;
}

/* Room for the numbers of spans, mostly for each of them. */
static struct buffer any_room(size_t count) {
    struct buffer buffer = take(NUMBERS, (one_in(16) ? below(MOST_SPANS) : count) * sizeof(size_t));
    if (buffer.size != 0)
        memset(buffer.at, 0x5a, buffer.size);
    return buffer;
}

/* Where spans of that status lie in their memory, the room has the number of each, once, so that
 * the spans' starts rise; else it is as before. */
static void sorted_room(struct buffer room, const struct bitvec_span *spans, uint8_t status) {
    bool sorted = status == BITVEC_OK || status == BITVEC_OVERLAP, seen[MOST_SPANS] = {false};
    const size_t *numbers = (const size_t *)(const void *)room.at;
    for (size_t i = 0; i < room.size / sizeof(size_t); i++) {
        size_t n = numbers[i];
        if (!sorted) {
            if (n != UINT64_C(0x5a5a5a5a5a5a5a5a))
                wrong("the room is changed");
            continue;
        }
        if (n >= room.size / sizeof(size_t) || seen[n])
            wrong("the numbers in the room");
        seen[n] = true;
        if (i > 0 && spans[numbers[i - 1]].start > spans[n].start)
            wrong("the order in the room");
    }
}

/* For each width: a call of each export, of which the arguments are any. */
#define CALLS(W, T)                                                                                \
    static void copy_##W(uint8_t order, unsigned width) {                                              \
        struct buffer source = any_memory(OTHER, width, other_model);                              \
        struct buffer target = any_memory(MEMORY, width, model);                                   \
        size_t words = source.size / sizeof(T), target_words = target.size / sizeof(T);            \
        struct range from = any_range(words * width);                                              \
        size_t to = one_in(4) ? mostly(target_words * width)                                       \
                    : from.count < target_words * width                                            \
                        ? below(target_words * width - from.count + 1)                             \
                        : 0;                                                                       \
        protect(source, PROT_READ);                                                                \
        uint8_t status = bitvec_c_copy_##W(order, (T *)(void *)target.at, target_words, to,        \
                                           (const T *)(void *)source.at, words, from.start,        \
                                           from.count);                                            \
        protect(source, PROT_READ | PROT_WRITE);                                                   \
        same_status(status, model_copy_##W(order, (T *)(void *)model, target_words, to,            \
                                           (const T *)(void *)other_model, words,                  \
                                           from.start, from.count));                               \
        same_bytes(target, model);                                                                 \
    }                                                                                              \
    static void copy_within_##W(uint8_t order, unsigned width) {                                   \
        struct buffer memory = any_memory(MEMORY, width, model);                                   \
        size_t words = memory.size / sizeof(T), bits = words * width;                              \
        struct range from = any_range(bits);                                                       \
        size_t to = one_in(4) || from.count > bits ? mostly(bits) : below(bits - from.count + 1);  \
        uint8_t status = bitvec_c_copy_within_##W(order, (T *)(void *)memory.at, words, to,        \
                                                  from.start, from.count);                         \
        same_status(status, model_copy_within_##W(order, (T *)(void *)model, words, to,            \
                                                  from.start, from.count));                        \
        same_bytes(memory, model);                                                                 \
    }                                                                                              \
    static void fill_##W(uint8_t order, unsigned width) {                                              \
        struct buffer memory = any_memory(MEMORY, width, model);                                   \
        size_t words = memory.size / sizeof(T);                                                    \
        struct range range = any_range(words * width);                                             \
        bool bit = one_in(2);                                                                      \
        uint8_t status = bitvec_c_fill_##W(order, (T *)(void *)memory.at, words, range.start,      \
                                           range.count, bit);                                      \
        same_status(status, model_fill_##W(order, (T *)(void *)model, words, range.start,          \
                                           range.count, bit));                                     \
        same_bytes(memory, model);                                                                 \
    }                                                                                              \
    static void get_##W(uint8_t order, unsigned width) {                                               \
        struct buffer memory = any_memory(MEMORY, width, model), answer = take(ANSWER, 1);         \
        size_t words = memory.size / sizeof(T), place = mostly(words * width);                     \
        bool before = one_in(2);                                                                   \
        *(bool *)answer.at = before;                                                               \
        protect(memory, PROT_READ);                                                                \
        uint8_t status = bitvec_c_get_##W(order, (const T *)(void *)memory.at, words, place,       \
                                          (bool *)answer.at);                                      \
        protect(memory, PROT_READ | PROT_WRITE);                                                   \
        bool expected = before;                                                                    \
        same_status(status, model_get_##W(order, (const T *)(void *)model, words, place,           \
                                          &expected));                                             \
        if (*answer.at != (uint8_t)expected)                                                       \
            wrong("the bit");                                                                      \
        same_bytes(memory, model);                                                                 \
    }                                                                                              \
    static void set_##W(uint8_t order, unsigned width) {                                               \
        struct buffer memory = any_memory(MEMORY, width, model);                                   \
        size_t words = memory.size / sizeof(T), place = mostly(words * width);                     \
        bool bit = one_in(2);                                                                      \
        uint8_t status = bitvec_c_set_##W(order, (T *)(void *)memory.at, words, place, bit);       \
        same_status(status, model_set_##W(order, (T *)(void *)model, words, place, bit));          \
        same_bytes(memory, model);                                                                 \
    }                                                                                              \
    static void load_##W(uint8_t order, unsigned width) {                                          \
        struct buffer memory = any_memory(MEMORY, width, model), answer = take(ANSWER, 8);         \
        size_t words = memory.size / sizeof(T);                                                    \
        struct range range = narrow_range(words * width);                                          \
        bool big = one_in(2);                                                                      \
        uint64_t before = (uint64_t)any(), expected = before, number;                              \
        memcpy(answer.at, &before, 8);                                                             \
        protect(memory, PROT_READ);                                                                \
        uint8_t status =                                                                           \
            bitvec_c_load_##W(order, big, (const T *)(void *)memory.at, words, range.start,        \
                                   range.count, (uint64_t *)(void *)answer.at);                    \
        protect(memory, PROT_READ | PROT_WRITE);                                                   \
        same_status(status, model_load_##W(order, big, (const T *)(void *)model, words,            \
                                            range.start, range.count, &expected));                 \
        memcpy(&number, answer.at, 8);                                                             \
        if (number != expected)                                                                    \
            wrong("the number");                                                                   \
        same_bytes(memory, model);                                                                 \
    }                                                                                              \
    static void store_##W(uint8_t order, unsigned width) {                                         \
        struct buffer memory = any_memory(MEMORY, width, model);                                   \
        size_t words = memory.size / sizeof(T);                                                    \
        struct range range = narrow_range(words * width);                                          \
        bool big = one_in(2);                                                                      \
        uint64_t number = (uint64_t)any();                                                         \
        uint8_t status = bitvec_c_store_##W(order, big, (T *)(void *)memory.at, words,             \
                                            range.start, range.count, number);                     \
        same_status(status, model_store_##W(order, big, (T *)(void *)model, words,                 \
                                             range.start, range.count, number));                   \
        same_bytes(memory, model);                                                                 \
    }                                                                                              \
    static void count_ones_##W(uint8_t order, unsigned width) {                                        \
        struct buffer memory = any_memory(MEMORY, width, model), answer = take(ANSWER, 8);         \
        size_t words = memory.size / sizeof(T), before = any(), expected = before, ones;           \
        struct range range = any_range(words * width);                                             \
        memcpy(answer.at, &before, 8);                                                             \
        protect(memory, PROT_READ);                                                                \
        uint8_t status =                                                                           \
            bitvec_c_count_ones_##W(order, (const T *)(void *)memory.at, words, range.start,       \
                                    range.count, (size_t *)(void *)answer.at);                     \
        protect(memory, PROT_READ | PROT_WRITE);                                                   \
        same_status(status, model_count_ones_##W(order, (const T *)(void *)model, words,           \
                                                 range.start, range.count, &expected));            \
        memcpy(&ones, answer.at, 8);                                                               \
        if (ones != expected)                                                                      \
            wrong("the count");                                                                    \
        same_bytes(memory, model);                                                                 \
    }                                                                                              \
    static void first_one_##W(uint8_t order, unsigned width) {                                         \
        struct buffer memory = any_memory(MEMORY, width, model), answer = take(ANSWER, 8);         \
        size_t words = memory.size / sizeof(T), before = any(), expected = before, index;          \
        struct range range = any_range(words * width);                                             \
        memcpy(answer.at, &before, 8);                                                             \
        protect(memory, PROT_READ);                                                                \
        uint8_t status =                                                                           \
            bitvec_c_first_one_##W(order, (const T *)(void *)memory.at, words, range.start,        \
                                   range.count, (size_t *)(void *)answer.at);                      \
        protect(memory, PROT_READ | PROT_WRITE);                                                   \
        same_status(status, model_first_one_##W(order, (const T *)(void *)model, words,            \
                                                range.start, range.count, &expected));             \
        memcpy(&index, answer.at, 8);                                                              \
        if (index != expected)                                                                     \
            wrong("the index");                                                                    \
        same_bytes(memory, model);                                                                 \
    }                                                                                              \
    static void equal_##W(uint8_t order, unsigned width) {                                             \
        struct buffer memory = any_memory(MEMORY, width, model), answer = take(ANSWER, 1);         \
        struct buffer other = any_memory(OTHER, width, other_model);                               \
        size_t words = memory.size / sizeof(T), other_words = other.size / sizeof(T);              \
        struct range range = any_range(words * width);                                             \
        size_t there = mostly(other_words * width);                                                \
        bool before = one_in(2), alike = one_in(2), expected = before;                             \
        if (alike) { /* mostly the same bits, but for one */                                       \
            other = memory;                                                                        \
            other_words = words;                                                                   \
            memcpy(other_model, model, ROOM);                                                      \
            there = one_in(8) ? there : range.start;                                               \
        }                                                                                          \
        *(bool *)answer.at = before;                                                               \
        protect(memory, PROT_READ);                                                                \
        protect(other, PROT_READ);                                                                 \
        uint8_t status = bitvec_c_equal_##W(order, (const T *)(void *)memory.at, words,            \
                                            range.start, (const T *)(void *)other.at, other_words, \
                                            there, range.count, (bool *)answer.at);                \
        protect(memory, PROT_READ | PROT_WRITE);                                                   \
        protect(other, PROT_READ | PROT_WRITE);                                                    \
        same_status(status, model_equal_##W(order, (const T *)(void *)model, words, range.start,   \
                                            (const T *)(void *)other_model, other_words, there,    \
                                            range.count, &expected));                              \
        if (*answer.at != (uint8_t)expected)                                                       \
            wrong("the answer");                                                                   \
        same_bytes(memory, model);                                                                 \
    }                                                                                              \

/* The runs, without room and with it: the ends of their names, what else they are given, and what
 * else their model is. */
#define RUNS(W, T, IN, ROOMY, TAIL, MODEL_TAIL)                                                    \
    static void can_run##IN##_##W(uint8_t order, unsigned width) {                                 \
        size_t words = below(20);                                                                  \
        struct buffer buffer = any_spans(words * width);                                           \
        const struct bitvec_span *spans = (const struct bitvec_span *)(void *)buffer.at;           \
        size_t count = buffer.size / sizeof(struct bitvec_span);                                   \
        struct buffer room = any_room(count);                                                      \
        size_t *numbers = (size_t *)(void *)room.at, places = room.size / sizeof(size_t);          \
        (void)numbers, (void)places;                                                               \
        protect(buffer, PROT_READ);                                                                \
        uint8_t status = bitvec_c_can_run##IN##_##W(order, words, spans, count TAIL);              \
        protect(buffer, PROT_READ | PROT_WRITE);                                                   \
        uint8_t expected = model_can_run##IN##_##W(order, words, spans, count MODEL_TAIL);         \
        same_status(status, expected);                                                             \
        sorted_room(room, spans, (ROOMY) ? expected : BITVEC_NO_ROOM);                             \
    }                                                                                              \
    static void run##IN##_##W(uint8_t order, unsigned width) {                                     \
        struct buffer memory = any_memory(MEMORY, width, model);                                   \
        size_t words = memory.size / sizeof(T), bits = words * width;                              \
        struct buffer span_buffer = any_spans(bits);                                               \
        const struct bitvec_span *spans = (const struct bitvec_span *)(void *)span_buffer.at;      \
        size_t span_count = span_buffer.size / sizeof(struct bitvec_span), asked = below(12);      \
        struct buffer request_buffer = take(REQUESTS, asked * sizeof(struct bitvec_request));      \
        struct bitvec_request *requests =                                                          \
            (struct bitvec_request *)(void *)request_buffer.at;                                    \
        bool lawful = true;                                                                        \
        for (size_t i = 0; i < asked; i++) {                                                       \
            size_t span = below(span_count + 1);                                                   \
            size_t len = span < span_count ? spans[span].count : 9;                                \
            len = len > bits ? bits : len;                                                         \
            size_t most = one_in(2) ? len / width + 1 : len;                                       \
            uint8_t command = (uint8_t)(one_in(64) ? any() : below(10));                           \
            memset(&requests[i], 0x5a, sizeof(requests[i]));                                       \
            requests[i] = (struct bitvec_request){span,         mostly(most), mostly(len),         \
                                                  mostly(most), any(),        command};            \
            lawful = lawful && command <= BITVEC_FILL;                                             \
        }                                                                                          \
        struct buffer number_buffer = any_room(span_count);                                        \
        size_t *numbers = (size_t *)(void *)number_buffer.at;                                      \
        size_t places = number_buffer.size / sizeof(size_t);                                       \
        (void)numbers, (void)places;                                                               \
        size_t room = one_in(32) ? below(12) : asked;                                              \
        struct buffer reply_buffer = take(REPLIES, room * sizeof(struct bitvec_reply));            \
        struct bitvec_reply *replies = (struct bitvec_reply *)(void *)reply_buffer.at;             \
        for (size_t i = 0; i < room; i++)                                                          \
            replies[i] = (struct bitvec_reply){77, 77};                                            \
        protect(span_buffer, PROT_READ);                                                           \
        protect(request_buffer, PROT_READ);                                                        \
        uint8_t status =                                                                           \
            bitvec_c_run##IN##_##W(order, (T *)(void *)memory.at, words, spans, span_count,        \
                                   requests, asked, replies, room TAIL);                           \
        protect(request_buffer, PROT_READ | PROT_WRITE);                                           \
        protect(span_buffer, PROT_READ | PROT_WRITE);                                              \
        uint8_t expected =                                                                         \
            model_can_run##IN##_##W(order, words, spans, span_count MODEL_TAIL);                   \
        sorted_room(number_buffer, spans, (ROOMY) ? expected : BITVEC_NO_ROOM);                    \
        if (expected == BITVEC_OK && room != asked)                                                \
            expected = BITVEC_NO_ROOM;                                                             \
        if (expected == BITVEC_OK && !lawful)                                                      \
            expected = BITVEC_NO_COMMAND;                                                          \
        same_status(status, expected);                                                             \
        for (size_t i = 0; i < room; i++) {                                                        \
            struct bitvec_reply reply = {77, 77};                                                  \
            if (status == BITVEC_OK) {                                                             \
                const struct bitvec_request *request = &requests[i];                               \
                reply = (struct bitvec_reply){0, BITVEC_NO_SPAN};                                  \
                if (request->span < span_count)                                                    \
                    reply = request->command <= BITVEC_INVERT                                      \
                                ? model_word(width, order, spans[request->span], request)          \
                                : model_bits(width, order, spans[request->span], request);         \
            }                                                                                      \
            if (replies[i].number != reply.number || replies[i].kind != reply.kind)                \
                wrong("a reply");                                                                  \
        }                                                                                          \
        same_bytes(memory, model);                                                                 \
    }

#define ROOM_OF_RUN , numbers, places
#define MODEL_ROOM , model_room, places
#define NO_ROOM_OF_RUN

CALLS(u8, uint8_t)
CALLS(u16, uint16_t)
CALLS(u32, uint32_t)
CALLS(u64, uint64_t)
RUNS(u8, uint8_t, , false, NO_ROOM_OF_RUN, NO_ROOM_OF_RUN)
RUNS(u16, uint16_t, , false, NO_ROOM_OF_RUN, NO_ROOM_OF_RUN)
RUNS(u32, uint32_t, , false, NO_ROOM_OF_RUN, NO_ROOM_OF_RUN)
RUNS(u64, uint64_t, , false, NO_ROOM_OF_RUN, NO_ROOM_OF_RUN)
RUNS(u8, uint8_t, _in, true, ROOM_OF_RUN, MODEL_ROOM)
RUNS(u16, uint16_t, _in, true, ROOM_OF_RUN, MODEL_ROOM)
RUNS(u32, uint32_t, _in, true, ROOM_OF_RUN, MODEL_ROOM)
RUNS(u64, uint64_t, _in, true, ROOM_OF_RUN, MODEL_ROOM)

/* A place from which on so many bits mostly lie among `bits`. */
static size_t any_start(size_t bits, size_t count) {
    return one_in(4) ? mostly(bits) : count < bits ? below(bits - count + 1) : 0;
}

/* A call that the header adds, which answers an `A` of a range: the arguments behind its count. */
#define NAMED(C, W, T, A, MODELLED, ...)                                                           \
    static void C##_##W(uint8_t order, unsigned width) {                                           \
        struct buffer memory = any_memory(MEMORY, width, model), answer = take(ANSWER, sizeof(A)); \
        size_t words = memory.size / sizeof(T);                                                    \
        struct range range = any_range(words * width);                                             \
        size_t from = mostly(range.count);                                                         \
        A before = (A)any(), expected = before, found;                                             \
        size_t told = 0;                                                                           \
        (void)from;                                                                                \
        memcpy(answer.at, &before, sizeof(A));                                                     \
        protect(memory, PROT_READ);                                                                \
        uint8_t status =                                                                           \
            bitvec_c_##C##_##W(order, (const T *)(void *)memory.at, words, range.start,            \
                               range.count, __VA_ARGS__(A *)(void *)answer.at);                    \
        protect(memory, PROT_READ | PROT_WRITE);                                                   \
        same_status(status, range_status(width, order, words, range.start, range.count));          \
        if (status == BITVEC_OK)                                                                   \
            expected = MODELLED;                                                                   \
        memcpy(&found, answer.at, sizeof(A));                                                      \
        if (found != expected)                                                                     \
            wrong("the answer");                                                                   \
        same_bytes(memory, model);                                                                 \
    }

/* What the model of another call answers of the same range, by these arguments behind the count. */
#define TOLD(C, ...)                                                                               \
    (model_##C(order, (const void *)model, words, range.start, range.count, __VA_ARGS__ &told) ==  \
             BITVEC_OK                                                                             \
         ? told                                                                                    \
         : 0)

/* The exports that replace a bit, or exchange two. */
#define EXCHANGE(W, T)                                                                             \
    static void replace_##W(uint8_t order, unsigned width) {                                           \
        struct buffer memory = any_memory(MEMORY, width, model), answer = take(ANSWER, 1);         \
        size_t words = memory.size / sizeof(T), place = mostly(words * width);                     \
        bool before = one_in(2), bit = one_in(2), expected = before;                               \
        *(bool *)answer.at = before;                                                               \
        uint8_t status = bitvec_c_replace_##W(order, (T *)(void *)memory.at, words, place, bit,    \
                                              (bool *)answer.at);                                  \
        same_status(status, model_replace_##W(order, (T *)(void *)model, words, place, bit,        \
                                              &expected));                                         \
        if (*answer.at != (uint8_t)expected)                                                       \
            wrong("the bit");                                                                      \
        same_bytes(memory, model);                                                                 \
    }                                                                                              \
    static void swap_##W(uint8_t order, unsigned width) {                                              \
        struct buffer memory = any_memory(MEMORY, width, model);                                   \
        size_t words = memory.size / sizeof(T), bits = words * width;                              \
        size_t place = mostly(bits), other = mostly(bits);                                         \
        uint8_t status = bitvec_c_swap_##W(order, (T *)(void *)memory.at, words, place, other);    \
        same_status(status, model_swap_##W(order, (T *)(void *)model, words, place, other));       \
        same_bytes(memory, model);                                                                 \
    }                                                                                              \

/* The exports of signed numbers. */
#define SIGNED_NUMBERS(W, T)                                                                       \
    static void load_signed_##W(uint8_t order, unsigned width) {                                   \
        struct buffer memory = any_memory(MEMORY, width, model), answer = take(ANSWER, 8);         \
        size_t words = memory.size / sizeof(T);                                                    \
        struct range range = narrow_range(words * width);                                          \
        bool big = one_in(2);                                                                      \
        int64_t before = (int64_t)any(), expected = before, number;                                \
        memcpy(answer.at, &before, 8);                                                             \
        protect(memory, PROT_READ);                                                                \
        uint8_t status =                                                                           \
            bitvec_c_load_signed_##W(order, big, (const T *)(void *)memory.at, words, range.start, \
                                   range.count, (int64_t *)(void *)answer.at);                     \
        protect(memory, PROT_READ | PROT_WRITE);                                                   \
        same_status(status, model_load_signed_##W(order, big, (const T *)(void *)model, words,     \
                                            range.start, range.count, &expected));                 \
        memcpy(&number, answer.at, 8);                                                             \
        if (number != expected)                                                                    \
            wrong("the number");                                                                   \
        same_bytes(memory, model);                                                                 \
    }                                                                                              \
    static void store_signed_##W(uint8_t order, unsigned width) {                                  \
        struct buffer memory = any_memory(MEMORY, width, model);                                   \
        size_t words = memory.size / sizeof(T);                                                    \
        struct range range = narrow_range(words * width);                                          \
        bool big = one_in(2);                                                                      \
        int64_t number = (int64_t)any();                                                           \
        uint8_t status = bitvec_c_store_signed_##W(order, big, (T *)(void *)memory.at, words,      \
                                            range.start, range.count, number);                     \
        same_status(status, model_store_signed_##W(order, big, (T *)(void *)model, words,          \
                                             range.start, range.count, number));                   \
        same_bytes(memory, model);                                                                 \
    }

/* An export that edits a range, with the arguments behind its start. */
#define EDIT(C, W, T, ...)                                                                         \
    static void C##_##W(uint8_t order, unsigned width) {                                           \
        struct buffer memory = any_memory(MEMORY, width, model);                                   \
        size_t words = memory.size / sizeof(T);                                                    \
        struct range range = any_range(words * width);                                             \
        size_t by = mostly(range.count);                                                           \
        (void)by;                                                                                  \
        uint8_t status =                                                                           \
            bitvec_c_##C##_##W(order, (T *)(void *)memory.at, words, range.start, __VA_ARGS__);    \
        same_status(status, model_##C##_##W(order, (T *)(void *)model, words, range.start,         \
                                            __VA_ARGS__));                                         \
        same_bytes(memory, model);                                                                 \
    }

/* An export that copies bits of words `S` to words `T`. */
#define CONVERT(NAME, S, T)                                                                        \
    static void NAME(uint8_t order, unsigned width) {                                              \
        unsigned other_width = 8 * sizeof(S);                                                      \
        uint8_t other_order = any_order();                                                         \
        struct buffer source = any_memory(OTHER, other_width, other_model);                        \
        struct buffer target = any_memory(MEMORY, width, model);                                   \
        size_t words = source.size / sizeof(S), target_words = target.size / sizeof(T);            \
        struct range from = any_range(words * other_width);                                        \
        size_t to = any_start(target_words * width, from.count);                                   \
        protect(source, PROT_READ);                                                                \
        uint8_t status =                                                                           \
            bitvec_c_##NAME(order, (T *)(void *)target.at, target_words, to, other_order,          \
                            (const S *)(void *)source.at, words, from.start, from.count);          \
        protect(source, PROT_READ | PROT_WRITE);                                                   \
        same_status(status, model_##NAME(order, (T *)(void *)model, target_words, to, other_order, \
                                         (const S *)(void *)other_model, words, from.start,        \
                                         from.count));                                             \
        same_bytes(target, model);                                                                 \
    }

/* An export that looks for something, and one that combines two ranges. */
#define SOUGHT(C, W, T, ...)                                                                       \
    static void C##_##W(uint8_t order, unsigned width) {                                           \
        struct buffer memory = any_memory(MEMORY, width, model), answer = take(ANSWER, 8);         \
        size_t words = memory.size / sizeof(T), before = any(), expected = before, index;          \
        struct range range = any_range(words * width);                                             \
        size_t from = mostly(range.count);                                                         \
        size_t zeros = one_in(2) ? below(9) : mostly(range.count < 600 ? range.count : 9);         \
        size_t multiple = one_in(8) ? mostly(9) : below(9);                                        \
        bool bit = one_in(2);                                                                      \
        (void)from, (void)zeros, (void)multiple, (void)bit;                                        \
        memcpy(answer.at, &before, 8);                                                             \
        protect(memory, PROT_READ);                                                                \
        uint8_t status =                                                                           \
            bitvec_c_##C##_##W(order, (const T *)(void *)memory.at, words, range.start,            \
                               range.count, __VA_ARGS__, (size_t *)(void *)answer.at);             \
        protect(memory, PROT_READ | PROT_WRITE);                                                   \
        same_status(status, model_##C##_##W(order, (const T *)(void *)model, words, range.start,   \
                                            range.count, __VA_ARGS__, &expected));                 \
        memcpy(&index, answer.at, 8);                                                              \
        if (index != expected)                                                                     \
            wrong("the index");                                                                    \
        same_bytes(memory, model);                                                                 \
    }

#define COMBINED(C, W, T)                                                                          \
    static void C##_##W(uint8_t order, unsigned width) {                                           \
        uint8_t other_order = any_order();                                                         \
        struct buffer source = any_memory(OTHER, width, other_model);                              \
        struct buffer target = any_memory(MEMORY, width, model);                                   \
        size_t words = source.size / sizeof(T), target_words = target.size / sizeof(T);            \
        struct range from = any_range(words * width);                                              \
        size_t to = any_start(target_words * width, from.count);                                   \
        protect(source, PROT_READ);                                                                \
        uint8_t status =                                                                           \
            bitvec_c_##C##_##W(order, (T *)(void *)target.at, target_words, to, other_order,       \
                               (const T *)(void *)source.at, words, from.start, from.count);       \
        protect(source, PROT_READ | PROT_WRITE);                                                   \
        same_status(status, model_##C##_##W(order, (T *)(void *)model, target_words, to, other_order,\
                                            (const T *)(void *)other_model, words, from.start,     \
                                            from.count));                                          \
        same_bytes(target, model);                                                                 \
    }

/* An export that combines two ranges of one memory, and one that makes a range of two others, which
 * are sometimes of one memory. */
#define COMBINED_WITHIN(C, W, T)                                                                   \
    static void C##_within_##W(uint8_t order, unsigned width) {                                    \
        struct buffer memory = any_memory(MEMORY, width, model);                                   \
        size_t words = memory.size / sizeof(T);                                                    \
        struct range from = any_range(words * width);                                              \
        size_t to = any_start(words * width, from.count);                                          \
        uint8_t status = bitvec_c_##C##_within_##W(order, (T *)(void *)memory.at, words, to,       \
                                                   from.start, from.count);                        \
        same_status(status, model_##C##_within_##W(order, (T *)(void *)model, words, to,           \
                                                   from.start, from.count));                       \
        same_bytes(memory, model);                                                                 \
    }

#define COMBINED_OF(C, W, T)                                                                       \
    static void C##_of_##W(uint8_t order, unsigned width) {                                        \
        struct buffer first = any_memory(OTHER, width, other_model), second = first;               \
        const uint8_t *second_as = other_model;                                                    \
        struct buffer target = any_memory(MEMORY, width, model);                                   \
        if (!one_in(4)) {                                                                          \
            second = any_memory(SECOND, width, second_model);                                      \
            second_as = second_model;                                                              \
        }                                                                                          \
        size_t words = first.size / sizeof(T), second_words = second.size / sizeof(T);             \
        size_t target_words = target.size / sizeof(T);                                             \
        size_t least = second_words < target_words ? second_words : target_words;                  \
        struct range from = any_range(words * width);                                              \
        if (!one_in(4) && from.count > least * width)                                              \
            from.count = least * width;                                                            \
        size_t second_from = any_start(second_words * width, from.count);                          \
        size_t to = any_start(target_words * width, from.count);                                   \
        protect(first, PROT_READ);                                                                 \
        protect(second, PROT_READ);                                                                \
        uint8_t status = bitvec_c_##C##_of_##W(                                                    \
            order, (T *)(void *)target.at, target_words, to, (const T *)(void *)first.at, words,   \
            from.start, (const T *)(void *)second.at, second_words, second_from, from.count);      \
        protect(first, PROT_READ | PROT_WRITE);                                                    \
        protect(second, PROT_READ | PROT_WRITE);                                                   \
        same_status(status, model_##C##_of_##W(order, (T *)(void *)model, target_words, to,        \
                                               (const T *)(void *)other_model, words, from.start,  \
                                               (const T *)(const void *)second_as, second_words,   \
                                               second_from, from.count));                          \
        same_bytes(target, model);                                                                 \
    }

/* And of the same two ranges. */
#define TOLD_OF_TWO(C)                                                                             \
    (model_##C(order, (const void *)model, words, range.start, other_order,                        \
               (const void *)other_model, other_words, there, range.count, &told) == BITVEC_OK     \
         ? told                                                                                    \
         : 0)

/* A call that answers an `A` of two ranges. */
#define QUESTION(C, T, S, A, MODELLED)                                                             \
    static void C(uint8_t order, unsigned width) {                                                 \
        struct buffer memory = any_memory(MEMORY, width, model), answer = take(ANSWER, sizeof(A)); \
        unsigned other_width = 8 * sizeof(S);                                                      \
        struct buffer other = any_memory(OTHER, other_width, other_model);                         \
        uint8_t other_order = any_order();                                                         \
        size_t words = memory.size / sizeof(T), other_words = other.size / sizeof(S), told = 0;    \
        A before = (A)any(), expected = before, answered;                                          \
        struct range range = any_range(words * width);                                             \
        size_t there = any_start(other_words * other_width, range.count);                          \
        if (width == other_width && one_in(2)) { /* the same bits, so that they seldom differ */   \
            other = memory;                                                                        \
            other_words = words;                                                                   \
            other_order = one_in(8) ? other_order : order;                                         \
            memcpy(other_model, model, ROOM);                                                      \
            there = one_in(8) ? there : range.start;                                               \
        } else if (one_in(2)) { /* or some of them */                                              \
            size_t bits = other_words * other_width;                                               \
            for (size_t i = 0; i < 99 && i < range.count; i++)                                     \
                if (range.start + i < words * width && there < bits && i < bits - there)           \
                    put_bit(other_model, other_width, other_order == 0 ? 0 : 1, there + i,         \
                            bit_at(model, width, order == 0 ? 0 : 1, range.start + i));            \
            if (other.size != 0)                                                                   \
                memcpy(other.at, other_model, other.size);                                         \
        }                                                                                          \
        memcpy(answer.at, &before, sizeof(A));                                                     \
        protect(memory, PROT_READ);                                                                \
        protect(other, PROT_READ);                                                                 \
        uint8_t status =                                                                           \
            bitvec_c_##C(order, (const T *)(void *)memory.at, words, range.start,                  \
                               other_order, (const S *)(void *)other.at, other_words, there,       \
                               range.count, (A *)(void *)answer.at);                               \
        protect(memory, PROT_READ | PROT_WRITE);                                                   \
        protect(other, PROT_READ | PROT_WRITE);                                                    \
        uint8_t wanted = range_status(width, order, words, range.start, range.count);              \
        if (wanted == BITVEC_OK)                                                                   \
            wanted = range_status(other_width, other_order, other_words, there, range.count);      \
        same_status(status, wanted);                                                               \
        if (status == BITVEC_OK)                                                                   \
            expected = MODELLED;                                                                   \
        memcpy(&answered, answer.at, sizeof(A));                                                   \
        if (answered != expected)                                                                  \
            wrong("the answer");                                                                   \
        same_bytes(memory, model);                                                                 \
    }

#define MORE_CALLS(W, T)                                                                           \
    SOUGHT(first, W, T, bit)                                                                       \
    SOUGHT(last, W, T, bit)                                                                        \
    SOUGHT(next, W, T, from, bit)                                                                  \
    SOUGHT(previous, W, T, from, bit)                                                              \
    SOUGHT(find_zeros, W, T, zeros)                                                                \
    SOUGHT(find_zeros_from, W, T, from, zeros, multiple)                                           \
    NAMED(first_zero, W, T, size_t, TOLD(first_##W, false, ), )                                    \
    NAMED(last_one, W, T, size_t, TOLD(last_##W, true, ), )                                        \
    NAMED(last_zero, W, T, size_t, TOLD(last_##W, false, ), )                                      \
    NAMED(next_one, W, T, size_t, TOLD(next_##W, from, true, ), from, )                            \
    NAMED(next_zero, W, T, size_t, TOLD(next_##W, from, false, ), from, )                          \
    NAMED(previous_one, W, T, size_t, TOLD(previous_##W, from, true, ), from, )                    \
    NAMED(previous_zero, W, T, size_t, TOLD(previous_##W, from, false, ), from, )                  \
    NAMED(count_zeros, W, T, size_t, range.count - TOLD(count_ones_##W, ), )                       \
    NAMED(is_empty, W, T, bool, TOLD(first_##W, true, ) == range.count, )                          \
    NAMED(is_full, W, T, bool, TOLD(first_##W, false, ) == range.count, )                          \
    EXCHANGE(W, T)                                                                                 \
    SIGNED_NUMBERS(W, T)                                                                           \
    EDIT(invert, W, T, range.count)                                                                \
    EDIT(reverse, W, T, range.count)                                                               \
    EDIT(shift_left, W, T, range.count, by)                                                        \
    EDIT(shift_right, W, T, range.count, by)                                                       \
    EDIT(rotate_left, W, T, range.count, by)                                                       \
    COMBINED(and, W, T)                                                                            \
    COMBINED(or, W, T)                                                                             \
    COMBINED(xor, W, T)                                                                            \
    COMBINED(and_not, W, T)                                                                        \
    COMBINED_WITHIN(and, W, T)                                                                     \
    COMBINED_WITHIN(or, W, T)                                                                      \
    COMBINED_WITHIN(xor, W, T)                                                                     \
    COMBINED_WITHIN(and_not, W, T)                                                                 \
    COMBINED_OF(and, W, T)                                                                         \
    COMBINED_OF(or, W, T)                                                                          \
    COMBINED_OF(xor, W, T)                                                                         \
    COMBINED_OF(and_not, W, T)                                                                     \
    CONVERT(copy_u8_to_##W, uint8_t, T)                                                            \
    CONVERT(copy_u16_to_##W, uint16_t, T)                                                          \
    CONVERT(copy_u32_to_##W, uint32_t, T)                                                          \
    CONVERT(copy_u64_to_##W, uint64_t, T)                                                          \
    QUESTION(count_and_##W, T, T, size_t, TOLD_OF_TWO(count_and_##W))                              \
    QUESTION(first_and_##W, T, T, size_t, TOLD_OF_TWO(first_and_##W))                              \
    QUESTION(first_and_not_##W, T, T, size_t, TOLD_OF_TWO(first_and_not_##W))                      \
    QUESTION(first_difference_##W, T, T, size_t, TOLD_OF_TWO(first_difference_##W))                \
    QUESTION(first_difference_##W##_with_u8, T, uint8_t, size_t,                                   \
             TOLD_OF_TWO(first_difference_##W##_with_u8))                                          \
    QUESTION(first_difference_##W##_with_u16, T, uint16_t, size_t,                                 \
             TOLD_OF_TWO(first_difference_##W##_with_u16))                                         \
    QUESTION(first_difference_##W##_with_u32, T, uint32_t, size_t,                                 \
             TOLD_OF_TWO(first_difference_##W##_with_u32))                                         \
    QUESTION(first_difference_##W##_with_u64, T, uint64_t, size_t,                                 \
             TOLD_OF_TWO(first_difference_##W##_with_u64))                                         \
    QUESTION(is_subset_##W, T, T, bool, TOLD_OF_TWO(first_and_not_##W) == range.count)             \
    QUESTION(intersects_##W, T, T, bool, TOLD_OF_TWO(first_and_##W) != range.count)

MORE_CALLS(u8, uint8_t)
MORE_CALLS(u16, uint16_t)
MORE_CALLS(u32, uint32_t)
MORE_CALLS(u64, uint64_t)

/* A stream: its place and its end, which mostly lie in a memory, and what may be asked of it, or
 * written to it. */
struct stream {
    size_t place, end, count;
    bool big, bit;
    uint64_t number;
};

static uint64_t lowest_digits(size_t count) {
    return count < 64 ? (UINT64_C(1) << count) - 1 : UINT64_MAX;
}

/* A number of that many digits, as a two's complement where `is_signed`. */
static uint64_t of_digits(uint64_t number, size_t count, bool is_signed) {
    number &= lowest_digits(count);
    if (is_signed && count != 0 && count < 64 && number >> (count - 1) & 1)
        number |= ~lowest_digits(count);
    return number;
}

static struct stream any_stream(size_t bits) {
    struct range range = any_range(bits);
    struct stream stream = {range.start, range.start + range.count, 0, one_in(2), one_in(2), 0};
    if (one_in(16))
        stream.end = mostly(bits);
    stream.count = mostly(range.count < 64 ? range.count : 64);
    return stream;
}

static uint8_t left_status(unsigned width, uint8_t order, size_t words, struct stream stream) {
    size_t count = stream.end < stream.place ? 0 : stream.end - stream.place;
    uint8_t status = range_status(width, order, words, stream.place, count);
    return status == BITVEC_OK && stream.end < stream.place ? BITVEC_OUTSIDE : status;
}

/* In the memory and the model: sometimes a long code at the place, where there is room. */
static void plant_code(struct buffer memory, unsigned width, uint8_t order, size_t words,
                       struct stream stream) {
    size_t zeros = 58 + below(9), kind = below(3);
    if (one_in(2) || left_status(width, order, words, stream) != BITVEC_OK ||
        2 * zeros + 1 > stream.end - stream.place)
        return;
    for (size_t i = 0; i < 2 * zeros + 1; i++) {
        bool last = i == 2 * zeros;
        bool bit = i == zeros || (i > zeros && (kind == 0 ? one_in(2) : kind == 1 && last));
        put_bit(model, width, order, stream.place + i, bit);
    }
    memcpy(memory.at, model, memory.size);
}

#define PLAIN_HEAD order
#define BIG_HEAD order, stream.big

/* An export that reads an `A` from a stream of words `T`, with the arguments behind its end. */
#define STREAM_READ(C, W, T, A, HEAD, ...)                                                         \
    static void C##_##W(uint8_t order, unsigned width) {                                           \
        struct buffer memory = any_memory(MEMORY, width, model);                                   \
        struct buffer at = take(PLACE, 8), answer = take(ANSWER, 8);                               \
        size_t words = memory.size / sizeof(T), place;                                             \
        struct stream stream = any_stream(words * width);                                          \
        A before = (A)any(), expected = before, number;                                            \
        plant_code(memory, width, order, words, stream);                                           \
        memcpy(at.at, &stream.place, 8);                                                           \
        memcpy(answer.at, &before, 8);                                                             \
        protect(memory, PROT_READ);                                                                \
        uint8_t status = bitvec_c_##C##_##W(HEAD, (const T *)(void *)memory.at, words,             \
                                            (size_t *)(void *)at.at, stream.end,                   \
                                            __VA_ARGS__(A *)(void *)answer.at);                    \
        protect(memory, PROT_READ | PROT_WRITE);                                                   \
        same_status(status, model_##C##_##W(HEAD, (const T *)(void *)model, words, &stream.place,  \
                                            stream.end, __VA_ARGS__ &expected));                   \
        memcpy(&place, at.at, 8);                                                                  \
        memcpy(&number, answer.at, 8);                                                             \
        if (place != stream.place)                                                                 \
            wrong("the place");                                                                    \
        if (number != expected)                                                                    \
            wrong("the number");                                                                   \
        same_bytes(memory, model);                                                                 \
    }

#define STREAMS(W, T)                                                                              \
    STREAM_READ(read, W, T, uint64_t, BIG_HEAD, stream.count, )                                    \
    STREAM_READ(read_signed, W, T, int64_t, BIG_HEAD, stream.count, )                              \
    STREAM_READ(read_unary, W, T, size_t, PLAIN_HEAD, stream.bit, )                                \
    STREAM_READ(read_exp_golomb, W, T, uint64_t, PLAIN_HEAD, )                                     \
    STREAM_READ(read_signed_exp_golomb, W, T, int64_t, PLAIN_HEAD, )

STREAMS(u8, uint8_t)
STREAMS(u16, uint16_t)
STREAMS(u32, uint32_t)
STREAMS(u64, uint64_t)

/* A number that often has that many digits, or one more, as a two's complement where `is_signed`,
 * and sometimes is the least or the greatest of these. */
static uint64_t any_number(size_t count, bool is_signed) {
    size_t digits = count < 64 && one_in(2) ? count + below(2) : below(65);
    uint64_t top = digits == 0 ? 0 : UINT64_C(1) << (digits - 1);
    switch (below(8)) {
    case 0:
        return of_digits(top, digits, is_signed);
    case 1:
        return of_digits(top - 1, digits, is_signed);
    case 2:
        return of_digits(UINT64_MAX, digits, is_signed);
    default:
        return of_digits(any(), digits, is_signed);
    }
}

/* Any stream, with a number to be written; the count is sometimes one that only a run may have. */
static struct stream any_target(size_t bits, bool is_signed) {
    struct stream stream = any_stream(bits);
    stream.number = any_number(stream.count, is_signed);
    if (one_in(4) && stream.place < stream.end)
        stream.count = mostly(stream.end - stream.place);
    return stream;
}

/* An export that writes a number to a stream of words `T`. */
#define STREAM_WRITE(C, W, T, IS_SIGNED, HEAD, ...)                                                \
    static void C##_##W(uint8_t order, unsigned width) {                                           \
        struct buffer memory = any_memory(MEMORY, width, model), at = take(PLACE, 8);              \
        size_t words = memory.size / sizeof(T), place;                                             \
        struct stream stream = any_target(words * width, IS_SIGNED);                               \
        memcpy(at.at, &stream.place, 8);                                                           \
        uint8_t status =                                                                           \
            bitvec_c_##C##_##W(HEAD, (T *)(void *)memory.at, words, (size_t *)(void *)at.at,       \
                               stream.end, __VA_ARGS__);                                           \
        same_status(status, model_##C##_##W(HEAD, (T *)(void *)model, words, &stream.place,        \
                                            stream.end, __VA_ARGS__));                             \
        memcpy(&place, at.at, 8);                                                                  \
        if (place != stream.place)                                                                 \
            wrong("the place");                                                                    \
        same_bytes(memory, model);                                                                 \
    }

#define STREAM_WRITES(W, T)                                                                        \
    STREAM_WRITE(write, W, T, false, BIG_HEAD, stream.count, stream.number)                        \
    STREAM_WRITE(write_signed, W, T, true, BIG_HEAD, stream.count, (int64_t)stream.number)         \
    STREAM_WRITE(write_unary, W, T, false, PLAIN_HEAD, stream.bit, stream.count)                   \
    STREAM_WRITE(write_exp_golomb, W, T, false, PLAIN_HEAD, stream.number)                         \
    STREAM_WRITE(write_signed_exp_golomb, W, T, true, PLAIN_HEAD, (int64_t)stream.number)

STREAM_WRITES(u8, uint8_t)
STREAM_WRITES(u16, uint16_t)
STREAM_WRITES(u32, uint32_t)
STREAM_WRITES(u64, uint64_t)

struct export {
    const char *name;
    void (*call)(uint8_t order, unsigned width);
    unsigned width;
    uint64_t calls;
};

#define EXPORTS_OF(C)                                                                              \
    {"bitvec_c_" #C "_u8", C##_u8, 8, 0}, {"bitvec_c_" #C "_u16", C##_u16, 16, 0},                 \
        {"bitvec_c_" #C "_u32", C##_u32, 32, 0}, {"bitvec_c_" #C "_u64", C##_u64, 64, 0}

#define EXPORT(C, WIDTH) {"bitvec_c_" #C, C, WIDTH, 0}

static struct export exports[] = {
    EXPORTS_OF(copy), EXPORTS_OF(copy_within), EXPORTS_OF(fill), EXPORTS_OF(get), EXPORTS_OF(set),
    EXPORTS_OF(load), EXPORTS_OF(store), EXPORTS_OF(count_ones), EXPORTS_OF(first_one),
    EXPORTS_OF(equal), EXPORTS_OF(can_run), EXPORTS_OF(run), EXPORTS_OF(first), EXPORTS_OF(last),
    EXPORTS_OF(find_zeros), EXPORTS_OF(invert), EXPORTS_OF(reverse), EXPORTS_OF(shift_left),
    EXPORTS_OF(shift_right), EXPORTS_OF(rotate_left), EXPORTS_OF(and), EXPORTS_OF(or),
    EXPORTS_OF(xor), EXPORTS_OF(and_not), EXPORTS_OF(and_within), EXPORTS_OF(or_within),
    EXPORTS_OF(xor_within), EXPORTS_OF(and_not_within), EXPORTS_OF(and_of), EXPORTS_OF(or_of),
    EXPORTS_OF(xor_of), EXPORTS_OF(and_not_of), EXPORTS_OF(copy_u8_to), EXPORTS_OF(copy_u16_to),
    EXPORTS_OF(copy_u32_to), EXPORTS_OF(copy_u64_to), EXPORTS_OF(count_and), EXPORTS_OF(first_and),
    EXPORTS_OF(first_and_not), EXPORTS_OF(first_difference), EXPORTS_OF(next),
    EXPORTS_OF(previous), EXPORTS_OF(find_zeros_from), EXPORTS_OF(replace), EXPORTS_OF(swap),
    EXPORTS_OF(load_signed), EXPORTS_OF(store_signed), EXPORTS_OF(can_run_in),
    EXPORTS_OF(run_in), EXPORTS_OF(read), EXPORTS_OF(read_signed), EXPORTS_OF(read_unary),
    EXPORTS_OF(read_exp_golomb), EXPORTS_OF(read_signed_exp_golomb), EXPORTS_OF(write),
    EXPORTS_OF(write_signed), EXPORTS_OF(write_unary), EXPORTS_OF(write_exp_golomb),
    EXPORTS_OF(write_signed_exp_golomb), EXPORTS_OF(first_zero), EXPORTS_OF(last_one),
    EXPORTS_OF(last_zero), EXPORTS_OF(next_one), EXPORTS_OF(next_zero), EXPORTS_OF(previous_one),
    EXPORTS_OF(previous_zero), EXPORTS_OF(count_zeros), EXPORTS_OF(is_empty), EXPORTS_OF(is_full),
    EXPORTS_OF(is_subset), EXPORTS_OF(intersects),
    EXPORT(first_difference_u8_with_u8, 8),
    EXPORT(first_difference_u8_with_u16, 8),
    EXPORT(first_difference_u8_with_u32, 8),
    EXPORT(first_difference_u8_with_u64, 8),
    EXPORT(first_difference_u16_with_u8, 16),
    EXPORT(first_difference_u16_with_u16, 16),
    EXPORT(first_difference_u16_with_u32, 16),
    EXPORT(first_difference_u16_with_u64, 16),
    EXPORT(first_difference_u32_with_u8, 32),
    EXPORT(first_difference_u32_with_u16, 32),
    EXPORT(first_difference_u32_with_u32, 32),
    EXPORT(first_difference_u32_with_u64, 32),
    EXPORT(first_difference_u64_with_u8, 64),
    EXPORT(first_difference_u64_with_u16, 64),
    EXPORT(first_difference_u64_with_u32, 64),
    EXPORT(first_difference_u64_with_u64, 64),
};

#define EXPORTS (sizeof(exports) / sizeof(exports[0]))

int main(int count, char **words) {
    if (count != 3)
        return 2;
    uint64_t seed = strtoull(words[1], NULL, 10), calls = strtoull(words[2], NULL, 10);
    state = seed * 2 + 1;
    map_rooms();
    if (bitvec_c_version() != BITVEC_VERSION) {
        printf("the archive is of version %" PRIu32 "\n", bitvec_c_version());
        return 1;
    }
    for (number_of_call = 0; number_of_call < calls; number_of_call++) {
        struct export *export = &exports[below(EXPORTS)];
        name = export->name;
        export->call(any_order(), export->width);
        add_taken();
        export->calls++;
    }
    for (size_t i = 0; i < EXPORTS; i++)
        printf("%s %" PRIu64 "\n", exports[i].name, exports[i].calls);
    printf("bitvec_c_version 1\nsum=%016" PRIx64 "\n", sum);
    return 0;
}
