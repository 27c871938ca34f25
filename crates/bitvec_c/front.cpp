/* Makes each call of the front for C++ once for each width of words, and prints what it answers:
 * that is the same for all widths, since a place counts bits and not words. */
#include "bitvec.hpp"

#include <array>
#include <cstdio>
#include <string>
#include <vector>

namespace {

using bitvec::lsb0;
using bitvec::msb0;
using bitvec::status;

constexpr std::size_t bits = 128;

/* How many bits of a memory are shown. */
constexpr std::size_t shown = 40;

/* What the calls for one width have answered. */
std::string said;

/* As many words as have these bits. */
template <typename W> constexpr std::size_t words = bits / (8 * sizeof(W));

std::string text_of(bool it) { return it ? "true" : "false"; }
template <std::integral T> std::string text_of(T it) { return std::to_string(it); }

/* The first bits of a memory, as zeros and ones. */
template <typename W> std::string text_of(const std::array<W, words<W>> &memory) {
    std::string text;
    for (std::size_t place = 0; place < shown; place++) {
        bool bit = false;
        if (bitvec::get(msb0, memory, place, bit) != status::ok)
            return "no such bit";
        text += bit ? '1' : '0';
    }
    return text;
}

/* Says a call's answers, or why it refuses. */
template <typename... Answers>
void say(const char *call, status status, const Answers &...answers) {
    said += call;
    if (status == bitvec::status::ok)
        ((said += ' ' + text_of(answers)), ...);
    else
        said += std::string(": ") + bitvec::text(status);
    said += '\n';
}

/* A memory whose first 32 bits are these digits. */
template <typename W> std::array<W, words<W>> memory_of(std::uint64_t digits) {
    std::array<W, words<W>> memory{};
    say("store", bitvec::store(msb0, true, memory, 0, 32, digits), memory);
    return memory;
}

template <typename W> void one_bit() {
    std::array<W, words<W>> memory{};
    bool bit = false, before = true;
    say("set", bitvec::set(msb0, memory, 5, true), memory);
    say("get", bitvec::get(msb0, memory, 5, bit), bit);
    say("replace", bitvec::replace(msb0, memory, 6, true, before), before, memory);
    say("swap", bitvec::swap(msb0, memory, 5, 39), memory);
    say("get", bitvec::get(lsb0, memory, bits, bit));
    /* (an array of the language, a vector and a part of either are memories too) */
    W plain[2] = {};
    std::vector<W> vector(2);
    std::span<W> part = std::span(vector).subspan(1);
    say("set", bitvec::set(lsb0, plain, 0, true), plain[0]);
    say("set", bitvec::set(lsb0, vector, 1, true), vector[0]);
    say("set", bitvec::set(lsb0, part, 2, true), vector[1]);
    say("get", bitvec::get(lsb0, std::span<const W>(), 0, bit));
}

template <typename W> void a_range() {
    std::array<W, words<W>> memory{};
    say("fill", bitvec::fill(msb0, memory, 3, 20, true), memory);
    say("invert", bitvec::invert(msb0, memory, 10, 20), memory);
    say("reverse", bitvec::reverse(msb0, memory, 0, 30), memory);
    say("fill", bitvec::fill(msb0, memory, bits - 1, 2, true));
}

template <typename W> void searching() {
    const std::array<W, words<W>> memory = memory_of<W>(0x0ff0c000);
    std::size_t index = 0;
    say("first_one", bitvec::first_one(msb0, memory, 0, bits, index), index);
    say("first", bitvec::first(msb0, memory, 6, 100, false, index), index);
    say("first_zero", bitvec::first_zero(msb0, memory, 4, 100, index), index);
    say("last", bitvec::last(msb0, memory, 0, 17, false, index), index);
    say("last_one", bitvec::last_one(msb0, memory, 0, bits, index), index);
    say("last_zero", bitvec::last_zero(msb0, memory, 5, 3, index), index);
    say("next", bitvec::next(msb0, memory, 0, bits, 12, true, index), index);
    say("next_one", bitvec::next_one(msb0, memory, 0, bits, 18, index), index);
    say("next_zero", bitvec::next_zero(msb0, memory, 0, bits, 4, index), index);
    say("previous", bitvec::previous(msb0, memory, 0, bits, 16, true, index), index);
    say("previous_one", bitvec::previous_one(msb0, memory, 0, bits, 4, index), index);
    say("previous_zero", bitvec::previous_zero(msb0, memory, 0, bits, 11, index), index);
    say("find_zeros", bitvec::find_zeros(msb0, memory, 0, bits, 5, index), index);
    say("find_zeros_from", bitvec::find_zeros_from(msb0, memory, 0, bits, 9, 4, 8, index), index);
}

template <typename W> void counting() {
    const std::array<W, words<W>> memory = memory_of<W>(0x0ff0c000);
    std::size_t number = 0;
    bool is = false;
    say("count_ones", bitvec::count_ones(msb0, memory, 5, 12, number), number);
    say("count_zeros", bitvec::count_zeros(msb0, memory, 5, 12, number), number);
    say("is_empty", bitvec::is_empty(msb0, memory, 12, 4, is), is);
    say("is_full", bitvec::is_full(msb0, memory, 4, 9, is), is);
}

template <typename W> void moving() {
    const std::array<W, words<W>> source = memory_of<W>(0x0ff0c000);
    std::array<W, words<W>> target{};
    say("copy", bitvec::copy(msb0, target, 10, source, 4, 14), target);
    say("copy_within", bitvec::copy_within(msb0, target, 5, 10, 20), target);
    say("shift_left", bitvec::shift_left(msb0, target, 0, 30, 3), target);
    say("shift_right", bitvec::shift_right(msb0, target, 0, 30, 5), target);
    say("rotate_left", bitvec::rotate_left(msb0, target, 0, 12, 8), target);
    say("rotate_left", bitvec::rotate_left(msb0, target, 0, 12, 13));
}

template <typename W> void two_ranges() {
    using memories = std::array<W, words<W>>;
    const memories one = memory_of<W>(0x0ff0c000), other = memory_of<W>(0x00fff000);
    memories target = one;
    std::size_t number = 0;
    bool is = false;
    say("and_with", bitvec::and_with(msb0, target, 0, msb0, other, 2, 30), target);
    say("or_with", bitvec::or_with(msb0, target, 1, msb0, other, 0, 30), target);
    say("xor_with", bitvec::xor_with(msb0, target, 0, msb0, one, 0, 40), target);
    say("and_not", bitvec::and_not(msb0, target, 0, msb0, other, 3, 25), target);
    target = one;
    say("and_within", bitvec::and_within(msb0, target, 0, 3, 20), target);
    say("or_within", bitvec::or_within(msb0, target, 5, 2, 20), target);
    say("xor_within", bitvec::xor_within(msb0, target, 3, 0, 25), target);
    say("and_not_within", bitvec::and_not_within(msb0, target, 0, 6, 30), target);
    say("and_of", bitvec::and_of(msb0, target, 3, one, 0, other, 4, 32), target);
    say("or_of", bitvec::or_of(msb0, target, 1, one, 2, other, 0, 30), target);
    say("xor_of", bitvec::xor_of(msb0, target, 0, one, 0, other, 6, 30), target);
    say("and_not_of", bitvec::and_not_of(msb0, target, 4, one, 0, other, 1, 34), target);
    say("xor_within", bitvec::xor_within(msb0, target, 0, bits - 3, 4));
    say("or_of", bitvec::or_of(msb0, target, 0, one, 0, other, bits - 3, 4));
    say("equal", bitvec::equal(msb0, one, 4, other, 8, 8, is), is);
    say("count_and", bitvec::count_and(msb0, one, 0, msb0, other, 0, 32, number), number);
    say("first_and", bitvec::first_and(msb0, one, 0, msb0, other, 0, 32, number), number);
    say("intersects", bitvec::intersects(msb0, one, 0, msb0, other, 0, 8, is), is);
    say("first_and_not", bitvec::first_and_not(msb0, one, 8, msb0, other, 8, 32, number), number);
    say("is_subset", bitvec::is_subset(msb0, one, 8, msb0, other, 8, 32, is), is);
    say("first_difference", bitvec::first_difference(msb0, one, 8, msb0, other, 8, 32, number),
        number);
    say("equal", bitvec::equal(msb0, one, 4, other, bits, 8, is));
}

/* A memory of these words, and one of others. */
template <typename V, typename W> void with_others() {
    std::array<V, words<V>> source{};
    std::array<W, words<W>> target{};
    std::size_t index = 0;
    say("fill", bitvec::fill(msb0, source, 4, 8, true), source);
    say("copy_to", bitvec::copy_to(msb0, target, 20, msb0, source, 2, 12), target);
    say("first_difference_with",
        bitvec::first_difference_with(msb0, source, 0, msb0, target, 18, 64, index), index);
    say("copy_to", bitvec::copy_to(msb0, target, bits - 5, msb0, source, 2, 6));
}

template <typename W> void numbers() {
    std::array<W, words<W>> memory = memory_of<W>(0x0ff0c000);
    std::uint64_t number = 0;
    std::int64_t signed_number = 0;
    say("load", bitvec::load(msb0, true, memory, 3, 15, number), number);
    say("store_signed", bitvec::store_signed(msb0, true, memory, 1, 13, -77), memory);
    say("load_signed", bitvec::load_signed(msb0, true, memory, 1, 13, signed_number),
        signed_number);
    say("load", bitvec::load(msb0, true, memory, 0, 65, number));
}

template <typename W> void streams() {
    std::array<W, words<W>> memory{};
    std::size_t place = 3, count = 0;
    std::uint64_t number = 0;
    std::int64_t signed_number = 0;
    say("write", bitvec::write(msb0, true, memory, place, bits, 5, 21), place, memory);
    say("write_signed", bitvec::write_signed(msb0, true, memory, place, bits, 5, -3), place,
        memory);
    say("write_unary", bitvec::write_unary(msb0, memory, place, bits, true, 4), place, memory);
    say("write_exp_golomb", bitvec::write_exp_golomb(msb0, memory, place, bits, 6), place, memory);
    say("write_signed_exp_golomb", bitvec::write_signed_exp_golomb(msb0, memory, place, bits, -4),
        place, memory);
    place = 3;
    say("read", bitvec::read(msb0, true, memory, place, bits, 5, number), place, number);
    say("read_signed", bitvec::read_signed(msb0, true, memory, place, bits, 5, signed_number),
        place, signed_number);
    say("read_unary", bitvec::read_unary(msb0, memory, place, bits, true, count), place, count);
    say("read_exp_golomb", bitvec::read_exp_golomb(msb0, memory, place, bits, number), place,
        number);
    say("read_signed_exp_golomb",
        bitvec::read_signed_exp_golomb(msb0, memory, place, bits, signed_number), place,
        signed_number);
    say("read", bitvec::read(msb0, true, memory, place, place + 4, 5, number));
    say("write", bitvec::write(msb0, true, memory, place, bits, 4, 16));
}

template <typename W> void runs() {
    std::array<W, words<W>> memory{};
    const bitvec_span spans[] = {{20, 10}, {3, 8}}, overlapping[] = {{20, 10}, {3, 18}};
    const bitvec_request requests[] = {
        {.span = 1, .a = 2, .b = 7, .count = 0, .number = 1, .command = BITVEC_FILL},
        {.span = 0, .a = 4, .b = 0, .count = 0, .number = 1, .command = BITVEC_REPLACE},
        {.span = 0, .a = 4, .b = 0, .count = 0, .number = 0, .command = BITVEC_READ}};
    std::array<bitvec_reply, 3> replies{};
    std::array<std::size_t, 2> room{};
    say("can_run", bitvec::can_run<W>(msb0, words<W>, spans));
    say("can_run", bitvec::can_run<W>(msb0, words<W>, overlapping));
    say("run", bitvec::run(msb0, memory, spans, requests, replies), memory, replies[2].number);
    say("run", bitvec::run(msb0, memory, spans, requests, std::span(replies).first(2)));
    say("can_run_in", bitvec::can_run_in<W>(msb0, words<W>, spans, room), room[0], room[1]);
    say("run_in", bitvec::run_in(msb0, memory, spans, requests, replies, room), replies[1].number);
}

/* What all calls answer, in words of this type. */
template <typename W> std::string answers() {
    said.clear();
    one_bit<W>();
    a_range<W>();
    searching<W>();
    counting<W>();
    moving<W>();
    two_ranges<W>();
    numbers<W>();
    streams<W>();
    runs<W>();
    return said;
}

template <typename V, typename W> std::string answers_with() {
    said.clear();
    with_others<V, W>();
    return said;
}

/* Whether a memory of words of this type answers the same with words of each type. */
template <typename V> bool is_same_with(const std::string &wanted) {
    return answers_with<V, std::uint8_t>() == wanted &&
        answers_with<V, std::uint16_t>() == wanted &&
        answers_with<V, std::uint32_t>() == wanted && answers_with<V, std::uint64_t>() == wanted;
}

}

int main() {
    const std::string wanted = answers<std::uint8_t>();
    const std::string with = answers_with<std::uint8_t, std::uint8_t>();
    std::printf("%s%s", wanted.c_str(), with.c_str());
    const bool are_same = answers<std::uint16_t>() == wanted &&
        answers<std::uint32_t>() == wanted && answers<std::uint64_t>() == wanted &&
        is_same_with<std::uint8_t>(with) && is_same_with<std::uint16_t>(with) &&
        is_same_with<std::uint32_t>(with) && is_same_with<std::uint64_t>(with);
    const bool is_version = bitvec::version() == BITVEC_VERSION;
    std::printf("the version is that of the header: %s\n", is_version ? "true" : "false");
    std::printf("the same in words of each width: %s\n", are_same ? "true" : "false");
    return is_version && are_same ? 0 : 1;
}
