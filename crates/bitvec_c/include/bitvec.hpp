/* Bits in words, for C++20: a front of inline functions over bitvec.h, which has the docs.
 *
 *   Job           Calls
 *   The version   version
 *   One bit       get, set, replace, swap
 *   A range       fill, invert, reverse
 *   Searching     first_one, first, first_zero, last, last_one, last_zero, next, next_one,
 *                 next_zero, previous, previous_one, previous_zero, find_zeros, find_zeros_from
 *   Counting      count_ones, count_zeros, is_empty, is_full
 *   Moving        copy, copy_within, copy_to, shift_left, shift_right, rotate_left
 *   Two ranges    and_with, or_with, xor_with, and_not, and_within, or_within, xor_within,
 *                 and_not_within, and_of, or_of, xor_of, and_not_of, equal, count_and, first_and,
 *                 intersects, first_and_not, is_subset, first_difference, first_difference_with
 *   Numbers       load, store, load_signed, store_signed
 *   Streams       read, read_signed, read_unary, read_exp_golomb, read_signed_exp_golomb, write,
 *                 write_signed, write_unary, write_exp_golomb, write_signed_exp_golomb
 *   Runs          can_run, run, can_run_in, run_in
 *
 * Each call has the name that it has in C, with no width: that is the one of the memory's words. A
 * memory is a std::span, so a call takes an array, a std::array, a std::vector or a part of one.
 * The order of the arguments is that of bitvec.h, where answers go last; each goes to a variable,
 * which a refusal leaves as it was. `and_with`, `or_with` and `xor_with` are the calls whose names
 * are words of C++. `can_run` and `can_run_in`, which take no memory, have the type of its words
 * before the arguments: can_run<std::uint16_t>(order, words, spans).
 *
 *   std::vector<std::uint16_t> memory(100);
 *   if (bitvec::fill(bitvec::msb0, memory, 30, 500, true) != bitvec::status::ok)
 *       ..
 *
 * What a caller of bitvec.h sees to, a caller here sees to: above all, what a call writes shares
 * nothing with its other arguments. No call throws, allocates or keeps anything. */
#ifndef BITVEC_HPP
#define BITVEC_HPP

#if __cplusplus < 202002L
#error "this front is for C++20; bitvec.h is for C++11 and later"
#endif

#include "bitvec.h"

#include <concepts>
#include <cstddef>
#include <cstdint>
#include <span>

namespace bitvec {

/* Where the bit of an index lies in a word: at the digit of that number, or as many from the
 * greatest digit on. */
enum class order : std::uint8_t { lsb0 = BITVEC_LSB0, msb0 = BITVEC_MSB0 };
using enum order;

/* What a call returns; bitvec.h says what each means. */
enum class status : std::uint8_t {
    ok = BITVEC_OK,
    no_order = BITVEC_NO_ORDER,
    too_many_spans = BITVEC_TOO_MANY_SPANS,
    too_long = BITVEC_TOO_LONG,
    outside = BITVEC_OUTSIDE,
    too_wide = BITVEC_TOO_WIDE,
    overlap = BITVEC_OVERLAP,
    no_room = BITVEC_NO_ROOM,
    no_command = BITVEC_NO_COMMAND,
    too_few = BITVEC_TOO_FEW,
    too_large = BITVEC_TOO_LARGE
};

/* Returns what a status says, in a few words. */
[[nodiscard]] inline const char *text(bitvec::status status) noexcept {
    return bitvec_status_text(static_cast<std::uint8_t>(status));
}

/* What a word of a memory is. */
template <typename W>
concept word = std::same_as<W, std::uint8_t> || std::same_as<W, std::uint16_t> ||
    std::same_as<W, std::uint32_t> || std::same_as<W, std::uint64_t>;

/* --------------------------------------- The version ---------------------------------------- */

/* Returns the version of the archive, to be compared with that of the header, BITVEC_VERSION. */
[[nodiscard]] inline std::uint32_t version() noexcept {
    return bitvec_c_version();
}

/* ----------------------------------------- One bit ------------------------------------------ */

/* A place names a bit of the memory, or the call refuses with status::outside. */

/* Writes to `bit` the bit at a place. Refuses with status::no_order or status::outside. */
[[nodiscard]] inline bitvec::status get(
    bitvec::order order, std::span<const std::uint8_t> memory, std::size_t place,
    bool &bit) noexcept {
    return static_cast<bitvec::status>(bitvec_c_get_u8(
        static_cast<std::uint8_t>(order), memory.data(), memory.size(), place, &bit));
}
[[nodiscard]] inline bitvec::status get(
    bitvec::order order, std::span<const std::uint16_t> memory, std::size_t place,
    bool &bit) noexcept {
    return static_cast<bitvec::status>(bitvec_c_get_u16(
        static_cast<std::uint8_t>(order), memory.data(), memory.size(), place, &bit));
}
[[nodiscard]] inline bitvec::status get(
    bitvec::order order, std::span<const std::uint32_t> memory, std::size_t place,
    bool &bit) noexcept {
    return static_cast<bitvec::status>(bitvec_c_get_u32(
        static_cast<std::uint8_t>(order), memory.data(), memory.size(), place, &bit));
}
[[nodiscard]] inline bitvec::status get(
    bitvec::order order, std::span<const std::uint64_t> memory, std::size_t place,
    bool &bit) noexcept {
    return static_cast<bitvec::status>(bitvec_c_get_u64(
        static_cast<std::uint8_t>(order), memory.data(), memory.size(), place, &bit));
}

/* Makes the bit at a place the same as `bit`. Refuses with status::no_order or status::outside. */
[[nodiscard]] inline bitvec::status set(
    bitvec::order order, std::span<std::uint8_t> memory, std::size_t place, bool bit) noexcept {
    return static_cast<bitvec::status>(bitvec_c_set_u8(
        static_cast<std::uint8_t>(order), memory.data(), memory.size(), place, bit));
}
[[nodiscard]] inline bitvec::status set(
    bitvec::order order, std::span<std::uint16_t> memory, std::size_t place, bool bit) noexcept {
    return static_cast<bitvec::status>(bitvec_c_set_u16(
        static_cast<std::uint8_t>(order), memory.data(), memory.size(), place, bit));
}
[[nodiscard]] inline bitvec::status set(
    bitvec::order order, std::span<std::uint32_t> memory, std::size_t place, bool bit) noexcept {
    return static_cast<bitvec::status>(bitvec_c_set_u32(
        static_cast<std::uint8_t>(order), memory.data(), memory.size(), place, bit));
}
[[nodiscard]] inline bitvec::status set(
    bitvec::order order, std::span<std::uint64_t> memory, std::size_t place, bool bit) noexcept {
    return static_cast<bitvec::status>(bitvec_c_set_u64(
        static_cast<std::uint8_t>(order), memory.data(), memory.size(), place, bit));
}

/* Writes to `before` the bit at a place, and makes it the same as `bit`. Refuses with
 * status::no_order or status::outside. */
[[nodiscard]] inline bitvec::status replace(
    bitvec::order order, std::span<std::uint8_t> memory, std::size_t place, bool bit,
    bool &before) noexcept {
    return static_cast<bitvec::status>(bitvec_c_replace_u8(
        static_cast<std::uint8_t>(order), memory.data(), memory.size(), place, bit, &before));
}
[[nodiscard]] inline bitvec::status replace(
    bitvec::order order, std::span<std::uint16_t> memory, std::size_t place, bool bit,
    bool &before) noexcept {
    return static_cast<bitvec::status>(bitvec_c_replace_u16(
        static_cast<std::uint8_t>(order), memory.data(), memory.size(), place, bit, &before));
}
[[nodiscard]] inline bitvec::status replace(
    bitvec::order order, std::span<std::uint32_t> memory, std::size_t place, bool bit,
    bool &before) noexcept {
    return static_cast<bitvec::status>(bitvec_c_replace_u32(
        static_cast<std::uint8_t>(order), memory.data(), memory.size(), place, bit, &before));
}
[[nodiscard]] inline bitvec::status replace(
    bitvec::order order, std::span<std::uint64_t> memory, std::size_t place, bool bit,
    bool &before) noexcept {
    return static_cast<bitvec::status>(bitvec_c_replace_u64(
        static_cast<std::uint8_t>(order), memory.data(), memory.size(), place, bit, &before));
}

/* Exchanges the bits at two places, which may be the same one. Refuses with status::no_order or
 * status::outside. */
[[nodiscard]] inline bitvec::status swap(
    bitvec::order order, std::span<std::uint8_t> memory, std::size_t place,
    std::size_t other_place) noexcept {
    return static_cast<bitvec::status>(bitvec_c_swap_u8(
        static_cast<std::uint8_t>(order), memory.data(), memory.size(), place, other_place));
}
[[nodiscard]] inline bitvec::status swap(
    bitvec::order order, std::span<std::uint16_t> memory, std::size_t place,
    std::size_t other_place) noexcept {
    return static_cast<bitvec::status>(bitvec_c_swap_u16(
        static_cast<std::uint8_t>(order), memory.data(), memory.size(), place, other_place));
}
[[nodiscard]] inline bitvec::status swap(
    bitvec::order order, std::span<std::uint32_t> memory, std::size_t place,
    std::size_t other_place) noexcept {
    return static_cast<bitvec::status>(bitvec_c_swap_u32(
        static_cast<std::uint8_t>(order), memory.data(), memory.size(), place, other_place));
}
[[nodiscard]] inline bitvec::status swap(
    bitvec::order order, std::span<std::uint64_t> memory, std::size_t place,
    std::size_t other_place) noexcept {
    return static_cast<bitvec::status>(bitvec_c_swap_u64(
        static_cast<std::uint8_t>(order), memory.data(), memory.size(), place, other_place));
}

/* ----------------------------------------- A range ------------------------------------------ */

/* The range has `count` bits from `start` on. */

/* Makes each bit of a range the same as `bit`. Refuses with status::no_order, status::too_long or
 * status::outside. Costs by words. */
[[nodiscard]] inline bitvec::status fill(
    bitvec::order order, std::span<std::uint8_t> memory, std::size_t start, std::size_t count,
    bool bit) noexcept {
    return static_cast<bitvec::status>(bitvec_c_fill_u8(
        static_cast<std::uint8_t>(order), memory.data(), memory.size(), start, count, bit));
}
[[nodiscard]] inline bitvec::status fill(
    bitvec::order order, std::span<std::uint16_t> memory, std::size_t start, std::size_t count,
    bool bit) noexcept {
    return static_cast<bitvec::status>(bitvec_c_fill_u16(
        static_cast<std::uint8_t>(order), memory.data(), memory.size(), start, count, bit));
}
[[nodiscard]] inline bitvec::status fill(
    bitvec::order order, std::span<std::uint32_t> memory, std::size_t start, std::size_t count,
    bool bit) noexcept {
    return static_cast<bitvec::status>(bitvec_c_fill_u32(
        static_cast<std::uint8_t>(order), memory.data(), memory.size(), start, count, bit));
}
[[nodiscard]] inline bitvec::status fill(
    bitvec::order order, std::span<std::uint64_t> memory, std::size_t start, std::size_t count,
    bool bit) noexcept {
    return static_cast<bitvec::status>(bitvec_c_fill_u64(
        static_cast<std::uint8_t>(order), memory.data(), memory.size(), start, count, bit));
}

/* Turns over each bit of a range. Refuses with status::no_order, status::too_long or
 * status::outside. Costs by words. */
[[nodiscard]] inline bitvec::status invert(
    bitvec::order order, std::span<std::uint8_t> memory, std::size_t start,
    std::size_t count) noexcept {
    return static_cast<bitvec::status>(bitvec_c_invert_u8(
        static_cast<std::uint8_t>(order), memory.data(), memory.size(), start, count));
}
[[nodiscard]] inline bitvec::status invert(
    bitvec::order order, std::span<std::uint16_t> memory, std::size_t start,
    std::size_t count) noexcept {
    return static_cast<bitvec::status>(bitvec_c_invert_u16(
        static_cast<std::uint8_t>(order), memory.data(), memory.size(), start, count));
}
[[nodiscard]] inline bitvec::status invert(
    bitvec::order order, std::span<std::uint32_t> memory, std::size_t start,
    std::size_t count) noexcept {
    return static_cast<bitvec::status>(bitvec_c_invert_u32(
        static_cast<std::uint8_t>(order), memory.data(), memory.size(), start, count));
}
[[nodiscard]] inline bitvec::status invert(
    bitvec::order order, std::span<std::uint64_t> memory, std::size_t start,
    std::size_t count) noexcept {
    return static_cast<bitvec::status>(bitvec_c_invert_u64(
        static_cast<std::uint8_t>(order), memory.data(), memory.size(), start, count));
}

/* Puts the bits of a range in the opposite order. Refuses with status::no_order, status::too_long
 * or status::outside. Costs by words. */
[[nodiscard]] inline bitvec::status reverse(
    bitvec::order order, std::span<std::uint8_t> memory, std::size_t start,
    std::size_t count) noexcept {
    return static_cast<bitvec::status>(bitvec_c_reverse_u8(
        static_cast<std::uint8_t>(order), memory.data(), memory.size(), start, count));
}
[[nodiscard]] inline bitvec::status reverse(
    bitvec::order order, std::span<std::uint16_t> memory, std::size_t start,
    std::size_t count) noexcept {
    return static_cast<bitvec::status>(bitvec_c_reverse_u16(
        static_cast<std::uint8_t>(order), memory.data(), memory.size(), start, count));
}
[[nodiscard]] inline bitvec::status reverse(
    bitvec::order order, std::span<std::uint32_t> memory, std::size_t start,
    std::size_t count) noexcept {
    return static_cast<bitvec::status>(bitvec_c_reverse_u32(
        static_cast<std::uint8_t>(order), memory.data(), memory.size(), start, count));
}
[[nodiscard]] inline bitvec::status reverse(
    bitvec::order order, std::span<std::uint64_t> memory, std::size_t start,
    std::size_t count) noexcept {
    return static_cast<bitvec::status>(bitvec_c_reverse_u64(
        static_cast<std::uint8_t>(order), memory.data(), memory.size(), start, count));
}

/* ---------------------------------------- Searching ----------------------------------------- */

/* The range has `count` bits from `start` on. The answer is an index in the range, from 0 on, and
 * `count` where there is none; the place of that bit is `start` and the index. */

/* Writes to `index` the index of the first bit that is one. Refuses with status::no_order,
 * status::too_long or status::outside. Costs by words, up to that bit. */
[[nodiscard]] inline bitvec::status first_one(
    bitvec::order order, std::span<const std::uint8_t> memory, std::size_t start, std::size_t count,
    std::size_t &index) noexcept {
    return static_cast<bitvec::status>(bitvec_c_first_one_u8(
        static_cast<std::uint8_t>(order), memory.data(), memory.size(), start, count, &index));
}
[[nodiscard]] inline bitvec::status first_one(
    bitvec::order order, std::span<const std::uint16_t> memory, std::size_t start,
    std::size_t count, std::size_t &index) noexcept {
    return static_cast<bitvec::status>(bitvec_c_first_one_u16(
        static_cast<std::uint8_t>(order), memory.data(), memory.size(), start, count, &index));
}
[[nodiscard]] inline bitvec::status first_one(
    bitvec::order order, std::span<const std::uint32_t> memory, std::size_t start,
    std::size_t count, std::size_t &index) noexcept {
    return static_cast<bitvec::status>(bitvec_c_first_one_u32(
        static_cast<std::uint8_t>(order), memory.data(), memory.size(), start, count, &index));
}
[[nodiscard]] inline bitvec::status first_one(
    bitvec::order order, std::span<const std::uint64_t> memory, std::size_t start,
    std::size_t count, std::size_t &index) noexcept {
    return static_cast<bitvec::status>(bitvec_c_first_one_u64(
        static_cast<std::uint8_t>(order), memory.data(), memory.size(), start, count, &index));
}

/* Writes to `index` the index of the first bit that is the same as `bit`. Refuses with
 * status::no_order, status::too_long or status::outside. Costs by words, up to that bit. */
[[nodiscard]] inline bitvec::status first(
    bitvec::order order, std::span<const std::uint8_t> memory, std::size_t start, std::size_t count,
    bool bit, std::size_t &index) noexcept {
    return static_cast<bitvec::status>(bitvec_c_first_u8(
        static_cast<std::uint8_t>(order), memory.data(), memory.size(), start, count, bit, &index));
}
[[nodiscard]] inline bitvec::status first(
    bitvec::order order, std::span<const std::uint16_t> memory, std::size_t start,
    std::size_t count, bool bit, std::size_t &index) noexcept {
    return static_cast<bitvec::status>(bitvec_c_first_u16(
        static_cast<std::uint8_t>(order), memory.data(), memory.size(), start, count, bit, &index));
}
[[nodiscard]] inline bitvec::status first(
    bitvec::order order, std::span<const std::uint32_t> memory, std::size_t start,
    std::size_t count, bool bit, std::size_t &index) noexcept {
    return static_cast<bitvec::status>(bitvec_c_first_u32(
        static_cast<std::uint8_t>(order), memory.data(), memory.size(), start, count, bit, &index));
}
[[nodiscard]] inline bitvec::status first(
    bitvec::order order, std::span<const std::uint64_t> memory, std::size_t start,
    std::size_t count, bool bit, std::size_t &index) noexcept {
    return static_cast<bitvec::status>(bitvec_c_first_u64(
        static_cast<std::uint8_t>(order), memory.data(), memory.size(), start, count, bit, &index));
}

/* Writes to `index` the index of the first bit that is zero. Refuses with status::no_order,
 * status::too_long or status::outside. Costs by words, up to that bit. */
[[nodiscard]] inline bitvec::status first_zero(
    bitvec::order order, std::span<const std::uint8_t> memory, std::size_t start, std::size_t count,
    std::size_t &index) noexcept {
    return static_cast<bitvec::status>(bitvec_c_first_zero_u8(
        static_cast<std::uint8_t>(order), memory.data(), memory.size(), start, count, &index));
}
[[nodiscard]] inline bitvec::status first_zero(
    bitvec::order order, std::span<const std::uint16_t> memory, std::size_t start,
    std::size_t count, std::size_t &index) noexcept {
    return static_cast<bitvec::status>(bitvec_c_first_zero_u16(
        static_cast<std::uint8_t>(order), memory.data(), memory.size(), start, count, &index));
}
[[nodiscard]] inline bitvec::status first_zero(
    bitvec::order order, std::span<const std::uint32_t> memory, std::size_t start,
    std::size_t count, std::size_t &index) noexcept {
    return static_cast<bitvec::status>(bitvec_c_first_zero_u32(
        static_cast<std::uint8_t>(order), memory.data(), memory.size(), start, count, &index));
}
[[nodiscard]] inline bitvec::status first_zero(
    bitvec::order order, std::span<const std::uint64_t> memory, std::size_t start,
    std::size_t count, std::size_t &index) noexcept {
    return static_cast<bitvec::status>(bitvec_c_first_zero_u64(
        static_cast<std::uint8_t>(order), memory.data(), memory.size(), start, count, &index));
}

/* Writes to `index` the index of the last bit that is the same as `bit`. Refuses with
 * status::no_order, status::too_long or status::outside. Costs by words, down to that bit. */
[[nodiscard]] inline bitvec::status last(
    bitvec::order order, std::span<const std::uint8_t> memory, std::size_t start, std::size_t count,
    bool bit, std::size_t &index) noexcept {
    return static_cast<bitvec::status>(bitvec_c_last_u8(
        static_cast<std::uint8_t>(order), memory.data(), memory.size(), start, count, bit, &index));
}
[[nodiscard]] inline bitvec::status last(
    bitvec::order order, std::span<const std::uint16_t> memory, std::size_t start,
    std::size_t count, bool bit, std::size_t &index) noexcept {
    return static_cast<bitvec::status>(bitvec_c_last_u16(
        static_cast<std::uint8_t>(order), memory.data(), memory.size(), start, count, bit, &index));
}
[[nodiscard]] inline bitvec::status last(
    bitvec::order order, std::span<const std::uint32_t> memory, std::size_t start,
    std::size_t count, bool bit, std::size_t &index) noexcept {
    return static_cast<bitvec::status>(bitvec_c_last_u32(
        static_cast<std::uint8_t>(order), memory.data(), memory.size(), start, count, bit, &index));
}
[[nodiscard]] inline bitvec::status last(
    bitvec::order order, std::span<const std::uint64_t> memory, std::size_t start,
    std::size_t count, bool bit, std::size_t &index) noexcept {
    return static_cast<bitvec::status>(bitvec_c_last_u64(
        static_cast<std::uint8_t>(order), memory.data(), memory.size(), start, count, bit, &index));
}

/* Writes to `index` the index of the last bit that is one. Refuses with status::no_order,
 * status::too_long or status::outside. Costs by words, down to that bit. */
[[nodiscard]] inline bitvec::status last_one(
    bitvec::order order, std::span<const std::uint8_t> memory, std::size_t start, std::size_t count,
    std::size_t &index) noexcept {
    return static_cast<bitvec::status>(bitvec_c_last_one_u8(
        static_cast<std::uint8_t>(order), memory.data(), memory.size(), start, count, &index));
}
[[nodiscard]] inline bitvec::status last_one(
    bitvec::order order, std::span<const std::uint16_t> memory, std::size_t start,
    std::size_t count, std::size_t &index) noexcept {
    return static_cast<bitvec::status>(bitvec_c_last_one_u16(
        static_cast<std::uint8_t>(order), memory.data(), memory.size(), start, count, &index));
}
[[nodiscard]] inline bitvec::status last_one(
    bitvec::order order, std::span<const std::uint32_t> memory, std::size_t start,
    std::size_t count, std::size_t &index) noexcept {
    return static_cast<bitvec::status>(bitvec_c_last_one_u32(
        static_cast<std::uint8_t>(order), memory.data(), memory.size(), start, count, &index));
}
[[nodiscard]] inline bitvec::status last_one(
    bitvec::order order, std::span<const std::uint64_t> memory, std::size_t start,
    std::size_t count, std::size_t &index) noexcept {
    return static_cast<bitvec::status>(bitvec_c_last_one_u64(
        static_cast<std::uint8_t>(order), memory.data(), memory.size(), start, count, &index));
}

/* Writes to `index` the index of the last bit that is zero. Refuses with status::no_order,
 * status::too_long or status::outside. Costs by words, down to that bit. */
[[nodiscard]] inline bitvec::status last_zero(
    bitvec::order order, std::span<const std::uint8_t> memory, std::size_t start, std::size_t count,
    std::size_t &index) noexcept {
    return static_cast<bitvec::status>(bitvec_c_last_zero_u8(
        static_cast<std::uint8_t>(order), memory.data(), memory.size(), start, count, &index));
}
[[nodiscard]] inline bitvec::status last_zero(
    bitvec::order order, std::span<const std::uint16_t> memory, std::size_t start,
    std::size_t count, std::size_t &index) noexcept {
    return static_cast<bitvec::status>(bitvec_c_last_zero_u16(
        static_cast<std::uint8_t>(order), memory.data(), memory.size(), start, count, &index));
}
[[nodiscard]] inline bitvec::status last_zero(
    bitvec::order order, std::span<const std::uint32_t> memory, std::size_t start,
    std::size_t count, std::size_t &index) noexcept {
    return static_cast<bitvec::status>(bitvec_c_last_zero_u32(
        static_cast<std::uint8_t>(order), memory.data(), memory.size(), start, count, &index));
}
[[nodiscard]] inline bitvec::status last_zero(
    bitvec::order order, std::span<const std::uint64_t> memory, std::size_t start,
    std::size_t count, std::size_t &index) noexcept {
    return static_cast<bitvec::status>(bitvec_c_last_zero_u64(
        static_cast<std::uint8_t>(order), memory.data(), memory.size(), start, count, &index));
}

/* Writes to `index` the index of the first bit, of those from index `from` on, that is the same as
 * `bit`. Refuses with status::no_order, status::too_long or status::outside. Costs by words, up to
 * that bit. */
[[nodiscard]] inline bitvec::status next(
    bitvec::order order, std::span<const std::uint8_t> memory, std::size_t start, std::size_t count,
    std::size_t from, bool bit, std::size_t &index) noexcept {
    return static_cast<bitvec::status>(bitvec_c_next_u8(
        static_cast<std::uint8_t>(order), memory.data(), memory.size(), start, count, from, bit,
        &index));
}
[[nodiscard]] inline bitvec::status next(
    bitvec::order order, std::span<const std::uint16_t> memory, std::size_t start,
    std::size_t count, std::size_t from, bool bit, std::size_t &index) noexcept {
    return static_cast<bitvec::status>(bitvec_c_next_u16(
        static_cast<std::uint8_t>(order), memory.data(), memory.size(), start, count, from, bit,
        &index));
}
[[nodiscard]] inline bitvec::status next(
    bitvec::order order, std::span<const std::uint32_t> memory, std::size_t start,
    std::size_t count, std::size_t from, bool bit, std::size_t &index) noexcept {
    return static_cast<bitvec::status>(bitvec_c_next_u32(
        static_cast<std::uint8_t>(order), memory.data(), memory.size(), start, count, from, bit,
        &index));
}
[[nodiscard]] inline bitvec::status next(
    bitvec::order order, std::span<const std::uint64_t> memory, std::size_t start,
    std::size_t count, std::size_t from, bool bit, std::size_t &index) noexcept {
    return static_cast<bitvec::status>(bitvec_c_next_u64(
        static_cast<std::uint8_t>(order), memory.data(), memory.size(), start, count, from, bit,
        &index));
}

/* Writes to `index` the index of the first bit, of those from index `from` on, that is one. Refuses
 * with status::no_order, status::too_long or status::outside. Costs by words, up to that bit. */
[[nodiscard]] inline bitvec::status next_one(
    bitvec::order order, std::span<const std::uint8_t> memory, std::size_t start, std::size_t count,
    std::size_t from, std::size_t &index) noexcept {
    return static_cast<bitvec::status>(bitvec_c_next_one_u8(
        static_cast<std::uint8_t>(order), memory.data(), memory.size(), start, count, from,
        &index));
}
[[nodiscard]] inline bitvec::status next_one(
    bitvec::order order, std::span<const std::uint16_t> memory, std::size_t start,
    std::size_t count, std::size_t from, std::size_t &index) noexcept {
    return static_cast<bitvec::status>(bitvec_c_next_one_u16(
        static_cast<std::uint8_t>(order), memory.data(), memory.size(), start, count, from,
        &index));
}
[[nodiscard]] inline bitvec::status next_one(
    bitvec::order order, std::span<const std::uint32_t> memory, std::size_t start,
    std::size_t count, std::size_t from, std::size_t &index) noexcept {
    return static_cast<bitvec::status>(bitvec_c_next_one_u32(
        static_cast<std::uint8_t>(order), memory.data(), memory.size(), start, count, from,
        &index));
}
[[nodiscard]] inline bitvec::status next_one(
    bitvec::order order, std::span<const std::uint64_t> memory, std::size_t start,
    std::size_t count, std::size_t from, std::size_t &index) noexcept {
    return static_cast<bitvec::status>(bitvec_c_next_one_u64(
        static_cast<std::uint8_t>(order), memory.data(), memory.size(), start, count, from,
        &index));
}

/* Writes to `index` the index of the first bit, of those from index `from` on, that is zero.
 * Refuses with status::no_order, status::too_long or status::outside. Costs by words, up to that
 * bit. */
[[nodiscard]] inline bitvec::status next_zero(
    bitvec::order order, std::span<const std::uint8_t> memory, std::size_t start, std::size_t count,
    std::size_t from, std::size_t &index) noexcept {
    return static_cast<bitvec::status>(bitvec_c_next_zero_u8(
        static_cast<std::uint8_t>(order), memory.data(), memory.size(), start, count, from,
        &index));
}
[[nodiscard]] inline bitvec::status next_zero(
    bitvec::order order, std::span<const std::uint16_t> memory, std::size_t start,
    std::size_t count, std::size_t from, std::size_t &index) noexcept {
    return static_cast<bitvec::status>(bitvec_c_next_zero_u16(
        static_cast<std::uint8_t>(order), memory.data(), memory.size(), start, count, from,
        &index));
}
[[nodiscard]] inline bitvec::status next_zero(
    bitvec::order order, std::span<const std::uint32_t> memory, std::size_t start,
    std::size_t count, std::size_t from, std::size_t &index) noexcept {
    return static_cast<bitvec::status>(bitvec_c_next_zero_u32(
        static_cast<std::uint8_t>(order), memory.data(), memory.size(), start, count, from,
        &index));
}
[[nodiscard]] inline bitvec::status next_zero(
    bitvec::order order, std::span<const std::uint64_t> memory, std::size_t start,
    std::size_t count, std::size_t from, std::size_t &index) noexcept {
    return static_cast<bitvec::status>(bitvec_c_next_zero_u64(
        static_cast<std::uint8_t>(order), memory.data(), memory.size(), start, count, from,
        &index));
}

/* Writes to `index` the index of the last bit, of those before index `before`, that is the same as
 * `bit`. Refuses with status::no_order, status::too_long or status::outside. Costs by words, down
 * to that bit. */
[[nodiscard]] inline bitvec::status previous(
    bitvec::order order, std::span<const std::uint8_t> memory, std::size_t start, std::size_t count,
    std::size_t before, bool bit, std::size_t &index) noexcept {
    return static_cast<bitvec::status>(bitvec_c_previous_u8(
        static_cast<std::uint8_t>(order), memory.data(), memory.size(), start, count, before, bit,
        &index));
}
[[nodiscard]] inline bitvec::status previous(
    bitvec::order order, std::span<const std::uint16_t> memory, std::size_t start,
    std::size_t count, std::size_t before, bool bit, std::size_t &index) noexcept {
    return static_cast<bitvec::status>(bitvec_c_previous_u16(
        static_cast<std::uint8_t>(order), memory.data(), memory.size(), start, count, before, bit,
        &index));
}
[[nodiscard]] inline bitvec::status previous(
    bitvec::order order, std::span<const std::uint32_t> memory, std::size_t start,
    std::size_t count, std::size_t before, bool bit, std::size_t &index) noexcept {
    return static_cast<bitvec::status>(bitvec_c_previous_u32(
        static_cast<std::uint8_t>(order), memory.data(), memory.size(), start, count, before, bit,
        &index));
}
[[nodiscard]] inline bitvec::status previous(
    bitvec::order order, std::span<const std::uint64_t> memory, std::size_t start,
    std::size_t count, std::size_t before, bool bit, std::size_t &index) noexcept {
    return static_cast<bitvec::status>(bitvec_c_previous_u64(
        static_cast<std::uint8_t>(order), memory.data(), memory.size(), start, count, before, bit,
        &index));
}

/* Writes to `index` the index of the last bit, of those before index `before`, that is one. Refuses
 * with status::no_order, status::too_long or status::outside. Costs by words, down to that bit. */
[[nodiscard]] inline bitvec::status previous_one(
    bitvec::order order, std::span<const std::uint8_t> memory, std::size_t start, std::size_t count,
    std::size_t before, std::size_t &index) noexcept {
    return static_cast<bitvec::status>(bitvec_c_previous_one_u8(
        static_cast<std::uint8_t>(order), memory.data(), memory.size(), start, count, before,
        &index));
}
[[nodiscard]] inline bitvec::status previous_one(
    bitvec::order order, std::span<const std::uint16_t> memory, std::size_t start,
    std::size_t count, std::size_t before, std::size_t &index) noexcept {
    return static_cast<bitvec::status>(bitvec_c_previous_one_u16(
        static_cast<std::uint8_t>(order), memory.data(), memory.size(), start, count, before,
        &index));
}
[[nodiscard]] inline bitvec::status previous_one(
    bitvec::order order, std::span<const std::uint32_t> memory, std::size_t start,
    std::size_t count, std::size_t before, std::size_t &index) noexcept {
    return static_cast<bitvec::status>(bitvec_c_previous_one_u32(
        static_cast<std::uint8_t>(order), memory.data(), memory.size(), start, count, before,
        &index));
}
[[nodiscard]] inline bitvec::status previous_one(
    bitvec::order order, std::span<const std::uint64_t> memory, std::size_t start,
    std::size_t count, std::size_t before, std::size_t &index) noexcept {
    return static_cast<bitvec::status>(bitvec_c_previous_one_u64(
        static_cast<std::uint8_t>(order), memory.data(), memory.size(), start, count, before,
        &index));
}

/* Writes to `index` the index of the last bit, of those before index `before`, that is zero.
 * Refuses with status::no_order, status::too_long or status::outside. Costs by words, down to that
 * bit. */
[[nodiscard]] inline bitvec::status previous_zero(
    bitvec::order order, std::span<const std::uint8_t> memory, std::size_t start, std::size_t count,
    std::size_t before, std::size_t &index) noexcept {
    return static_cast<bitvec::status>(bitvec_c_previous_zero_u8(
        static_cast<std::uint8_t>(order), memory.data(), memory.size(), start, count, before,
        &index));
}
[[nodiscard]] inline bitvec::status previous_zero(
    bitvec::order order, std::span<const std::uint16_t> memory, std::size_t start,
    std::size_t count, std::size_t before, std::size_t &index) noexcept {
    return static_cast<bitvec::status>(bitvec_c_previous_zero_u16(
        static_cast<std::uint8_t>(order), memory.data(), memory.size(), start, count, before,
        &index));
}
[[nodiscard]] inline bitvec::status previous_zero(
    bitvec::order order, std::span<const std::uint32_t> memory, std::size_t start,
    std::size_t count, std::size_t before, std::size_t &index) noexcept {
    return static_cast<bitvec::status>(bitvec_c_previous_zero_u32(
        static_cast<std::uint8_t>(order), memory.data(), memory.size(), start, count, before,
        &index));
}
[[nodiscard]] inline bitvec::status previous_zero(
    bitvec::order order, std::span<const std::uint64_t> memory, std::size_t start,
    std::size_t count, std::size_t before, std::size_t &index) noexcept {
    return static_cast<bitvec::status>(bitvec_c_previous_zero_u64(
        static_cast<std::uint8_t>(order), memory.data(), memory.size(), start, count, before,
        &index));
}

/* Writes to `index` the first index from which on `zeros` bits are in the range and zero. For 0
 * zeros it is 0. Refuses with status::no_order, status::too_long or status::outside. Costs by
 * words, where a run is no longer than a word, else by bits in words that are not zero. */
[[nodiscard]] inline bitvec::status find_zeros(
    bitvec::order order, std::span<const std::uint8_t> memory, std::size_t start, std::size_t count,
    std::size_t zeros, std::size_t &index) noexcept {
    return static_cast<bitvec::status>(bitvec_c_find_zeros_u8(
        static_cast<std::uint8_t>(order), memory.data(), memory.size(), start, count, zeros,
        &index));
}
[[nodiscard]] inline bitvec::status find_zeros(
    bitvec::order order, std::span<const std::uint16_t> memory, std::size_t start,
    std::size_t count, std::size_t zeros, std::size_t &index) noexcept {
    return static_cast<bitvec::status>(bitvec_c_find_zeros_u16(
        static_cast<std::uint8_t>(order), memory.data(), memory.size(), start, count, zeros,
        &index));
}
[[nodiscard]] inline bitvec::status find_zeros(
    bitvec::order order, std::span<const std::uint32_t> memory, std::size_t start,
    std::size_t count, std::size_t zeros, std::size_t &index) noexcept {
    return static_cast<bitvec::status>(bitvec_c_find_zeros_u32(
        static_cast<std::uint8_t>(order), memory.data(), memory.size(), start, count, zeros,
        &index));
}
[[nodiscard]] inline bitvec::status find_zeros(
    bitvec::order order, std::span<const std::uint64_t> memory, std::size_t start,
    std::size_t count, std::size_t zeros, std::size_t &index) noexcept {
    return static_cast<bitvec::status>(bitvec_c_find_zeros_u64(
        static_cast<std::uint8_t>(order), memory.data(), memory.size(), start, count, zeros,
        &index));
}

/* Writes to `index` the first index, not before `from` and a multiple of `multiple_of`, from which
 * on `zeros` bits are in the range and zero. A `multiple_of` of 0 is taken as 1. Refuses with
 * status::no_order, status::too_long or status::outside. Costs as `find_zeros`, and once more for
 * each run that is long enough, but not from a multiple on. */
[[nodiscard]] inline bitvec::status find_zeros_from(
    bitvec::order order, std::span<const std::uint8_t> memory, std::size_t start, std::size_t count,
    std::size_t from, std::size_t zeros, std::size_t multiple_of, std::size_t &index) noexcept {
    return static_cast<bitvec::status>(bitvec_c_find_zeros_from_u8(
        static_cast<std::uint8_t>(order), memory.data(), memory.size(), start, count, from, zeros,
        multiple_of, &index));
}
[[nodiscard]] inline bitvec::status find_zeros_from(
    bitvec::order order, std::span<const std::uint16_t> memory, std::size_t start,
    std::size_t count, std::size_t from, std::size_t zeros, std::size_t multiple_of,
    std::size_t &index) noexcept {
    return static_cast<bitvec::status>(bitvec_c_find_zeros_from_u16(
        static_cast<std::uint8_t>(order), memory.data(), memory.size(), start, count, from, zeros,
        multiple_of, &index));
}
[[nodiscard]] inline bitvec::status find_zeros_from(
    bitvec::order order, std::span<const std::uint32_t> memory, std::size_t start,
    std::size_t count, std::size_t from, std::size_t zeros, std::size_t multiple_of,
    std::size_t &index) noexcept {
    return static_cast<bitvec::status>(bitvec_c_find_zeros_from_u32(
        static_cast<std::uint8_t>(order), memory.data(), memory.size(), start, count, from, zeros,
        multiple_of, &index));
}
[[nodiscard]] inline bitvec::status find_zeros_from(
    bitvec::order order, std::span<const std::uint64_t> memory, std::size_t start,
    std::size_t count, std::size_t from, std::size_t zeros, std::size_t multiple_of,
    std::size_t &index) noexcept {
    return static_cast<bitvec::status>(bitvec_c_find_zeros_from_u64(
        static_cast<std::uint8_t>(order), memory.data(), memory.size(), start, count, from, zeros,
        multiple_of, &index));
}

/* ----------------------------------------- Counting ----------------------------------------- */

/* The range has `count` bits from `start` on. */

/* Writes to `ones` how many bits of a range are one. Refuses with status::no_order,
 * status::too_long or status::outside. Costs by words. */
[[nodiscard]] inline bitvec::status count_ones(
    bitvec::order order, std::span<const std::uint8_t> memory, std::size_t start, std::size_t count,
    std::size_t &ones) noexcept {
    return static_cast<bitvec::status>(bitvec_c_count_ones_u8(
        static_cast<std::uint8_t>(order), memory.data(), memory.size(), start, count, &ones));
}
[[nodiscard]] inline bitvec::status count_ones(
    bitvec::order order, std::span<const std::uint16_t> memory, std::size_t start,
    std::size_t count, std::size_t &ones) noexcept {
    return static_cast<bitvec::status>(bitvec_c_count_ones_u16(
        static_cast<std::uint8_t>(order), memory.data(), memory.size(), start, count, &ones));
}
[[nodiscard]] inline bitvec::status count_ones(
    bitvec::order order, std::span<const std::uint32_t> memory, std::size_t start,
    std::size_t count, std::size_t &ones) noexcept {
    return static_cast<bitvec::status>(bitvec_c_count_ones_u32(
        static_cast<std::uint8_t>(order), memory.data(), memory.size(), start, count, &ones));
}
[[nodiscard]] inline bitvec::status count_ones(
    bitvec::order order, std::span<const std::uint64_t> memory, std::size_t start,
    std::size_t count, std::size_t &ones) noexcept {
    return static_cast<bitvec::status>(bitvec_c_count_ones_u64(
        static_cast<std::uint8_t>(order), memory.data(), memory.size(), start, count, &ones));
}

/* Writes to `zeros` how many bits of a range are zero. Refuses with status::no_order,
 * status::too_long or status::outside. Costs by words. */
[[nodiscard]] inline bitvec::status count_zeros(
    bitvec::order order, std::span<const std::uint8_t> memory, std::size_t start, std::size_t count,
    std::size_t &zeros) noexcept {
    return static_cast<bitvec::status>(bitvec_c_count_zeros_u8(
        static_cast<std::uint8_t>(order), memory.data(), memory.size(), start, count, &zeros));
}
[[nodiscard]] inline bitvec::status count_zeros(
    bitvec::order order, std::span<const std::uint16_t> memory, std::size_t start,
    std::size_t count, std::size_t &zeros) noexcept {
    return static_cast<bitvec::status>(bitvec_c_count_zeros_u16(
        static_cast<std::uint8_t>(order), memory.data(), memory.size(), start, count, &zeros));
}
[[nodiscard]] inline bitvec::status count_zeros(
    bitvec::order order, std::span<const std::uint32_t> memory, std::size_t start,
    std::size_t count, std::size_t &zeros) noexcept {
    return static_cast<bitvec::status>(bitvec_c_count_zeros_u32(
        static_cast<std::uint8_t>(order), memory.data(), memory.size(), start, count, &zeros));
}
[[nodiscard]] inline bitvec::status count_zeros(
    bitvec::order order, std::span<const std::uint64_t> memory, std::size_t start,
    std::size_t count, std::size_t &zeros) noexcept {
    return static_cast<bitvec::status>(bitvec_c_count_zeros_u64(
        static_cast<std::uint8_t>(order), memory.data(), memory.size(), start, count, &zeros));
}

/* Writes to `empty` whether no bit of a range is one. Refuses with status::no_order,
 * status::too_long or status::outside. Costs by words, up to the first that is. */
[[nodiscard]] inline bitvec::status is_empty(
    bitvec::order order, std::span<const std::uint8_t> memory, std::size_t start, std::size_t count,
    bool &empty) noexcept {
    return static_cast<bitvec::status>(bitvec_c_is_empty_u8(
        static_cast<std::uint8_t>(order), memory.data(), memory.size(), start, count, &empty));
}
[[nodiscard]] inline bitvec::status is_empty(
    bitvec::order order, std::span<const std::uint16_t> memory, std::size_t start,
    std::size_t count, bool &empty) noexcept {
    return static_cast<bitvec::status>(bitvec_c_is_empty_u16(
        static_cast<std::uint8_t>(order), memory.data(), memory.size(), start, count, &empty));
}
[[nodiscard]] inline bitvec::status is_empty(
    bitvec::order order, std::span<const std::uint32_t> memory, std::size_t start,
    std::size_t count, bool &empty) noexcept {
    return static_cast<bitvec::status>(bitvec_c_is_empty_u32(
        static_cast<std::uint8_t>(order), memory.data(), memory.size(), start, count, &empty));
}
[[nodiscard]] inline bitvec::status is_empty(
    bitvec::order order, std::span<const std::uint64_t> memory, std::size_t start,
    std::size_t count, bool &empty) noexcept {
    return static_cast<bitvec::status>(bitvec_c_is_empty_u64(
        static_cast<std::uint8_t>(order), memory.data(), memory.size(), start, count, &empty));
}

/* Writes to `full` whether each bit of a range is one. Refuses with status::no_order,
 * status::too_long or status::outside. Costs by words, up to the first that is not. */
[[nodiscard]] inline bitvec::status is_full(
    bitvec::order order, std::span<const std::uint8_t> memory, std::size_t start, std::size_t count,
    bool &full) noexcept {
    return static_cast<bitvec::status>(bitvec_c_is_full_u8(
        static_cast<std::uint8_t>(order), memory.data(), memory.size(), start, count, &full));
}
[[nodiscard]] inline bitvec::status is_full(
    bitvec::order order, std::span<const std::uint16_t> memory, std::size_t start,
    std::size_t count, bool &full) noexcept {
    return static_cast<bitvec::status>(bitvec_c_is_full_u16(
        static_cast<std::uint8_t>(order), memory.data(), memory.size(), start, count, &full));
}
[[nodiscard]] inline bitvec::status is_full(
    bitvec::order order, std::span<const std::uint32_t> memory, std::size_t start,
    std::size_t count, bool &full) noexcept {
    return static_cast<bitvec::status>(bitvec_c_is_full_u32(
        static_cast<std::uint8_t>(order), memory.data(), memory.size(), start, count, &full));
}
[[nodiscard]] inline bitvec::status is_full(
    bitvec::order order, std::span<const std::uint64_t> memory, std::size_t start,
    std::size_t count, bool &full) noexcept {
    return static_cast<bitvec::status>(bitvec_c_is_full_u64(
        static_cast<std::uint8_t>(order), memory.data(), memory.size(), start, count, &full));
}

/* ------------------------------------------ Moving ------------------------------------------ */

/* A copy goes to `target_start` on, from `source_start` on. Both ranges have `count` bits, and both
 * are tested. */

/* Copies bits of one memory to another, under one order. The two arrays share no word. Refuses with
 * status::no_order, status::too_long or status::outside. Costs by words. */
[[nodiscard]] inline bitvec::status copy(
    bitvec::order order, std::span<std::uint8_t> target, std::size_t target_start,
    std::span<const std::uint8_t> source, std::size_t source_start, std::size_t count) noexcept {
    return static_cast<bitvec::status>(bitvec_c_copy_u8(
        static_cast<std::uint8_t>(order), target.data(), target.size(), target_start,
        source.data(), source.size(), source_start, count));
}
[[nodiscard]] inline bitvec::status copy(
    bitvec::order order, std::span<std::uint16_t> target, std::size_t target_start,
    std::span<const std::uint16_t> source, std::size_t source_start, std::size_t count) noexcept {
    return static_cast<bitvec::status>(bitvec_c_copy_u16(
        static_cast<std::uint8_t>(order), target.data(), target.size(), target_start,
        source.data(), source.size(), source_start, count));
}
[[nodiscard]] inline bitvec::status copy(
    bitvec::order order, std::span<std::uint32_t> target, std::size_t target_start,
    std::span<const std::uint32_t> source, std::size_t source_start, std::size_t count) noexcept {
    return static_cast<bitvec::status>(bitvec_c_copy_u32(
        static_cast<std::uint8_t>(order), target.data(), target.size(), target_start,
        source.data(), source.size(), source_start, count));
}
[[nodiscard]] inline bitvec::status copy(
    bitvec::order order, std::span<std::uint64_t> target, std::size_t target_start,
    std::span<const std::uint64_t> source, std::size_t source_start, std::size_t count) noexcept {
    return static_cast<bitvec::status>(bitvec_c_copy_u64(
        static_cast<std::uint8_t>(order), target.data(), target.size(), target_start,
        source.data(), source.size(), source_start, count));
}

/* Copies bits of a memory to another place of it. The two ranges may overlap: the target gets the
 * bits as they were before. Refuses with status::no_order, status::too_long or status::outside.
 * Costs by words. */
[[nodiscard]] inline bitvec::status copy_within(
    bitvec::order order, std::span<std::uint8_t> memory, std::size_t target_start,
    std::size_t source_start, std::size_t count) noexcept {
    return static_cast<bitvec::status>(bitvec_c_copy_within_u8(
        static_cast<std::uint8_t>(order), memory.data(), memory.size(), target_start, source_start,
        count));
}
[[nodiscard]] inline bitvec::status copy_within(
    bitvec::order order, std::span<std::uint16_t> memory, std::size_t target_start,
    std::size_t source_start, std::size_t count) noexcept {
    return static_cast<bitvec::status>(bitvec_c_copy_within_u16(
        static_cast<std::uint8_t>(order), memory.data(), memory.size(), target_start, source_start,
        count));
}
[[nodiscard]] inline bitvec::status copy_within(
    bitvec::order order, std::span<std::uint32_t> memory, std::size_t target_start,
    std::size_t source_start, std::size_t count) noexcept {
    return static_cast<bitvec::status>(bitvec_c_copy_within_u32(
        static_cast<std::uint8_t>(order), memory.data(), memory.size(), target_start, source_start,
        count));
}
[[nodiscard]] inline bitvec::status copy_within(
    bitvec::order order, std::span<std::uint64_t> memory, std::size_t target_start,
    std::size_t source_start, std::size_t count) noexcept {
    return static_cast<bitvec::status>(bitvec_c_copy_within_u64(
        static_cast<std::uint8_t>(order), memory.data(), memory.size(), target_start, source_start,
        count));
}

/* Copies bits of a memory of words of one width to one of words of another, each under an order of
 * its own. The two memories share no word. Refuses with status::no_order, status::too_long or
 * status::outside. Costs by words where the orders are the same, else by bits. */
[[nodiscard]] inline bitvec::status copy_to(
    bitvec::order order, std::span<std::uint8_t> target, std::size_t target_start,
    bitvec::order source_order, std::span<const std::uint8_t> source, std::size_t source_start,
    std::size_t count) noexcept {
    return static_cast<bitvec::status>(bitvec_c_copy_u8_to_u8(
        static_cast<std::uint8_t>(order), target.data(), target.size(), target_start,
        static_cast<std::uint8_t>(source_order), source.data(), source.size(), source_start,
        count));
}
[[nodiscard]] inline bitvec::status copy_to(
    bitvec::order order, std::span<std::uint16_t> target, std::size_t target_start,
    bitvec::order source_order, std::span<const std::uint8_t> source, std::size_t source_start,
    std::size_t count) noexcept {
    return static_cast<bitvec::status>(bitvec_c_copy_u8_to_u16(
        static_cast<std::uint8_t>(order), target.data(), target.size(), target_start,
        static_cast<std::uint8_t>(source_order), source.data(), source.size(), source_start,
        count));
}
[[nodiscard]] inline bitvec::status copy_to(
    bitvec::order order, std::span<std::uint32_t> target, std::size_t target_start,
    bitvec::order source_order, std::span<const std::uint8_t> source, std::size_t source_start,
    std::size_t count) noexcept {
    return static_cast<bitvec::status>(bitvec_c_copy_u8_to_u32(
        static_cast<std::uint8_t>(order), target.data(), target.size(), target_start,
        static_cast<std::uint8_t>(source_order), source.data(), source.size(), source_start,
        count));
}
[[nodiscard]] inline bitvec::status copy_to(
    bitvec::order order, std::span<std::uint64_t> target, std::size_t target_start,
    bitvec::order source_order, std::span<const std::uint8_t> source, std::size_t source_start,
    std::size_t count) noexcept {
    return static_cast<bitvec::status>(bitvec_c_copy_u8_to_u64(
        static_cast<std::uint8_t>(order), target.data(), target.size(), target_start,
        static_cast<std::uint8_t>(source_order), source.data(), source.size(), source_start,
        count));
}
[[nodiscard]] inline bitvec::status copy_to(
    bitvec::order order, std::span<std::uint8_t> target, std::size_t target_start,
    bitvec::order source_order, std::span<const std::uint16_t> source, std::size_t source_start,
    std::size_t count) noexcept {
    return static_cast<bitvec::status>(bitvec_c_copy_u16_to_u8(
        static_cast<std::uint8_t>(order), target.data(), target.size(), target_start,
        static_cast<std::uint8_t>(source_order), source.data(), source.size(), source_start,
        count));
}
[[nodiscard]] inline bitvec::status copy_to(
    bitvec::order order, std::span<std::uint16_t> target, std::size_t target_start,
    bitvec::order source_order, std::span<const std::uint16_t> source, std::size_t source_start,
    std::size_t count) noexcept {
    return static_cast<bitvec::status>(bitvec_c_copy_u16_to_u16(
        static_cast<std::uint8_t>(order), target.data(), target.size(), target_start,
        static_cast<std::uint8_t>(source_order), source.data(), source.size(), source_start,
        count));
}
[[nodiscard]] inline bitvec::status copy_to(
    bitvec::order order, std::span<std::uint32_t> target, std::size_t target_start,
    bitvec::order source_order, std::span<const std::uint16_t> source, std::size_t source_start,
    std::size_t count) noexcept {
    return static_cast<bitvec::status>(bitvec_c_copy_u16_to_u32(
        static_cast<std::uint8_t>(order), target.data(), target.size(), target_start,
        static_cast<std::uint8_t>(source_order), source.data(), source.size(), source_start,
        count));
}
[[nodiscard]] inline bitvec::status copy_to(
    bitvec::order order, std::span<std::uint64_t> target, std::size_t target_start,
    bitvec::order source_order, std::span<const std::uint16_t> source, std::size_t source_start,
    std::size_t count) noexcept {
    return static_cast<bitvec::status>(bitvec_c_copy_u16_to_u64(
        static_cast<std::uint8_t>(order), target.data(), target.size(), target_start,
        static_cast<std::uint8_t>(source_order), source.data(), source.size(), source_start,
        count));
}
[[nodiscard]] inline bitvec::status copy_to(
    bitvec::order order, std::span<std::uint8_t> target, std::size_t target_start,
    bitvec::order source_order, std::span<const std::uint32_t> source, std::size_t source_start,
    std::size_t count) noexcept {
    return static_cast<bitvec::status>(bitvec_c_copy_u32_to_u8(
        static_cast<std::uint8_t>(order), target.data(), target.size(), target_start,
        static_cast<std::uint8_t>(source_order), source.data(), source.size(), source_start,
        count));
}
[[nodiscard]] inline bitvec::status copy_to(
    bitvec::order order, std::span<std::uint16_t> target, std::size_t target_start,
    bitvec::order source_order, std::span<const std::uint32_t> source, std::size_t source_start,
    std::size_t count) noexcept {
    return static_cast<bitvec::status>(bitvec_c_copy_u32_to_u16(
        static_cast<std::uint8_t>(order), target.data(), target.size(), target_start,
        static_cast<std::uint8_t>(source_order), source.data(), source.size(), source_start,
        count));
}
[[nodiscard]] inline bitvec::status copy_to(
    bitvec::order order, std::span<std::uint32_t> target, std::size_t target_start,
    bitvec::order source_order, std::span<const std::uint32_t> source, std::size_t source_start,
    std::size_t count) noexcept {
    return static_cast<bitvec::status>(bitvec_c_copy_u32_to_u32(
        static_cast<std::uint8_t>(order), target.data(), target.size(), target_start,
        static_cast<std::uint8_t>(source_order), source.data(), source.size(), source_start,
        count));
}
[[nodiscard]] inline bitvec::status copy_to(
    bitvec::order order, std::span<std::uint64_t> target, std::size_t target_start,
    bitvec::order source_order, std::span<const std::uint32_t> source, std::size_t source_start,
    std::size_t count) noexcept {
    return static_cast<bitvec::status>(bitvec_c_copy_u32_to_u64(
        static_cast<std::uint8_t>(order), target.data(), target.size(), target_start,
        static_cast<std::uint8_t>(source_order), source.data(), source.size(), source_start,
        count));
}
[[nodiscard]] inline bitvec::status copy_to(
    bitvec::order order, std::span<std::uint8_t> target, std::size_t target_start,
    bitvec::order source_order, std::span<const std::uint64_t> source, std::size_t source_start,
    std::size_t count) noexcept {
    return static_cast<bitvec::status>(bitvec_c_copy_u64_to_u8(
        static_cast<std::uint8_t>(order), target.data(), target.size(), target_start,
        static_cast<std::uint8_t>(source_order), source.data(), source.size(), source_start,
        count));
}
[[nodiscard]] inline bitvec::status copy_to(
    bitvec::order order, std::span<std::uint16_t> target, std::size_t target_start,
    bitvec::order source_order, std::span<const std::uint64_t> source, std::size_t source_start,
    std::size_t count) noexcept {
    return static_cast<bitvec::status>(bitvec_c_copy_u64_to_u16(
        static_cast<std::uint8_t>(order), target.data(), target.size(), target_start,
        static_cast<std::uint8_t>(source_order), source.data(), source.size(), source_start,
        count));
}
[[nodiscard]] inline bitvec::status copy_to(
    bitvec::order order, std::span<std::uint32_t> target, std::size_t target_start,
    bitvec::order source_order, std::span<const std::uint64_t> source, std::size_t source_start,
    std::size_t count) noexcept {
    return static_cast<bitvec::status>(bitvec_c_copy_u64_to_u32(
        static_cast<std::uint8_t>(order), target.data(), target.size(), target_start,
        static_cast<std::uint8_t>(source_order), source.data(), source.size(), source_start,
        count));
}
[[nodiscard]] inline bitvec::status copy_to(
    bitvec::order order, std::span<std::uint64_t> target, std::size_t target_start,
    bitvec::order source_order, std::span<const std::uint64_t> source, std::size_t source_start,
    std::size_t count) noexcept {
    return static_cast<bitvec::status>(bitvec_c_copy_u64_to_u64(
        static_cast<std::uint8_t>(order), target.data(), target.size(), target_start,
        static_cast<std::uint8_t>(source_order), source.data(), source.size(), source_start,
        count));
}

/* Moves each of the `count` bits from `start` on `by` places towards the first, so that the first
 * `by` are lost, and makes the last `by` zero. Refuses with status::no_order, status::too_long or
 * status::outside (also where `by` is past `count`). Costs by words. */
[[nodiscard]] inline bitvec::status shift_left(
    bitvec::order order, std::span<std::uint8_t> memory, std::size_t start, std::size_t count,
    std::size_t by) noexcept {
    return static_cast<bitvec::status>(bitvec_c_shift_left_u8(
        static_cast<std::uint8_t>(order), memory.data(), memory.size(), start, count, by));
}
[[nodiscard]] inline bitvec::status shift_left(
    bitvec::order order, std::span<std::uint16_t> memory, std::size_t start, std::size_t count,
    std::size_t by) noexcept {
    return static_cast<bitvec::status>(bitvec_c_shift_left_u16(
        static_cast<std::uint8_t>(order), memory.data(), memory.size(), start, count, by));
}
[[nodiscard]] inline bitvec::status shift_left(
    bitvec::order order, std::span<std::uint32_t> memory, std::size_t start, std::size_t count,
    std::size_t by) noexcept {
    return static_cast<bitvec::status>(bitvec_c_shift_left_u32(
        static_cast<std::uint8_t>(order), memory.data(), memory.size(), start, count, by));
}
[[nodiscard]] inline bitvec::status shift_left(
    bitvec::order order, std::span<std::uint64_t> memory, std::size_t start, std::size_t count,
    std::size_t by) noexcept {
    return static_cast<bitvec::status>(bitvec_c_shift_left_u64(
        static_cast<std::uint8_t>(order), memory.data(), memory.size(), start, count, by));
}

/* Moves each of the `count` bits from `start` on `by` places towards the last, so that the last
 * `by` are lost, and makes the first `by` zero. Refuses with status::no_order, status::too_long or
 * status::outside (also where `by` is past `count`). Costs by words. */
[[nodiscard]] inline bitvec::status shift_right(
    bitvec::order order, std::span<std::uint8_t> memory, std::size_t start, std::size_t count,
    std::size_t by) noexcept {
    return static_cast<bitvec::status>(bitvec_c_shift_right_u8(
        static_cast<std::uint8_t>(order), memory.data(), memory.size(), start, count, by));
}
[[nodiscard]] inline bitvec::status shift_right(
    bitvec::order order, std::span<std::uint16_t> memory, std::size_t start, std::size_t count,
    std::size_t by) noexcept {
    return static_cast<bitvec::status>(bitvec_c_shift_right_u16(
        static_cast<std::uint8_t>(order), memory.data(), memory.size(), start, count, by));
}
[[nodiscard]] inline bitvec::status shift_right(
    bitvec::order order, std::span<std::uint32_t> memory, std::size_t start, std::size_t count,
    std::size_t by) noexcept {
    return static_cast<bitvec::status>(bitvec_c_shift_right_u32(
        static_cast<std::uint8_t>(order), memory.data(), memory.size(), start, count, by));
}
[[nodiscard]] inline bitvec::status shift_right(
    bitvec::order order, std::span<std::uint64_t> memory, std::size_t start, std::size_t count,
    std::size_t by) noexcept {
    return static_cast<bitvec::status>(bitvec_c_shift_right_u64(
        static_cast<std::uint8_t>(order), memory.data(), memory.size(), start, count, by));
}

/* Puts the first `by` of the `count` bits from `start` on behind the others. Refuses with
 * status::no_order, status::too_long or status::outside (also where `by` is past `count`). Costs by
 * words. */
[[nodiscard]] inline bitvec::status rotate_left(
    bitvec::order order, std::span<std::uint8_t> memory, std::size_t start, std::size_t count,
    std::size_t by) noexcept {
    return static_cast<bitvec::status>(bitvec_c_rotate_left_u8(
        static_cast<std::uint8_t>(order), memory.data(), memory.size(), start, count, by));
}
[[nodiscard]] inline bitvec::status rotate_left(
    bitvec::order order, std::span<std::uint16_t> memory, std::size_t start, std::size_t count,
    std::size_t by) noexcept {
    return static_cast<bitvec::status>(bitvec_c_rotate_left_u16(
        static_cast<std::uint8_t>(order), memory.data(), memory.size(), start, count, by));
}
[[nodiscard]] inline bitvec::status rotate_left(
    bitvec::order order, std::span<std::uint32_t> memory, std::size_t start, std::size_t count,
    std::size_t by) noexcept {
    return static_cast<bitvec::status>(bitvec_c_rotate_left_u32(
        static_cast<std::uint8_t>(order), memory.data(), memory.size(), start, count, by));
}
[[nodiscard]] inline bitvec::status rotate_left(
    bitvec::order order, std::span<std::uint64_t> memory, std::size_t start, std::size_t count,
    std::size_t by) noexcept {
    return static_cast<bitvec::status>(bitvec_c_rotate_left_u64(
        static_cast<std::uint8_t>(order), memory.data(), memory.size(), start, count, by));
}

/* ---------------------------------------- Two ranges ---------------------------------------- */

/* Both ranges have `count` bits, and both are tested. Each memory has an order of its own, `order`
 * that of the target, or of the first, but for `equal` and the calls of one array (`within`) and of
 * three (`of`), which have one order. A target shares no word with another array; what is only read
 * may share words. */

/* Leaves one those bits of the target whose bit in the source is one: an intersection. Refuses with
 * status::no_order, status::too_long or status::outside. Costs by words where the orders are the
 * same, else by bits. */
[[nodiscard]] inline bitvec::status and_with(
    bitvec::order order, std::span<std::uint8_t> target, std::size_t target_start,
    bitvec::order source_order, std::span<const std::uint8_t> source, std::size_t source_start,
    std::size_t count) noexcept {
    return static_cast<bitvec::status>(bitvec_c_and_u8(
        static_cast<std::uint8_t>(order), target.data(), target.size(), target_start,
        static_cast<std::uint8_t>(source_order), source.data(), source.size(), source_start,
        count));
}
[[nodiscard]] inline bitvec::status and_with(
    bitvec::order order, std::span<std::uint16_t> target, std::size_t target_start,
    bitvec::order source_order, std::span<const std::uint16_t> source, std::size_t source_start,
    std::size_t count) noexcept {
    return static_cast<bitvec::status>(bitvec_c_and_u16(
        static_cast<std::uint8_t>(order), target.data(), target.size(), target_start,
        static_cast<std::uint8_t>(source_order), source.data(), source.size(), source_start,
        count));
}
[[nodiscard]] inline bitvec::status and_with(
    bitvec::order order, std::span<std::uint32_t> target, std::size_t target_start,
    bitvec::order source_order, std::span<const std::uint32_t> source, std::size_t source_start,
    std::size_t count) noexcept {
    return static_cast<bitvec::status>(bitvec_c_and_u32(
        static_cast<std::uint8_t>(order), target.data(), target.size(), target_start,
        static_cast<std::uint8_t>(source_order), source.data(), source.size(), source_start,
        count));
}
[[nodiscard]] inline bitvec::status and_with(
    bitvec::order order, std::span<std::uint64_t> target, std::size_t target_start,
    bitvec::order source_order, std::span<const std::uint64_t> source, std::size_t source_start,
    std::size_t count) noexcept {
    return static_cast<bitvec::status>(bitvec_c_and_u64(
        static_cast<std::uint8_t>(order), target.data(), target.size(), target_start,
        static_cast<std::uint8_t>(source_order), source.data(), source.size(), source_start,
        count));
}

/* Makes one those bits of the target whose bit in the source is one: a union. Refuses with
 * status::no_order, status::too_long or status::outside. Costs by words where the orders are the
 * same, else by bits. */
[[nodiscard]] inline bitvec::status or_with(
    bitvec::order order, std::span<std::uint8_t> target, std::size_t target_start,
    bitvec::order source_order, std::span<const std::uint8_t> source, std::size_t source_start,
    std::size_t count) noexcept {
    return static_cast<bitvec::status>(bitvec_c_or_u8(
        static_cast<std::uint8_t>(order), target.data(), target.size(), target_start,
        static_cast<std::uint8_t>(source_order), source.data(), source.size(), source_start,
        count));
}
[[nodiscard]] inline bitvec::status or_with(
    bitvec::order order, std::span<std::uint16_t> target, std::size_t target_start,
    bitvec::order source_order, std::span<const std::uint16_t> source, std::size_t source_start,
    std::size_t count) noexcept {
    return static_cast<bitvec::status>(bitvec_c_or_u16(
        static_cast<std::uint8_t>(order), target.data(), target.size(), target_start,
        static_cast<std::uint8_t>(source_order), source.data(), source.size(), source_start,
        count));
}
[[nodiscard]] inline bitvec::status or_with(
    bitvec::order order, std::span<std::uint32_t> target, std::size_t target_start,
    bitvec::order source_order, std::span<const std::uint32_t> source, std::size_t source_start,
    std::size_t count) noexcept {
    return static_cast<bitvec::status>(bitvec_c_or_u32(
        static_cast<std::uint8_t>(order), target.data(), target.size(), target_start,
        static_cast<std::uint8_t>(source_order), source.data(), source.size(), source_start,
        count));
}
[[nodiscard]] inline bitvec::status or_with(
    bitvec::order order, std::span<std::uint64_t> target, std::size_t target_start,
    bitvec::order source_order, std::span<const std::uint64_t> source, std::size_t source_start,
    std::size_t count) noexcept {
    return static_cast<bitvec::status>(bitvec_c_or_u64(
        static_cast<std::uint8_t>(order), target.data(), target.size(), target_start,
        static_cast<std::uint8_t>(source_order), source.data(), source.size(), source_start,
        count));
}

/* Turns over those bits of the target whose bit in the source is one: a symmetric difference.
 * Refuses with status::no_order, status::too_long or status::outside. Costs by words where the
 * orders are the same, else by bits. */
[[nodiscard]] inline bitvec::status xor_with(
    bitvec::order order, std::span<std::uint8_t> target, std::size_t target_start,
    bitvec::order source_order, std::span<const std::uint8_t> source, std::size_t source_start,
    std::size_t count) noexcept {
    return static_cast<bitvec::status>(bitvec_c_xor_u8(
        static_cast<std::uint8_t>(order), target.data(), target.size(), target_start,
        static_cast<std::uint8_t>(source_order), source.data(), source.size(), source_start,
        count));
}
[[nodiscard]] inline bitvec::status xor_with(
    bitvec::order order, std::span<std::uint16_t> target, std::size_t target_start,
    bitvec::order source_order, std::span<const std::uint16_t> source, std::size_t source_start,
    std::size_t count) noexcept {
    return static_cast<bitvec::status>(bitvec_c_xor_u16(
        static_cast<std::uint8_t>(order), target.data(), target.size(), target_start,
        static_cast<std::uint8_t>(source_order), source.data(), source.size(), source_start,
        count));
}
[[nodiscard]] inline bitvec::status xor_with(
    bitvec::order order, std::span<std::uint32_t> target, std::size_t target_start,
    bitvec::order source_order, std::span<const std::uint32_t> source, std::size_t source_start,
    std::size_t count) noexcept {
    return static_cast<bitvec::status>(bitvec_c_xor_u32(
        static_cast<std::uint8_t>(order), target.data(), target.size(), target_start,
        static_cast<std::uint8_t>(source_order), source.data(), source.size(), source_start,
        count));
}
[[nodiscard]] inline bitvec::status xor_with(
    bitvec::order order, std::span<std::uint64_t> target, std::size_t target_start,
    bitvec::order source_order, std::span<const std::uint64_t> source, std::size_t source_start,
    std::size_t count) noexcept {
    return static_cast<bitvec::status>(bitvec_c_xor_u64(
        static_cast<std::uint8_t>(order), target.data(), target.size(), target_start,
        static_cast<std::uint8_t>(source_order), source.data(), source.size(), source_start,
        count));
}

/* Makes zero those bits of the target whose bit in the source is one: a difference. Refuses with
 * status::no_order, status::too_long or status::outside. Costs by words where the orders are the
 * same, else by bits. */
[[nodiscard]] inline bitvec::status and_not(
    bitvec::order order, std::span<std::uint8_t> target, std::size_t target_start,
    bitvec::order source_order, std::span<const std::uint8_t> source, std::size_t source_start,
    std::size_t count) noexcept {
    return static_cast<bitvec::status>(bitvec_c_and_not_u8(
        static_cast<std::uint8_t>(order), target.data(), target.size(), target_start,
        static_cast<std::uint8_t>(source_order), source.data(), source.size(), source_start,
        count));
}
[[nodiscard]] inline bitvec::status and_not(
    bitvec::order order, std::span<std::uint16_t> target, std::size_t target_start,
    bitvec::order source_order, std::span<const std::uint16_t> source, std::size_t source_start,
    std::size_t count) noexcept {
    return static_cast<bitvec::status>(bitvec_c_and_not_u16(
        static_cast<std::uint8_t>(order), target.data(), target.size(), target_start,
        static_cast<std::uint8_t>(source_order), source.data(), source.size(), source_start,
        count));
}
[[nodiscard]] inline bitvec::status and_not(
    bitvec::order order, std::span<std::uint32_t> target, std::size_t target_start,
    bitvec::order source_order, std::span<const std::uint32_t> source, std::size_t source_start,
    std::size_t count) noexcept {
    return static_cast<bitvec::status>(bitvec_c_and_not_u32(
        static_cast<std::uint8_t>(order), target.data(), target.size(), target_start,
        static_cast<std::uint8_t>(source_order), source.data(), source.size(), source_start,
        count));
}
[[nodiscard]] inline bitvec::status and_not(
    bitvec::order order, std::span<std::uint64_t> target, std::size_t target_start,
    bitvec::order source_order, std::span<const std::uint64_t> source, std::size_t source_start,
    std::size_t count) noexcept {
    return static_cast<bitvec::status>(bitvec_c_and_not_u64(
        static_cast<std::uint8_t>(order), target.data(), target.size(), target_start,
        static_cast<std::uint8_t>(source_order), source.data(), source.size(), source_start,
        count));
}

/* Leaves one those bits of a range whose bit in another range of the same array is one. The two
 * ranges may overlap: each bit is combined with what was there before. Refuses with
 * status::no_order, status::too_long or status::outside. Costs by words. */
[[nodiscard]] inline bitvec::status and_within(
    bitvec::order order, std::span<std::uint8_t> memory, std::size_t target_start,
    std::size_t source_start, std::size_t count) noexcept {
    return static_cast<bitvec::status>(bitvec_c_and_within_u8(
        static_cast<std::uint8_t>(order), memory.data(), memory.size(), target_start, source_start,
        count));
}
[[nodiscard]] inline bitvec::status and_within(
    bitvec::order order, std::span<std::uint16_t> memory, std::size_t target_start,
    std::size_t source_start, std::size_t count) noexcept {
    return static_cast<bitvec::status>(bitvec_c_and_within_u16(
        static_cast<std::uint8_t>(order), memory.data(), memory.size(), target_start, source_start,
        count));
}
[[nodiscard]] inline bitvec::status and_within(
    bitvec::order order, std::span<std::uint32_t> memory, std::size_t target_start,
    std::size_t source_start, std::size_t count) noexcept {
    return static_cast<bitvec::status>(bitvec_c_and_within_u32(
        static_cast<std::uint8_t>(order), memory.data(), memory.size(), target_start, source_start,
        count));
}
[[nodiscard]] inline bitvec::status and_within(
    bitvec::order order, std::span<std::uint64_t> memory, std::size_t target_start,
    std::size_t source_start, std::size_t count) noexcept {
    return static_cast<bitvec::status>(bitvec_c_and_within_u64(
        static_cast<std::uint8_t>(order), memory.data(), memory.size(), target_start, source_start,
        count));
}

/* Makes one those bits of a range whose bit in another range of the same array is one. The two
 * ranges may overlap, as in `and_within`. Refuses with status::no_order, status::too_long or
 * status::outside. Costs by words. */
[[nodiscard]] inline bitvec::status or_within(
    bitvec::order order, std::span<std::uint8_t> memory, std::size_t target_start,
    std::size_t source_start, std::size_t count) noexcept {
    return static_cast<bitvec::status>(bitvec_c_or_within_u8(
        static_cast<std::uint8_t>(order), memory.data(), memory.size(), target_start, source_start,
        count));
}
[[nodiscard]] inline bitvec::status or_within(
    bitvec::order order, std::span<std::uint16_t> memory, std::size_t target_start,
    std::size_t source_start, std::size_t count) noexcept {
    return static_cast<bitvec::status>(bitvec_c_or_within_u16(
        static_cast<std::uint8_t>(order), memory.data(), memory.size(), target_start, source_start,
        count));
}
[[nodiscard]] inline bitvec::status or_within(
    bitvec::order order, std::span<std::uint32_t> memory, std::size_t target_start,
    std::size_t source_start, std::size_t count) noexcept {
    return static_cast<bitvec::status>(bitvec_c_or_within_u32(
        static_cast<std::uint8_t>(order), memory.data(), memory.size(), target_start, source_start,
        count));
}
[[nodiscard]] inline bitvec::status or_within(
    bitvec::order order, std::span<std::uint64_t> memory, std::size_t target_start,
    std::size_t source_start, std::size_t count) noexcept {
    return static_cast<bitvec::status>(bitvec_c_or_within_u64(
        static_cast<std::uint8_t>(order), memory.data(), memory.size(), target_start, source_start,
        count));
}

/* Turns over those bits of a range whose bit in another range of the same array is one. The two
 * ranges may overlap, as in `and_within`. Refuses with status::no_order, status::too_long or
 * status::outside. Costs by words. */
[[nodiscard]] inline bitvec::status xor_within(
    bitvec::order order, std::span<std::uint8_t> memory, std::size_t target_start,
    std::size_t source_start, std::size_t count) noexcept {
    return static_cast<bitvec::status>(bitvec_c_xor_within_u8(
        static_cast<std::uint8_t>(order), memory.data(), memory.size(), target_start, source_start,
        count));
}
[[nodiscard]] inline bitvec::status xor_within(
    bitvec::order order, std::span<std::uint16_t> memory, std::size_t target_start,
    std::size_t source_start, std::size_t count) noexcept {
    return static_cast<bitvec::status>(bitvec_c_xor_within_u16(
        static_cast<std::uint8_t>(order), memory.data(), memory.size(), target_start, source_start,
        count));
}
[[nodiscard]] inline bitvec::status xor_within(
    bitvec::order order, std::span<std::uint32_t> memory, std::size_t target_start,
    std::size_t source_start, std::size_t count) noexcept {
    return static_cast<bitvec::status>(bitvec_c_xor_within_u32(
        static_cast<std::uint8_t>(order), memory.data(), memory.size(), target_start, source_start,
        count));
}
[[nodiscard]] inline bitvec::status xor_within(
    bitvec::order order, std::span<std::uint64_t> memory, std::size_t target_start,
    std::size_t source_start, std::size_t count) noexcept {
    return static_cast<bitvec::status>(bitvec_c_xor_within_u64(
        static_cast<std::uint8_t>(order), memory.data(), memory.size(), target_start, source_start,
        count));
}

/* Makes zero those bits of a range whose bit in another range of the same array is one. The two
 * ranges may overlap, as in `and_within`. Refuses with status::no_order, status::too_long or
 * status::outside. Costs by words. */
[[nodiscard]] inline bitvec::status and_not_within(
    bitvec::order order, std::span<std::uint8_t> memory, std::size_t target_start,
    std::size_t source_start, std::size_t count) noexcept {
    return static_cast<bitvec::status>(bitvec_c_and_not_within_u8(
        static_cast<std::uint8_t>(order), memory.data(), memory.size(), target_start, source_start,
        count));
}
[[nodiscard]] inline bitvec::status and_not_within(
    bitvec::order order, std::span<std::uint16_t> memory, std::size_t target_start,
    std::size_t source_start, std::size_t count) noexcept {
    return static_cast<bitvec::status>(bitvec_c_and_not_within_u16(
        static_cast<std::uint8_t>(order), memory.data(), memory.size(), target_start, source_start,
        count));
}
[[nodiscard]] inline bitvec::status and_not_within(
    bitvec::order order, std::span<std::uint32_t> memory, std::size_t target_start,
    std::size_t source_start, std::size_t count) noexcept {
    return static_cast<bitvec::status>(bitvec_c_and_not_within_u32(
        static_cast<std::uint8_t>(order), memory.data(), memory.size(), target_start, source_start,
        count));
}
[[nodiscard]] inline bitvec::status and_not_within(
    bitvec::order order, std::span<std::uint64_t> memory, std::size_t target_start,
    std::size_t source_start, std::size_t count) noexcept {
    return static_cast<bitvec::status>(bitvec_c_and_not_within_u64(
        static_cast<std::uint8_t>(order), memory.data(), memory.size(), target_start, source_start,
        count));
}

/* Makes one those bits of the target whose bits in both other ranges are one, and its other bits
 * zero: an intersection. Refuses with status::no_order, status::too_long or status::outside. Costs
 * by words. */
[[nodiscard]] inline bitvec::status and_of(
    bitvec::order order, std::span<std::uint8_t> target, std::size_t target_start,
    std::span<const std::uint8_t> first, std::size_t first_start,
    std::span<const std::uint8_t> second, std::size_t second_start, std::size_t count) noexcept {
    return static_cast<bitvec::status>(bitvec_c_and_of_u8(
        static_cast<std::uint8_t>(order), target.data(), target.size(), target_start,
        first.data(), first.size(), first_start, second.data(), second.size(), second_start,
        count));
}
[[nodiscard]] inline bitvec::status and_of(
    bitvec::order order, std::span<std::uint16_t> target, std::size_t target_start,
    std::span<const std::uint16_t> first, std::size_t first_start,
    std::span<const std::uint16_t> second, std::size_t second_start, std::size_t count) noexcept {
    return static_cast<bitvec::status>(bitvec_c_and_of_u16(
        static_cast<std::uint8_t>(order), target.data(), target.size(), target_start,
        first.data(), first.size(), first_start, second.data(), second.size(), second_start,
        count));
}
[[nodiscard]] inline bitvec::status and_of(
    bitvec::order order, std::span<std::uint32_t> target, std::size_t target_start,
    std::span<const std::uint32_t> first, std::size_t first_start,
    std::span<const std::uint32_t> second, std::size_t second_start, std::size_t count) noexcept {
    return static_cast<bitvec::status>(bitvec_c_and_of_u32(
        static_cast<std::uint8_t>(order), target.data(), target.size(), target_start,
        first.data(), first.size(), first_start, second.data(), second.size(), second_start,
        count));
}
[[nodiscard]] inline bitvec::status and_of(
    bitvec::order order, std::span<std::uint64_t> target, std::size_t target_start,
    std::span<const std::uint64_t> first, std::size_t first_start,
    std::span<const std::uint64_t> second, std::size_t second_start, std::size_t count) noexcept {
    return static_cast<bitvec::status>(bitvec_c_and_of_u64(
        static_cast<std::uint8_t>(order), target.data(), target.size(), target_start,
        first.data(), first.size(), first_start, second.data(), second.size(), second_start,
        count));
}

/* Makes one those bits of the target whose bit in at least one of two other ranges is one, and its
 * other bits zero: a union. Refuses with status::no_order, status::too_long or status::outside.
 * Costs by words. */
[[nodiscard]] inline bitvec::status or_of(
    bitvec::order order, std::span<std::uint8_t> target, std::size_t target_start,
    std::span<const std::uint8_t> first, std::size_t first_start,
    std::span<const std::uint8_t> second, std::size_t second_start, std::size_t count) noexcept {
    return static_cast<bitvec::status>(bitvec_c_or_of_u8(
        static_cast<std::uint8_t>(order), target.data(), target.size(), target_start,
        first.data(), first.size(), first_start, second.data(), second.size(), second_start,
        count));
}
[[nodiscard]] inline bitvec::status or_of(
    bitvec::order order, std::span<std::uint16_t> target, std::size_t target_start,
    std::span<const std::uint16_t> first, std::size_t first_start,
    std::span<const std::uint16_t> second, std::size_t second_start, std::size_t count) noexcept {
    return static_cast<bitvec::status>(bitvec_c_or_of_u16(
        static_cast<std::uint8_t>(order), target.data(), target.size(), target_start,
        first.data(), first.size(), first_start, second.data(), second.size(), second_start,
        count));
}
[[nodiscard]] inline bitvec::status or_of(
    bitvec::order order, std::span<std::uint32_t> target, std::size_t target_start,
    std::span<const std::uint32_t> first, std::size_t first_start,
    std::span<const std::uint32_t> second, std::size_t second_start, std::size_t count) noexcept {
    return static_cast<bitvec::status>(bitvec_c_or_of_u32(
        static_cast<std::uint8_t>(order), target.data(), target.size(), target_start,
        first.data(), first.size(), first_start, second.data(), second.size(), second_start,
        count));
}
[[nodiscard]] inline bitvec::status or_of(
    bitvec::order order, std::span<std::uint64_t> target, std::size_t target_start,
    std::span<const std::uint64_t> first, std::size_t first_start,
    std::span<const std::uint64_t> second, std::size_t second_start, std::size_t count) noexcept {
    return static_cast<bitvec::status>(bitvec_c_or_of_u64(
        static_cast<std::uint8_t>(order), target.data(), target.size(), target_start,
        first.data(), first.size(), first_start, second.data(), second.size(), second_start,
        count));
}

/* Makes one those bits of the target whose bits in two other ranges differ, and its other bits
 * zero: a symmetric difference. Refuses with status::no_order, status::too_long or status::outside.
 * Costs by words. */
[[nodiscard]] inline bitvec::status xor_of(
    bitvec::order order, std::span<std::uint8_t> target, std::size_t target_start,
    std::span<const std::uint8_t> first, std::size_t first_start,
    std::span<const std::uint8_t> second, std::size_t second_start, std::size_t count) noexcept {
    return static_cast<bitvec::status>(bitvec_c_xor_of_u8(
        static_cast<std::uint8_t>(order), target.data(), target.size(), target_start,
        first.data(), first.size(), first_start, second.data(), second.size(), second_start,
        count));
}
[[nodiscard]] inline bitvec::status xor_of(
    bitvec::order order, std::span<std::uint16_t> target, std::size_t target_start,
    std::span<const std::uint16_t> first, std::size_t first_start,
    std::span<const std::uint16_t> second, std::size_t second_start, std::size_t count) noexcept {
    return static_cast<bitvec::status>(bitvec_c_xor_of_u16(
        static_cast<std::uint8_t>(order), target.data(), target.size(), target_start,
        first.data(), first.size(), first_start, second.data(), second.size(), second_start,
        count));
}
[[nodiscard]] inline bitvec::status xor_of(
    bitvec::order order, std::span<std::uint32_t> target, std::size_t target_start,
    std::span<const std::uint32_t> first, std::size_t first_start,
    std::span<const std::uint32_t> second, std::size_t second_start, std::size_t count) noexcept {
    return static_cast<bitvec::status>(bitvec_c_xor_of_u32(
        static_cast<std::uint8_t>(order), target.data(), target.size(), target_start,
        first.data(), first.size(), first_start, second.data(), second.size(), second_start,
        count));
}
[[nodiscard]] inline bitvec::status xor_of(
    bitvec::order order, std::span<std::uint64_t> target, std::size_t target_start,
    std::span<const std::uint64_t> first, std::size_t first_start,
    std::span<const std::uint64_t> second, std::size_t second_start, std::size_t count) noexcept {
    return static_cast<bitvec::status>(bitvec_c_xor_of_u64(
        static_cast<std::uint8_t>(order), target.data(), target.size(), target_start,
        first.data(), first.size(), first_start, second.data(), second.size(), second_start,
        count));
}

/* Makes one those bits of the target whose bit in the first of two other ranges is one and in the
 * second zero, and its other bits zero: a difference. Refuses with status::no_order,
 * status::too_long or status::outside. Costs by words. */
[[nodiscard]] inline bitvec::status and_not_of(
    bitvec::order order, std::span<std::uint8_t> target, std::size_t target_start,
    std::span<const std::uint8_t> first, std::size_t first_start,
    std::span<const std::uint8_t> second, std::size_t second_start, std::size_t count) noexcept {
    return static_cast<bitvec::status>(bitvec_c_and_not_of_u8(
        static_cast<std::uint8_t>(order), target.data(), target.size(), target_start,
        first.data(), first.size(), first_start, second.data(), second.size(), second_start,
        count));
}
[[nodiscard]] inline bitvec::status and_not_of(
    bitvec::order order, std::span<std::uint16_t> target, std::size_t target_start,
    std::span<const std::uint16_t> first, std::size_t first_start,
    std::span<const std::uint16_t> second, std::size_t second_start, std::size_t count) noexcept {
    return static_cast<bitvec::status>(bitvec_c_and_not_of_u16(
        static_cast<std::uint8_t>(order), target.data(), target.size(), target_start,
        first.data(), first.size(), first_start, second.data(), second.size(), second_start,
        count));
}
[[nodiscard]] inline bitvec::status and_not_of(
    bitvec::order order, std::span<std::uint32_t> target, std::size_t target_start,
    std::span<const std::uint32_t> first, std::size_t first_start,
    std::span<const std::uint32_t> second, std::size_t second_start, std::size_t count) noexcept {
    return static_cast<bitvec::status>(bitvec_c_and_not_of_u32(
        static_cast<std::uint8_t>(order), target.data(), target.size(), target_start,
        first.data(), first.size(), first_start, second.data(), second.size(), second_start,
        count));
}
[[nodiscard]] inline bitvec::status and_not_of(
    bitvec::order order, std::span<std::uint64_t> target, std::size_t target_start,
    std::span<const std::uint64_t> first, std::size_t first_start,
    std::span<const std::uint64_t> second, std::size_t second_start, std::size_t count) noexcept {
    return static_cast<bitvec::status>(bitvec_c_and_not_of_u64(
        static_cast<std::uint8_t>(order), target.data(), target.size(), target_start,
        first.data(), first.size(), first_start, second.data(), second.size(), second_start,
        count));
}

/* Writes to `same` whether two ranges have the same bits, in order. Refuses with status::no_order,
 * status::too_long or status::outside. Costs by words, up to the first difference. */
[[nodiscard]] inline bitvec::status equal(
    bitvec::order order, std::span<const std::uint8_t> memory, std::size_t start,
    std::span<const std::uint8_t> other, std::size_t other_start, std::size_t count,
    bool &same) noexcept {
    return static_cast<bitvec::status>(bitvec_c_equal_u8(
        static_cast<std::uint8_t>(order), memory.data(), memory.size(), start,
        other.data(), other.size(), other_start, count, &same));
}
[[nodiscard]] inline bitvec::status equal(
    bitvec::order order, std::span<const std::uint16_t> memory, std::size_t start,
    std::span<const std::uint16_t> other, std::size_t other_start, std::size_t count,
    bool &same) noexcept {
    return static_cast<bitvec::status>(bitvec_c_equal_u16(
        static_cast<std::uint8_t>(order), memory.data(), memory.size(), start,
        other.data(), other.size(), other_start, count, &same));
}
[[nodiscard]] inline bitvec::status equal(
    bitvec::order order, std::span<const std::uint32_t> memory, std::size_t start,
    std::span<const std::uint32_t> other, std::size_t other_start, std::size_t count,
    bool &same) noexcept {
    return static_cast<bitvec::status>(bitvec_c_equal_u32(
        static_cast<std::uint8_t>(order), memory.data(), memory.size(), start,
        other.data(), other.size(), other_start, count, &same));
}
[[nodiscard]] inline bitvec::status equal(
    bitvec::order order, std::span<const std::uint64_t> memory, std::size_t start,
    std::span<const std::uint64_t> other, std::size_t other_start, std::size_t count,
    bool &same) noexcept {
    return static_cast<bitvec::status>(bitvec_c_equal_u64(
        static_cast<std::uint8_t>(order), memory.data(), memory.size(), start,
        other.data(), other.size(), other_start, count, &same));
}

/* Writes to `ones` how many bits of a range are one whose bit in the other range is one too.
 * Refuses with status::no_order, status::too_long or status::outside. Costs by words where the
 * orders are the same, else by bits. */
[[nodiscard]] inline bitvec::status count_and(
    bitvec::order order, std::span<const std::uint8_t> memory, std::size_t start,
    bitvec::order other_order, std::span<const std::uint8_t> other, std::size_t other_start,
    std::size_t count, std::size_t &ones) noexcept {
    return static_cast<bitvec::status>(bitvec_c_count_and_u8(
        static_cast<std::uint8_t>(order), memory.data(), memory.size(), start,
        static_cast<std::uint8_t>(other_order), other.data(), other.size(), other_start, count,
        &ones));
}
[[nodiscard]] inline bitvec::status count_and(
    bitvec::order order, std::span<const std::uint16_t> memory, std::size_t start,
    bitvec::order other_order, std::span<const std::uint16_t> other, std::size_t other_start,
    std::size_t count, std::size_t &ones) noexcept {
    return static_cast<bitvec::status>(bitvec_c_count_and_u16(
        static_cast<std::uint8_t>(order), memory.data(), memory.size(), start,
        static_cast<std::uint8_t>(other_order), other.data(), other.size(), other_start, count,
        &ones));
}
[[nodiscard]] inline bitvec::status count_and(
    bitvec::order order, std::span<const std::uint32_t> memory, std::size_t start,
    bitvec::order other_order, std::span<const std::uint32_t> other, std::size_t other_start,
    std::size_t count, std::size_t &ones) noexcept {
    return static_cast<bitvec::status>(bitvec_c_count_and_u32(
        static_cast<std::uint8_t>(order), memory.data(), memory.size(), start,
        static_cast<std::uint8_t>(other_order), other.data(), other.size(), other_start, count,
        &ones));
}
[[nodiscard]] inline bitvec::status count_and(
    bitvec::order order, std::span<const std::uint64_t> memory, std::size_t start,
    bitvec::order other_order, std::span<const std::uint64_t> other, std::size_t other_start,
    std::size_t count, std::size_t &ones) noexcept {
    return static_cast<bitvec::status>(bitvec_c_count_and_u64(
        static_cast<std::uint8_t>(order), memory.data(), memory.size(), start,
        static_cast<std::uint8_t>(other_order), other.data(), other.size(), other_start, count,
        &ones));
}

/* Writes to `index` the index of the first bit of a range that is one and whose bit in the other
 * range is one too, or `count` where there is none. Refuses with status::no_order, status::too_long
 * or status::outside. Costs by words where the orders are the same, else by bits, up to that
 * bit. */
[[nodiscard]] inline bitvec::status first_and(
    bitvec::order order, std::span<const std::uint8_t> memory, std::size_t start,
    bitvec::order other_order, std::span<const std::uint8_t> other, std::size_t other_start,
    std::size_t count, std::size_t &index) noexcept {
    return static_cast<bitvec::status>(bitvec_c_first_and_u8(
        static_cast<std::uint8_t>(order), memory.data(), memory.size(), start,
        static_cast<std::uint8_t>(other_order), other.data(), other.size(), other_start, count,
        &index));
}
[[nodiscard]] inline bitvec::status first_and(
    bitvec::order order, std::span<const std::uint16_t> memory, std::size_t start,
    bitvec::order other_order, std::span<const std::uint16_t> other, std::size_t other_start,
    std::size_t count, std::size_t &index) noexcept {
    return static_cast<bitvec::status>(bitvec_c_first_and_u16(
        static_cast<std::uint8_t>(order), memory.data(), memory.size(), start,
        static_cast<std::uint8_t>(other_order), other.data(), other.size(), other_start, count,
        &index));
}
[[nodiscard]] inline bitvec::status first_and(
    bitvec::order order, std::span<const std::uint32_t> memory, std::size_t start,
    bitvec::order other_order, std::span<const std::uint32_t> other, std::size_t other_start,
    std::size_t count, std::size_t &index) noexcept {
    return static_cast<bitvec::status>(bitvec_c_first_and_u32(
        static_cast<std::uint8_t>(order), memory.data(), memory.size(), start,
        static_cast<std::uint8_t>(other_order), other.data(), other.size(), other_start, count,
        &index));
}
[[nodiscard]] inline bitvec::status first_and(
    bitvec::order order, std::span<const std::uint64_t> memory, std::size_t start,
    bitvec::order other_order, std::span<const std::uint64_t> other, std::size_t other_start,
    std::size_t count, std::size_t &index) noexcept {
    return static_cast<bitvec::status>(bitvec_c_first_and_u64(
        static_cast<std::uint8_t>(order), memory.data(), memory.size(), start,
        static_cast<std::uint8_t>(other_order), other.data(), other.size(), other_start, count,
        &index));
}

/* Writes to `common` whether a bit of a range is one whose bit in the other range is one too.
 * Refuses with status::no_order, status::too_long or status::outside. Costs by words where the
 * orders are the same, else by bits, up to the first such bit. */
[[nodiscard]] inline bitvec::status intersects(
    bitvec::order order, std::span<const std::uint8_t> memory, std::size_t start,
    bitvec::order other_order, std::span<const std::uint8_t> other, std::size_t other_start,
    std::size_t count, bool &common) noexcept {
    return static_cast<bitvec::status>(bitvec_c_intersects_u8(
        static_cast<std::uint8_t>(order), memory.data(), memory.size(), start,
        static_cast<std::uint8_t>(other_order), other.data(), other.size(), other_start, count,
        &common));
}
[[nodiscard]] inline bitvec::status intersects(
    bitvec::order order, std::span<const std::uint16_t> memory, std::size_t start,
    bitvec::order other_order, std::span<const std::uint16_t> other, std::size_t other_start,
    std::size_t count, bool &common) noexcept {
    return static_cast<bitvec::status>(bitvec_c_intersects_u16(
        static_cast<std::uint8_t>(order), memory.data(), memory.size(), start,
        static_cast<std::uint8_t>(other_order), other.data(), other.size(), other_start, count,
        &common));
}
[[nodiscard]] inline bitvec::status intersects(
    bitvec::order order, std::span<const std::uint32_t> memory, std::size_t start,
    bitvec::order other_order, std::span<const std::uint32_t> other, std::size_t other_start,
    std::size_t count, bool &common) noexcept {
    return static_cast<bitvec::status>(bitvec_c_intersects_u32(
        static_cast<std::uint8_t>(order), memory.data(), memory.size(), start,
        static_cast<std::uint8_t>(other_order), other.data(), other.size(), other_start, count,
        &common));
}
[[nodiscard]] inline bitvec::status intersects(
    bitvec::order order, std::span<const std::uint64_t> memory, std::size_t start,
    bitvec::order other_order, std::span<const std::uint64_t> other, std::size_t other_start,
    std::size_t count, bool &common) noexcept {
    return static_cast<bitvec::status>(bitvec_c_intersects_u64(
        static_cast<std::uint8_t>(order), memory.data(), memory.size(), start,
        static_cast<std::uint8_t>(other_order), other.data(), other.size(), other_start, count,
        &common));
}

/* Writes to `index` the index of the first bit of a range that is one and whose bit in the other
 * range is zero, or `count` where there is none. Refuses with status::no_order, status::too_long or
 * status::outside. Costs by words where the orders are the same, else by bits, up to that bit. */
[[nodiscard]] inline bitvec::status first_and_not(
    bitvec::order order, std::span<const std::uint8_t> memory, std::size_t start,
    bitvec::order other_order, std::span<const std::uint8_t> other, std::size_t other_start,
    std::size_t count, std::size_t &index) noexcept {
    return static_cast<bitvec::status>(bitvec_c_first_and_not_u8(
        static_cast<std::uint8_t>(order), memory.data(), memory.size(), start,
        static_cast<std::uint8_t>(other_order), other.data(), other.size(), other_start, count,
        &index));
}
[[nodiscard]] inline bitvec::status first_and_not(
    bitvec::order order, std::span<const std::uint16_t> memory, std::size_t start,
    bitvec::order other_order, std::span<const std::uint16_t> other, std::size_t other_start,
    std::size_t count, std::size_t &index) noexcept {
    return static_cast<bitvec::status>(bitvec_c_first_and_not_u16(
        static_cast<std::uint8_t>(order), memory.data(), memory.size(), start,
        static_cast<std::uint8_t>(other_order), other.data(), other.size(), other_start, count,
        &index));
}
[[nodiscard]] inline bitvec::status first_and_not(
    bitvec::order order, std::span<const std::uint32_t> memory, std::size_t start,
    bitvec::order other_order, std::span<const std::uint32_t> other, std::size_t other_start,
    std::size_t count, std::size_t &index) noexcept {
    return static_cast<bitvec::status>(bitvec_c_first_and_not_u32(
        static_cast<std::uint8_t>(order), memory.data(), memory.size(), start,
        static_cast<std::uint8_t>(other_order), other.data(), other.size(), other_start, count,
        &index));
}
[[nodiscard]] inline bitvec::status first_and_not(
    bitvec::order order, std::span<const std::uint64_t> memory, std::size_t start,
    bitvec::order other_order, std::span<const std::uint64_t> other, std::size_t other_start,
    std::size_t count, std::size_t &index) noexcept {
    return static_cast<bitvec::status>(bitvec_c_first_and_not_u64(
        static_cast<std::uint8_t>(order), memory.data(), memory.size(), start,
        static_cast<std::uint8_t>(other_order), other.data(), other.size(), other_start, count,
        &index));
}

/* Writes to `subset` whether no bit of a range is one whose bit in the other range is zero. Refuses
 * with status::no_order, status::too_long or status::outside. Costs by words where the orders are
 * the same, else by bits, up to the first such bit. */
[[nodiscard]] inline bitvec::status is_subset(
    bitvec::order order, std::span<const std::uint8_t> memory, std::size_t start,
    bitvec::order other_order, std::span<const std::uint8_t> other, std::size_t other_start,
    std::size_t count, bool &subset) noexcept {
    return static_cast<bitvec::status>(bitvec_c_is_subset_u8(
        static_cast<std::uint8_t>(order), memory.data(), memory.size(), start,
        static_cast<std::uint8_t>(other_order), other.data(), other.size(), other_start, count,
        &subset));
}
[[nodiscard]] inline bitvec::status is_subset(
    bitvec::order order, std::span<const std::uint16_t> memory, std::size_t start,
    bitvec::order other_order, std::span<const std::uint16_t> other, std::size_t other_start,
    std::size_t count, bool &subset) noexcept {
    return static_cast<bitvec::status>(bitvec_c_is_subset_u16(
        static_cast<std::uint8_t>(order), memory.data(), memory.size(), start,
        static_cast<std::uint8_t>(other_order), other.data(), other.size(), other_start, count,
        &subset));
}
[[nodiscard]] inline bitvec::status is_subset(
    bitvec::order order, std::span<const std::uint32_t> memory, std::size_t start,
    bitvec::order other_order, std::span<const std::uint32_t> other, std::size_t other_start,
    std::size_t count, bool &subset) noexcept {
    return static_cast<bitvec::status>(bitvec_c_is_subset_u32(
        static_cast<std::uint8_t>(order), memory.data(), memory.size(), start,
        static_cast<std::uint8_t>(other_order), other.data(), other.size(), other_start, count,
        &subset));
}
[[nodiscard]] inline bitvec::status is_subset(
    bitvec::order order, std::span<const std::uint64_t> memory, std::size_t start,
    bitvec::order other_order, std::span<const std::uint64_t> other, std::size_t other_start,
    std::size_t count, bool &subset) noexcept {
    return static_cast<bitvec::status>(bitvec_c_is_subset_u64(
        static_cast<std::uint8_t>(order), memory.data(), memory.size(), start,
        static_cast<std::uint8_t>(other_order), other.data(), other.size(), other_start, count,
        &subset));
}

/* Writes to `index` the index of the first bit of a range that is not the same in the other range,
 * or `count` where there is none. The bit at that index tells which of the two is less. Refuses
 * with status::no_order, status::too_long or status::outside. Costs by words where the orders are
 * the same, else by bits, up to that bit. */
[[nodiscard]] inline bitvec::status first_difference(
    bitvec::order order, std::span<const std::uint8_t> memory, std::size_t start,
    bitvec::order other_order, std::span<const std::uint8_t> other, std::size_t other_start,
    std::size_t count, std::size_t &index) noexcept {
    return static_cast<bitvec::status>(bitvec_c_first_difference_u8(
        static_cast<std::uint8_t>(order), memory.data(), memory.size(), start,
        static_cast<std::uint8_t>(other_order), other.data(), other.size(), other_start, count,
        &index));
}
[[nodiscard]] inline bitvec::status first_difference(
    bitvec::order order, std::span<const std::uint16_t> memory, std::size_t start,
    bitvec::order other_order, std::span<const std::uint16_t> other, std::size_t other_start,
    std::size_t count, std::size_t &index) noexcept {
    return static_cast<bitvec::status>(bitvec_c_first_difference_u16(
        static_cast<std::uint8_t>(order), memory.data(), memory.size(), start,
        static_cast<std::uint8_t>(other_order), other.data(), other.size(), other_start, count,
        &index));
}
[[nodiscard]] inline bitvec::status first_difference(
    bitvec::order order, std::span<const std::uint32_t> memory, std::size_t start,
    bitvec::order other_order, std::span<const std::uint32_t> other, std::size_t other_start,
    std::size_t count, std::size_t &index) noexcept {
    return static_cast<bitvec::status>(bitvec_c_first_difference_u32(
        static_cast<std::uint8_t>(order), memory.data(), memory.size(), start,
        static_cast<std::uint8_t>(other_order), other.data(), other.size(), other_start, count,
        &index));
}
[[nodiscard]] inline bitvec::status first_difference(
    bitvec::order order, std::span<const std::uint64_t> memory, std::size_t start,
    bitvec::order other_order, std::span<const std::uint64_t> other, std::size_t other_start,
    std::size_t count, std::size_t &index) noexcept {
    return static_cast<bitvec::status>(bitvec_c_first_difference_u64(
        static_cast<std::uint8_t>(order), memory.data(), memory.size(), start,
        static_cast<std::uint8_t>(other_order), other.data(), other.size(), other_start, count,
        &index));
}

/* The same as `first_difference`, where the words of the two memories may have other widths.
 * Refuses with status::no_order, status::too_long or status::outside. Costs by words where the
 * orders are the same, else by bits, up to that bit. */
[[nodiscard]] inline bitvec::status first_difference_with(
    bitvec::order order, std::span<const std::uint8_t> memory, std::size_t start,
    bitvec::order other_order, std::span<const std::uint8_t> other, std::size_t other_start,
    std::size_t count, std::size_t &index) noexcept {
    return static_cast<bitvec::status>(bitvec_c_first_difference_u8_with_u8(
        static_cast<std::uint8_t>(order), memory.data(), memory.size(), start,
        static_cast<std::uint8_t>(other_order), other.data(), other.size(), other_start, count,
        &index));
}
[[nodiscard]] inline bitvec::status first_difference_with(
    bitvec::order order, std::span<const std::uint8_t> memory, std::size_t start,
    bitvec::order other_order, std::span<const std::uint16_t> other, std::size_t other_start,
    std::size_t count, std::size_t &index) noexcept {
    return static_cast<bitvec::status>(bitvec_c_first_difference_u8_with_u16(
        static_cast<std::uint8_t>(order), memory.data(), memory.size(), start,
        static_cast<std::uint8_t>(other_order), other.data(), other.size(), other_start, count,
        &index));
}
[[nodiscard]] inline bitvec::status first_difference_with(
    bitvec::order order, std::span<const std::uint8_t> memory, std::size_t start,
    bitvec::order other_order, std::span<const std::uint32_t> other, std::size_t other_start,
    std::size_t count, std::size_t &index) noexcept {
    return static_cast<bitvec::status>(bitvec_c_first_difference_u8_with_u32(
        static_cast<std::uint8_t>(order), memory.data(), memory.size(), start,
        static_cast<std::uint8_t>(other_order), other.data(), other.size(), other_start, count,
        &index));
}
[[nodiscard]] inline bitvec::status first_difference_with(
    bitvec::order order, std::span<const std::uint8_t> memory, std::size_t start,
    bitvec::order other_order, std::span<const std::uint64_t> other, std::size_t other_start,
    std::size_t count, std::size_t &index) noexcept {
    return static_cast<bitvec::status>(bitvec_c_first_difference_u8_with_u64(
        static_cast<std::uint8_t>(order), memory.data(), memory.size(), start,
        static_cast<std::uint8_t>(other_order), other.data(), other.size(), other_start, count,
        &index));
}
[[nodiscard]] inline bitvec::status first_difference_with(
    bitvec::order order, std::span<const std::uint16_t> memory, std::size_t start,
    bitvec::order other_order, std::span<const std::uint8_t> other, std::size_t other_start,
    std::size_t count, std::size_t &index) noexcept {
    return static_cast<bitvec::status>(bitvec_c_first_difference_u16_with_u8(
        static_cast<std::uint8_t>(order), memory.data(), memory.size(), start,
        static_cast<std::uint8_t>(other_order), other.data(), other.size(), other_start, count,
        &index));
}
[[nodiscard]] inline bitvec::status first_difference_with(
    bitvec::order order, std::span<const std::uint16_t> memory, std::size_t start,
    bitvec::order other_order, std::span<const std::uint16_t> other, std::size_t other_start,
    std::size_t count, std::size_t &index) noexcept {
    return static_cast<bitvec::status>(bitvec_c_first_difference_u16_with_u16(
        static_cast<std::uint8_t>(order), memory.data(), memory.size(), start,
        static_cast<std::uint8_t>(other_order), other.data(), other.size(), other_start, count,
        &index));
}
[[nodiscard]] inline bitvec::status first_difference_with(
    bitvec::order order, std::span<const std::uint16_t> memory, std::size_t start,
    bitvec::order other_order, std::span<const std::uint32_t> other, std::size_t other_start,
    std::size_t count, std::size_t &index) noexcept {
    return static_cast<bitvec::status>(bitvec_c_first_difference_u16_with_u32(
        static_cast<std::uint8_t>(order), memory.data(), memory.size(), start,
        static_cast<std::uint8_t>(other_order), other.data(), other.size(), other_start, count,
        &index));
}
[[nodiscard]] inline bitvec::status first_difference_with(
    bitvec::order order, std::span<const std::uint16_t> memory, std::size_t start,
    bitvec::order other_order, std::span<const std::uint64_t> other, std::size_t other_start,
    std::size_t count, std::size_t &index) noexcept {
    return static_cast<bitvec::status>(bitvec_c_first_difference_u16_with_u64(
        static_cast<std::uint8_t>(order), memory.data(), memory.size(), start,
        static_cast<std::uint8_t>(other_order), other.data(), other.size(), other_start, count,
        &index));
}
[[nodiscard]] inline bitvec::status first_difference_with(
    bitvec::order order, std::span<const std::uint32_t> memory, std::size_t start,
    bitvec::order other_order, std::span<const std::uint8_t> other, std::size_t other_start,
    std::size_t count, std::size_t &index) noexcept {
    return static_cast<bitvec::status>(bitvec_c_first_difference_u32_with_u8(
        static_cast<std::uint8_t>(order), memory.data(), memory.size(), start,
        static_cast<std::uint8_t>(other_order), other.data(), other.size(), other_start, count,
        &index));
}
[[nodiscard]] inline bitvec::status first_difference_with(
    bitvec::order order, std::span<const std::uint32_t> memory, std::size_t start,
    bitvec::order other_order, std::span<const std::uint16_t> other, std::size_t other_start,
    std::size_t count, std::size_t &index) noexcept {
    return static_cast<bitvec::status>(bitvec_c_first_difference_u32_with_u16(
        static_cast<std::uint8_t>(order), memory.data(), memory.size(), start,
        static_cast<std::uint8_t>(other_order), other.data(), other.size(), other_start, count,
        &index));
}
[[nodiscard]] inline bitvec::status first_difference_with(
    bitvec::order order, std::span<const std::uint32_t> memory, std::size_t start,
    bitvec::order other_order, std::span<const std::uint32_t> other, std::size_t other_start,
    std::size_t count, std::size_t &index) noexcept {
    return static_cast<bitvec::status>(bitvec_c_first_difference_u32_with_u32(
        static_cast<std::uint8_t>(order), memory.data(), memory.size(), start,
        static_cast<std::uint8_t>(other_order), other.data(), other.size(), other_start, count,
        &index));
}
[[nodiscard]] inline bitvec::status first_difference_with(
    bitvec::order order, std::span<const std::uint32_t> memory, std::size_t start,
    bitvec::order other_order, std::span<const std::uint64_t> other, std::size_t other_start,
    std::size_t count, std::size_t &index) noexcept {
    return static_cast<bitvec::status>(bitvec_c_first_difference_u32_with_u64(
        static_cast<std::uint8_t>(order), memory.data(), memory.size(), start,
        static_cast<std::uint8_t>(other_order), other.data(), other.size(), other_start, count,
        &index));
}
[[nodiscard]] inline bitvec::status first_difference_with(
    bitvec::order order, std::span<const std::uint64_t> memory, std::size_t start,
    bitvec::order other_order, std::span<const std::uint8_t> other, std::size_t other_start,
    std::size_t count, std::size_t &index) noexcept {
    return static_cast<bitvec::status>(bitvec_c_first_difference_u64_with_u8(
        static_cast<std::uint8_t>(order), memory.data(), memory.size(), start,
        static_cast<std::uint8_t>(other_order), other.data(), other.size(), other_start, count,
        &index));
}
[[nodiscard]] inline bitvec::status first_difference_with(
    bitvec::order order, std::span<const std::uint64_t> memory, std::size_t start,
    bitvec::order other_order, std::span<const std::uint16_t> other, std::size_t other_start,
    std::size_t count, std::size_t &index) noexcept {
    return static_cast<bitvec::status>(bitvec_c_first_difference_u64_with_u16(
        static_cast<std::uint8_t>(order), memory.data(), memory.size(), start,
        static_cast<std::uint8_t>(other_order), other.data(), other.size(), other_start, count,
        &index));
}
[[nodiscard]] inline bitvec::status first_difference_with(
    bitvec::order order, std::span<const std::uint64_t> memory, std::size_t start,
    bitvec::order other_order, std::span<const std::uint32_t> other, std::size_t other_start,
    std::size_t count, std::size_t &index) noexcept {
    return static_cast<bitvec::status>(bitvec_c_first_difference_u64_with_u32(
        static_cast<std::uint8_t>(order), memory.data(), memory.size(), start,
        static_cast<std::uint8_t>(other_order), other.data(), other.size(), other_start, count,
        &index));
}
[[nodiscard]] inline bitvec::status first_difference_with(
    bitvec::order order, std::span<const std::uint64_t> memory, std::size_t start,
    bitvec::order other_order, std::span<const std::uint64_t> other, std::size_t other_start,
    std::size_t count, std::size_t &index) noexcept {
    return static_cast<bitvec::status>(bitvec_c_first_difference_u64_with_u64(
        static_cast<std::uint8_t>(order), memory.data(), memory.size(), start,
        static_cast<std::uint8_t>(other_order), other.data(), other.size(), other_start, count,
        &index));
}

/* ----------------------------------------- Numbers ------------------------------------------ */

/* The range has `count` bits from `start` on, at most 64, or the call refuses with
 * status::too_wide. The bits that one word has of the range are digits of the number as they are
 * digits of the word, in the same order; those of the range's first word are the lowest or, where
 * `big_endian`, the highest. */

/* Writes to `number` the number whose digits the bits of a range are; its other digits are 0.
 * Refuses with status::no_order, status::too_long, status::outside or status::too_wide. */
[[nodiscard]] inline bitvec::status load(
    bitvec::order order, bool big_endian, std::span<const std::uint8_t> memory, std::size_t start,
    std::size_t count, std::uint64_t &number) noexcept {
    return static_cast<bitvec::status>(bitvec_c_load_u8(
        static_cast<std::uint8_t>(order), big_endian, memory.data(), memory.size(), start, count,
        &number));
}
[[nodiscard]] inline bitvec::status load(
    bitvec::order order, bool big_endian, std::span<const std::uint16_t> memory, std::size_t start,
    std::size_t count, std::uint64_t &number) noexcept {
    return static_cast<bitvec::status>(bitvec_c_load_u16(
        static_cast<std::uint8_t>(order), big_endian, memory.data(), memory.size(), start, count,
        &number));
}
[[nodiscard]] inline bitvec::status load(
    bitvec::order order, bool big_endian, std::span<const std::uint32_t> memory, std::size_t start,
    std::size_t count, std::uint64_t &number) noexcept {
    return static_cast<bitvec::status>(bitvec_c_load_u32(
        static_cast<std::uint8_t>(order), big_endian, memory.data(), memory.size(), start, count,
        &number));
}
[[nodiscard]] inline bitvec::status load(
    bitvec::order order, bool big_endian, std::span<const std::uint64_t> memory, std::size_t start,
    std::size_t count, std::uint64_t &number) noexcept {
    return static_cast<bitvec::status>(bitvec_c_load_u64(
        static_cast<std::uint8_t>(order), big_endian, memory.data(), memory.size(), start, count,
        &number));
}

/* Makes the bits of a range the lowest digits of a number, so that `load` gives them back. Its
 * other digits are dropped. Refuses with status::no_order, status::too_long, status::outside or
 * status::too_wide. */
[[nodiscard]] inline bitvec::status store(
    bitvec::order order, bool big_endian, std::span<std::uint8_t> memory, std::size_t start,
    std::size_t count, std::uint64_t number) noexcept {
    return static_cast<bitvec::status>(bitvec_c_store_u8(
        static_cast<std::uint8_t>(order), big_endian, memory.data(), memory.size(), start, count,
        number));
}
[[nodiscard]] inline bitvec::status store(
    bitvec::order order, bool big_endian, std::span<std::uint16_t> memory, std::size_t start,
    std::size_t count, std::uint64_t number) noexcept {
    return static_cast<bitvec::status>(bitvec_c_store_u16(
        static_cast<std::uint8_t>(order), big_endian, memory.data(), memory.size(), start, count,
        number));
}
[[nodiscard]] inline bitvec::status store(
    bitvec::order order, bool big_endian, std::span<std::uint32_t> memory, std::size_t start,
    std::size_t count, std::uint64_t number) noexcept {
    return static_cast<bitvec::status>(bitvec_c_store_u32(
        static_cast<std::uint8_t>(order), big_endian, memory.data(), memory.size(), start, count,
        number));
}
[[nodiscard]] inline bitvec::status store(
    bitvec::order order, bool big_endian, std::span<std::uint64_t> memory, std::size_t start,
    std::size_t count, std::uint64_t number) noexcept {
    return static_cast<bitvec::status>(bitvec_c_store_u64(
        static_cast<std::uint8_t>(order), big_endian, memory.data(), memory.size(), start, count,
        number));
}

/* Writes to `number` the signed number whose two's complement of `count` digits `load` gives. For
 * no bits it is 0. Refuses with status::no_order, status::too_long, status::outside or
 * status::too_wide. */
[[nodiscard]] inline bitvec::status load_signed(
    bitvec::order order, bool big_endian, std::span<const std::uint8_t> memory, std::size_t start,
    std::size_t count, std::int64_t &number) noexcept {
    return static_cast<bitvec::status>(bitvec_c_load_signed_u8(
        static_cast<std::uint8_t>(order), big_endian, memory.data(), memory.size(), start, count,
        &number));
}
[[nodiscard]] inline bitvec::status load_signed(
    bitvec::order order, bool big_endian, std::span<const std::uint16_t> memory, std::size_t start,
    std::size_t count, std::int64_t &number) noexcept {
    return static_cast<bitvec::status>(bitvec_c_load_signed_u16(
        static_cast<std::uint8_t>(order), big_endian, memory.data(), memory.size(), start, count,
        &number));
}
[[nodiscard]] inline bitvec::status load_signed(
    bitvec::order order, bool big_endian, std::span<const std::uint32_t> memory, std::size_t start,
    std::size_t count, std::int64_t &number) noexcept {
    return static_cast<bitvec::status>(bitvec_c_load_signed_u32(
        static_cast<std::uint8_t>(order), big_endian, memory.data(), memory.size(), start, count,
        &number));
}
[[nodiscard]] inline bitvec::status load_signed(
    bitvec::order order, bool big_endian, std::span<const std::uint64_t> memory, std::size_t start,
    std::size_t count, std::int64_t &number) noexcept {
    return static_cast<bitvec::status>(bitvec_c_load_signed_u64(
        static_cast<std::uint8_t>(order), big_endian, memory.data(), memory.size(), start, count,
        &number));
}

/* Makes the bits of a range the lowest digits of a signed number's two's complement, so that
 * `load_signed` gives back a number that has no more digits. Refuses with status::no_order,
 * status::too_long, status::outside or status::too_wide. */
[[nodiscard]] inline bitvec::status store_signed(
    bitvec::order order, bool big_endian, std::span<std::uint8_t> memory, std::size_t start,
    std::size_t count, std::int64_t number) noexcept {
    return static_cast<bitvec::status>(bitvec_c_store_signed_u8(
        static_cast<std::uint8_t>(order), big_endian, memory.data(), memory.size(), start, count,
        number));
}
[[nodiscard]] inline bitvec::status store_signed(
    bitvec::order order, bool big_endian, std::span<std::uint16_t> memory, std::size_t start,
    std::size_t count, std::int64_t number) noexcept {
    return static_cast<bitvec::status>(bitvec_c_store_signed_u16(
        static_cast<std::uint8_t>(order), big_endian, memory.data(), memory.size(), start, count,
        number));
}
[[nodiscard]] inline bitvec::status store_signed(
    bitvec::order order, bool big_endian, std::span<std::uint32_t> memory, std::size_t start,
    std::size_t count, std::int64_t number) noexcept {
    return static_cast<bitvec::status>(bitvec_c_store_signed_u32(
        static_cast<std::uint8_t>(order), big_endian, memory.data(), memory.size(), start, count,
        number));
}
[[nodiscard]] inline bitvec::status store_signed(
    bitvec::order order, bool big_endian, std::span<std::uint64_t> memory, std::size_t start,
    std::size_t count, std::int64_t number) noexcept {
    return static_cast<bitvec::status>(bitvec_c_store_signed_u64(
        static_cast<std::uint8_t>(order), big_endian, memory.data(), memory.size(), start, count,
        number));
}

/* ----------------------------------------- Streams ------------------------------------------ */

/* Numbers that stand one behind the other: each call reads or writes bits from `place` on, of those
 * that end before `end`, and moves `place` behind them. status::too_long: more than BITVEC_MAX_BITS
 * bits lie between the two. status::outside: `end` is before `place`, or past the last bit of the
 * memory. status::too_few: fewer bits are left than it takes or writes. To pass over bits, or to go
 * back, a caller sets `place` itself. */

/* Writes to `number` the number of the next `count` bits: the first is its lowest digit or, where
 * `big_endian`, the highest, whatever the order and the width are. For no bits it is 0. Refuses
 * with status::no_order, status::too_long, status::outside, status::too_wide (`count` is past 64)
 * or status::too_few. Costs by words. */
[[nodiscard]] inline bitvec::status read(
    bitvec::order order, bool big_endian, std::span<const std::uint8_t> memory, std::size_t &place,
    std::size_t end, std::size_t count, std::uint64_t &number) noexcept {
    return static_cast<bitvec::status>(bitvec_c_read_u8(
        static_cast<std::uint8_t>(order), big_endian, memory.data(), memory.size(), &place, end,
        count, &number));
}
[[nodiscard]] inline bitvec::status read(
    bitvec::order order, bool big_endian, std::span<const std::uint16_t> memory, std::size_t &place,
    std::size_t end, std::size_t count, std::uint64_t &number) noexcept {
    return static_cast<bitvec::status>(bitvec_c_read_u16(
        static_cast<std::uint8_t>(order), big_endian, memory.data(), memory.size(), &place, end,
        count, &number));
}
[[nodiscard]] inline bitvec::status read(
    bitvec::order order, bool big_endian, std::span<const std::uint32_t> memory, std::size_t &place,
    std::size_t end, std::size_t count, std::uint64_t &number) noexcept {
    return static_cast<bitvec::status>(bitvec_c_read_u32(
        static_cast<std::uint8_t>(order), big_endian, memory.data(), memory.size(), &place, end,
        count, &number));
}
[[nodiscard]] inline bitvec::status read(
    bitvec::order order, bool big_endian, std::span<const std::uint64_t> memory, std::size_t &place,
    std::size_t end, std::size_t count, std::uint64_t &number) noexcept {
    return static_cast<bitvec::status>(bitvec_c_read_u64(
        static_cast<std::uint8_t>(order), big_endian, memory.data(), memory.size(), &place, end,
        count, &number));
}

/* Writes to `number` the signed number whose two's complement of `count` digits that is. For no
 * bits it is 0. Refuses with status::no_order, status::too_long, status::outside, status::too_wide
 * (`count` is past 64) or status::too_few. Costs by words. */
[[nodiscard]] inline bitvec::status read_signed(
    bitvec::order order, bool big_endian, std::span<const std::uint8_t> memory, std::size_t &place,
    std::size_t end, std::size_t count, std::int64_t &number) noexcept {
    return static_cast<bitvec::status>(bitvec_c_read_signed_u8(
        static_cast<std::uint8_t>(order), big_endian, memory.data(), memory.size(), &place, end,
        count, &number));
}
[[nodiscard]] inline bitvec::status read_signed(
    bitvec::order order, bool big_endian, std::span<const std::uint16_t> memory, std::size_t &place,
    std::size_t end, std::size_t count, std::int64_t &number) noexcept {
    return static_cast<bitvec::status>(bitvec_c_read_signed_u16(
        static_cast<std::uint8_t>(order), big_endian, memory.data(), memory.size(), &place, end,
        count, &number));
}
[[nodiscard]] inline bitvec::status read_signed(
    bitvec::order order, bool big_endian, std::span<const std::uint32_t> memory, std::size_t &place,
    std::size_t end, std::size_t count, std::int64_t &number) noexcept {
    return static_cast<bitvec::status>(bitvec_c_read_signed_u32(
        static_cast<std::uint8_t>(order), big_endian, memory.data(), memory.size(), &place, end,
        count, &number));
}
[[nodiscard]] inline bitvec::status read_signed(
    bitvec::order order, bool big_endian, std::span<const std::uint64_t> memory, std::size_t &place,
    std::size_t end, std::size_t count, std::int64_t &number) noexcept {
    return static_cast<bitvec::status>(bitvec_c_read_signed_u64(
        static_cast<std::uint8_t>(order), big_endian, memory.data(), memory.size(), &place, end,
        count, &number));
}

/* Writes to `count` how many bits are the same as `bit` before the first that is not, which is
 * taken too. Refuses with status::no_order, status::too_long, status::outside or status::too_few
 * (all bits that are left are the same as `bit`, also where none is left). Costs by words. */
[[nodiscard]] inline bitvec::status read_unary(
    bitvec::order order, std::span<const std::uint8_t> memory, std::size_t &place, std::size_t end,
    bool bit, std::size_t &count) noexcept {
    return static_cast<bitvec::status>(bitvec_c_read_unary_u8(
        static_cast<std::uint8_t>(order), memory.data(), memory.size(), &place, end, bit, &count));
}
[[nodiscard]] inline bitvec::status read_unary(
    bitvec::order order, std::span<const std::uint16_t> memory, std::size_t &place, std::size_t end,
    bool bit, std::size_t &count) noexcept {
    return static_cast<bitvec::status>(bitvec_c_read_unary_u16(
        static_cast<std::uint8_t>(order), memory.data(), memory.size(), &place, end, bit, &count));
}
[[nodiscard]] inline bitvec::status read_unary(
    bitvec::order order, std::span<const std::uint32_t> memory, std::size_t &place, std::size_t end,
    bool bit, std::size_t &count) noexcept {
    return static_cast<bitvec::status>(bitvec_c_read_unary_u32(
        static_cast<std::uint8_t>(order), memory.data(), memory.size(), &place, end, bit, &count));
}
[[nodiscard]] inline bitvec::status read_unary(
    bitvec::order order, std::span<const std::uint64_t> memory, std::size_t &place, std::size_t end,
    bool bit, std::size_t &count) noexcept {
    return static_cast<bitvec::status>(bitvec_c_read_unary_u64(
        static_cast<std::uint8_t>(order), memory.data(), memory.size(), &place, end, bit, &count));
}

/* Writes to `number` the number of an Exp-Golomb code, ue(v) of ITU-T H.264 and H.265: as many
 * zeros as the number and one have binary digits, less one, and then these digits, the highest
 * first. So 1 is 0, 010 is 1, 011 is 2 and 00100 is 3. Refuses with status::no_order,
 * status::too_long, status::outside, status::too_few (the bits end before a code does) or
 * status::too_large (the number has more than 64 digits). Costs by words. */
[[nodiscard]] inline bitvec::status read_exp_golomb(
    bitvec::order order, std::span<const std::uint8_t> memory, std::size_t &place, std::size_t end,
    std::uint64_t &number) noexcept {
    return static_cast<bitvec::status>(bitvec_c_read_exp_golomb_u8(
        static_cast<std::uint8_t>(order), memory.data(), memory.size(), &place, end, &number));
}
[[nodiscard]] inline bitvec::status read_exp_golomb(
    bitvec::order order, std::span<const std::uint16_t> memory, std::size_t &place, std::size_t end,
    std::uint64_t &number) noexcept {
    return static_cast<bitvec::status>(bitvec_c_read_exp_golomb_u16(
        static_cast<std::uint8_t>(order), memory.data(), memory.size(), &place, end, &number));
}
[[nodiscard]] inline bitvec::status read_exp_golomb(
    bitvec::order order, std::span<const std::uint32_t> memory, std::size_t &place, std::size_t end,
    std::uint64_t &number) noexcept {
    return static_cast<bitvec::status>(bitvec_c_read_exp_golomb_u32(
        static_cast<std::uint8_t>(order), memory.data(), memory.size(), &place, end, &number));
}
[[nodiscard]] inline bitvec::status read_exp_golomb(
    bitvec::order order, std::span<const std::uint64_t> memory, std::size_t &place, std::size_t end,
    std::uint64_t &number) noexcept {
    return static_cast<bitvec::status>(bitvec_c_read_exp_golomb_u64(
        static_cast<std::uint8_t>(order), memory.data(), memory.size(), &place, end, &number));
}

/* Writes to `number` the signed number of one, se(v) there: the codes of 0, 1, 2, 3, 4 and so on
 * are those of 0, 1, -1, 2, -2 and so on. Refuses with status::no_order, status::too_long,
 * status::outside, status::too_few (the bits end before a code does) or status::too_large (an
 * int64_t has not the number). Costs by words. */
[[nodiscard]] inline bitvec::status read_signed_exp_golomb(
    bitvec::order order, std::span<const std::uint8_t> memory, std::size_t &place, std::size_t end,
    std::int64_t &number) noexcept {
    return static_cast<bitvec::status>(bitvec_c_read_signed_exp_golomb_u8(
        static_cast<std::uint8_t>(order), memory.data(), memory.size(), &place, end, &number));
}
[[nodiscard]] inline bitvec::status read_signed_exp_golomb(
    bitvec::order order, std::span<const std::uint16_t> memory, std::size_t &place, std::size_t end,
    std::int64_t &number) noexcept {
    return static_cast<bitvec::status>(bitvec_c_read_signed_exp_golomb_u16(
        static_cast<std::uint8_t>(order), memory.data(), memory.size(), &place, end, &number));
}
[[nodiscard]] inline bitvec::status read_signed_exp_golomb(
    bitvec::order order, std::span<const std::uint32_t> memory, std::size_t &place, std::size_t end,
    std::int64_t &number) noexcept {
    return static_cast<bitvec::status>(bitvec_c_read_signed_exp_golomb_u32(
        static_cast<std::uint8_t>(order), memory.data(), memory.size(), &place, end, &number));
}
[[nodiscard]] inline bitvec::status read_signed_exp_golomb(
    bitvec::order order, std::span<const std::uint64_t> memory, std::size_t &place, std::size_t end,
    std::int64_t &number) noexcept {
    return static_cast<bitvec::status>(bitvec_c_read_signed_exp_golomb_u64(
        static_cast<std::uint8_t>(order), memory.data(), memory.size(), &place, end, &number));
}

/* Makes the next `count` bits the digits of a number: the first becomes its lowest digit or, where
 * `big_endian`, the highest, whatever the order and the width are. Refuses with status::no_order,
 * status::too_long, status::outside, status::too_wide (`count` is past 64), status::too_few or
 * status::too_large (the number is not below 2^count, where `store` drops its highest digits).
 * Costs by words. */
[[nodiscard]] inline bitvec::status write(
    bitvec::order order, bool big_endian, std::span<std::uint8_t> memory, std::size_t &place,
    std::size_t end, std::size_t count, std::uint64_t number) noexcept {
    return static_cast<bitvec::status>(bitvec_c_write_u8(
        static_cast<std::uint8_t>(order), big_endian, memory.data(), memory.size(), &place, end,
        count, number));
}
[[nodiscard]] inline bitvec::status write(
    bitvec::order order, bool big_endian, std::span<std::uint16_t> memory, std::size_t &place,
    std::size_t end, std::size_t count, std::uint64_t number) noexcept {
    return static_cast<bitvec::status>(bitvec_c_write_u16(
        static_cast<std::uint8_t>(order), big_endian, memory.data(), memory.size(), &place, end,
        count, number));
}
[[nodiscard]] inline bitvec::status write(
    bitvec::order order, bool big_endian, std::span<std::uint32_t> memory, std::size_t &place,
    std::size_t end, std::size_t count, std::uint64_t number) noexcept {
    return static_cast<bitvec::status>(bitvec_c_write_u32(
        static_cast<std::uint8_t>(order), big_endian, memory.data(), memory.size(), &place, end,
        count, number));
}
[[nodiscard]] inline bitvec::status write(
    bitvec::order order, bool big_endian, std::span<std::uint64_t> memory, std::size_t &place,
    std::size_t end, std::size_t count, std::uint64_t number) noexcept {
    return static_cast<bitvec::status>(bitvec_c_write_u64(
        static_cast<std::uint8_t>(order), big_endian, memory.data(), memory.size(), &place, end,
        count, number));
}

/* Makes them the digits of a signed number's two's complement. Refuses with status::no_order,
 * status::too_long, status::outside, status::too_wide (`count` is past 64), status::too_few or
 * status::too_large (the number is below -2^(count - 1) or not below 2^(count - 1), or for no bits
 * not 0). Costs by words. */
[[nodiscard]] inline bitvec::status write_signed(
    bitvec::order order, bool big_endian, std::span<std::uint8_t> memory, std::size_t &place,
    std::size_t end, std::size_t count, std::int64_t number) noexcept {
    return static_cast<bitvec::status>(bitvec_c_write_signed_u8(
        static_cast<std::uint8_t>(order), big_endian, memory.data(), memory.size(), &place, end,
        count, number));
}
[[nodiscard]] inline bitvec::status write_signed(
    bitvec::order order, bool big_endian, std::span<std::uint16_t> memory, std::size_t &place,
    std::size_t end, std::size_t count, std::int64_t number) noexcept {
    return static_cast<bitvec::status>(bitvec_c_write_signed_u16(
        static_cast<std::uint8_t>(order), big_endian, memory.data(), memory.size(), &place, end,
        count, number));
}
[[nodiscard]] inline bitvec::status write_signed(
    bitvec::order order, bool big_endian, std::span<std::uint32_t> memory, std::size_t &place,
    std::size_t end, std::size_t count, std::int64_t number) noexcept {
    return static_cast<bitvec::status>(bitvec_c_write_signed_u32(
        static_cast<std::uint8_t>(order), big_endian, memory.data(), memory.size(), &place, end,
        count, number));
}
[[nodiscard]] inline bitvec::status write_signed(
    bitvec::order order, bool big_endian, std::span<std::uint64_t> memory, std::size_t &place,
    std::size_t end, std::size_t count, std::int64_t number) noexcept {
    return static_cast<bitvec::status>(bitvec_c_write_signed_u64(
        static_cast<std::uint8_t>(order), big_endian, memory.data(), memory.size(), &place, end,
        count, number));
}

/* Makes the next `count` bits the same as `bit`, and the one behind them the other. Refuses with
 * status::no_order, status::too_long, status::outside or status::too_few (no more than `count` bits
 * are left). Costs by words. */
[[nodiscard]] inline bitvec::status write_unary(
    bitvec::order order, std::span<std::uint8_t> memory, std::size_t &place, std::size_t end,
    bool bit, std::size_t count) noexcept {
    return static_cast<bitvec::status>(bitvec_c_write_unary_u8(
        static_cast<std::uint8_t>(order), memory.data(), memory.size(), &place, end, bit, count));
}
[[nodiscard]] inline bitvec::status write_unary(
    bitvec::order order, std::span<std::uint16_t> memory, std::size_t &place, std::size_t end,
    bool bit, std::size_t count) noexcept {
    return static_cast<bitvec::status>(bitvec_c_write_unary_u16(
        static_cast<std::uint8_t>(order), memory.data(), memory.size(), &place, end, bit, count));
}
[[nodiscard]] inline bitvec::status write_unary(
    bitvec::order order, std::span<std::uint32_t> memory, std::size_t &place, std::size_t end,
    bool bit, std::size_t count) noexcept {
    return static_cast<bitvec::status>(bitvec_c_write_unary_u32(
        static_cast<std::uint8_t>(order), memory.data(), memory.size(), &place, end, bit, count));
}
[[nodiscard]] inline bitvec::status write_unary(
    bitvec::order order, std::span<std::uint64_t> memory, std::size_t &place, std::size_t end,
    bool bit, std::size_t count) noexcept {
    return static_cast<bitvec::status>(bitvec_c_write_unary_u64(
        static_cast<std::uint8_t>(order), memory.data(), memory.size(), &place, end, bit, count));
}

/* Writes the Exp-Golomb code of a number, as above: each number has one, of at most 129 bits.
 * Refuses with status::no_order, status::too_long, status::outside or status::too_few. Costs by
 * words. */
[[nodiscard]] inline bitvec::status write_exp_golomb(
    bitvec::order order, std::span<std::uint8_t> memory, std::size_t &place, std::size_t end,
    std::uint64_t number) noexcept {
    return static_cast<bitvec::status>(bitvec_c_write_exp_golomb_u8(
        static_cast<std::uint8_t>(order), memory.data(), memory.size(), &place, end, number));
}
[[nodiscard]] inline bitvec::status write_exp_golomb(
    bitvec::order order, std::span<std::uint16_t> memory, std::size_t &place, std::size_t end,
    std::uint64_t number) noexcept {
    return static_cast<bitvec::status>(bitvec_c_write_exp_golomb_u16(
        static_cast<std::uint8_t>(order), memory.data(), memory.size(), &place, end, number));
}
[[nodiscard]] inline bitvec::status write_exp_golomb(
    bitvec::order order, std::span<std::uint32_t> memory, std::size_t &place, std::size_t end,
    std::uint64_t number) noexcept {
    return static_cast<bitvec::status>(bitvec_c_write_exp_golomb_u32(
        static_cast<std::uint8_t>(order), memory.data(), memory.size(), &place, end, number));
}
[[nodiscard]] inline bitvec::status write_exp_golomb(
    bitvec::order order, std::span<std::uint64_t> memory, std::size_t &place, std::size_t end,
    std::uint64_t number) noexcept {
    return static_cast<bitvec::status>(bitvec_c_write_exp_golomb_u64(
        static_cast<std::uint8_t>(order), memory.data(), memory.size(), &place, end, number));
}

/* Writes the code of a signed number, as above, of at most 129 bits too. Refuses with
 * status::no_order, status::too_long, status::outside or status::too_few. Costs by words. */
[[nodiscard]] inline bitvec::status write_signed_exp_golomb(
    bitvec::order order, std::span<std::uint8_t> memory, std::size_t &place, std::size_t end,
    std::int64_t number) noexcept {
    return static_cast<bitvec::status>(bitvec_c_write_signed_exp_golomb_u8(
        static_cast<std::uint8_t>(order), memory.data(), memory.size(), &place, end, number));
}
[[nodiscard]] inline bitvec::status write_signed_exp_golomb(
    bitvec::order order, std::span<std::uint16_t> memory, std::size_t &place, std::size_t end,
    std::int64_t number) noexcept {
    return static_cast<bitvec::status>(bitvec_c_write_signed_exp_golomb_u16(
        static_cast<std::uint8_t>(order), memory.data(), memory.size(), &place, end, number));
}
[[nodiscard]] inline bitvec::status write_signed_exp_golomb(
    bitvec::order order, std::span<std::uint32_t> memory, std::size_t &place, std::size_t end,
    std::int64_t number) noexcept {
    return static_cast<bitvec::status>(bitvec_c_write_signed_exp_golomb_u32(
        static_cast<std::uint8_t>(order), memory.data(), memory.size(), &place, end, number));
}
[[nodiscard]] inline bitvec::status write_signed_exp_golomb(
    bitvec::order order, std::span<std::uint64_t> memory, std::size_t &place, std::size_t end,
    std::int64_t number) noexcept {
    return static_cast<bitvec::status>(bitvec_c_write_signed_exp_golomb_u64(
        static_cast<std::uint8_t>(order), memory.data(), memory.size(), &place, end, number));
}

/* ------------------------------------------- Runs ------------------------------------------- */

/* A run gives commands to disjoint spans of one memory. */

/* Tests the spans of a run for a memory of this many words: each lies in it, and no two have a bit
 * in common. Refuses with status::no_order, status::too_many_spans, status::too_long,
 * status::outside or status::overlap. Costs at most 2016 such tests, of each span with each. */
template <word W>
[[nodiscard]] inline bitvec::status can_run(
    bitvec::order order, std::size_t words, std::span<const bitvec_span> spans) noexcept {
    if constexpr (std::same_as<W, std::uint8_t>)
        return static_cast<bitvec::status>(bitvec_c_can_run_u8(
            static_cast<std::uint8_t>(order), words, spans.data(), spans.size()));
    else if constexpr (std::same_as<W, std::uint16_t>)
        return static_cast<bitvec::status>(bitvec_c_can_run_u16(
            static_cast<std::uint8_t>(order), words, spans.data(), spans.size()));
    else if constexpr (std::same_as<W, std::uint32_t>)
        return static_cast<bitvec::status>(bitvec_c_can_run_u32(
            static_cast<std::uint8_t>(order), words, spans.data(), spans.size()));
    else
        return static_cast<bitvec::status>(bitvec_c_can_run_u64(
            static_cast<std::uint8_t>(order), words, spans.data(), spans.size()));
}

/* Serves the requests in their order, each through the span that it names, and writes the n-th
 * reply to the n-th request. It tests what `can_run` does, and status::no_room and
 * status::no_command, before it serves the first. Refuses with status::no_order,
 * status::too_many_spans, status::too_long, status::outside, status::overlap, status::no_room or
 * status::no_command. Costs these tests, and what the commands cost, BITVEC_COPY and BITVEC_FILL by
 * words, each other one constant. */
[[nodiscard]] inline bitvec::status run(
    bitvec::order order, std::span<std::uint8_t> memory, std::span<const bitvec_span> spans,
    std::span<const bitvec_request> requests, std::span<bitvec_reply> replies) noexcept {
    return static_cast<bitvec::status>(bitvec_c_run_u8(
        static_cast<std::uint8_t>(order), memory.data(), memory.size(), spans.data(), spans.size(),
        requests.data(), requests.size(), replies.data(), replies.size()));
}
[[nodiscard]] inline bitvec::status run(
    bitvec::order order, std::span<std::uint16_t> memory, std::span<const bitvec_span> spans,
    std::span<const bitvec_request> requests, std::span<bitvec_reply> replies) noexcept {
    return static_cast<bitvec::status>(bitvec_c_run_u16(
        static_cast<std::uint8_t>(order), memory.data(), memory.size(), spans.data(), spans.size(),
        requests.data(), requests.size(), replies.data(), replies.size()));
}
[[nodiscard]] inline bitvec::status run(
    bitvec::order order, std::span<std::uint32_t> memory, std::span<const bitvec_span> spans,
    std::span<const bitvec_request> requests, std::span<bitvec_reply> replies) noexcept {
    return static_cast<bitvec::status>(bitvec_c_run_u32(
        static_cast<std::uint8_t>(order), memory.data(), memory.size(), spans.data(), spans.size(),
        requests.data(), requests.size(), replies.data(), replies.size()));
}
[[nodiscard]] inline bitvec::status run(
    bitvec::order order, std::span<std::uint64_t> memory, std::span<const bitvec_span> spans,
    std::span<const bitvec_request> requests, std::span<bitvec_reply> replies) noexcept {
    return static_cast<bitvec::status>(bitvec_c_run_u64(
        static_cast<std::uint8_t>(order), memory.data(), memory.size(), spans.data(), spans.size(),
        requests.data(), requests.size(), replies.data(), replies.size()));
}

/* Tests any number of spans as `can_run` does: `room` has as many numbers as there are spans, or
 * the call refuses with status::no_room. Where the status is status::ok or status::overlap it holds
 * the numbers of the spans in an order in which their first bits rise; else it is as it was.
 * Refuses with status::no_order, status::no_room, status::too_long, status::outside or
 * status::overlap. Costs n log n for n spans. */
template <word W>
[[nodiscard]] inline bitvec::status can_run_in(
    bitvec::order order, std::size_t words, std::span<const bitvec_span> spans,
    std::span<std::size_t> room) noexcept {
    if constexpr (std::same_as<W, std::uint8_t>)
        return static_cast<bitvec::status>(bitvec_c_can_run_in_u8(
            static_cast<std::uint8_t>(order), words, spans.data(), spans.size(),
            room.data(), room.size()));
    else if constexpr (std::same_as<W, std::uint16_t>)
        return static_cast<bitvec::status>(bitvec_c_can_run_in_u16(
            static_cast<std::uint8_t>(order), words, spans.data(), spans.size(),
            room.data(), room.size()));
    else if constexpr (std::same_as<W, std::uint32_t>)
        return static_cast<bitvec::status>(bitvec_c_can_run_in_u32(
            static_cast<std::uint8_t>(order), words, spans.data(), spans.size(),
            room.data(), room.size()));
    else
        return static_cast<bitvec::status>(bitvec_c_can_run_in_u64(
            static_cast<std::uint8_t>(order), words, spans.data(), spans.size(),
            room.data(), room.size()));
}

/* Serves the requests through any number of spans, which are tested as `can_run_in` does. Where
 * that test would answer status::ok or status::overlap, `room` holds the numbers of the spans
 * afterwards, also where the run is refused; else it is as it was. Refuses with status::no_order,
 * status::no_room, status::too_long, status::outside, status::overlap or status::no_command. Costs
 * as `run`, with these tests. */
[[nodiscard]] inline bitvec::status run_in(
    bitvec::order order, std::span<std::uint8_t> memory, std::span<const bitvec_span> spans,
    std::span<const bitvec_request> requests, std::span<bitvec_reply> replies,
    std::span<std::size_t> room) noexcept {
    return static_cast<bitvec::status>(bitvec_c_run_in_u8(
        static_cast<std::uint8_t>(order), memory.data(), memory.size(), spans.data(), spans.size(),
        requests.data(), requests.size(), replies.data(), replies.size(),
        room.data(), room.size()));
}
[[nodiscard]] inline bitvec::status run_in(
    bitvec::order order, std::span<std::uint16_t> memory, std::span<const bitvec_span> spans,
    std::span<const bitvec_request> requests, std::span<bitvec_reply> replies,
    std::span<std::size_t> room) noexcept {
    return static_cast<bitvec::status>(bitvec_c_run_in_u16(
        static_cast<std::uint8_t>(order), memory.data(), memory.size(), spans.data(), spans.size(),
        requests.data(), requests.size(), replies.data(), replies.size(),
        room.data(), room.size()));
}
[[nodiscard]] inline bitvec::status run_in(
    bitvec::order order, std::span<std::uint32_t> memory, std::span<const bitvec_span> spans,
    std::span<const bitvec_request> requests, std::span<bitvec_reply> replies,
    std::span<std::size_t> room) noexcept {
    return static_cast<bitvec::status>(bitvec_c_run_in_u32(
        static_cast<std::uint8_t>(order), memory.data(), memory.size(), spans.data(), spans.size(),
        requests.data(), requests.size(), replies.data(), replies.size(),
        room.data(), room.size()));
}
[[nodiscard]] inline bitvec::status run_in(
    bitvec::order order, std::span<std::uint64_t> memory, std::span<const bitvec_span> spans,
    std::span<const bitvec_request> requests, std::span<bitvec_reply> replies,
    std::span<std::size_t> room) noexcept {
    return static_cast<bitvec::status>(bitvec_c_run_in_u64(
        static_cast<std::uint8_t>(order), memory.data(), memory.size(), spans.data(), spans.size(),
        requests.data(), requests.size(), replies.data(), replies.size(),
        room.data(), room.size()));
}

}

#endif
