/* What each call of bitvec.h promises, in ACSL, for tools that read C: Frama-C, for which bitvec.h includes this. Written by
 * `.ci/exports` of the list of calls. `bit_u8(order, memory, place)` is a bit, and so of each width. */
#ifndef BITVEC_H
#include "bitvec.h"
#elif !defined(BITVEC_ACSL_H)
#define BITVEC_ACSL_H

/* specs/Status.antt: the status of a range, the first of its conditions that does not hold; of two, each in a memory of its
 * own; of a number; of a move; and of what is left of a stream. */
/*@ logic integer range_status(integer bits, integer order, integer words, integer start, integer count) =
  @   order > 1 ? BITVEC_NO_ORDER
  @   : (count > 2305843009213693951 ? BITVEC_TOO_LONG
  @   : (start + count > words * bits ? BITVEC_OUTSIDE : BITVEC_OK));
  @ logic integer then_status(integer first, integer second) = first != BITVEC_OK ? first : second;
  @ logic integer number_status(integer bits, integer order, integer words, integer start, integer count) =
  @   then_status(range_status(bits, order, words, start, count), count > 64 ? BITVEC_TOO_WIDE : BITVEC_OK);
  @ logic integer moved_status(integer bits, integer order, integer words, integer start, integer count, integer by) =
  @   then_status(range_status(bits, order, words, start, count), by > count ? BITVEC_OUTSIDE : BITVEC_OK);
  @ logic integer left_of(integer place, integer end) = end < place ? 0 : end - place;
  @ logic integer left_status(integer bits, integer order, integer words, integer place, integer end) =
  @   then_status(range_status(bits, order, words, place, left_of(place, end)), end < place ? BITVEC_OUTSIDE : BITVEC_OK);
  @ logic integer digits_status(integer status, integer count, integer left) =
  @   then_status(status, count > 64 ? BITVEC_TOO_WIDE : (count > left ? BITVEC_TOO_FEW : BITVEC_OK));
  @*/

/* Powers of two, and the digits of a number from the lowest on, which has index 0. */
/*@ axiomatic Powers {
  @   logic integer power_of_two(integer n);
  @   axiom power_none: power_of_two(0) == 1;
  @   axiom power_more: \forall integer n; 0 < n ==> power_of_two(n) == 2 * power_of_two(n - 1);
  @ }
  @ predicate digit_of(integer number, integer place) = (number / power_of_two(place)) % 2 == 1;
  @ logic integer remainder(integer number, integer by) = number % by < 0 ? number % by + by : number % by;
  @*/

/* bitvec_slice, specs/Signed.antt: the number whose two's complement of `count` digits a number is, the other way round, and
 * whether it has one. */
/*@ logic integer signed_of(integer count, integer number) =
  @   count <= 0 ? number : (number < power_of_two(count - 1) ? number : number - power_of_two(count));
  @ logic integer complement_of(integer count, integer number) = remainder(number, power_of_two(count));
  @ predicate fits_signed(integer count, integer number) = -power_of_two(count) <= 2 * number < power_of_two(count);
  @*/

/* Which digit of a number the bit of index j is: of a stream, or, bitvec_slice, specs/Field.antt, of a range from the index
 * `head` of a word on. */
/*@ logic integer stretch_start(integer bits, integer head, integer k) = k * bits < head ? 0 : k * bits - head;
  @ logic integer stretch_end(integer bits, integer head, integer count, integer k) =
  @   count < k * bits + bits - head ? count : k * bits + bits - head;
  @ logic integer mirrored(integer bits, integer head, integer count, integer j) =
  @   stretch_start(bits, head, (head + j) / bits) + stretch_end(bits, head, count, (head + j) / bits) - 1 - j;
  @ logic integer field_place(integer big, integer bits, integer order, integer head, integer count, integer j) =
  @   big != 0 ? count - 1 - (order == 0 ? mirrored(bits, head, count, j) : j)
  @   : (order == 0 ? j : mirrored(bits, head, count, j));
  @ logic integer stream_place(integer big, integer count, integer j) = big != 0 ? count - 1 - j : j;
  @ logic integer place_of(integer stream, integer big, integer bits, integer order, integer start, integer count, integer j) =
  @   stream != 0 ? stream_place(big, count, j) : field_place(big, bits, order, start % bits, count, j);
  @*/

/* bitvec_stream, specs/Golomb.antt: how many digits a number has, and the number whose code that of a signed one is. */
/*@ axiomatic Digits {
  @   logic integer digit_count(integer n);
  @   axiom digits_none: digit_count(0) == 0;
  @   axiom digits_more: \forall integer n; 0 < n ==> digit_count(n) == digit_count(n / 2) + 1;
  @ }
  @ logic integer code_length(integer n) = 2 * digit_count(n + 1) - 1;
  @ logic integer signed_place(integer z) = 0 < z ? 2 * z - 1 : -2 * z;
  @*/

/* specs/RunStatus.antt: the tests of a run's spans, of which `number` is what their number ends in, and an order in which they
 * start. */
/*@ predicate short_spans{L}(struct bitvec_span *spans, integer count) =
  @   \forall integer k; 0 <= k < count ==> spans[k].count <= 2305843009213693951;
  @ predicate inside_spans{L}(integer bits, integer words, struct bitvec_span *spans, integer count) =
  @   \forall integer k; 0 <= k < count ==> spans[k].start + spans[k].count <= words * bits;
  @ predicate apart_spans{L}(struct bitvec_span *spans, integer count) =
  @   \forall integer j, k; 0 <= j < k < count && 0 < spans[j].count && 0 < spans[k].count ==>
  @   spans[j].start + spans[j].count <= spans[k].start || spans[k].start + spans[k].count <= spans[j].start;
  @ predicate is_spans_status{L}(integer status, integer bits, integer order, integer number, struct bitvec_span *spans,
  @   integer count, integer words) =
  @   (order > 1 ==> status == BITVEC_NO_ORDER) &&
  @   (order <= 1 && number != BITVEC_OK ==> status == number) &&
  @   (order <= 1 && number == BITVEC_OK && !short_spans(spans, count) ==> status == BITVEC_TOO_LONG) &&
  @   (order <= 1 && number == BITVEC_OK && short_spans(spans, count) && !inside_spans(bits, words, spans, count) ==>
  @     status == BITVEC_OUTSIDE) &&
  @   (order <= 1 && number == BITVEC_OK && short_spans(spans, count) && inside_spans(bits, words, spans, count) ==>
  @     (!apart_spans(spans, count) ==> status == BITVEC_OVERLAP) && (apart_spans(spans, count) ==> status == BITVEC_OK));
  @ predicate rising{K, L}(struct bitvec_span *spans, integer count, size_t *room) =
  @   (\forall integer k; 0 <= k < count ==> \at(room[k], L) < count) &&
  @   (\forall integer j, k; 0 <= j < k < count ==> \at(room[j], L) != \at(room[k], L) &&
  @     \at(spans[\at(room[j], L)].start, K) <= \at(spans[\at(room[k], L)].start, K));
  @*/

/* The bit of a place in a memory of words of 8 bits. With BITVEC_DIGITS an axiom says which digit of the word it is, for a
 * caller that mixes calls with masks of its own. */
/*@ axiomatic Bits_u8 {
  @   predicate bit_u8{L}(integer order, uint8_t *memory, integer place) reads memory[place / 8];
  @   axiom word_u8{K, L}: \forall integer order, uint8_t *memory, integer place;
  @     \at(memory[place / 8], K) == \at(memory[place / 8], L) ==>
  @     (bit_u8{K}(order, memory, place) <==> bit_u8{L}(order, memory, place));
  @ }
  @*/
#ifdef BITVEC_DIGITS
/*@ axiomatic Digits_u8 {
  @   axiom digit_u8{L}: \forall integer order, uint8_t *memory, integer place; 0 <= place ==>
  @     (bit_u8{L}(order, memory, place) <==>
  @     digit_of(memory[place / 8], order == 0 ? place % 8 : 8 - 1 - place % 8));
  @ }
  @*/
#endif

/* Every bit of a memory beside a range is as before, or every word. */
/*@ predicate others_u8{K, L}(integer order, uint8_t *memory, integer words, integer start, integer count) =
  @   \forall integer p; 0 <= p < words * 8 ==> (p < start || start + count <= p) ==>
  @   (bit_u8{L}(order, memory, p) <==> bit_u8{K}(order, memory, p));
  @ predicate kept_u8{K, L}(uint8_t *memory, integer words) =
  @   \forall integer k; 0 <= k < words ==> \at(memory[k], L) == \at(memory[k], K);
  @*/

/* From an index of a range of `count` bits on, so many bits are in the range and zero. */
/*@ predicate free_u8{L}(integer order, uint8_t *memory, integer start, integer count, integer index, integer zeros) =
  @   index + zeros <= count &&
  @   (\forall integer p; start + index <= p < start + index + zeros ==> !bit_u8{L}(order, memory, p));
  @*/

/* How many bits of a range are one, and how many of two ranges in both. The last two lines follow from the first two, by
 * induction. */
/*@ axiomatic Ones_u8 {
  @   logic integer ones_u8{L}(integer order, uint8_t *memory, integer start, integer count)
  @     reads memory[start / 8 .. (start + count - 1) / 8];
  @   axiom none_u8{L}: \forall integer order, uint8_t *memory, integer start, integer count;
  @     count <= 0 ==> ones_u8{L}(order, memory, start, count) == 0;
  @   axiom more_u8{L}: \forall integer order, uint8_t *memory, integer start, integer count;
  @     0 < count ==>
  @     (bit_u8{L}(order, memory, start + count - 1) ==>
  @     ones_u8{L}(order, memory, start, count) == ones_u8{L}(order, memory, start, count - 1) + 1) &&
  @     (!bit_u8{L}(order, memory, start + count - 1) ==>
  @     ones_u8{L}(order, memory, start, count) == ones_u8{L}(order, memory, start, count - 1));
  @   axiom most_u8{L}: \forall integer order, uint8_t *memory, integer start, integer count;
  @     0 <= count ==> 0 <= ones_u8{L}(order, memory, start, count) <= count;
  @   logic integer pairs_u8{L}(integer order, uint8_t *memory, integer start, integer other_order, uint8_t *other,
  @     integer other_start, integer count)
  @     reads memory[start / 8 .. (start + count - 1) / 8], other[other_start / 8 .. (other_start + count - 1) / 8];
  @   axiom no_pairs_u8{L}: \forall integer order, uint8_t *memory, integer start, integer other_order, uint8_t *other,
  @     integer other_start, integer count;
  @     count <= 0 ==> pairs_u8{L}(order, memory, start, other_order, other, other_start, count) == 0;
  @   axiom more_pairs_u8{L}: \forall integer order, uint8_t *memory, integer start, integer other_order, uint8_t *other,
  @     integer other_start, integer count;
  @     0 < count ==>
  @     ((bit_u8{L}(order, memory, start + count - 1) && bit_u8{L}(other_order, other, other_start + count - 1)) ==>
  @     pairs_u8{L}(order, memory, start, other_order, other, other_start, count)
  @     == pairs_u8{L}(order, memory, start, other_order, other, other_start, count - 1) + 1) &&
  @     (!(bit_u8{L}(order, memory, start + count - 1) && bit_u8{L}(other_order, other, other_start + count - 1)) ==>
  @     pairs_u8{L}(order, memory, start, other_order, other, other_start, count)
  @     == pairs_u8{L}(order, memory, start, other_order, other, other_start, count - 1));
  @ }
  @*/

/* The number that the first n bits of a range of `count` are digits of, and what it is where the bits of a range are the
 * digits of one that is given. The last two axioms follow from the first two, by induction. */
/*@ predicate holds_u8{L}(integer stream, integer big, integer order, uint8_t *memory, integer start, integer count,
  @   integer number) = \forall integer p; start <= p < start + count ==>
  @   (bit_u8{L}(order, memory, p) <==> digit_of(number, place_of(stream, big, 8, order, start, count, p - start)));
  @ axiomatic Numbers_u8 {
  @   logic integer number_u8{L}(integer stream, integer big, integer order, uint8_t *memory, integer start, integer count,
  @     integer n) reads memory[start / 8 .. (start + n - 1) / 8];
  @   axiom number_none_u8{L}: \forall integer stream, big, order, uint8_t *memory, integer start, count, n;
  @     n <= 0 ==> number_u8{L}(stream, big, order, memory, start, count, n) == 0;
  @   axiom number_more_u8{L}: \forall integer stream, big, order, uint8_t *memory, integer start, count, n;
  @     0 < n ==>
  @     (bit_u8{L}(order, memory, start + n - 1) ==> number_u8{L}(stream, big, order, memory, start, count, n)
  @     == number_u8{L}(stream, big, order, memory, start, count, n - 1)
  @     + power_of_two(place_of(stream, big, 8, order, start, count, n - 1))) &&
  @     (!bit_u8{L}(order, memory, start + n - 1) ==> number_u8{L}(stream, big, order, memory, start, count, n)
  @     == number_u8{L}(stream, big, order, memory, start, count, n - 1));
  @   axiom number_below_u8{L}: \forall integer stream, big, order, uint8_t *memory, integer start, count;
  @     0 <= start && 0 <= count ==>
  @     0 <= number_u8{L}(stream, big, order, memory, start, count, count) < power_of_two(count);
  @   axiom number_held_u8{L}: \forall integer stream, big, order, uint8_t *memory, integer start, count, number;
  @     0 <= start && 0 <= count && 0 <= number < power_of_two(count) &&
  @     holds_u8{L}(stream, big, order, memory, start, count, number) ==>
  @     number_u8{L}(stream, big, order, memory, start, count, count) == number;
  @ }
  @*/

/* At a place of a stream with so many bits left, the code of a number begins. */
/*@ predicate code_u8{L}(integer order, uint8_t *memory, integer place, integer left, integer n) =
  @   code_length(n) <= left &&
  @   (\forall integer p; place <= p < place + digit_count(n + 1) - 1 ==> !bit_u8{L}(order, memory, p)) &&
  @   (\forall integer p; place + digit_count(n + 1) - 1 <= p < place + code_length(n) ==>
  @   (bit_u8{L}(order, memory, p) <==> digit_of(n + 1, place + code_length(n) - 1 - p)));
  @ predicate coded_u8{L}(integer order, uint8_t *memory, integer place, integer left) =
  @   \exists integer n; 0 <= n && code_u8{L}(order, memory, place, left, n);
  @ predicate short_code_u8{L}(integer order, uint8_t *memory, integer place, integer left) =
  @   \exists integer n; 0 <= n < 18446744073709551616 && code_u8{L}(order, memory, place, left, n);
  @ predicate signed_code_u8{L}(integer order, uint8_t *memory, integer place, integer left) =
  @   \exists integer z; fits_signed(64, z) && code_u8{L}(order, memory, place, left, signed_place(z));
  @*/

/* The bit of a place in a memory of words of 16 bits. With BITVEC_DIGITS an axiom says which digit of the word it is, for a
 * caller that mixes calls with masks of its own. */
/*@ axiomatic Bits_u16 {
  @   predicate bit_u16{L}(integer order, uint16_t *memory, integer place) reads memory[place / 16];
  @   axiom word_u16{K, L}: \forall integer order, uint16_t *memory, integer place;
  @     \at(memory[place / 16], K) == \at(memory[place / 16], L) ==>
  @     (bit_u16{K}(order, memory, place) <==> bit_u16{L}(order, memory, place));
  @ }
  @*/
#ifdef BITVEC_DIGITS
/*@ axiomatic Digits_u16 {
  @   axiom digit_u16{L}: \forall integer order, uint16_t *memory, integer place; 0 <= place ==>
  @     (bit_u16{L}(order, memory, place) <==>
  @     digit_of(memory[place / 16], order == 0 ? place % 16 : 16 - 1 - place % 16));
  @ }
  @*/
#endif

/* Every bit of a memory beside a range is as before, or every word. */
/*@ predicate others_u16{K, L}(integer order, uint16_t *memory, integer words, integer start, integer count) =
  @   \forall integer p; 0 <= p < words * 16 ==> (p < start || start + count <= p) ==>
  @   (bit_u16{L}(order, memory, p) <==> bit_u16{K}(order, memory, p));
  @ predicate kept_u16{K, L}(uint16_t *memory, integer words) =
  @   \forall integer k; 0 <= k < words ==> \at(memory[k], L) == \at(memory[k], K);
  @*/

/* From an index of a range of `count` bits on, so many bits are in the range and zero. */
/*@ predicate free_u16{L}(integer order, uint16_t *memory, integer start, integer count, integer index, integer zeros) =
  @   index + zeros <= count &&
  @   (\forall integer p; start + index <= p < start + index + zeros ==> !bit_u16{L}(order, memory, p));
  @*/

/* How many bits of a range are one, and how many of two ranges in both. The last two lines follow from the first two, by
 * induction. */
/*@ axiomatic Ones_u16 {
  @   logic integer ones_u16{L}(integer order, uint16_t *memory, integer start, integer count)
  @     reads memory[start / 16 .. (start + count - 1) / 16];
  @   axiom none_u16{L}: \forall integer order, uint16_t *memory, integer start, integer count;
  @     count <= 0 ==> ones_u16{L}(order, memory, start, count) == 0;
  @   axiom more_u16{L}: \forall integer order, uint16_t *memory, integer start, integer count;
  @     0 < count ==>
  @     (bit_u16{L}(order, memory, start + count - 1) ==>
  @     ones_u16{L}(order, memory, start, count) == ones_u16{L}(order, memory, start, count - 1) + 1) &&
  @     (!bit_u16{L}(order, memory, start + count - 1) ==>
  @     ones_u16{L}(order, memory, start, count) == ones_u16{L}(order, memory, start, count - 1));
  @   axiom most_u16{L}: \forall integer order, uint16_t *memory, integer start, integer count;
  @     0 <= count ==> 0 <= ones_u16{L}(order, memory, start, count) <= count;
  @   logic integer pairs_u16{L}(integer order, uint16_t *memory, integer start, integer other_order, uint16_t *other,
  @     integer other_start, integer count)
  @     reads memory[start / 16 .. (start + count - 1) / 16], other[other_start / 16 .. (other_start + count - 1) / 16];
  @   axiom no_pairs_u16{L}: \forall integer order, uint16_t *memory, integer start, integer other_order, uint16_t *other,
  @     integer other_start, integer count;
  @     count <= 0 ==> pairs_u16{L}(order, memory, start, other_order, other, other_start, count) == 0;
  @   axiom more_pairs_u16{L}: \forall integer order, uint16_t *memory, integer start, integer other_order, uint16_t *other,
  @     integer other_start, integer count;
  @     0 < count ==>
  @     ((bit_u16{L}(order, memory, start + count - 1) && bit_u16{L}(other_order, other, other_start + count - 1)) ==>
  @     pairs_u16{L}(order, memory, start, other_order, other, other_start, count)
  @     == pairs_u16{L}(order, memory, start, other_order, other, other_start, count - 1) + 1) &&
  @     (!(bit_u16{L}(order, memory, start + count - 1) && bit_u16{L}(other_order, other, other_start + count - 1)) ==>
  @     pairs_u16{L}(order, memory, start, other_order, other, other_start, count)
  @     == pairs_u16{L}(order, memory, start, other_order, other, other_start, count - 1));
  @ }
  @*/

/* The number that the first n bits of a range of `count` are digits of, and what it is where the bits of a range are the
 * digits of one that is given. The last two axioms follow from the first two, by induction. */
/*@ predicate holds_u16{L}(integer stream, integer big, integer order, uint16_t *memory, integer start, integer count,
  @   integer number) = \forall integer p; start <= p < start + count ==>
  @   (bit_u16{L}(order, memory, p) <==> digit_of(number, place_of(stream, big, 16, order, start, count, p - start)));
  @ axiomatic Numbers_u16 {
  @   logic integer number_u16{L}(integer stream, integer big, integer order, uint16_t *memory, integer start, integer count,
  @     integer n) reads memory[start / 16 .. (start + n - 1) / 16];
  @   axiom number_none_u16{L}: \forall integer stream, big, order, uint16_t *memory, integer start, count, n;
  @     n <= 0 ==> number_u16{L}(stream, big, order, memory, start, count, n) == 0;
  @   axiom number_more_u16{L}: \forall integer stream, big, order, uint16_t *memory, integer start, count, n;
  @     0 < n ==>
  @     (bit_u16{L}(order, memory, start + n - 1) ==> number_u16{L}(stream, big, order, memory, start, count, n)
  @     == number_u16{L}(stream, big, order, memory, start, count, n - 1)
  @     + power_of_two(place_of(stream, big, 16, order, start, count, n - 1))) &&
  @     (!bit_u16{L}(order, memory, start + n - 1) ==> number_u16{L}(stream, big, order, memory, start, count, n)
  @     == number_u16{L}(stream, big, order, memory, start, count, n - 1));
  @   axiom number_below_u16{L}: \forall integer stream, big, order, uint16_t *memory, integer start, count;
  @     0 <= start && 0 <= count ==>
  @     0 <= number_u16{L}(stream, big, order, memory, start, count, count) < power_of_two(count);
  @   axiom number_held_u16{L}: \forall integer stream, big, order, uint16_t *memory, integer start, count, number;
  @     0 <= start && 0 <= count && 0 <= number < power_of_two(count) &&
  @     holds_u16{L}(stream, big, order, memory, start, count, number) ==>
  @     number_u16{L}(stream, big, order, memory, start, count, count) == number;
  @ }
  @*/

/* At a place of a stream with so many bits left, the code of a number begins. */
/*@ predicate code_u16{L}(integer order, uint16_t *memory, integer place, integer left, integer n) =
  @   code_length(n) <= left &&
  @   (\forall integer p; place <= p < place + digit_count(n + 1) - 1 ==> !bit_u16{L}(order, memory, p)) &&
  @   (\forall integer p; place + digit_count(n + 1) - 1 <= p < place + code_length(n) ==>
  @   (bit_u16{L}(order, memory, p) <==> digit_of(n + 1, place + code_length(n) - 1 - p)));
  @ predicate coded_u16{L}(integer order, uint16_t *memory, integer place, integer left) =
  @   \exists integer n; 0 <= n && code_u16{L}(order, memory, place, left, n);
  @ predicate short_code_u16{L}(integer order, uint16_t *memory, integer place, integer left) =
  @   \exists integer n; 0 <= n < 18446744073709551616 && code_u16{L}(order, memory, place, left, n);
  @ predicate signed_code_u16{L}(integer order, uint16_t *memory, integer place, integer left) =
  @   \exists integer z; fits_signed(64, z) && code_u16{L}(order, memory, place, left, signed_place(z));
  @*/

/* The bit of a place in a memory of words of 32 bits. With BITVEC_DIGITS an axiom says which digit of the word it is, for a
 * caller that mixes calls with masks of its own. */
/*@ axiomatic Bits_u32 {
  @   predicate bit_u32{L}(integer order, uint32_t *memory, integer place) reads memory[place / 32];
  @   axiom word_u32{K, L}: \forall integer order, uint32_t *memory, integer place;
  @     \at(memory[place / 32], K) == \at(memory[place / 32], L) ==>
  @     (bit_u32{K}(order, memory, place) <==> bit_u32{L}(order, memory, place));
  @ }
  @*/
#ifdef BITVEC_DIGITS
/*@ axiomatic Digits_u32 {
  @   axiom digit_u32{L}: \forall integer order, uint32_t *memory, integer place; 0 <= place ==>
  @     (bit_u32{L}(order, memory, place) <==>
  @     digit_of(memory[place / 32], order == 0 ? place % 32 : 32 - 1 - place % 32));
  @ }
  @*/
#endif

/* Every bit of a memory beside a range is as before, or every word. */
/*@ predicate others_u32{K, L}(integer order, uint32_t *memory, integer words, integer start, integer count) =
  @   \forall integer p; 0 <= p < words * 32 ==> (p < start || start + count <= p) ==>
  @   (bit_u32{L}(order, memory, p) <==> bit_u32{K}(order, memory, p));
  @ predicate kept_u32{K, L}(uint32_t *memory, integer words) =
  @   \forall integer k; 0 <= k < words ==> \at(memory[k], L) == \at(memory[k], K);
  @*/

/* From an index of a range of `count` bits on, so many bits are in the range and zero. */
/*@ predicate free_u32{L}(integer order, uint32_t *memory, integer start, integer count, integer index, integer zeros) =
  @   index + zeros <= count &&
  @   (\forall integer p; start + index <= p < start + index + zeros ==> !bit_u32{L}(order, memory, p));
  @*/

/* How many bits of a range are one, and how many of two ranges in both. The last two lines follow from the first two, by
 * induction. */
/*@ axiomatic Ones_u32 {
  @   logic integer ones_u32{L}(integer order, uint32_t *memory, integer start, integer count)
  @     reads memory[start / 32 .. (start + count - 1) / 32];
  @   axiom none_u32{L}: \forall integer order, uint32_t *memory, integer start, integer count;
  @     count <= 0 ==> ones_u32{L}(order, memory, start, count) == 0;
  @   axiom more_u32{L}: \forall integer order, uint32_t *memory, integer start, integer count;
  @     0 < count ==>
  @     (bit_u32{L}(order, memory, start + count - 1) ==>
  @     ones_u32{L}(order, memory, start, count) == ones_u32{L}(order, memory, start, count - 1) + 1) &&
  @     (!bit_u32{L}(order, memory, start + count - 1) ==>
  @     ones_u32{L}(order, memory, start, count) == ones_u32{L}(order, memory, start, count - 1));
  @   axiom most_u32{L}: \forall integer order, uint32_t *memory, integer start, integer count;
  @     0 <= count ==> 0 <= ones_u32{L}(order, memory, start, count) <= count;
  @   logic integer pairs_u32{L}(integer order, uint32_t *memory, integer start, integer other_order, uint32_t *other,
  @     integer other_start, integer count)
  @     reads memory[start / 32 .. (start + count - 1) / 32], other[other_start / 32 .. (other_start + count - 1) / 32];
  @   axiom no_pairs_u32{L}: \forall integer order, uint32_t *memory, integer start, integer other_order, uint32_t *other,
  @     integer other_start, integer count;
  @     count <= 0 ==> pairs_u32{L}(order, memory, start, other_order, other, other_start, count) == 0;
  @   axiom more_pairs_u32{L}: \forall integer order, uint32_t *memory, integer start, integer other_order, uint32_t *other,
  @     integer other_start, integer count;
  @     0 < count ==>
  @     ((bit_u32{L}(order, memory, start + count - 1) && bit_u32{L}(other_order, other, other_start + count - 1)) ==>
  @     pairs_u32{L}(order, memory, start, other_order, other, other_start, count)
  @     == pairs_u32{L}(order, memory, start, other_order, other, other_start, count - 1) + 1) &&
  @     (!(bit_u32{L}(order, memory, start + count - 1) && bit_u32{L}(other_order, other, other_start + count - 1)) ==>
  @     pairs_u32{L}(order, memory, start, other_order, other, other_start, count)
  @     == pairs_u32{L}(order, memory, start, other_order, other, other_start, count - 1));
  @ }
  @*/

/* The number that the first n bits of a range of `count` are digits of, and what it is where the bits of a range are the
 * digits of one that is given. The last two axioms follow from the first two, by induction. */
/*@ predicate holds_u32{L}(integer stream, integer big, integer order, uint32_t *memory, integer start, integer count,
  @   integer number) = \forall integer p; start <= p < start + count ==>
  @   (bit_u32{L}(order, memory, p) <==> digit_of(number, place_of(stream, big, 32, order, start, count, p - start)));
  @ axiomatic Numbers_u32 {
  @   logic integer number_u32{L}(integer stream, integer big, integer order, uint32_t *memory, integer start, integer count,
  @     integer n) reads memory[start / 32 .. (start + n - 1) / 32];
  @   axiom number_none_u32{L}: \forall integer stream, big, order, uint32_t *memory, integer start, count, n;
  @     n <= 0 ==> number_u32{L}(stream, big, order, memory, start, count, n) == 0;
  @   axiom number_more_u32{L}: \forall integer stream, big, order, uint32_t *memory, integer start, count, n;
  @     0 < n ==>
  @     (bit_u32{L}(order, memory, start + n - 1) ==> number_u32{L}(stream, big, order, memory, start, count, n)
  @     == number_u32{L}(stream, big, order, memory, start, count, n - 1)
  @     + power_of_two(place_of(stream, big, 32, order, start, count, n - 1))) &&
  @     (!bit_u32{L}(order, memory, start + n - 1) ==> number_u32{L}(stream, big, order, memory, start, count, n)
  @     == number_u32{L}(stream, big, order, memory, start, count, n - 1));
  @   axiom number_below_u32{L}: \forall integer stream, big, order, uint32_t *memory, integer start, count;
  @     0 <= start && 0 <= count ==>
  @     0 <= number_u32{L}(stream, big, order, memory, start, count, count) < power_of_two(count);
  @   axiom number_held_u32{L}: \forall integer stream, big, order, uint32_t *memory, integer start, count, number;
  @     0 <= start && 0 <= count && 0 <= number < power_of_two(count) &&
  @     holds_u32{L}(stream, big, order, memory, start, count, number) ==>
  @     number_u32{L}(stream, big, order, memory, start, count, count) == number;
  @ }
  @*/

/* At a place of a stream with so many bits left, the code of a number begins. */
/*@ predicate code_u32{L}(integer order, uint32_t *memory, integer place, integer left, integer n) =
  @   code_length(n) <= left &&
  @   (\forall integer p; place <= p < place + digit_count(n + 1) - 1 ==> !bit_u32{L}(order, memory, p)) &&
  @   (\forall integer p; place + digit_count(n + 1) - 1 <= p < place + code_length(n) ==>
  @   (bit_u32{L}(order, memory, p) <==> digit_of(n + 1, place + code_length(n) - 1 - p)));
  @ predicate coded_u32{L}(integer order, uint32_t *memory, integer place, integer left) =
  @   \exists integer n; 0 <= n && code_u32{L}(order, memory, place, left, n);
  @ predicate short_code_u32{L}(integer order, uint32_t *memory, integer place, integer left) =
  @   \exists integer n; 0 <= n < 18446744073709551616 && code_u32{L}(order, memory, place, left, n);
  @ predicate signed_code_u32{L}(integer order, uint32_t *memory, integer place, integer left) =
  @   \exists integer z; fits_signed(64, z) && code_u32{L}(order, memory, place, left, signed_place(z));
  @*/

/* The bit of a place in a memory of words of 64 bits. With BITVEC_DIGITS an axiom says which digit of the word it is, for a
 * caller that mixes calls with masks of its own. */
/*@ axiomatic Bits_u64 {
  @   predicate bit_u64{L}(integer order, uint64_t *memory, integer place) reads memory[place / 64];
  @   axiom word_u64{K, L}: \forall integer order, uint64_t *memory, integer place;
  @     \at(memory[place / 64], K) == \at(memory[place / 64], L) ==>
  @     (bit_u64{K}(order, memory, place) <==> bit_u64{L}(order, memory, place));
  @ }
  @*/
#ifdef BITVEC_DIGITS
/*@ axiomatic Digits_u64 {
  @   axiom digit_u64{L}: \forall integer order, uint64_t *memory, integer place; 0 <= place ==>
  @     (bit_u64{L}(order, memory, place) <==>
  @     digit_of(memory[place / 64], order == 0 ? place % 64 : 64 - 1 - place % 64));
  @ }
  @*/
#endif

/* Every bit of a memory beside a range is as before, or every word. */
/*@ predicate others_u64{K, L}(integer order, uint64_t *memory, integer words, integer start, integer count) =
  @   \forall integer p; 0 <= p < words * 64 ==> (p < start || start + count <= p) ==>
  @   (bit_u64{L}(order, memory, p) <==> bit_u64{K}(order, memory, p));
  @ predicate kept_u64{K, L}(uint64_t *memory, integer words) =
  @   \forall integer k; 0 <= k < words ==> \at(memory[k], L) == \at(memory[k], K);
  @*/

/* From an index of a range of `count` bits on, so many bits are in the range and zero. */
/*@ predicate free_u64{L}(integer order, uint64_t *memory, integer start, integer count, integer index, integer zeros) =
  @   index + zeros <= count &&
  @   (\forall integer p; start + index <= p < start + index + zeros ==> !bit_u64{L}(order, memory, p));
  @*/

/* How many bits of a range are one, and how many of two ranges in both. The last two lines follow from the first two, by
 * induction. */
/*@ axiomatic Ones_u64 {
  @   logic integer ones_u64{L}(integer order, uint64_t *memory, integer start, integer count)
  @     reads memory[start / 64 .. (start + count - 1) / 64];
  @   axiom none_u64{L}: \forall integer order, uint64_t *memory, integer start, integer count;
  @     count <= 0 ==> ones_u64{L}(order, memory, start, count) == 0;
  @   axiom more_u64{L}: \forall integer order, uint64_t *memory, integer start, integer count;
  @     0 < count ==>
  @     (bit_u64{L}(order, memory, start + count - 1) ==>
  @     ones_u64{L}(order, memory, start, count) == ones_u64{L}(order, memory, start, count - 1) + 1) &&
  @     (!bit_u64{L}(order, memory, start + count - 1) ==>
  @     ones_u64{L}(order, memory, start, count) == ones_u64{L}(order, memory, start, count - 1));
  @   axiom most_u64{L}: \forall integer order, uint64_t *memory, integer start, integer count;
  @     0 <= count ==> 0 <= ones_u64{L}(order, memory, start, count) <= count;
  @   logic integer pairs_u64{L}(integer order, uint64_t *memory, integer start, integer other_order, uint64_t *other,
  @     integer other_start, integer count)
  @     reads memory[start / 64 .. (start + count - 1) / 64], other[other_start / 64 .. (other_start + count - 1) / 64];
  @   axiom no_pairs_u64{L}: \forall integer order, uint64_t *memory, integer start, integer other_order, uint64_t *other,
  @     integer other_start, integer count;
  @     count <= 0 ==> pairs_u64{L}(order, memory, start, other_order, other, other_start, count) == 0;
  @   axiom more_pairs_u64{L}: \forall integer order, uint64_t *memory, integer start, integer other_order, uint64_t *other,
  @     integer other_start, integer count;
  @     0 < count ==>
  @     ((bit_u64{L}(order, memory, start + count - 1) && bit_u64{L}(other_order, other, other_start + count - 1)) ==>
  @     pairs_u64{L}(order, memory, start, other_order, other, other_start, count)
  @     == pairs_u64{L}(order, memory, start, other_order, other, other_start, count - 1) + 1) &&
  @     (!(bit_u64{L}(order, memory, start + count - 1) && bit_u64{L}(other_order, other, other_start + count - 1)) ==>
  @     pairs_u64{L}(order, memory, start, other_order, other, other_start, count)
  @     == pairs_u64{L}(order, memory, start, other_order, other, other_start, count - 1));
  @ }
  @*/

/* The number that the first n bits of a range of `count` are digits of, and what it is where the bits of a range are the
 * digits of one that is given. The last two axioms follow from the first two, by induction. */
/*@ predicate holds_u64{L}(integer stream, integer big, integer order, uint64_t *memory, integer start, integer count,
  @   integer number) = \forall integer p; start <= p < start + count ==>
  @   (bit_u64{L}(order, memory, p) <==> digit_of(number, place_of(stream, big, 64, order, start, count, p - start)));
  @ axiomatic Numbers_u64 {
  @   logic integer number_u64{L}(integer stream, integer big, integer order, uint64_t *memory, integer start, integer count,
  @     integer n) reads memory[start / 64 .. (start + n - 1) / 64];
  @   axiom number_none_u64{L}: \forall integer stream, big, order, uint64_t *memory, integer start, count, n;
  @     n <= 0 ==> number_u64{L}(stream, big, order, memory, start, count, n) == 0;
  @   axiom number_more_u64{L}: \forall integer stream, big, order, uint64_t *memory, integer start, count, n;
  @     0 < n ==>
  @     (bit_u64{L}(order, memory, start + n - 1) ==> number_u64{L}(stream, big, order, memory, start, count, n)
  @     == number_u64{L}(stream, big, order, memory, start, count, n - 1)
  @     + power_of_two(place_of(stream, big, 64, order, start, count, n - 1))) &&
  @     (!bit_u64{L}(order, memory, start + n - 1) ==> number_u64{L}(stream, big, order, memory, start, count, n)
  @     == number_u64{L}(stream, big, order, memory, start, count, n - 1));
  @   axiom number_below_u64{L}: \forall integer stream, big, order, uint64_t *memory, integer start, count;
  @     0 <= start && 0 <= count ==>
  @     0 <= number_u64{L}(stream, big, order, memory, start, count, count) < power_of_two(count);
  @   axiom number_held_u64{L}: \forall integer stream, big, order, uint64_t *memory, integer start, count, number;
  @     0 <= start && 0 <= count && 0 <= number < power_of_two(count) &&
  @     holds_u64{L}(stream, big, order, memory, start, count, number) ==>
  @     number_u64{L}(stream, big, order, memory, start, count, count) == number;
  @ }
  @*/

/* At a place of a stream with so many bits left, the code of a number begins. */
/*@ predicate code_u64{L}(integer order, uint64_t *memory, integer place, integer left, integer n) =
  @   code_length(n) <= left &&
  @   (\forall integer p; place <= p < place + digit_count(n + 1) - 1 ==> !bit_u64{L}(order, memory, p)) &&
  @   (\forall integer p; place + digit_count(n + 1) - 1 <= p < place + code_length(n) ==>
  @   (bit_u64{L}(order, memory, p) <==> digit_of(n + 1, place + code_length(n) - 1 - p)));
  @ predicate coded_u64{L}(integer order, uint64_t *memory, integer place, integer left) =
  @   \exists integer n; 0 <= n && code_u64{L}(order, memory, place, left, n);
  @ predicate short_code_u64{L}(integer order, uint64_t *memory, integer place, integer left) =
  @   \exists integer n; 0 <= n < 18446744073709551616 && code_u64{L}(order, memory, place, left, n);
  @ predicate signed_code_u64{L}(integer order, uint64_t *memory, integer place, integer left) =
  @   \exists integer z; fits_signed(64, z) && code_u64{L}(order, memory, place, left, signed_place(z));
  @*/

/*@ assigns \nothing;
  @ ensures status: \result == BITVEC_VERSION;
  @*/
uint32_t bitvec_c_version(
    void);

/*@ requires \valid_read(memory + (0 .. words - 1));
  @ requires \valid(bit);
  @ requires \separated(memory + (0 .. words - 1), bit);
  @ assigns *bit;
  @ ensures status: \result == range_status(8, order, words, place, 1);
  @ ensures answer: \result == BITVEC_OK ==> (*bit <==> bit_u8{Pre}(order, memory, place));
  @ ensures refused: \result != BITVEC_OK ==> *bit == \old(*bit);
  @*/
uint8_t bitvec_c_get_u8(
    uint8_t order, const uint8_t *memory, size_t words, size_t place, bool *bit);

/*@ requires \valid_read(memory + (0 .. words - 1));
  @ requires \valid(bit);
  @ requires \separated(memory + (0 .. words - 1), bit);
  @ assigns *bit;
  @ ensures status: \result == range_status(16, order, words, place, 1);
  @ ensures answer: \result == BITVEC_OK ==> (*bit <==> bit_u16{Pre}(order, memory, place));
  @ ensures refused: \result != BITVEC_OK ==> *bit == \old(*bit);
  @*/
uint8_t bitvec_c_get_u16(
    uint8_t order, const uint16_t *memory, size_t words, size_t place, bool *bit);

/*@ requires \valid_read(memory + (0 .. words - 1));
  @ requires \valid(bit);
  @ requires \separated(memory + (0 .. words - 1), bit);
  @ assigns *bit;
  @ ensures status: \result == range_status(32, order, words, place, 1);
  @ ensures answer: \result == BITVEC_OK ==> (*bit <==> bit_u32{Pre}(order, memory, place));
  @ ensures refused: \result != BITVEC_OK ==> *bit == \old(*bit);
  @*/
uint8_t bitvec_c_get_u32(
    uint8_t order, const uint32_t *memory, size_t words, size_t place, bool *bit);

/*@ requires \valid_read(memory + (0 .. words - 1));
  @ requires \valid(bit);
  @ requires \separated(memory + (0 .. words - 1), bit);
  @ assigns *bit;
  @ ensures status: \result == range_status(64, order, words, place, 1);
  @ ensures answer: \result == BITVEC_OK ==> (*bit <==> bit_u64{Pre}(order, memory, place));
  @ ensures refused: \result != BITVEC_OK ==> *bit == \old(*bit);
  @*/
uint8_t bitvec_c_get_u64(
    uint8_t order, const uint64_t *memory, size_t words, size_t place, bool *bit);

/*@ requires \valid(memory + (0 .. words - 1));
  @ assigns memory[0 .. words - 1];
  @ ensures status: \result == range_status(8, order, words, place, 1);
  @ ensures written: \result == BITVEC_OK ==> (bit_u8{Post}(order, memory, place) <==> bit);
  @ ensures others: \result == BITVEC_OK ==> others_u8{Pre, Post}(order, memory, words, place, 1);
  @ ensures refused: \result != BITVEC_OK ==> kept_u8{Pre, Post}(memory, words);
  @*/
uint8_t bitvec_c_set_u8(
    uint8_t order, uint8_t *memory, size_t words, size_t place, bool bit);

/*@ requires \valid(memory + (0 .. words - 1));
  @ assigns memory[0 .. words - 1];
  @ ensures status: \result == range_status(16, order, words, place, 1);
  @ ensures written: \result == BITVEC_OK ==> (bit_u16{Post}(order, memory, place) <==> bit);
  @ ensures others: \result == BITVEC_OK ==> others_u16{Pre, Post}(order, memory, words, place, 1);
  @ ensures refused: \result != BITVEC_OK ==> kept_u16{Pre, Post}(memory, words);
  @*/
uint8_t bitvec_c_set_u16(
    uint8_t order, uint16_t *memory, size_t words, size_t place, bool bit);

/*@ requires \valid(memory + (0 .. words - 1));
  @ assigns memory[0 .. words - 1];
  @ ensures status: \result == range_status(32, order, words, place, 1);
  @ ensures written: \result == BITVEC_OK ==> (bit_u32{Post}(order, memory, place) <==> bit);
  @ ensures others: \result == BITVEC_OK ==> others_u32{Pre, Post}(order, memory, words, place, 1);
  @ ensures refused: \result != BITVEC_OK ==> kept_u32{Pre, Post}(memory, words);
  @*/
uint8_t bitvec_c_set_u32(
    uint8_t order, uint32_t *memory, size_t words, size_t place, bool bit);

/*@ requires \valid(memory + (0 .. words - 1));
  @ assigns memory[0 .. words - 1];
  @ ensures status: \result == range_status(64, order, words, place, 1);
  @ ensures written: \result == BITVEC_OK ==> (bit_u64{Post}(order, memory, place) <==> bit);
  @ ensures others: \result == BITVEC_OK ==> others_u64{Pre, Post}(order, memory, words, place, 1);
  @ ensures refused: \result != BITVEC_OK ==> kept_u64{Pre, Post}(memory, words);
  @*/
uint8_t bitvec_c_set_u64(
    uint8_t order, uint64_t *memory, size_t words, size_t place, bool bit);

/*@ requires \valid(memory + (0 .. words - 1));
  @ requires \valid(before);
  @ requires \separated(memory + (0 .. words - 1), before);
  @ assigns memory[0 .. words - 1], *before;
  @ ensures status: \result == range_status(8, order, words, place, 1);
  @ ensures answer: \result == BITVEC_OK ==> (*before <==> bit_u8{Pre}(order, memory, place));
  @ ensures written: \result == BITVEC_OK ==> (bit_u8{Post}(order, memory, place) <==> bit);
  @ ensures others: \result == BITVEC_OK ==> others_u8{Pre, Post}(order, memory, words, place, 1);
  @ ensures refused: \result != BITVEC_OK ==> kept_u8{Pre, Post}(memory, words) && *before ==
  @   \old(*before);
  @*/
uint8_t bitvec_c_replace_u8(
    uint8_t order, uint8_t *memory, size_t words, size_t place, bool bit, bool *before);

/*@ requires \valid(memory + (0 .. words - 1));
  @ requires \valid(before);
  @ requires \separated(memory + (0 .. words - 1), before);
  @ assigns memory[0 .. words - 1], *before;
  @ ensures status: \result == range_status(16, order, words, place, 1);
  @ ensures answer: \result == BITVEC_OK ==> (*before <==> bit_u16{Pre}(order, memory, place));
  @ ensures written: \result == BITVEC_OK ==> (bit_u16{Post}(order, memory, place) <==> bit);
  @ ensures others: \result == BITVEC_OK ==> others_u16{Pre, Post}(order, memory, words, place, 1);
  @ ensures refused: \result != BITVEC_OK ==> kept_u16{Pre, Post}(memory, words) && *before ==
  @   \old(*before);
  @*/
uint8_t bitvec_c_replace_u16(
    uint8_t order, uint16_t *memory, size_t words, size_t place, bool bit, bool *before);

/*@ requires \valid(memory + (0 .. words - 1));
  @ requires \valid(before);
  @ requires \separated(memory + (0 .. words - 1), before);
  @ assigns memory[0 .. words - 1], *before;
  @ ensures status: \result == range_status(32, order, words, place, 1);
  @ ensures answer: \result == BITVEC_OK ==> (*before <==> bit_u32{Pre}(order, memory, place));
  @ ensures written: \result == BITVEC_OK ==> (bit_u32{Post}(order, memory, place) <==> bit);
  @ ensures others: \result == BITVEC_OK ==> others_u32{Pre, Post}(order, memory, words, place, 1);
  @ ensures refused: \result != BITVEC_OK ==> kept_u32{Pre, Post}(memory, words) && *before ==
  @   \old(*before);
  @*/
uint8_t bitvec_c_replace_u32(
    uint8_t order, uint32_t *memory, size_t words, size_t place, bool bit, bool *before);

/*@ requires \valid(memory + (0 .. words - 1));
  @ requires \valid(before);
  @ requires \separated(memory + (0 .. words - 1), before);
  @ assigns memory[0 .. words - 1], *before;
  @ ensures status: \result == range_status(64, order, words, place, 1);
  @ ensures answer: \result == BITVEC_OK ==> (*before <==> bit_u64{Pre}(order, memory, place));
  @ ensures written: \result == BITVEC_OK ==> (bit_u64{Post}(order, memory, place) <==> bit);
  @ ensures others: \result == BITVEC_OK ==> others_u64{Pre, Post}(order, memory, words, place, 1);
  @ ensures refused: \result != BITVEC_OK ==> kept_u64{Pre, Post}(memory, words) && *before ==
  @   \old(*before);
  @*/
uint8_t bitvec_c_replace_u64(
    uint8_t order, uint64_t *memory, size_t words, size_t place, bool bit, bool *before);

/*@ requires \valid(memory + (0 .. words - 1));
  @ assigns memory[0 .. words - 1];
  @ ensures status: \result == then_status(range_status(8, order, words, place, 1), range_status(8,
  @   order, words, other_place, 1));
  @ ensures first: \result == BITVEC_OK ==> (bit_u8{Post}(order, memory, place) <==>
  @   bit_u8{Pre}(order, memory, other_place));
  @ ensures second: \result == BITVEC_OK ==> (bit_u8{Post}(order, memory, other_place) <==>
  @   bit_u8{Pre}(order, memory, place));
  @ ensures others: \result == BITVEC_OK ==> \forall integer p; 0 <= p < words * 8 && p != place &&
  @   p != other_place ==> (bit_u8{Post}(order, memory, p) <==> bit_u8{Pre}(order, memory, p));
  @ ensures refused: \result != BITVEC_OK ==> kept_u8{Pre, Post}(memory, words);
  @*/
uint8_t bitvec_c_swap_u8(
    uint8_t order, uint8_t *memory, size_t words, size_t place, size_t other_place);

/*@ requires \valid(memory + (0 .. words - 1));
  @ assigns memory[0 .. words - 1];
  @ ensures status: \result == then_status(range_status(16, order, words, place, 1),
  @   range_status(16, order, words, other_place, 1));
  @ ensures first: \result == BITVEC_OK ==> (bit_u16{Post}(order, memory, place) <==>
  @   bit_u16{Pre}(order, memory, other_place));
  @ ensures second: \result == BITVEC_OK ==> (bit_u16{Post}(order, memory, other_place) <==>
  @   bit_u16{Pre}(order, memory, place));
  @ ensures others: \result == BITVEC_OK ==> \forall integer p; 0 <= p < words * 16 && p != place &&
  @   p != other_place ==> (bit_u16{Post}(order, memory, p) <==> bit_u16{Pre}(order, memory, p));
  @ ensures refused: \result != BITVEC_OK ==> kept_u16{Pre, Post}(memory, words);
  @*/
uint8_t bitvec_c_swap_u16(
    uint8_t order, uint16_t *memory, size_t words, size_t place, size_t other_place);

/*@ requires \valid(memory + (0 .. words - 1));
  @ assigns memory[0 .. words - 1];
  @ ensures status: \result == then_status(range_status(32, order, words, place, 1),
  @   range_status(32, order, words, other_place, 1));
  @ ensures first: \result == BITVEC_OK ==> (bit_u32{Post}(order, memory, place) <==>
  @   bit_u32{Pre}(order, memory, other_place));
  @ ensures second: \result == BITVEC_OK ==> (bit_u32{Post}(order, memory, other_place) <==>
  @   bit_u32{Pre}(order, memory, place));
  @ ensures others: \result == BITVEC_OK ==> \forall integer p; 0 <= p < words * 32 && p != place &&
  @   p != other_place ==> (bit_u32{Post}(order, memory, p) <==> bit_u32{Pre}(order, memory, p));
  @ ensures refused: \result != BITVEC_OK ==> kept_u32{Pre, Post}(memory, words);
  @*/
uint8_t bitvec_c_swap_u32(
    uint8_t order, uint32_t *memory, size_t words, size_t place, size_t other_place);

/*@ requires \valid(memory + (0 .. words - 1));
  @ assigns memory[0 .. words - 1];
  @ ensures status: \result == then_status(range_status(64, order, words, place, 1),
  @   range_status(64, order, words, other_place, 1));
  @ ensures first: \result == BITVEC_OK ==> (bit_u64{Post}(order, memory, place) <==>
  @   bit_u64{Pre}(order, memory, other_place));
  @ ensures second: \result == BITVEC_OK ==> (bit_u64{Post}(order, memory, other_place) <==>
  @   bit_u64{Pre}(order, memory, place));
  @ ensures others: \result == BITVEC_OK ==> \forall integer p; 0 <= p < words * 64 && p != place &&
  @   p != other_place ==> (bit_u64{Post}(order, memory, p) <==> bit_u64{Pre}(order, memory, p));
  @ ensures refused: \result != BITVEC_OK ==> kept_u64{Pre, Post}(memory, words);
  @*/
uint8_t bitvec_c_swap_u64(
    uint8_t order, uint64_t *memory, size_t words, size_t place, size_t other_place);

/*@ requires \valid(memory + (0 .. words - 1));
  @ assigns memory[0 .. words - 1];
  @ ensures status: \result == range_status(8, order, words, start, count);
  @ ensures range: \result == BITVEC_OK ==> (\forall integer p; start <= p < start + count ==>
  @   (bit_u8{Post}(order, memory, p) <==> bit));
  @ ensures others: \result == BITVEC_OK ==> others_u8{Pre, Post}(order, memory, words, start,
  @   count);
  @ ensures refused: \result != BITVEC_OK ==> kept_u8{Pre, Post}(memory, words);
  @*/
uint8_t bitvec_c_fill_u8(
    uint8_t order, uint8_t *memory, size_t words, size_t start, size_t count, bool bit);

/*@ requires \valid(memory + (0 .. words - 1));
  @ assigns memory[0 .. words - 1];
  @ ensures status: \result == range_status(16, order, words, start, count);
  @ ensures range: \result == BITVEC_OK ==> (\forall integer p; start <= p < start + count ==>
  @   (bit_u16{Post}(order, memory, p) <==> bit));
  @ ensures others: \result == BITVEC_OK ==> others_u16{Pre, Post}(order, memory, words, start,
  @   count);
  @ ensures refused: \result != BITVEC_OK ==> kept_u16{Pre, Post}(memory, words);
  @*/
uint8_t bitvec_c_fill_u16(
    uint8_t order, uint16_t *memory, size_t words, size_t start, size_t count, bool bit);

/*@ requires \valid(memory + (0 .. words - 1));
  @ assigns memory[0 .. words - 1];
  @ ensures status: \result == range_status(32, order, words, start, count);
  @ ensures range: \result == BITVEC_OK ==> (\forall integer p; start <= p < start + count ==>
  @   (bit_u32{Post}(order, memory, p) <==> bit));
  @ ensures others: \result == BITVEC_OK ==> others_u32{Pre, Post}(order, memory, words, start,
  @   count);
  @ ensures refused: \result != BITVEC_OK ==> kept_u32{Pre, Post}(memory, words);
  @*/
uint8_t bitvec_c_fill_u32(
    uint8_t order, uint32_t *memory, size_t words, size_t start, size_t count, bool bit);

/*@ requires \valid(memory + (0 .. words - 1));
  @ assigns memory[0 .. words - 1];
  @ ensures status: \result == range_status(64, order, words, start, count);
  @ ensures range: \result == BITVEC_OK ==> (\forall integer p; start <= p < start + count ==>
  @   (bit_u64{Post}(order, memory, p) <==> bit));
  @ ensures others: \result == BITVEC_OK ==> others_u64{Pre, Post}(order, memory, words, start,
  @   count);
  @ ensures refused: \result != BITVEC_OK ==> kept_u64{Pre, Post}(memory, words);
  @*/
uint8_t bitvec_c_fill_u64(
    uint8_t order, uint64_t *memory, size_t words, size_t start, size_t count, bool bit);

/*@ requires \valid(memory + (0 .. words - 1));
  @ assigns memory[0 .. words - 1];
  @ ensures status: \result == range_status(8, order, words, start, count);
  @ ensures range: \result == BITVEC_OK ==> (\forall integer p; start <= p < start + count ==>
  @   (bit_u8{Post}(order, memory, p) <==> !bit_u8{Pre}(order, memory, p)));
  @ ensures others: \result == BITVEC_OK ==> others_u8{Pre, Post}(order, memory, words, start,
  @   count);
  @ ensures refused: \result != BITVEC_OK ==> kept_u8{Pre, Post}(memory, words);
  @*/
uint8_t bitvec_c_invert_u8(
    uint8_t order, uint8_t *memory, size_t words, size_t start, size_t count);

/*@ requires \valid(memory + (0 .. words - 1));
  @ assigns memory[0 .. words - 1];
  @ ensures status: \result == range_status(16, order, words, start, count);
  @ ensures range: \result == BITVEC_OK ==> (\forall integer p; start <= p < start + count ==>
  @   (bit_u16{Post}(order, memory, p) <==> !bit_u16{Pre}(order, memory, p)));
  @ ensures others: \result == BITVEC_OK ==> others_u16{Pre, Post}(order, memory, words, start,
  @   count);
  @ ensures refused: \result != BITVEC_OK ==> kept_u16{Pre, Post}(memory, words);
  @*/
uint8_t bitvec_c_invert_u16(
    uint8_t order, uint16_t *memory, size_t words, size_t start, size_t count);

/*@ requires \valid(memory + (0 .. words - 1));
  @ assigns memory[0 .. words - 1];
  @ ensures status: \result == range_status(32, order, words, start, count);
  @ ensures range: \result == BITVEC_OK ==> (\forall integer p; start <= p < start + count ==>
  @   (bit_u32{Post}(order, memory, p) <==> !bit_u32{Pre}(order, memory, p)));
  @ ensures others: \result == BITVEC_OK ==> others_u32{Pre, Post}(order, memory, words, start,
  @   count);
  @ ensures refused: \result != BITVEC_OK ==> kept_u32{Pre, Post}(memory, words);
  @*/
uint8_t bitvec_c_invert_u32(
    uint8_t order, uint32_t *memory, size_t words, size_t start, size_t count);

/*@ requires \valid(memory + (0 .. words - 1));
  @ assigns memory[0 .. words - 1];
  @ ensures status: \result == range_status(64, order, words, start, count);
  @ ensures range: \result == BITVEC_OK ==> (\forall integer p; start <= p < start + count ==>
  @   (bit_u64{Post}(order, memory, p) <==> !bit_u64{Pre}(order, memory, p)));
  @ ensures others: \result == BITVEC_OK ==> others_u64{Pre, Post}(order, memory, words, start,
  @   count);
  @ ensures refused: \result != BITVEC_OK ==> kept_u64{Pre, Post}(memory, words);
  @*/
uint8_t bitvec_c_invert_u64(
    uint8_t order, uint64_t *memory, size_t words, size_t start, size_t count);

/*@ requires \valid(memory + (0 .. words - 1));
  @ assigns memory[0 .. words - 1];
  @ ensures status: \result == range_status(8, order, words, start, count);
  @ ensures range: \result == BITVEC_OK ==> (\forall integer p; start <= p < start + count ==>
  @   (bit_u8{Post}(order, memory, p) <==> bit_u8{Pre}(order, memory, start + (count - 1 - (p -
  @   start)))));
  @ ensures others: \result == BITVEC_OK ==> others_u8{Pre, Post}(order, memory, words, start,
  @   count);
  @ ensures refused: \result != BITVEC_OK ==> kept_u8{Pre, Post}(memory, words);
  @*/
uint8_t bitvec_c_reverse_u8(
    uint8_t order, uint8_t *memory, size_t words, size_t start, size_t count);

/*@ requires \valid(memory + (0 .. words - 1));
  @ assigns memory[0 .. words - 1];
  @ ensures status: \result == range_status(16, order, words, start, count);
  @ ensures range: \result == BITVEC_OK ==> (\forall integer p; start <= p < start + count ==>
  @   (bit_u16{Post}(order, memory, p) <==> bit_u16{Pre}(order, memory, start + (count - 1 - (p -
  @   start)))));
  @ ensures others: \result == BITVEC_OK ==> others_u16{Pre, Post}(order, memory, words, start,
  @   count);
  @ ensures refused: \result != BITVEC_OK ==> kept_u16{Pre, Post}(memory, words);
  @*/
uint8_t bitvec_c_reverse_u16(
    uint8_t order, uint16_t *memory, size_t words, size_t start, size_t count);

/*@ requires \valid(memory + (0 .. words - 1));
  @ assigns memory[0 .. words - 1];
  @ ensures status: \result == range_status(32, order, words, start, count);
  @ ensures range: \result == BITVEC_OK ==> (\forall integer p; start <= p < start + count ==>
  @   (bit_u32{Post}(order, memory, p) <==> bit_u32{Pre}(order, memory, start + (count - 1 - (p -
  @   start)))));
  @ ensures others: \result == BITVEC_OK ==> others_u32{Pre, Post}(order, memory, words, start,
  @   count);
  @ ensures refused: \result != BITVEC_OK ==> kept_u32{Pre, Post}(memory, words);
  @*/
uint8_t bitvec_c_reverse_u32(
    uint8_t order, uint32_t *memory, size_t words, size_t start, size_t count);

/*@ requires \valid(memory + (0 .. words - 1));
  @ assigns memory[0 .. words - 1];
  @ ensures status: \result == range_status(64, order, words, start, count);
  @ ensures range: \result == BITVEC_OK ==> (\forall integer p; start <= p < start + count ==>
  @   (bit_u64{Post}(order, memory, p) <==> bit_u64{Pre}(order, memory, start + (count - 1 - (p -
  @   start)))));
  @ ensures others: \result == BITVEC_OK ==> others_u64{Pre, Post}(order, memory, words, start,
  @   count);
  @ ensures refused: \result != BITVEC_OK ==> kept_u64{Pre, Post}(memory, words);
  @*/
uint8_t bitvec_c_reverse_u64(
    uint8_t order, uint64_t *memory, size_t words, size_t start, size_t count);

/*@ requires \valid_read(memory + (0 .. words - 1));
  @ requires \valid(index);
  @ requires \separated(memory + (0 .. words - 1), index);
  @ assigns *index;
  @ ensures status: \result == range_status(8, order, words, start, count);
  @ ensures answer: \result == BITVEC_OK ==> (0 <= *index <= count) && ((\forall integer p; start <=
  @   p < start + *index ==> !bit_u8{Pre}(order, memory, p))) && (*index < count ==>
  @   bit_u8{Pre}(order, memory, start + *index));
  @ ensures refused: \result != BITVEC_OK ==> *index == \old(*index);
  @*/
uint8_t bitvec_c_first_one_u8(
    uint8_t order, const uint8_t *memory, size_t words, size_t start, size_t count, size_t *index);

/*@ requires \valid_read(memory + (0 .. words - 1));
  @ requires \valid(index);
  @ requires \separated(memory + (0 .. words - 1), index);
  @ assigns *index;
  @ ensures status: \result == range_status(16, order, words, start, count);
  @ ensures answer: \result == BITVEC_OK ==> (0 <= *index <= count) && ((\forall integer p; start <=
  @   p < start + *index ==> !bit_u16{Pre}(order, memory, p))) && (*index < count ==>
  @   bit_u16{Pre}(order, memory, start + *index));
  @ ensures refused: \result != BITVEC_OK ==> *index == \old(*index);
  @*/
uint8_t bitvec_c_first_one_u16(
    uint8_t order, const uint16_t *memory, size_t words, size_t start, size_t count, size_t *index);

/*@ requires \valid_read(memory + (0 .. words - 1));
  @ requires \valid(index);
  @ requires \separated(memory + (0 .. words - 1), index);
  @ assigns *index;
  @ ensures status: \result == range_status(32, order, words, start, count);
  @ ensures answer: \result == BITVEC_OK ==> (0 <= *index <= count) && ((\forall integer p; start <=
  @   p < start + *index ==> !bit_u32{Pre}(order, memory, p))) && (*index < count ==>
  @   bit_u32{Pre}(order, memory, start + *index));
  @ ensures refused: \result != BITVEC_OK ==> *index == \old(*index);
  @*/
uint8_t bitvec_c_first_one_u32(
    uint8_t order, const uint32_t *memory, size_t words, size_t start, size_t count, size_t *index);

/*@ requires \valid_read(memory + (0 .. words - 1));
  @ requires \valid(index);
  @ requires \separated(memory + (0 .. words - 1), index);
  @ assigns *index;
  @ ensures status: \result == range_status(64, order, words, start, count);
  @ ensures answer: \result == BITVEC_OK ==> (0 <= *index <= count) && ((\forall integer p; start <=
  @   p < start + *index ==> !bit_u64{Pre}(order, memory, p))) && (*index < count ==>
  @   bit_u64{Pre}(order, memory, start + *index));
  @ ensures refused: \result != BITVEC_OK ==> *index == \old(*index);
  @*/
uint8_t bitvec_c_first_one_u64(
    uint8_t order, const uint64_t *memory, size_t words, size_t start, size_t count, size_t *index);

/*@ requires \valid_read(memory + (0 .. words - 1));
  @ requires \valid(index);
  @ requires \separated(memory + (0 .. words - 1), index);
  @ assigns *index;
  @ ensures status: \result == range_status(8, order, words, start, count);
  @ ensures answer: \result == BITVEC_OK ==> (0 <= *index <= count) && ((\forall integer p; start <=
  @   p < start + *index ==> (bit_u8{Pre}(order, memory, p) <==> !bit))) && (*index < count ==>
  @   (bit_u8{Pre}(order, memory, start + *index) <==> bit));
  @ ensures refused: \result != BITVEC_OK ==> *index == \old(*index);
  @*/
uint8_t bitvec_c_first_u8(
    uint8_t order, const uint8_t *memory, size_t words, size_t start, size_t count, bool bit,
    size_t *index);

/*@ requires \valid_read(memory + (0 .. words - 1));
  @ requires \valid(index);
  @ requires \separated(memory + (0 .. words - 1), index);
  @ assigns *index;
  @ ensures status: \result == range_status(16, order, words, start, count);
  @ ensures answer: \result == BITVEC_OK ==> (0 <= *index <= count) && ((\forall integer p; start <=
  @   p < start + *index ==> (bit_u16{Pre}(order, memory, p) <==> !bit))) && (*index < count ==>
  @   (bit_u16{Pre}(order, memory, start + *index) <==> bit));
  @ ensures refused: \result != BITVEC_OK ==> *index == \old(*index);
  @*/
uint8_t bitvec_c_first_u16(
    uint8_t order, const uint16_t *memory, size_t words, size_t start, size_t count, bool bit,
    size_t *index);

/*@ requires \valid_read(memory + (0 .. words - 1));
  @ requires \valid(index);
  @ requires \separated(memory + (0 .. words - 1), index);
  @ assigns *index;
  @ ensures status: \result == range_status(32, order, words, start, count);
  @ ensures answer: \result == BITVEC_OK ==> (0 <= *index <= count) && ((\forall integer p; start <=
  @   p < start + *index ==> (bit_u32{Pre}(order, memory, p) <==> !bit))) && (*index < count ==>
  @   (bit_u32{Pre}(order, memory, start + *index) <==> bit));
  @ ensures refused: \result != BITVEC_OK ==> *index == \old(*index);
  @*/
uint8_t bitvec_c_first_u32(
    uint8_t order, const uint32_t *memory, size_t words, size_t start, size_t count, bool bit,
    size_t *index);

/*@ requires \valid_read(memory + (0 .. words - 1));
  @ requires \valid(index);
  @ requires \separated(memory + (0 .. words - 1), index);
  @ assigns *index;
  @ ensures status: \result == range_status(64, order, words, start, count);
  @ ensures answer: \result == BITVEC_OK ==> (0 <= *index <= count) && ((\forall integer p; start <=
  @   p < start + *index ==> (bit_u64{Pre}(order, memory, p) <==> !bit))) && (*index < count ==>
  @   (bit_u64{Pre}(order, memory, start + *index) <==> bit));
  @ ensures refused: \result != BITVEC_OK ==> *index == \old(*index);
  @*/
uint8_t bitvec_c_first_u64(
    uint8_t order, const uint64_t *memory, size_t words, size_t start, size_t count, bool bit,
    size_t *index);

/*@ requires \valid_read(memory + (0 .. words - 1));
  @ requires \valid(index);
  @ requires \separated(memory + (0 .. words - 1), index);
  @ assigns *index;
  @ ensures status: \result == range_status(8, order, words, start, count);
  @ ensures answer: \result == BITVEC_OK ==> (0 <= *index <= count) && ((\forall integer p; start <=
  @   p < start + *index ==> bit_u8{Pre}(order, memory, p))) && (*index < count ==>
  @   !bit_u8{Pre}(order, memory, start + *index));
  @ ensures refused: \result != BITVEC_OK ==> *index == \old(*index);
  @*/
static inline uint8_t bitvec_c_first_zero_u8(
    uint8_t order, const uint8_t *memory, size_t words, size_t start, size_t count, size_t *index);

/*@ requires \valid_read(memory + (0 .. words - 1));
  @ requires \valid(index);
  @ requires \separated(memory + (0 .. words - 1), index);
  @ assigns *index;
  @ ensures status: \result == range_status(16, order, words, start, count);
  @ ensures answer: \result == BITVEC_OK ==> (0 <= *index <= count) && ((\forall integer p; start <=
  @   p < start + *index ==> bit_u16{Pre}(order, memory, p))) && (*index < count ==>
  @   !bit_u16{Pre}(order, memory, start + *index));
  @ ensures refused: \result != BITVEC_OK ==> *index == \old(*index);
  @*/
static inline uint8_t bitvec_c_first_zero_u16(
    uint8_t order, const uint16_t *memory, size_t words, size_t start, size_t count, size_t *index);

/*@ requires \valid_read(memory + (0 .. words - 1));
  @ requires \valid(index);
  @ requires \separated(memory + (0 .. words - 1), index);
  @ assigns *index;
  @ ensures status: \result == range_status(32, order, words, start, count);
  @ ensures answer: \result == BITVEC_OK ==> (0 <= *index <= count) && ((\forall integer p; start <=
  @   p < start + *index ==> bit_u32{Pre}(order, memory, p))) && (*index < count ==>
  @   !bit_u32{Pre}(order, memory, start + *index));
  @ ensures refused: \result != BITVEC_OK ==> *index == \old(*index);
  @*/
static inline uint8_t bitvec_c_first_zero_u32(
    uint8_t order, const uint32_t *memory, size_t words, size_t start, size_t count, size_t *index);

/*@ requires \valid_read(memory + (0 .. words - 1));
  @ requires \valid(index);
  @ requires \separated(memory + (0 .. words - 1), index);
  @ assigns *index;
  @ ensures status: \result == range_status(64, order, words, start, count);
  @ ensures answer: \result == BITVEC_OK ==> (0 <= *index <= count) && ((\forall integer p; start <=
  @   p < start + *index ==> bit_u64{Pre}(order, memory, p))) && (*index < count ==>
  @   !bit_u64{Pre}(order, memory, start + *index));
  @ ensures refused: \result != BITVEC_OK ==> *index == \old(*index);
  @*/
static inline uint8_t bitvec_c_first_zero_u64(
    uint8_t order, const uint64_t *memory, size_t words, size_t start, size_t count, size_t *index);

/*@ requires \valid_read(memory + (0 .. words - 1));
  @ requires \valid(index);
  @ requires \separated(memory + (0 .. words - 1), index);
  @ assigns *index;
  @ ensures status: \result == range_status(8, order, words, start, count);
  @ ensures answer: \result == BITVEC_OK ==> (*index < count ==> (bit_u8{Pre}(order, memory, start +
  @   *index) <==> bit)) && (*index < count ==> (\forall integer p; start + *index + 1 <= p < start
  @   + count ==> (bit_u8{Pre}(order, memory, p) <==> !bit))) && (count <= *index ==> *index ==
  @   count && (\forall integer p; start <= p < start + count ==> (bit_u8{Pre}(order, memory, p)
  @   <==> !bit)));
  @ ensures refused: \result != BITVEC_OK ==> *index == \old(*index);
  @*/
uint8_t bitvec_c_last_u8(
    uint8_t order, const uint8_t *memory, size_t words, size_t start, size_t count, bool bit,
    size_t *index);

/*@ requires \valid_read(memory + (0 .. words - 1));
  @ requires \valid(index);
  @ requires \separated(memory + (0 .. words - 1), index);
  @ assigns *index;
  @ ensures status: \result == range_status(16, order, words, start, count);
  @ ensures answer: \result == BITVEC_OK ==> (*index < count ==> (bit_u16{Pre}(order, memory, start
  @   + *index) <==> bit)) && (*index < count ==> (\forall integer p; start + *index + 1 <= p <
  @   start + count ==> (bit_u16{Pre}(order, memory, p) <==> !bit))) && (count <= *index ==> *index
  @   == count && (\forall integer p; start <= p < start + count ==> (bit_u16{Pre}(order, memory, p)
  @   <==> !bit)));
  @ ensures refused: \result != BITVEC_OK ==> *index == \old(*index);
  @*/
uint8_t bitvec_c_last_u16(
    uint8_t order, const uint16_t *memory, size_t words, size_t start, size_t count, bool bit,
    size_t *index);

/*@ requires \valid_read(memory + (0 .. words - 1));
  @ requires \valid(index);
  @ requires \separated(memory + (0 .. words - 1), index);
  @ assigns *index;
  @ ensures status: \result == range_status(32, order, words, start, count);
  @ ensures answer: \result == BITVEC_OK ==> (*index < count ==> (bit_u32{Pre}(order, memory, start
  @   + *index) <==> bit)) && (*index < count ==> (\forall integer p; start + *index + 1 <= p <
  @   start + count ==> (bit_u32{Pre}(order, memory, p) <==> !bit))) && (count <= *index ==> *index
  @   == count && (\forall integer p; start <= p < start + count ==> (bit_u32{Pre}(order, memory, p)
  @   <==> !bit)));
  @ ensures refused: \result != BITVEC_OK ==> *index == \old(*index);
  @*/
uint8_t bitvec_c_last_u32(
    uint8_t order, const uint32_t *memory, size_t words, size_t start, size_t count, bool bit,
    size_t *index);

/*@ requires \valid_read(memory + (0 .. words - 1));
  @ requires \valid(index);
  @ requires \separated(memory + (0 .. words - 1), index);
  @ assigns *index;
  @ ensures status: \result == range_status(64, order, words, start, count);
  @ ensures answer: \result == BITVEC_OK ==> (*index < count ==> (bit_u64{Pre}(order, memory, start
  @   + *index) <==> bit)) && (*index < count ==> (\forall integer p; start + *index + 1 <= p <
  @   start + count ==> (bit_u64{Pre}(order, memory, p) <==> !bit))) && (count <= *index ==> *index
  @   == count && (\forall integer p; start <= p < start + count ==> (bit_u64{Pre}(order, memory, p)
  @   <==> !bit)));
  @ ensures refused: \result != BITVEC_OK ==> *index == \old(*index);
  @*/
uint8_t bitvec_c_last_u64(
    uint8_t order, const uint64_t *memory, size_t words, size_t start, size_t count, bool bit,
    size_t *index);

/*@ requires \valid_read(memory + (0 .. words - 1));
  @ requires \valid(index);
  @ requires \separated(memory + (0 .. words - 1), index);
  @ assigns *index;
  @ ensures status: \result == range_status(8, order, words, start, count);
  @ ensures answer: \result == BITVEC_OK ==> (*index < count ==> bit_u8{Pre}(order, memory, start +
  @   *index)) && (*index < count ==> (\forall integer p; start + *index + 1 <= p < start + count
  @   ==> !bit_u8{Pre}(order, memory, p))) && (count <= *index ==> *index == count && (\forall
  @   integer p; start <= p < start + count ==> !bit_u8{Pre}(order, memory, p)));
  @ ensures refused: \result != BITVEC_OK ==> *index == \old(*index);
  @*/
static inline uint8_t bitvec_c_last_one_u8(
    uint8_t order, const uint8_t *memory, size_t words, size_t start, size_t count, size_t *index);

/*@ requires \valid_read(memory + (0 .. words - 1));
  @ requires \valid(index);
  @ requires \separated(memory + (0 .. words - 1), index);
  @ assigns *index;
  @ ensures status: \result == range_status(16, order, words, start, count);
  @ ensures answer: \result == BITVEC_OK ==> (*index < count ==> bit_u16{Pre}(order, memory, start +
  @   *index)) && (*index < count ==> (\forall integer p; start + *index + 1 <= p < start + count
  @   ==> !bit_u16{Pre}(order, memory, p))) && (count <= *index ==> *index == count && (\forall
  @   integer p; start <= p < start + count ==> !bit_u16{Pre}(order, memory, p)));
  @ ensures refused: \result != BITVEC_OK ==> *index == \old(*index);
  @*/
static inline uint8_t bitvec_c_last_one_u16(
    uint8_t order, const uint16_t *memory, size_t words, size_t start, size_t count, size_t *index);

/*@ requires \valid_read(memory + (0 .. words - 1));
  @ requires \valid(index);
  @ requires \separated(memory + (0 .. words - 1), index);
  @ assigns *index;
  @ ensures status: \result == range_status(32, order, words, start, count);
  @ ensures answer: \result == BITVEC_OK ==> (*index < count ==> bit_u32{Pre}(order, memory, start +
  @   *index)) && (*index < count ==> (\forall integer p; start + *index + 1 <= p < start + count
  @   ==> !bit_u32{Pre}(order, memory, p))) && (count <= *index ==> *index == count && (\forall
  @   integer p; start <= p < start + count ==> !bit_u32{Pre}(order, memory, p)));
  @ ensures refused: \result != BITVEC_OK ==> *index == \old(*index);
  @*/
static inline uint8_t bitvec_c_last_one_u32(
    uint8_t order, const uint32_t *memory, size_t words, size_t start, size_t count, size_t *index);

/*@ requires \valid_read(memory + (0 .. words - 1));
  @ requires \valid(index);
  @ requires \separated(memory + (0 .. words - 1), index);
  @ assigns *index;
  @ ensures status: \result == range_status(64, order, words, start, count);
  @ ensures answer: \result == BITVEC_OK ==> (*index < count ==> bit_u64{Pre}(order, memory, start +
  @   *index)) && (*index < count ==> (\forall integer p; start + *index + 1 <= p < start + count
  @   ==> !bit_u64{Pre}(order, memory, p))) && (count <= *index ==> *index == count && (\forall
  @   integer p; start <= p < start + count ==> !bit_u64{Pre}(order, memory, p)));
  @ ensures refused: \result != BITVEC_OK ==> *index == \old(*index);
  @*/
static inline uint8_t bitvec_c_last_one_u64(
    uint8_t order, const uint64_t *memory, size_t words, size_t start, size_t count, size_t *index);

/*@ requires \valid_read(memory + (0 .. words - 1));
  @ requires \valid(index);
  @ requires \separated(memory + (0 .. words - 1), index);
  @ assigns *index;
  @ ensures status: \result == range_status(8, order, words, start, count);
  @ ensures answer: \result == BITVEC_OK ==> (*index < count ==> !bit_u8{Pre}(order, memory, start +
  @   *index)) && (*index < count ==> (\forall integer p; start + *index + 1 <= p < start + count
  @   ==> bit_u8{Pre}(order, memory, p))) && (count <= *index ==> *index == count && (\forall
  @   integer p; start <= p < start + count ==> bit_u8{Pre}(order, memory, p)));
  @ ensures refused: \result != BITVEC_OK ==> *index == \old(*index);
  @*/
static inline uint8_t bitvec_c_last_zero_u8(
    uint8_t order, const uint8_t *memory, size_t words, size_t start, size_t count, size_t *index);

/*@ requires \valid_read(memory + (0 .. words - 1));
  @ requires \valid(index);
  @ requires \separated(memory + (0 .. words - 1), index);
  @ assigns *index;
  @ ensures status: \result == range_status(16, order, words, start, count);
  @ ensures answer: \result == BITVEC_OK ==> (*index < count ==> !bit_u16{Pre}(order, memory, start
  @   + *index)) && (*index < count ==> (\forall integer p; start + *index + 1 <= p < start + count
  @   ==> bit_u16{Pre}(order, memory, p))) && (count <= *index ==> *index == count && (\forall
  @   integer p; start <= p < start + count ==> bit_u16{Pre}(order, memory, p)));
  @ ensures refused: \result != BITVEC_OK ==> *index == \old(*index);
  @*/
static inline uint8_t bitvec_c_last_zero_u16(
    uint8_t order, const uint16_t *memory, size_t words, size_t start, size_t count, size_t *index);

/*@ requires \valid_read(memory + (0 .. words - 1));
  @ requires \valid(index);
  @ requires \separated(memory + (0 .. words - 1), index);
  @ assigns *index;
  @ ensures status: \result == range_status(32, order, words, start, count);
  @ ensures answer: \result == BITVEC_OK ==> (*index < count ==> !bit_u32{Pre}(order, memory, start
  @   + *index)) && (*index < count ==> (\forall integer p; start + *index + 1 <= p < start + count
  @   ==> bit_u32{Pre}(order, memory, p))) && (count <= *index ==> *index == count && (\forall
  @   integer p; start <= p < start + count ==> bit_u32{Pre}(order, memory, p)));
  @ ensures refused: \result != BITVEC_OK ==> *index == \old(*index);
  @*/
static inline uint8_t bitvec_c_last_zero_u32(
    uint8_t order, const uint32_t *memory, size_t words, size_t start, size_t count, size_t *index);

/*@ requires \valid_read(memory + (0 .. words - 1));
  @ requires \valid(index);
  @ requires \separated(memory + (0 .. words - 1), index);
  @ assigns *index;
  @ ensures status: \result == range_status(64, order, words, start, count);
  @ ensures answer: \result == BITVEC_OK ==> (*index < count ==> !bit_u64{Pre}(order, memory, start
  @   + *index)) && (*index < count ==> (\forall integer p; start + *index + 1 <= p < start + count
  @   ==> bit_u64{Pre}(order, memory, p))) && (count <= *index ==> *index == count && (\forall
  @   integer p; start <= p < start + count ==> bit_u64{Pre}(order, memory, p)));
  @ ensures refused: \result != BITVEC_OK ==> *index == \old(*index);
  @*/
static inline uint8_t bitvec_c_last_zero_u64(
    uint8_t order, const uint64_t *memory, size_t words, size_t start, size_t count, size_t *index);

/*@ requires \valid_read(memory + (0 .. words - 1));
  @ requires \valid(index);
  @ requires \separated(memory + (0 .. words - 1), index);
  @ assigns *index;
  @ ensures status: \result == range_status(8, order, words, start, count);
  @ ensures answer: \result == BITVEC_OK ==> (*index < count ==> from <= *index &&
  @   (bit_u8{Pre}(order, memory, start + *index) <==> bit)) && (*index < count ==> (\forall integer
  @   p; start + from <= p < start + *index ==> (bit_u8{Pre}(order, memory, p) <==> !bit))) &&
  @   (count <= *index ==> *index == count && (\forall integer p; start + from <= p < start + count
  @   ==> (bit_u8{Pre}(order, memory, p) <==> !bit)));
  @ ensures refused: \result != BITVEC_OK ==> *index == \old(*index);
  @*/
uint8_t bitvec_c_next_u8(
    uint8_t order, const uint8_t *memory, size_t words, size_t start, size_t count, size_t from,
    bool bit, size_t *index);

/*@ requires \valid_read(memory + (0 .. words - 1));
  @ requires \valid(index);
  @ requires \separated(memory + (0 .. words - 1), index);
  @ assigns *index;
  @ ensures status: \result == range_status(16, order, words, start, count);
  @ ensures answer: \result == BITVEC_OK ==> (*index < count ==> from <= *index &&
  @   (bit_u16{Pre}(order, memory, start + *index) <==> bit)) && (*index < count ==> (\forall
  @   integer p; start + from <= p < start + *index ==> (bit_u16{Pre}(order, memory, p) <==> !bit)))
  @   && (count <= *index ==> *index == count && (\forall integer p; start + from <= p < start +
  @   count ==> (bit_u16{Pre}(order, memory, p) <==> !bit)));
  @ ensures refused: \result != BITVEC_OK ==> *index == \old(*index);
  @*/
uint8_t bitvec_c_next_u16(
    uint8_t order, const uint16_t *memory, size_t words, size_t start, size_t count, size_t from,
    bool bit, size_t *index);

/*@ requires \valid_read(memory + (0 .. words - 1));
  @ requires \valid(index);
  @ requires \separated(memory + (0 .. words - 1), index);
  @ assigns *index;
  @ ensures status: \result == range_status(32, order, words, start, count);
  @ ensures answer: \result == BITVEC_OK ==> (*index < count ==> from <= *index &&
  @   (bit_u32{Pre}(order, memory, start + *index) <==> bit)) && (*index < count ==> (\forall
  @   integer p; start + from <= p < start + *index ==> (bit_u32{Pre}(order, memory, p) <==> !bit)))
  @   && (count <= *index ==> *index == count && (\forall integer p; start + from <= p < start +
  @   count ==> (bit_u32{Pre}(order, memory, p) <==> !bit)));
  @ ensures refused: \result != BITVEC_OK ==> *index == \old(*index);
  @*/
uint8_t bitvec_c_next_u32(
    uint8_t order, const uint32_t *memory, size_t words, size_t start, size_t count, size_t from,
    bool bit, size_t *index);

/*@ requires \valid_read(memory + (0 .. words - 1));
  @ requires \valid(index);
  @ requires \separated(memory + (0 .. words - 1), index);
  @ assigns *index;
  @ ensures status: \result == range_status(64, order, words, start, count);
  @ ensures answer: \result == BITVEC_OK ==> (*index < count ==> from <= *index &&
  @   (bit_u64{Pre}(order, memory, start + *index) <==> bit)) && (*index < count ==> (\forall
  @   integer p; start + from <= p < start + *index ==> (bit_u64{Pre}(order, memory, p) <==> !bit)))
  @   && (count <= *index ==> *index == count && (\forall integer p; start + from <= p < start +
  @   count ==> (bit_u64{Pre}(order, memory, p) <==> !bit)));
  @ ensures refused: \result != BITVEC_OK ==> *index == \old(*index);
  @*/
uint8_t bitvec_c_next_u64(
    uint8_t order, const uint64_t *memory, size_t words, size_t start, size_t count, size_t from,
    bool bit, size_t *index);

/*@ requires \valid_read(memory + (0 .. words - 1));
  @ requires \valid(index);
  @ requires \separated(memory + (0 .. words - 1), index);
  @ assigns *index;
  @ ensures status: \result == range_status(8, order, words, start, count);
  @ ensures answer: \result == BITVEC_OK ==> (*index < count ==> from <= *index &&
  @   bit_u8{Pre}(order, memory, start + *index)) && (*index < count ==> (\forall integer p; start +
  @   from <= p < start + *index ==> !bit_u8{Pre}(order, memory, p))) && (count <= *index ==> *index
  @   == count && (\forall integer p; start + from <= p < start + count ==> !bit_u8{Pre}(order,
  @   memory, p)));
  @ ensures refused: \result != BITVEC_OK ==> *index == \old(*index);
  @*/
static inline uint8_t bitvec_c_next_one_u8(
    uint8_t order, const uint8_t *memory, size_t words, size_t start, size_t count, size_t from,
    size_t *index);

/*@ requires \valid_read(memory + (0 .. words - 1));
  @ requires \valid(index);
  @ requires \separated(memory + (0 .. words - 1), index);
  @ assigns *index;
  @ ensures status: \result == range_status(16, order, words, start, count);
  @ ensures answer: \result == BITVEC_OK ==> (*index < count ==> from <= *index &&
  @   bit_u16{Pre}(order, memory, start + *index)) && (*index < count ==> (\forall integer p; start
  @   + from <= p < start + *index ==> !bit_u16{Pre}(order, memory, p))) && (count <= *index ==>
  @   *index == count && (\forall integer p; start + from <= p < start + count ==>
  @   !bit_u16{Pre}(order, memory, p)));
  @ ensures refused: \result != BITVEC_OK ==> *index == \old(*index);
  @*/
static inline uint8_t bitvec_c_next_one_u16(
    uint8_t order, const uint16_t *memory, size_t words, size_t start, size_t count, size_t from,
    size_t *index);

/*@ requires \valid_read(memory + (0 .. words - 1));
  @ requires \valid(index);
  @ requires \separated(memory + (0 .. words - 1), index);
  @ assigns *index;
  @ ensures status: \result == range_status(32, order, words, start, count);
  @ ensures answer: \result == BITVEC_OK ==> (*index < count ==> from <= *index &&
  @   bit_u32{Pre}(order, memory, start + *index)) && (*index < count ==> (\forall integer p; start
  @   + from <= p < start + *index ==> !bit_u32{Pre}(order, memory, p))) && (count <= *index ==>
  @   *index == count && (\forall integer p; start + from <= p < start + count ==>
  @   !bit_u32{Pre}(order, memory, p)));
  @ ensures refused: \result != BITVEC_OK ==> *index == \old(*index);
  @*/
static inline uint8_t bitvec_c_next_one_u32(
    uint8_t order, const uint32_t *memory, size_t words, size_t start, size_t count, size_t from,
    size_t *index);

/*@ requires \valid_read(memory + (0 .. words - 1));
  @ requires \valid(index);
  @ requires \separated(memory + (0 .. words - 1), index);
  @ assigns *index;
  @ ensures status: \result == range_status(64, order, words, start, count);
  @ ensures answer: \result == BITVEC_OK ==> (*index < count ==> from <= *index &&
  @   bit_u64{Pre}(order, memory, start + *index)) && (*index < count ==> (\forall integer p; start
  @   + from <= p < start + *index ==> !bit_u64{Pre}(order, memory, p))) && (count <= *index ==>
  @   *index == count && (\forall integer p; start + from <= p < start + count ==>
  @   !bit_u64{Pre}(order, memory, p)));
  @ ensures refused: \result != BITVEC_OK ==> *index == \old(*index);
  @*/
static inline uint8_t bitvec_c_next_one_u64(
    uint8_t order, const uint64_t *memory, size_t words, size_t start, size_t count, size_t from,
    size_t *index);

/*@ requires \valid_read(memory + (0 .. words - 1));
  @ requires \valid(index);
  @ requires \separated(memory + (0 .. words - 1), index);
  @ assigns *index;
  @ ensures status: \result == range_status(8, order, words, start, count);
  @ ensures answer: \result == BITVEC_OK ==> (*index < count ==> from <= *index &&
  @   !bit_u8{Pre}(order, memory, start + *index)) && (*index < count ==> (\forall integer p; start
  @   + from <= p < start + *index ==> bit_u8{Pre}(order, memory, p))) && (count <= *index ==>
  @   *index == count && (\forall integer p; start + from <= p < start + count ==>
  @   bit_u8{Pre}(order, memory, p)));
  @ ensures refused: \result != BITVEC_OK ==> *index == \old(*index);
  @*/
static inline uint8_t bitvec_c_next_zero_u8(
    uint8_t order, const uint8_t *memory, size_t words, size_t start, size_t count, size_t from,
    size_t *index);

/*@ requires \valid_read(memory + (0 .. words - 1));
  @ requires \valid(index);
  @ requires \separated(memory + (0 .. words - 1), index);
  @ assigns *index;
  @ ensures status: \result == range_status(16, order, words, start, count);
  @ ensures answer: \result == BITVEC_OK ==> (*index < count ==> from <= *index &&
  @   !bit_u16{Pre}(order, memory, start + *index)) && (*index < count ==> (\forall integer p; start
  @   + from <= p < start + *index ==> bit_u16{Pre}(order, memory, p))) && (count <= *index ==>
  @   *index == count && (\forall integer p; start + from <= p < start + count ==>
  @   bit_u16{Pre}(order, memory, p)));
  @ ensures refused: \result != BITVEC_OK ==> *index == \old(*index);
  @*/
static inline uint8_t bitvec_c_next_zero_u16(
    uint8_t order, const uint16_t *memory, size_t words, size_t start, size_t count, size_t from,
    size_t *index);

/*@ requires \valid_read(memory + (0 .. words - 1));
  @ requires \valid(index);
  @ requires \separated(memory + (0 .. words - 1), index);
  @ assigns *index;
  @ ensures status: \result == range_status(32, order, words, start, count);
  @ ensures answer: \result == BITVEC_OK ==> (*index < count ==> from <= *index &&
  @   !bit_u32{Pre}(order, memory, start + *index)) && (*index < count ==> (\forall integer p; start
  @   + from <= p < start + *index ==> bit_u32{Pre}(order, memory, p))) && (count <= *index ==>
  @   *index == count && (\forall integer p; start + from <= p < start + count ==>
  @   bit_u32{Pre}(order, memory, p)));
  @ ensures refused: \result != BITVEC_OK ==> *index == \old(*index);
  @*/
static inline uint8_t bitvec_c_next_zero_u32(
    uint8_t order, const uint32_t *memory, size_t words, size_t start, size_t count, size_t from,
    size_t *index);

/*@ requires \valid_read(memory + (0 .. words - 1));
  @ requires \valid(index);
  @ requires \separated(memory + (0 .. words - 1), index);
  @ assigns *index;
  @ ensures status: \result == range_status(64, order, words, start, count);
  @ ensures answer: \result == BITVEC_OK ==> (*index < count ==> from <= *index &&
  @   !bit_u64{Pre}(order, memory, start + *index)) && (*index < count ==> (\forall integer p; start
  @   + from <= p < start + *index ==> bit_u64{Pre}(order, memory, p))) && (count <= *index ==>
  @   *index == count && (\forall integer p; start + from <= p < start + count ==>
  @   bit_u64{Pre}(order, memory, p)));
  @ ensures refused: \result != BITVEC_OK ==> *index == \old(*index);
  @*/
static inline uint8_t bitvec_c_next_zero_u64(
    uint8_t order, const uint64_t *memory, size_t words, size_t start, size_t count, size_t from,
    size_t *index);

/*@ requires \valid_read(memory + (0 .. words - 1));
  @ requires \valid(index);
  @ requires \separated(memory + (0 .. words - 1), index);
  @ assigns *index;
  @ ensures status: \result == range_status(8, order, words, start, count);
  @ ensures answer: \result == BITVEC_OK ==> (*index < count ==> *index < before &&
  @   (bit_u8{Pre}(order, memory, start + *index) <==> bit)) && (*index < count ==> (\forall integer
  @   p; start + *index + 1 <= p < start + (before < count ? before : count) ==> (bit_u8{Pre}(order,
  @   memory, p) <==> !bit))) && (count <= *index ==> *index == count && (\forall integer p; start
  @   <= p < start + (before < count ? before : count) ==> (bit_u8{Pre}(order, memory, p) <==>
  @   !bit)));
  @ ensures refused: \result != BITVEC_OK ==> *index == \old(*index);
  @*/
uint8_t bitvec_c_previous_u8(
    uint8_t order, const uint8_t *memory, size_t words, size_t start, size_t count, size_t before,
    bool bit, size_t *index);

/*@ requires \valid_read(memory + (0 .. words - 1));
  @ requires \valid(index);
  @ requires \separated(memory + (0 .. words - 1), index);
  @ assigns *index;
  @ ensures status: \result == range_status(16, order, words, start, count);
  @ ensures answer: \result == BITVEC_OK ==> (*index < count ==> *index < before &&
  @   (bit_u16{Pre}(order, memory, start + *index) <==> bit)) && (*index < count ==> (\forall
  @   integer p; start + *index + 1 <= p < start + (before < count ? before : count) ==>
  @   (bit_u16{Pre}(order, memory, p) <==> !bit))) && (count <= *index ==> *index == count &&
  @   (\forall integer p; start <= p < start + (before < count ? before : count) ==>
  @   (bit_u16{Pre}(order, memory, p) <==> !bit)));
  @ ensures refused: \result != BITVEC_OK ==> *index == \old(*index);
  @*/
uint8_t bitvec_c_previous_u16(
    uint8_t order, const uint16_t *memory, size_t words, size_t start, size_t count, size_t before,
    bool bit, size_t *index);

/*@ requires \valid_read(memory + (0 .. words - 1));
  @ requires \valid(index);
  @ requires \separated(memory + (0 .. words - 1), index);
  @ assigns *index;
  @ ensures status: \result == range_status(32, order, words, start, count);
  @ ensures answer: \result == BITVEC_OK ==> (*index < count ==> *index < before &&
  @   (bit_u32{Pre}(order, memory, start + *index) <==> bit)) && (*index < count ==> (\forall
  @   integer p; start + *index + 1 <= p < start + (before < count ? before : count) ==>
  @   (bit_u32{Pre}(order, memory, p) <==> !bit))) && (count <= *index ==> *index == count &&
  @   (\forall integer p; start <= p < start + (before < count ? before : count) ==>
  @   (bit_u32{Pre}(order, memory, p) <==> !bit)));
  @ ensures refused: \result != BITVEC_OK ==> *index == \old(*index);
  @*/
uint8_t bitvec_c_previous_u32(
    uint8_t order, const uint32_t *memory, size_t words, size_t start, size_t count, size_t before,
    bool bit, size_t *index);

/*@ requires \valid_read(memory + (0 .. words - 1));
  @ requires \valid(index);
  @ requires \separated(memory + (0 .. words - 1), index);
  @ assigns *index;
  @ ensures status: \result == range_status(64, order, words, start, count);
  @ ensures answer: \result == BITVEC_OK ==> (*index < count ==> *index < before &&
  @   (bit_u64{Pre}(order, memory, start + *index) <==> bit)) && (*index < count ==> (\forall
  @   integer p; start + *index + 1 <= p < start + (before < count ? before : count) ==>
  @   (bit_u64{Pre}(order, memory, p) <==> !bit))) && (count <= *index ==> *index == count &&
  @   (\forall integer p; start <= p < start + (before < count ? before : count) ==>
  @   (bit_u64{Pre}(order, memory, p) <==> !bit)));
  @ ensures refused: \result != BITVEC_OK ==> *index == \old(*index);
  @*/
uint8_t bitvec_c_previous_u64(
    uint8_t order, const uint64_t *memory, size_t words, size_t start, size_t count, size_t before,
    bool bit, size_t *index);

/*@ requires \valid_read(memory + (0 .. words - 1));
  @ requires \valid(index);
  @ requires \separated(memory + (0 .. words - 1), index);
  @ assigns *index;
  @ ensures status: \result == range_status(8, order, words, start, count);
  @ ensures answer: \result == BITVEC_OK ==> (*index < count ==> *index < before &&
  @   bit_u8{Pre}(order, memory, start + *index)) && (*index < count ==> (\forall integer p; start +
  @   *index + 1 <= p < start + (before < count ? before : count) ==> !bit_u8{Pre}(order, memory,
  @   p))) && (count <= *index ==> *index == count && (\forall integer p; start <= p < start +
  @   (before < count ? before : count) ==> !bit_u8{Pre}(order, memory, p)));
  @ ensures refused: \result != BITVEC_OK ==> *index == \old(*index);
  @*/
static inline uint8_t bitvec_c_previous_one_u8(
    uint8_t order, const uint8_t *memory, size_t words, size_t start, size_t count, size_t before,
    size_t *index);

/*@ requires \valid_read(memory + (0 .. words - 1));
  @ requires \valid(index);
  @ requires \separated(memory + (0 .. words - 1), index);
  @ assigns *index;
  @ ensures status: \result == range_status(16, order, words, start, count);
  @ ensures answer: \result == BITVEC_OK ==> (*index < count ==> *index < before &&
  @   bit_u16{Pre}(order, memory, start + *index)) && (*index < count ==> (\forall integer p; start
  @   + *index + 1 <= p < start + (before < count ? before : count) ==> !bit_u16{Pre}(order, memory,
  @   p))) && (count <= *index ==> *index == count && (\forall integer p; start <= p < start +
  @   (before < count ? before : count) ==> !bit_u16{Pre}(order, memory, p)));
  @ ensures refused: \result != BITVEC_OK ==> *index == \old(*index);
  @*/
static inline uint8_t bitvec_c_previous_one_u16(
    uint8_t order, const uint16_t *memory, size_t words, size_t start, size_t count, size_t before,
    size_t *index);

/*@ requires \valid_read(memory + (0 .. words - 1));
  @ requires \valid(index);
  @ requires \separated(memory + (0 .. words - 1), index);
  @ assigns *index;
  @ ensures status: \result == range_status(32, order, words, start, count);
  @ ensures answer: \result == BITVEC_OK ==> (*index < count ==> *index < before &&
  @   bit_u32{Pre}(order, memory, start + *index)) && (*index < count ==> (\forall integer p; start
  @   + *index + 1 <= p < start + (before < count ? before : count) ==> !bit_u32{Pre}(order, memory,
  @   p))) && (count <= *index ==> *index == count && (\forall integer p; start <= p < start +
  @   (before < count ? before : count) ==> !bit_u32{Pre}(order, memory, p)));
  @ ensures refused: \result != BITVEC_OK ==> *index == \old(*index);
  @*/
static inline uint8_t bitvec_c_previous_one_u32(
    uint8_t order, const uint32_t *memory, size_t words, size_t start, size_t count, size_t before,
    size_t *index);

/*@ requires \valid_read(memory + (0 .. words - 1));
  @ requires \valid(index);
  @ requires \separated(memory + (0 .. words - 1), index);
  @ assigns *index;
  @ ensures status: \result == range_status(64, order, words, start, count);
  @ ensures answer: \result == BITVEC_OK ==> (*index < count ==> *index < before &&
  @   bit_u64{Pre}(order, memory, start + *index)) && (*index < count ==> (\forall integer p; start
  @   + *index + 1 <= p < start + (before < count ? before : count) ==> !bit_u64{Pre}(order, memory,
  @   p))) && (count <= *index ==> *index == count && (\forall integer p; start <= p < start +
  @   (before < count ? before : count) ==> !bit_u64{Pre}(order, memory, p)));
  @ ensures refused: \result != BITVEC_OK ==> *index == \old(*index);
  @*/
static inline uint8_t bitvec_c_previous_one_u64(
    uint8_t order, const uint64_t *memory, size_t words, size_t start, size_t count, size_t before,
    size_t *index);

/*@ requires \valid_read(memory + (0 .. words - 1));
  @ requires \valid(index);
  @ requires \separated(memory + (0 .. words - 1), index);
  @ assigns *index;
  @ ensures status: \result == range_status(8, order, words, start, count);
  @ ensures answer: \result == BITVEC_OK ==> (*index < count ==> *index < before &&
  @   !bit_u8{Pre}(order, memory, start + *index)) && (*index < count ==> (\forall integer p; start
  @   + *index + 1 <= p < start + (before < count ? before : count) ==> bit_u8{Pre}(order, memory,
  @   p))) && (count <= *index ==> *index == count && (\forall integer p; start <= p < start +
  @   (before < count ? before : count) ==> bit_u8{Pre}(order, memory, p)));
  @ ensures refused: \result != BITVEC_OK ==> *index == \old(*index);
  @*/
static inline uint8_t bitvec_c_previous_zero_u8(
    uint8_t order, const uint8_t *memory, size_t words, size_t start, size_t count, size_t before,
    size_t *index);

/*@ requires \valid_read(memory + (0 .. words - 1));
  @ requires \valid(index);
  @ requires \separated(memory + (0 .. words - 1), index);
  @ assigns *index;
  @ ensures status: \result == range_status(16, order, words, start, count);
  @ ensures answer: \result == BITVEC_OK ==> (*index < count ==> *index < before &&
  @   !bit_u16{Pre}(order, memory, start + *index)) && (*index < count ==> (\forall integer p; start
  @   + *index + 1 <= p < start + (before < count ? before : count) ==> bit_u16{Pre}(order, memory,
  @   p))) && (count <= *index ==> *index == count && (\forall integer p; start <= p < start +
  @   (before < count ? before : count) ==> bit_u16{Pre}(order, memory, p)));
  @ ensures refused: \result != BITVEC_OK ==> *index == \old(*index);
  @*/
static inline uint8_t bitvec_c_previous_zero_u16(
    uint8_t order, const uint16_t *memory, size_t words, size_t start, size_t count, size_t before,
    size_t *index);

/*@ requires \valid_read(memory + (0 .. words - 1));
  @ requires \valid(index);
  @ requires \separated(memory + (0 .. words - 1), index);
  @ assigns *index;
  @ ensures status: \result == range_status(32, order, words, start, count);
  @ ensures answer: \result == BITVEC_OK ==> (*index < count ==> *index < before &&
  @   !bit_u32{Pre}(order, memory, start + *index)) && (*index < count ==> (\forall integer p; start
  @   + *index + 1 <= p < start + (before < count ? before : count) ==> bit_u32{Pre}(order, memory,
  @   p))) && (count <= *index ==> *index == count && (\forall integer p; start <= p < start +
  @   (before < count ? before : count) ==> bit_u32{Pre}(order, memory, p)));
  @ ensures refused: \result != BITVEC_OK ==> *index == \old(*index);
  @*/
static inline uint8_t bitvec_c_previous_zero_u32(
    uint8_t order, const uint32_t *memory, size_t words, size_t start, size_t count, size_t before,
    size_t *index);

/*@ requires \valid_read(memory + (0 .. words - 1));
  @ requires \valid(index);
  @ requires \separated(memory + (0 .. words - 1), index);
  @ assigns *index;
  @ ensures status: \result == range_status(64, order, words, start, count);
  @ ensures answer: \result == BITVEC_OK ==> (*index < count ==> *index < before &&
  @   !bit_u64{Pre}(order, memory, start + *index)) && (*index < count ==> (\forall integer p; start
  @   + *index + 1 <= p < start + (before < count ? before : count) ==> bit_u64{Pre}(order, memory,
  @   p))) && (count <= *index ==> *index == count && (\forall integer p; start <= p < start +
  @   (before < count ? before : count) ==> bit_u64{Pre}(order, memory, p)));
  @ ensures refused: \result != BITVEC_OK ==> *index == \old(*index);
  @*/
static inline uint8_t bitvec_c_previous_zero_u64(
    uint8_t order, const uint64_t *memory, size_t words, size_t start, size_t count, size_t before,
    size_t *index);

/*@ requires \valid_read(memory + (0 .. words - 1));
  @ requires \valid(index);
  @ requires \separated(memory + (0 .. words - 1), index);
  @ assigns *index;
  @ ensures status: \result == range_status(8, order, words, start, count);
  @ ensures answer: \result == BITVEC_OK ==> (free_u8{Pre}(order, memory, start, count, *index,
  @   zeros) || *index == count) && (\forall integer k; 0 <= k && (k < *index ||
  @   !(free_u8{Pre}(order, memory, start, count, *index, zeros))) ==> !(free_u8{Pre}(order, memory,
  @   start, count, k, zeros)));
  @ ensures refused: \result != BITVEC_OK ==> *index == \old(*index);
  @*/
uint8_t bitvec_c_find_zeros_u8(
    uint8_t order, const uint8_t *memory, size_t words, size_t start, size_t count, size_t zeros,
    size_t *index);

/*@ requires \valid_read(memory + (0 .. words - 1));
  @ requires \valid(index);
  @ requires \separated(memory + (0 .. words - 1), index);
  @ assigns *index;
  @ ensures status: \result == range_status(16, order, words, start, count);
  @ ensures answer: \result == BITVEC_OK ==> (free_u16{Pre}(order, memory, start, count, *index,
  @   zeros) || *index == count) && (\forall integer k; 0 <= k && (k < *index ||
  @   !(free_u16{Pre}(order, memory, start, count, *index, zeros))) ==> !(free_u16{Pre}(order,
  @   memory, start, count, k, zeros)));
  @ ensures refused: \result != BITVEC_OK ==> *index == \old(*index);
  @*/
uint8_t bitvec_c_find_zeros_u16(
    uint8_t order, const uint16_t *memory, size_t words, size_t start, size_t count, size_t zeros,
    size_t *index);

/*@ requires \valid_read(memory + (0 .. words - 1));
  @ requires \valid(index);
  @ requires \separated(memory + (0 .. words - 1), index);
  @ assigns *index;
  @ ensures status: \result == range_status(32, order, words, start, count);
  @ ensures answer: \result == BITVEC_OK ==> (free_u32{Pre}(order, memory, start, count, *index,
  @   zeros) || *index == count) && (\forall integer k; 0 <= k && (k < *index ||
  @   !(free_u32{Pre}(order, memory, start, count, *index, zeros))) ==> !(free_u32{Pre}(order,
  @   memory, start, count, k, zeros)));
  @ ensures refused: \result != BITVEC_OK ==> *index == \old(*index);
  @*/
uint8_t bitvec_c_find_zeros_u32(
    uint8_t order, const uint32_t *memory, size_t words, size_t start, size_t count, size_t zeros,
    size_t *index);

/*@ requires \valid_read(memory + (0 .. words - 1));
  @ requires \valid(index);
  @ requires \separated(memory + (0 .. words - 1), index);
  @ assigns *index;
  @ ensures status: \result == range_status(64, order, words, start, count);
  @ ensures answer: \result == BITVEC_OK ==> (free_u64{Pre}(order, memory, start, count, *index,
  @   zeros) || *index == count) && (\forall integer k; 0 <= k && (k < *index ||
  @   !(free_u64{Pre}(order, memory, start, count, *index, zeros))) ==> !(free_u64{Pre}(order,
  @   memory, start, count, k, zeros)));
  @ ensures refused: \result != BITVEC_OK ==> *index == \old(*index);
  @*/
uint8_t bitvec_c_find_zeros_u64(
    uint8_t order, const uint64_t *memory, size_t words, size_t start, size_t count, size_t zeros,
    size_t *index);

/*@ requires \valid_read(memory + (0 .. words - 1));
  @ requires \valid(index);
  @ requires \separated(memory + (0 .. words - 1), index);
  @ assigns *index;
  @ ensures status: \result == range_status(8, order, words, start, count);
  @ ensures answer: \result == BITVEC_OK ==> ((from <= *index && (multiple_of == 0 || *index %
  @   multiple_of == 0) && free_u8{Pre}(order, memory, start, count, *index, zeros)) || *index ==
  @   count) && (\forall integer k; 0 <= k && (k < *index || !((from <= *index && (multiple_of == 0
  @   || *index % multiple_of == 0) && free_u8{Pre}(order, memory, start, count, *index, zeros))))
  @   ==> !((from <= k && (multiple_of == 0 || k % multiple_of == 0) && free_u8{Pre}(order, memory,
  @   start, count, k, zeros))));
  @ ensures refused: \result != BITVEC_OK ==> *index == \old(*index);
  @*/
uint8_t bitvec_c_find_zeros_from_u8(
    uint8_t order, const uint8_t *memory, size_t words, size_t start, size_t count, size_t from,
    size_t zeros, size_t multiple_of, size_t *index);

/*@ requires \valid_read(memory + (0 .. words - 1));
  @ requires \valid(index);
  @ requires \separated(memory + (0 .. words - 1), index);
  @ assigns *index;
  @ ensures status: \result == range_status(16, order, words, start, count);
  @ ensures answer: \result == BITVEC_OK ==> ((from <= *index && (multiple_of == 0 || *index %
  @   multiple_of == 0) && free_u16{Pre}(order, memory, start, count, *index, zeros)) || *index ==
  @   count) && (\forall integer k; 0 <= k && (k < *index || !((from <= *index && (multiple_of == 0
  @   || *index % multiple_of == 0) && free_u16{Pre}(order, memory, start, count, *index, zeros))))
  @   ==> !((from <= k && (multiple_of == 0 || k % multiple_of == 0) && free_u16{Pre}(order, memory,
  @   start, count, k, zeros))));
  @ ensures refused: \result != BITVEC_OK ==> *index == \old(*index);
  @*/
uint8_t bitvec_c_find_zeros_from_u16(
    uint8_t order, const uint16_t *memory, size_t words, size_t start, size_t count, size_t from,
    size_t zeros, size_t multiple_of, size_t *index);

/*@ requires \valid_read(memory + (0 .. words - 1));
  @ requires \valid(index);
  @ requires \separated(memory + (0 .. words - 1), index);
  @ assigns *index;
  @ ensures status: \result == range_status(32, order, words, start, count);
  @ ensures answer: \result == BITVEC_OK ==> ((from <= *index && (multiple_of == 0 || *index %
  @   multiple_of == 0) && free_u32{Pre}(order, memory, start, count, *index, zeros)) || *index ==
  @   count) && (\forall integer k; 0 <= k && (k < *index || !((from <= *index && (multiple_of == 0
  @   || *index % multiple_of == 0) && free_u32{Pre}(order, memory, start, count, *index, zeros))))
  @   ==> !((from <= k && (multiple_of == 0 || k % multiple_of == 0) && free_u32{Pre}(order, memory,
  @   start, count, k, zeros))));
  @ ensures refused: \result != BITVEC_OK ==> *index == \old(*index);
  @*/
uint8_t bitvec_c_find_zeros_from_u32(
    uint8_t order, const uint32_t *memory, size_t words, size_t start, size_t count, size_t from,
    size_t zeros, size_t multiple_of, size_t *index);

/*@ requires \valid_read(memory + (0 .. words - 1));
  @ requires \valid(index);
  @ requires \separated(memory + (0 .. words - 1), index);
  @ assigns *index;
  @ ensures status: \result == range_status(64, order, words, start, count);
  @ ensures answer: \result == BITVEC_OK ==> ((from <= *index && (multiple_of == 0 || *index %
  @   multiple_of == 0) && free_u64{Pre}(order, memory, start, count, *index, zeros)) || *index ==
  @   count) && (\forall integer k; 0 <= k && (k < *index || !((from <= *index && (multiple_of == 0
  @   || *index % multiple_of == 0) && free_u64{Pre}(order, memory, start, count, *index, zeros))))
  @   ==> !((from <= k && (multiple_of == 0 || k % multiple_of == 0) && free_u64{Pre}(order, memory,
  @   start, count, k, zeros))));
  @ ensures refused: \result != BITVEC_OK ==> *index == \old(*index);
  @*/
uint8_t bitvec_c_find_zeros_from_u64(
    uint8_t order, const uint64_t *memory, size_t words, size_t start, size_t count, size_t from,
    size_t zeros, size_t multiple_of, size_t *index);

/*@ requires \valid_read(memory + (0 .. words - 1));
  @ requires \valid(ones);
  @ requires \separated(memory + (0 .. words - 1), ones);
  @ assigns *ones;
  @ ensures status: \result == range_status(8, order, words, start, count);
  @ ensures answer: \result == BITVEC_OK ==> *ones == ones_u8{Pre}(order, memory, start, count);
  @ ensures refused: \result != BITVEC_OK ==> *ones == \old(*ones);
  @*/
uint8_t bitvec_c_count_ones_u8(
    uint8_t order, const uint8_t *memory, size_t words, size_t start, size_t count, size_t *ones);

/*@ requires \valid_read(memory + (0 .. words - 1));
  @ requires \valid(ones);
  @ requires \separated(memory + (0 .. words - 1), ones);
  @ assigns *ones;
  @ ensures status: \result == range_status(16, order, words, start, count);
  @ ensures answer: \result == BITVEC_OK ==> *ones == ones_u16{Pre}(order, memory, start, count);
  @ ensures refused: \result != BITVEC_OK ==> *ones == \old(*ones);
  @*/
uint8_t bitvec_c_count_ones_u16(
    uint8_t order, const uint16_t *memory, size_t words, size_t start, size_t count, size_t *ones);

/*@ requires \valid_read(memory + (0 .. words - 1));
  @ requires \valid(ones);
  @ requires \separated(memory + (0 .. words - 1), ones);
  @ assigns *ones;
  @ ensures status: \result == range_status(32, order, words, start, count);
  @ ensures answer: \result == BITVEC_OK ==> *ones == ones_u32{Pre}(order, memory, start, count);
  @ ensures refused: \result != BITVEC_OK ==> *ones == \old(*ones);
  @*/
uint8_t bitvec_c_count_ones_u32(
    uint8_t order, const uint32_t *memory, size_t words, size_t start, size_t count, size_t *ones);

/*@ requires \valid_read(memory + (0 .. words - 1));
  @ requires \valid(ones);
  @ requires \separated(memory + (0 .. words - 1), ones);
  @ assigns *ones;
  @ ensures status: \result == range_status(64, order, words, start, count);
  @ ensures answer: \result == BITVEC_OK ==> *ones == ones_u64{Pre}(order, memory, start, count);
  @ ensures refused: \result != BITVEC_OK ==> *ones == \old(*ones);
  @*/
uint8_t bitvec_c_count_ones_u64(
    uint8_t order, const uint64_t *memory, size_t words, size_t start, size_t count, size_t *ones);

/*@ requires \valid_read(memory + (0 .. words - 1));
  @ requires \valid(zeros);
  @ requires \separated(memory + (0 .. words - 1), zeros);
  @ assigns *zeros;
  @ ensures status: \result == range_status(8, order, words, start, count);
  @ ensures answer: \result == BITVEC_OK ==> *zeros == (count - ones_u8{Pre}(order, memory, start,
  @   count));
  @ ensures refused: \result != BITVEC_OK ==> *zeros == \old(*zeros);
  @*/
static inline uint8_t bitvec_c_count_zeros_u8(
    uint8_t order, const uint8_t *memory, size_t words, size_t start, size_t count, size_t *zeros);

/*@ requires \valid_read(memory + (0 .. words - 1));
  @ requires \valid(zeros);
  @ requires \separated(memory + (0 .. words - 1), zeros);
  @ assigns *zeros;
  @ ensures status: \result == range_status(16, order, words, start, count);
  @ ensures answer: \result == BITVEC_OK ==> *zeros == (count - ones_u16{Pre}(order, memory, start,
  @   count));
  @ ensures refused: \result != BITVEC_OK ==> *zeros == \old(*zeros);
  @*/
static inline uint8_t bitvec_c_count_zeros_u16(
    uint8_t order, const uint16_t *memory, size_t words, size_t start, size_t count, size_t *zeros);

/*@ requires \valid_read(memory + (0 .. words - 1));
  @ requires \valid(zeros);
  @ requires \separated(memory + (0 .. words - 1), zeros);
  @ assigns *zeros;
  @ ensures status: \result == range_status(32, order, words, start, count);
  @ ensures answer: \result == BITVEC_OK ==> *zeros == (count - ones_u32{Pre}(order, memory, start,
  @   count));
  @ ensures refused: \result != BITVEC_OK ==> *zeros == \old(*zeros);
  @*/
static inline uint8_t bitvec_c_count_zeros_u32(
    uint8_t order, const uint32_t *memory, size_t words, size_t start, size_t count, size_t *zeros);

/*@ requires \valid_read(memory + (0 .. words - 1));
  @ requires \valid(zeros);
  @ requires \separated(memory + (0 .. words - 1), zeros);
  @ assigns *zeros;
  @ ensures status: \result == range_status(64, order, words, start, count);
  @ ensures answer: \result == BITVEC_OK ==> *zeros == (count - ones_u64{Pre}(order, memory, start,
  @   count));
  @ ensures refused: \result != BITVEC_OK ==> *zeros == \old(*zeros);
  @*/
static inline uint8_t bitvec_c_count_zeros_u64(
    uint8_t order, const uint64_t *memory, size_t words, size_t start, size_t count, size_t *zeros);

/*@ requires \valid_read(memory + (0 .. words - 1));
  @ requires \valid(empty);
  @ requires \separated(memory + (0 .. words - 1), empty);
  @ assigns *empty;
  @ ensures status: \result == range_status(8, order, words, start, count);
  @ ensures answer: \result == BITVEC_OK ==> (*empty <==> (\forall integer p; start <= p < start +
  @   count ==> !bit_u8{Pre}(order, memory, p)));
  @ ensures refused: \result != BITVEC_OK ==> (*empty <==> \old(*empty));
  @*/
static inline uint8_t bitvec_c_is_empty_u8(
    uint8_t order, const uint8_t *memory, size_t words, size_t start, size_t count, bool *empty);

/*@ requires \valid_read(memory + (0 .. words - 1));
  @ requires \valid(empty);
  @ requires \separated(memory + (0 .. words - 1), empty);
  @ assigns *empty;
  @ ensures status: \result == range_status(16, order, words, start, count);
  @ ensures answer: \result == BITVEC_OK ==> (*empty <==> (\forall integer p; start <= p < start +
  @   count ==> !bit_u16{Pre}(order, memory, p)));
  @ ensures refused: \result != BITVEC_OK ==> (*empty <==> \old(*empty));
  @*/
static inline uint8_t bitvec_c_is_empty_u16(
    uint8_t order, const uint16_t *memory, size_t words, size_t start, size_t count, bool *empty);

/*@ requires \valid_read(memory + (0 .. words - 1));
  @ requires \valid(empty);
  @ requires \separated(memory + (0 .. words - 1), empty);
  @ assigns *empty;
  @ ensures status: \result == range_status(32, order, words, start, count);
  @ ensures answer: \result == BITVEC_OK ==> (*empty <==> (\forall integer p; start <= p < start +
  @   count ==> !bit_u32{Pre}(order, memory, p)));
  @ ensures refused: \result != BITVEC_OK ==> (*empty <==> \old(*empty));
  @*/
static inline uint8_t bitvec_c_is_empty_u32(
    uint8_t order, const uint32_t *memory, size_t words, size_t start, size_t count, bool *empty);

/*@ requires \valid_read(memory + (0 .. words - 1));
  @ requires \valid(empty);
  @ requires \separated(memory + (0 .. words - 1), empty);
  @ assigns *empty;
  @ ensures status: \result == range_status(64, order, words, start, count);
  @ ensures answer: \result == BITVEC_OK ==> (*empty <==> (\forall integer p; start <= p < start +
  @   count ==> !bit_u64{Pre}(order, memory, p)));
  @ ensures refused: \result != BITVEC_OK ==> (*empty <==> \old(*empty));
  @*/
static inline uint8_t bitvec_c_is_empty_u64(
    uint8_t order, const uint64_t *memory, size_t words, size_t start, size_t count, bool *empty);

/*@ requires \valid_read(memory + (0 .. words - 1));
  @ requires \valid(full);
  @ requires \separated(memory + (0 .. words - 1), full);
  @ assigns *full;
  @ ensures status: \result == range_status(8, order, words, start, count);
  @ ensures answer: \result == BITVEC_OK ==> (*full <==> (\forall integer p; start <= p < start +
  @   count ==> bit_u8{Pre}(order, memory, p)));
  @ ensures refused: \result != BITVEC_OK ==> (*full <==> \old(*full));
  @*/
static inline uint8_t bitvec_c_is_full_u8(
    uint8_t order, const uint8_t *memory, size_t words, size_t start, size_t count, bool *full);

/*@ requires \valid_read(memory + (0 .. words - 1));
  @ requires \valid(full);
  @ requires \separated(memory + (0 .. words - 1), full);
  @ assigns *full;
  @ ensures status: \result == range_status(16, order, words, start, count);
  @ ensures answer: \result == BITVEC_OK ==> (*full <==> (\forall integer p; start <= p < start +
  @   count ==> bit_u16{Pre}(order, memory, p)));
  @ ensures refused: \result != BITVEC_OK ==> (*full <==> \old(*full));
  @*/
static inline uint8_t bitvec_c_is_full_u16(
    uint8_t order, const uint16_t *memory, size_t words, size_t start, size_t count, bool *full);

/*@ requires \valid_read(memory + (0 .. words - 1));
  @ requires \valid(full);
  @ requires \separated(memory + (0 .. words - 1), full);
  @ assigns *full;
  @ ensures status: \result == range_status(32, order, words, start, count);
  @ ensures answer: \result == BITVEC_OK ==> (*full <==> (\forall integer p; start <= p < start +
  @   count ==> bit_u32{Pre}(order, memory, p)));
  @ ensures refused: \result != BITVEC_OK ==> (*full <==> \old(*full));
  @*/
static inline uint8_t bitvec_c_is_full_u32(
    uint8_t order, const uint32_t *memory, size_t words, size_t start, size_t count, bool *full);

/*@ requires \valid_read(memory + (0 .. words - 1));
  @ requires \valid(full);
  @ requires \separated(memory + (0 .. words - 1), full);
  @ assigns *full;
  @ ensures status: \result == range_status(64, order, words, start, count);
  @ ensures answer: \result == BITVEC_OK ==> (*full <==> (\forall integer p; start <= p < start +
  @   count ==> bit_u64{Pre}(order, memory, p)));
  @ ensures refused: \result != BITVEC_OK ==> (*full <==> \old(*full));
  @*/
static inline uint8_t bitvec_c_is_full_u64(
    uint8_t order, const uint64_t *memory, size_t words, size_t start, size_t count, bool *full);

/*@ requires \valid(target + (0 .. target_words - 1));
  @ requires \valid_read(source + (0 .. source_words - 1));
  @ requires \separated(target + (0 .. target_words - 1), source + (0 .. source_words - 1));
  @ assigns target[0 .. target_words - 1];
  @ ensures status: \result == then_status(range_status(8, order, source_words, source_start,
  @   count), range_status(8, order, target_words, target_start, count));
  @ ensures range: \result == BITVEC_OK ==> (\forall integer p; target_start <= p < target_start +
  @   count ==> (bit_u8{Post}(order, target, p) <==> bit_u8{Pre}(order, source, source_start + (p -
  @   target_start))));
  @ ensures others: \result == BITVEC_OK ==> others_u8{Pre, Post}(order, target, target_words,
  @   target_start, count);
  @ ensures refused: \result != BITVEC_OK ==> kept_u8{Pre, Post}(target, target_words);
  @*/
uint8_t bitvec_c_copy_u8(
    uint8_t order, uint8_t *target, size_t target_words, size_t target_start, const uint8_t *source,
    size_t source_words, size_t source_start, size_t count);

/*@ requires \valid(target + (0 .. target_words - 1));
  @ requires \valid_read(source + (0 .. source_words - 1));
  @ requires \separated(target + (0 .. target_words - 1), source + (0 .. source_words - 1));
  @ assigns target[0 .. target_words - 1];
  @ ensures status: \result == then_status(range_status(16, order, source_words, source_start,
  @   count), range_status(16, order, target_words, target_start, count));
  @ ensures range: \result == BITVEC_OK ==> (\forall integer p; target_start <= p < target_start +
  @   count ==> (bit_u16{Post}(order, target, p) <==> bit_u16{Pre}(order, source, source_start + (p
  @   - target_start))));
  @ ensures others: \result == BITVEC_OK ==> others_u16{Pre, Post}(order, target, target_words,
  @   target_start, count);
  @ ensures refused: \result != BITVEC_OK ==> kept_u16{Pre, Post}(target, target_words);
  @*/
uint8_t bitvec_c_copy_u16(
    uint8_t order, uint16_t *target, size_t target_words, size_t target_start,
    const uint16_t *source, size_t source_words, size_t source_start, size_t count);

/*@ requires \valid(target + (0 .. target_words - 1));
  @ requires \valid_read(source + (0 .. source_words - 1));
  @ requires \separated(target + (0 .. target_words - 1), source + (0 .. source_words - 1));
  @ assigns target[0 .. target_words - 1];
  @ ensures status: \result == then_status(range_status(32, order, source_words, source_start,
  @   count), range_status(32, order, target_words, target_start, count));
  @ ensures range: \result == BITVEC_OK ==> (\forall integer p; target_start <= p < target_start +
  @   count ==> (bit_u32{Post}(order, target, p) <==> bit_u32{Pre}(order, source, source_start + (p
  @   - target_start))));
  @ ensures others: \result == BITVEC_OK ==> others_u32{Pre, Post}(order, target, target_words,
  @   target_start, count);
  @ ensures refused: \result != BITVEC_OK ==> kept_u32{Pre, Post}(target, target_words);
  @*/
uint8_t bitvec_c_copy_u32(
    uint8_t order, uint32_t *target, size_t target_words, size_t target_start,
    const uint32_t *source, size_t source_words, size_t source_start, size_t count);

/*@ requires \valid(target + (0 .. target_words - 1));
  @ requires \valid_read(source + (0 .. source_words - 1));
  @ requires \separated(target + (0 .. target_words - 1), source + (0 .. source_words - 1));
  @ assigns target[0 .. target_words - 1];
  @ ensures status: \result == then_status(range_status(64, order, source_words, source_start,
  @   count), range_status(64, order, target_words, target_start, count));
  @ ensures range: \result == BITVEC_OK ==> (\forall integer p; target_start <= p < target_start +
  @   count ==> (bit_u64{Post}(order, target, p) <==> bit_u64{Pre}(order, source, source_start + (p
  @   - target_start))));
  @ ensures others: \result == BITVEC_OK ==> others_u64{Pre, Post}(order, target, target_words,
  @   target_start, count);
  @ ensures refused: \result != BITVEC_OK ==> kept_u64{Pre, Post}(target, target_words);
  @*/
uint8_t bitvec_c_copy_u64(
    uint8_t order, uint64_t *target, size_t target_words, size_t target_start,
    const uint64_t *source, size_t source_words, size_t source_start, size_t count);

/*@ requires \valid(memory + (0 .. words - 1));
  @ assigns memory[0 .. words - 1];
  @ ensures status: \result == then_status(range_status(8, order, words, source_start, count),
  @   range_status(8, order, words, target_start, count));
  @ ensures range: \result == BITVEC_OK ==> (\forall integer p; target_start <= p < target_start +
  @   count ==> (bit_u8{Post}(order, memory, p) <==> bit_u8{Pre}(order, memory, source_start + (p -
  @   target_start))));
  @ ensures others: \result == BITVEC_OK ==> others_u8{Pre, Post}(order, memory, words,
  @   target_start, count);
  @ ensures refused: \result != BITVEC_OK ==> kept_u8{Pre, Post}(memory, words);
  @*/
uint8_t bitvec_c_copy_within_u8(
    uint8_t order, uint8_t *memory, size_t words, size_t target_start, size_t source_start,
    size_t count);

/*@ requires \valid(memory + (0 .. words - 1));
  @ assigns memory[0 .. words - 1];
  @ ensures status: \result == then_status(range_status(16, order, words, source_start, count),
  @   range_status(16, order, words, target_start, count));
  @ ensures range: \result == BITVEC_OK ==> (\forall integer p; target_start <= p < target_start +
  @   count ==> (bit_u16{Post}(order, memory, p) <==> bit_u16{Pre}(order, memory, source_start + (p
  @   - target_start))));
  @ ensures others: \result == BITVEC_OK ==> others_u16{Pre, Post}(order, memory, words,
  @   target_start, count);
  @ ensures refused: \result != BITVEC_OK ==> kept_u16{Pre, Post}(memory, words);
  @*/
uint8_t bitvec_c_copy_within_u16(
    uint8_t order, uint16_t *memory, size_t words, size_t target_start, size_t source_start,
    size_t count);

/*@ requires \valid(memory + (0 .. words - 1));
  @ assigns memory[0 .. words - 1];
  @ ensures status: \result == then_status(range_status(32, order, words, source_start, count),
  @   range_status(32, order, words, target_start, count));
  @ ensures range: \result == BITVEC_OK ==> (\forall integer p; target_start <= p < target_start +
  @   count ==> (bit_u32{Post}(order, memory, p) <==> bit_u32{Pre}(order, memory, source_start + (p
  @   - target_start))));
  @ ensures others: \result == BITVEC_OK ==> others_u32{Pre, Post}(order, memory, words,
  @   target_start, count);
  @ ensures refused: \result != BITVEC_OK ==> kept_u32{Pre, Post}(memory, words);
  @*/
uint8_t bitvec_c_copy_within_u32(
    uint8_t order, uint32_t *memory, size_t words, size_t target_start, size_t source_start,
    size_t count);

/*@ requires \valid(memory + (0 .. words - 1));
  @ assigns memory[0 .. words - 1];
  @ ensures status: \result == then_status(range_status(64, order, words, source_start, count),
  @   range_status(64, order, words, target_start, count));
  @ ensures range: \result == BITVEC_OK ==> (\forall integer p; target_start <= p < target_start +
  @   count ==> (bit_u64{Post}(order, memory, p) <==> bit_u64{Pre}(order, memory, source_start + (p
  @   - target_start))));
  @ ensures others: \result == BITVEC_OK ==> others_u64{Pre, Post}(order, memory, words,
  @   target_start, count);
  @ ensures refused: \result != BITVEC_OK ==> kept_u64{Pre, Post}(memory, words);
  @*/
uint8_t bitvec_c_copy_within_u64(
    uint8_t order, uint64_t *memory, size_t words, size_t target_start, size_t source_start,
    size_t count);

/*@ requires \valid(target + (0 .. target_words - 1));
  @ requires \valid_read(source + (0 .. source_words - 1));
  @ requires \separated(target + (0 .. target_words - 1), source + (0 .. source_words - 1));
  @ assigns target[0 .. target_words - 1];
  @ ensures status: \result == then_status(range_status(8, source_order, source_words, source_start,
  @   count), range_status(8, order, target_words, target_start, count));
  @ ensures range: \result == BITVEC_OK ==> (\forall integer p; target_start <= p < target_start +
  @   count ==> (bit_u8{Post}(order, target, p) <==> bit_u8{Pre}(source_order, source, source_start
  @   + (p - target_start))));
  @ ensures others: \result == BITVEC_OK ==> others_u8{Pre, Post}(order, target, target_words,
  @   target_start, count);
  @ ensures refused: \result != BITVEC_OK ==> kept_u8{Pre, Post}(target, target_words);
  @*/
uint8_t bitvec_c_copy_u8_to_u8(
    uint8_t order, uint8_t *target, size_t target_words, size_t target_start, uint8_t source_order,
    const uint8_t *source, size_t source_words, size_t source_start, size_t count);

/*@ requires \valid(target + (0 .. target_words - 1));
  @ requires \valid_read(source + (0 .. source_words - 1));
  @ requires \separated(target + (0 .. target_words - 1), source + (0 .. source_words - 1));
  @ assigns target[0 .. target_words - 1];
  @ ensures status: \result == then_status(range_status(8, source_order, source_words, source_start,
  @   count), range_status(16, order, target_words, target_start, count));
  @ ensures range: \result == BITVEC_OK ==> (\forall integer p; target_start <= p < target_start +
  @   count ==> (bit_u16{Post}(order, target, p) <==> bit_u8{Pre}(source_order, source, source_start
  @   + (p - target_start))));
  @ ensures others: \result == BITVEC_OK ==> others_u16{Pre, Post}(order, target, target_words,
  @   target_start, count);
  @ ensures refused: \result != BITVEC_OK ==> kept_u16{Pre, Post}(target, target_words);
  @*/
uint8_t bitvec_c_copy_u8_to_u16(
    uint8_t order, uint16_t *target, size_t target_words, size_t target_start, uint8_t source_order,
    const uint8_t *source, size_t source_words, size_t source_start, size_t count);

/*@ requires \valid(target + (0 .. target_words - 1));
  @ requires \valid_read(source + (0 .. source_words - 1));
  @ requires \separated(target + (0 .. target_words - 1), source + (0 .. source_words - 1));
  @ assigns target[0 .. target_words - 1];
  @ ensures status: \result == then_status(range_status(8, source_order, source_words, source_start,
  @   count), range_status(32, order, target_words, target_start, count));
  @ ensures range: \result == BITVEC_OK ==> (\forall integer p; target_start <= p < target_start +
  @   count ==> (bit_u32{Post}(order, target, p) <==> bit_u8{Pre}(source_order, source, source_start
  @   + (p - target_start))));
  @ ensures others: \result == BITVEC_OK ==> others_u32{Pre, Post}(order, target, target_words,
  @   target_start, count);
  @ ensures refused: \result != BITVEC_OK ==> kept_u32{Pre, Post}(target, target_words);
  @*/
uint8_t bitvec_c_copy_u8_to_u32(
    uint8_t order, uint32_t *target, size_t target_words, size_t target_start, uint8_t source_order,
    const uint8_t *source, size_t source_words, size_t source_start, size_t count);

/*@ requires \valid(target + (0 .. target_words - 1));
  @ requires \valid_read(source + (0 .. source_words - 1));
  @ requires \separated(target + (0 .. target_words - 1), source + (0 .. source_words - 1));
  @ assigns target[0 .. target_words - 1];
  @ ensures status: \result == then_status(range_status(8, source_order, source_words, source_start,
  @   count), range_status(64, order, target_words, target_start, count));
  @ ensures range: \result == BITVEC_OK ==> (\forall integer p; target_start <= p < target_start +
  @   count ==> (bit_u64{Post}(order, target, p) <==> bit_u8{Pre}(source_order, source, source_start
  @   + (p - target_start))));
  @ ensures others: \result == BITVEC_OK ==> others_u64{Pre, Post}(order, target, target_words,
  @   target_start, count);
  @ ensures refused: \result != BITVEC_OK ==> kept_u64{Pre, Post}(target, target_words);
  @*/
uint8_t bitvec_c_copy_u8_to_u64(
    uint8_t order, uint64_t *target, size_t target_words, size_t target_start, uint8_t source_order,
    const uint8_t *source, size_t source_words, size_t source_start, size_t count);

/*@ requires \valid(target + (0 .. target_words - 1));
  @ requires \valid_read(source + (0 .. source_words - 1));
  @ requires \separated(target + (0 .. target_words - 1), source + (0 .. source_words - 1));
  @ assigns target[0 .. target_words - 1];
  @ ensures status: \result == then_status(range_status(16, source_order, source_words,
  @   source_start, count), range_status(8, order, target_words, target_start, count));
  @ ensures range: \result == BITVEC_OK ==> (\forall integer p; target_start <= p < target_start +
  @   count ==> (bit_u8{Post}(order, target, p) <==> bit_u16{Pre}(source_order, source, source_start
  @   + (p - target_start))));
  @ ensures others: \result == BITVEC_OK ==> others_u8{Pre, Post}(order, target, target_words,
  @   target_start, count);
  @ ensures refused: \result != BITVEC_OK ==> kept_u8{Pre, Post}(target, target_words);
  @*/
uint8_t bitvec_c_copy_u16_to_u8(
    uint8_t order, uint8_t *target, size_t target_words, size_t target_start, uint8_t source_order,
    const uint16_t *source, size_t source_words, size_t source_start, size_t count);

/*@ requires \valid(target + (0 .. target_words - 1));
  @ requires \valid_read(source + (0 .. source_words - 1));
  @ requires \separated(target + (0 .. target_words - 1), source + (0 .. source_words - 1));
  @ assigns target[0 .. target_words - 1];
  @ ensures status: \result == then_status(range_status(16, source_order, source_words,
  @   source_start, count), range_status(16, order, target_words, target_start, count));
  @ ensures range: \result == BITVEC_OK ==> (\forall integer p; target_start <= p < target_start +
  @   count ==> (bit_u16{Post}(order, target, p) <==> bit_u16{Pre}(source_order, source,
  @   source_start + (p - target_start))));
  @ ensures others: \result == BITVEC_OK ==> others_u16{Pre, Post}(order, target, target_words,
  @   target_start, count);
  @ ensures refused: \result != BITVEC_OK ==> kept_u16{Pre, Post}(target, target_words);
  @*/
uint8_t bitvec_c_copy_u16_to_u16(
    uint8_t order, uint16_t *target, size_t target_words, size_t target_start, uint8_t source_order,
    const uint16_t *source, size_t source_words, size_t source_start, size_t count);

/*@ requires \valid(target + (0 .. target_words - 1));
  @ requires \valid_read(source + (0 .. source_words - 1));
  @ requires \separated(target + (0 .. target_words - 1), source + (0 .. source_words - 1));
  @ assigns target[0 .. target_words - 1];
  @ ensures status: \result == then_status(range_status(16, source_order, source_words,
  @   source_start, count), range_status(32, order, target_words, target_start, count));
  @ ensures range: \result == BITVEC_OK ==> (\forall integer p; target_start <= p < target_start +
  @   count ==> (bit_u32{Post}(order, target, p) <==> bit_u16{Pre}(source_order, source,
  @   source_start + (p - target_start))));
  @ ensures others: \result == BITVEC_OK ==> others_u32{Pre, Post}(order, target, target_words,
  @   target_start, count);
  @ ensures refused: \result != BITVEC_OK ==> kept_u32{Pre, Post}(target, target_words);
  @*/
uint8_t bitvec_c_copy_u16_to_u32(
    uint8_t order, uint32_t *target, size_t target_words, size_t target_start, uint8_t source_order,
    const uint16_t *source, size_t source_words, size_t source_start, size_t count);

/*@ requires \valid(target + (0 .. target_words - 1));
  @ requires \valid_read(source + (0 .. source_words - 1));
  @ requires \separated(target + (0 .. target_words - 1), source + (0 .. source_words - 1));
  @ assigns target[0 .. target_words - 1];
  @ ensures status: \result == then_status(range_status(16, source_order, source_words,
  @   source_start, count), range_status(64, order, target_words, target_start, count));
  @ ensures range: \result == BITVEC_OK ==> (\forall integer p; target_start <= p < target_start +
  @   count ==> (bit_u64{Post}(order, target, p) <==> bit_u16{Pre}(source_order, source,
  @   source_start + (p - target_start))));
  @ ensures others: \result == BITVEC_OK ==> others_u64{Pre, Post}(order, target, target_words,
  @   target_start, count);
  @ ensures refused: \result != BITVEC_OK ==> kept_u64{Pre, Post}(target, target_words);
  @*/
uint8_t bitvec_c_copy_u16_to_u64(
    uint8_t order, uint64_t *target, size_t target_words, size_t target_start, uint8_t source_order,
    const uint16_t *source, size_t source_words, size_t source_start, size_t count);

/*@ requires \valid(target + (0 .. target_words - 1));
  @ requires \valid_read(source + (0 .. source_words - 1));
  @ requires \separated(target + (0 .. target_words - 1), source + (0 .. source_words - 1));
  @ assigns target[0 .. target_words - 1];
  @ ensures status: \result == then_status(range_status(32, source_order, source_words,
  @   source_start, count), range_status(8, order, target_words, target_start, count));
  @ ensures range: \result == BITVEC_OK ==> (\forall integer p; target_start <= p < target_start +
  @   count ==> (bit_u8{Post}(order, target, p) <==> bit_u32{Pre}(source_order, source, source_start
  @   + (p - target_start))));
  @ ensures others: \result == BITVEC_OK ==> others_u8{Pre, Post}(order, target, target_words,
  @   target_start, count);
  @ ensures refused: \result != BITVEC_OK ==> kept_u8{Pre, Post}(target, target_words);
  @*/
uint8_t bitvec_c_copy_u32_to_u8(
    uint8_t order, uint8_t *target, size_t target_words, size_t target_start, uint8_t source_order,
    const uint32_t *source, size_t source_words, size_t source_start, size_t count);

/*@ requires \valid(target + (0 .. target_words - 1));
  @ requires \valid_read(source + (0 .. source_words - 1));
  @ requires \separated(target + (0 .. target_words - 1), source + (0 .. source_words - 1));
  @ assigns target[0 .. target_words - 1];
  @ ensures status: \result == then_status(range_status(32, source_order, source_words,
  @   source_start, count), range_status(16, order, target_words, target_start, count));
  @ ensures range: \result == BITVEC_OK ==> (\forall integer p; target_start <= p < target_start +
  @   count ==> (bit_u16{Post}(order, target, p) <==> bit_u32{Pre}(source_order, source,
  @   source_start + (p - target_start))));
  @ ensures others: \result == BITVEC_OK ==> others_u16{Pre, Post}(order, target, target_words,
  @   target_start, count);
  @ ensures refused: \result != BITVEC_OK ==> kept_u16{Pre, Post}(target, target_words);
  @*/
uint8_t bitvec_c_copy_u32_to_u16(
    uint8_t order, uint16_t *target, size_t target_words, size_t target_start, uint8_t source_order,
    const uint32_t *source, size_t source_words, size_t source_start, size_t count);

/*@ requires \valid(target + (0 .. target_words - 1));
  @ requires \valid_read(source + (0 .. source_words - 1));
  @ requires \separated(target + (0 .. target_words - 1), source + (0 .. source_words - 1));
  @ assigns target[0 .. target_words - 1];
  @ ensures status: \result == then_status(range_status(32, source_order, source_words,
  @   source_start, count), range_status(32, order, target_words, target_start, count));
  @ ensures range: \result == BITVEC_OK ==> (\forall integer p; target_start <= p < target_start +
  @   count ==> (bit_u32{Post}(order, target, p) <==> bit_u32{Pre}(source_order, source,
  @   source_start + (p - target_start))));
  @ ensures others: \result == BITVEC_OK ==> others_u32{Pre, Post}(order, target, target_words,
  @   target_start, count);
  @ ensures refused: \result != BITVEC_OK ==> kept_u32{Pre, Post}(target, target_words);
  @*/
uint8_t bitvec_c_copy_u32_to_u32(
    uint8_t order, uint32_t *target, size_t target_words, size_t target_start, uint8_t source_order,
    const uint32_t *source, size_t source_words, size_t source_start, size_t count);

/*@ requires \valid(target + (0 .. target_words - 1));
  @ requires \valid_read(source + (0 .. source_words - 1));
  @ requires \separated(target + (0 .. target_words - 1), source + (0 .. source_words - 1));
  @ assigns target[0 .. target_words - 1];
  @ ensures status: \result == then_status(range_status(32, source_order, source_words,
  @   source_start, count), range_status(64, order, target_words, target_start, count));
  @ ensures range: \result == BITVEC_OK ==> (\forall integer p; target_start <= p < target_start +
  @   count ==> (bit_u64{Post}(order, target, p) <==> bit_u32{Pre}(source_order, source,
  @   source_start + (p - target_start))));
  @ ensures others: \result == BITVEC_OK ==> others_u64{Pre, Post}(order, target, target_words,
  @   target_start, count);
  @ ensures refused: \result != BITVEC_OK ==> kept_u64{Pre, Post}(target, target_words);
  @*/
uint8_t bitvec_c_copy_u32_to_u64(
    uint8_t order, uint64_t *target, size_t target_words, size_t target_start, uint8_t source_order,
    const uint32_t *source, size_t source_words, size_t source_start, size_t count);

/*@ requires \valid(target + (0 .. target_words - 1));
  @ requires \valid_read(source + (0 .. source_words - 1));
  @ requires \separated(target + (0 .. target_words - 1), source + (0 .. source_words - 1));
  @ assigns target[0 .. target_words - 1];
  @ ensures status: \result == then_status(range_status(64, source_order, source_words,
  @   source_start, count), range_status(8, order, target_words, target_start, count));
  @ ensures range: \result == BITVEC_OK ==> (\forall integer p; target_start <= p < target_start +
  @   count ==> (bit_u8{Post}(order, target, p) <==> bit_u64{Pre}(source_order, source, source_start
  @   + (p - target_start))));
  @ ensures others: \result == BITVEC_OK ==> others_u8{Pre, Post}(order, target, target_words,
  @   target_start, count);
  @ ensures refused: \result != BITVEC_OK ==> kept_u8{Pre, Post}(target, target_words);
  @*/
uint8_t bitvec_c_copy_u64_to_u8(
    uint8_t order, uint8_t *target, size_t target_words, size_t target_start, uint8_t source_order,
    const uint64_t *source, size_t source_words, size_t source_start, size_t count);

/*@ requires \valid(target + (0 .. target_words - 1));
  @ requires \valid_read(source + (0 .. source_words - 1));
  @ requires \separated(target + (0 .. target_words - 1), source + (0 .. source_words - 1));
  @ assigns target[0 .. target_words - 1];
  @ ensures status: \result == then_status(range_status(64, source_order, source_words,
  @   source_start, count), range_status(16, order, target_words, target_start, count));
  @ ensures range: \result == BITVEC_OK ==> (\forall integer p; target_start <= p < target_start +
  @   count ==> (bit_u16{Post}(order, target, p) <==> bit_u64{Pre}(source_order, source,
  @   source_start + (p - target_start))));
  @ ensures others: \result == BITVEC_OK ==> others_u16{Pre, Post}(order, target, target_words,
  @   target_start, count);
  @ ensures refused: \result != BITVEC_OK ==> kept_u16{Pre, Post}(target, target_words);
  @*/
uint8_t bitvec_c_copy_u64_to_u16(
    uint8_t order, uint16_t *target, size_t target_words, size_t target_start, uint8_t source_order,
    const uint64_t *source, size_t source_words, size_t source_start, size_t count);

/*@ requires \valid(target + (0 .. target_words - 1));
  @ requires \valid_read(source + (0 .. source_words - 1));
  @ requires \separated(target + (0 .. target_words - 1), source + (0 .. source_words - 1));
  @ assigns target[0 .. target_words - 1];
  @ ensures status: \result == then_status(range_status(64, source_order, source_words,
  @   source_start, count), range_status(32, order, target_words, target_start, count));
  @ ensures range: \result == BITVEC_OK ==> (\forall integer p; target_start <= p < target_start +
  @   count ==> (bit_u32{Post}(order, target, p) <==> bit_u64{Pre}(source_order, source,
  @   source_start + (p - target_start))));
  @ ensures others: \result == BITVEC_OK ==> others_u32{Pre, Post}(order, target, target_words,
  @   target_start, count);
  @ ensures refused: \result != BITVEC_OK ==> kept_u32{Pre, Post}(target, target_words);
  @*/
uint8_t bitvec_c_copy_u64_to_u32(
    uint8_t order, uint32_t *target, size_t target_words, size_t target_start, uint8_t source_order,
    const uint64_t *source, size_t source_words, size_t source_start, size_t count);

/*@ requires \valid(target + (0 .. target_words - 1));
  @ requires \valid_read(source + (0 .. source_words - 1));
  @ requires \separated(target + (0 .. target_words - 1), source + (0 .. source_words - 1));
  @ assigns target[0 .. target_words - 1];
  @ ensures status: \result == then_status(range_status(64, source_order, source_words,
  @   source_start, count), range_status(64, order, target_words, target_start, count));
  @ ensures range: \result == BITVEC_OK ==> (\forall integer p; target_start <= p < target_start +
  @   count ==> (bit_u64{Post}(order, target, p) <==> bit_u64{Pre}(source_order, source,
  @   source_start + (p - target_start))));
  @ ensures others: \result == BITVEC_OK ==> others_u64{Pre, Post}(order, target, target_words,
  @   target_start, count);
  @ ensures refused: \result != BITVEC_OK ==> kept_u64{Pre, Post}(target, target_words);
  @*/
uint8_t bitvec_c_copy_u64_to_u64(
    uint8_t order, uint64_t *target, size_t target_words, size_t target_start, uint8_t source_order,
    const uint64_t *source, size_t source_words, size_t source_start, size_t count);

/*@ requires \valid(memory + (0 .. words - 1));
  @ assigns memory[0 .. words - 1];
  @ ensures status: \result == moved_status(8, order, words, start, count, by);
  @ ensures range: \result == BITVEC_OK ==> (\forall integer p; start <= p < start + count ==>
  @   (bit_u8{Post}(order, memory, p) <==> (((p - start) < (count - by) && bit_u8{Pre}(order,
  @   memory, start + ((p - start) + by))) || ((count - by) <= (p - start) && \false))));
  @ ensures others: \result == BITVEC_OK ==> others_u8{Pre, Post}(order, memory, words, start,
  @   count);
  @ ensures refused: \result != BITVEC_OK ==> kept_u8{Pre, Post}(memory, words);
  @*/
uint8_t bitvec_c_shift_left_u8(
    uint8_t order, uint8_t *memory, size_t words, size_t start, size_t count, size_t by);

/*@ requires \valid(memory + (0 .. words - 1));
  @ assigns memory[0 .. words - 1];
  @ ensures status: \result == moved_status(16, order, words, start, count, by);
  @ ensures range: \result == BITVEC_OK ==> (\forall integer p; start <= p < start + count ==>
  @   (bit_u16{Post}(order, memory, p) <==> (((p - start) < (count - by) && bit_u16{Pre}(order,
  @   memory, start + ((p - start) + by))) || ((count - by) <= (p - start) && \false))));
  @ ensures others: \result == BITVEC_OK ==> others_u16{Pre, Post}(order, memory, words, start,
  @   count);
  @ ensures refused: \result != BITVEC_OK ==> kept_u16{Pre, Post}(memory, words);
  @*/
uint8_t bitvec_c_shift_left_u16(
    uint8_t order, uint16_t *memory, size_t words, size_t start, size_t count, size_t by);

/*@ requires \valid(memory + (0 .. words - 1));
  @ assigns memory[0 .. words - 1];
  @ ensures status: \result == moved_status(32, order, words, start, count, by);
  @ ensures range: \result == BITVEC_OK ==> (\forall integer p; start <= p < start + count ==>
  @   (bit_u32{Post}(order, memory, p) <==> (((p - start) < (count - by) && bit_u32{Pre}(order,
  @   memory, start + ((p - start) + by))) || ((count - by) <= (p - start) && \false))));
  @ ensures others: \result == BITVEC_OK ==> others_u32{Pre, Post}(order, memory, words, start,
  @   count);
  @ ensures refused: \result != BITVEC_OK ==> kept_u32{Pre, Post}(memory, words);
  @*/
uint8_t bitvec_c_shift_left_u32(
    uint8_t order, uint32_t *memory, size_t words, size_t start, size_t count, size_t by);

/*@ requires \valid(memory + (0 .. words - 1));
  @ assigns memory[0 .. words - 1];
  @ ensures status: \result == moved_status(64, order, words, start, count, by);
  @ ensures range: \result == BITVEC_OK ==> (\forall integer p; start <= p < start + count ==>
  @   (bit_u64{Post}(order, memory, p) <==> (((p - start) < (count - by) && bit_u64{Pre}(order,
  @   memory, start + ((p - start) + by))) || ((count - by) <= (p - start) && \false))));
  @ ensures others: \result == BITVEC_OK ==> others_u64{Pre, Post}(order, memory, words, start,
  @   count);
  @ ensures refused: \result != BITVEC_OK ==> kept_u64{Pre, Post}(memory, words);
  @*/
uint8_t bitvec_c_shift_left_u64(
    uint8_t order, uint64_t *memory, size_t words, size_t start, size_t count, size_t by);

/*@ requires \valid(memory + (0 .. words - 1));
  @ assigns memory[0 .. words - 1];
  @ ensures status: \result == moved_status(8, order, words, start, count, by);
  @ ensures range: \result == BITVEC_OK ==> (\forall integer p; start <= p < start + count ==>
  @   (bit_u8{Post}(order, memory, p) <==> (((p - start) < by && \false) || (by <= (p - start) &&
  @   bit_u8{Pre}(order, memory, start + ((p - start) - by))))));
  @ ensures others: \result == BITVEC_OK ==> others_u8{Pre, Post}(order, memory, words, start,
  @   count);
  @ ensures refused: \result != BITVEC_OK ==> kept_u8{Pre, Post}(memory, words);
  @*/
uint8_t bitvec_c_shift_right_u8(
    uint8_t order, uint8_t *memory, size_t words, size_t start, size_t count, size_t by);

/*@ requires \valid(memory + (0 .. words - 1));
  @ assigns memory[0 .. words - 1];
  @ ensures status: \result == moved_status(16, order, words, start, count, by);
  @ ensures range: \result == BITVEC_OK ==> (\forall integer p; start <= p < start + count ==>
  @   (bit_u16{Post}(order, memory, p) <==> (((p - start) < by && \false) || (by <= (p - start) &&
  @   bit_u16{Pre}(order, memory, start + ((p - start) - by))))));
  @ ensures others: \result == BITVEC_OK ==> others_u16{Pre, Post}(order, memory, words, start,
  @   count);
  @ ensures refused: \result != BITVEC_OK ==> kept_u16{Pre, Post}(memory, words);
  @*/
uint8_t bitvec_c_shift_right_u16(
    uint8_t order, uint16_t *memory, size_t words, size_t start, size_t count, size_t by);

/*@ requires \valid(memory + (0 .. words - 1));
  @ assigns memory[0 .. words - 1];
  @ ensures status: \result == moved_status(32, order, words, start, count, by);
  @ ensures range: \result == BITVEC_OK ==> (\forall integer p; start <= p < start + count ==>
  @   (bit_u32{Post}(order, memory, p) <==> (((p - start) < by && \false) || (by <= (p - start) &&
  @   bit_u32{Pre}(order, memory, start + ((p - start) - by))))));
  @ ensures others: \result == BITVEC_OK ==> others_u32{Pre, Post}(order, memory, words, start,
  @   count);
  @ ensures refused: \result != BITVEC_OK ==> kept_u32{Pre, Post}(memory, words);
  @*/
uint8_t bitvec_c_shift_right_u32(
    uint8_t order, uint32_t *memory, size_t words, size_t start, size_t count, size_t by);

/*@ requires \valid(memory + (0 .. words - 1));
  @ assigns memory[0 .. words - 1];
  @ ensures status: \result == moved_status(64, order, words, start, count, by);
  @ ensures range: \result == BITVEC_OK ==> (\forall integer p; start <= p < start + count ==>
  @   (bit_u64{Post}(order, memory, p) <==> (((p - start) < by && \false) || (by <= (p - start) &&
  @   bit_u64{Pre}(order, memory, start + ((p - start) - by))))));
  @ ensures others: \result == BITVEC_OK ==> others_u64{Pre, Post}(order, memory, words, start,
  @   count);
  @ ensures refused: \result != BITVEC_OK ==> kept_u64{Pre, Post}(memory, words);
  @*/
uint8_t bitvec_c_shift_right_u64(
    uint8_t order, uint64_t *memory, size_t words, size_t start, size_t count, size_t by);

/*@ requires \valid(memory + (0 .. words - 1));
  @ assigns memory[0 .. words - 1];
  @ ensures status: \result == moved_status(8, order, words, start, count, by);
  @ ensures range: \result == BITVEC_OK ==> (\forall integer p; start <= p < start + count ==>
  @   (bit_u8{Post}(order, memory, p) <==> (((p - start) < (count - by) && bit_u8{Pre}(order,
  @   memory, start + ((p - start) + by))) || ((count - by) <= (p - start) && bit_u8{Pre}(order,
  @   memory, start + ((p - start) - (count - by)))))));
  @ ensures others: \result == BITVEC_OK ==> others_u8{Pre, Post}(order, memory, words, start,
  @   count);
  @ ensures refused: \result != BITVEC_OK ==> kept_u8{Pre, Post}(memory, words);
  @*/
uint8_t bitvec_c_rotate_left_u8(
    uint8_t order, uint8_t *memory, size_t words, size_t start, size_t count, size_t by);

/*@ requires \valid(memory + (0 .. words - 1));
  @ assigns memory[0 .. words - 1];
  @ ensures status: \result == moved_status(16, order, words, start, count, by);
  @ ensures range: \result == BITVEC_OK ==> (\forall integer p; start <= p < start + count ==>
  @   (bit_u16{Post}(order, memory, p) <==> (((p - start) < (count - by) && bit_u16{Pre}(order,
  @   memory, start + ((p - start) + by))) || ((count - by) <= (p - start) && bit_u16{Pre}(order,
  @   memory, start + ((p - start) - (count - by)))))));
  @ ensures others: \result == BITVEC_OK ==> others_u16{Pre, Post}(order, memory, words, start,
  @   count);
  @ ensures refused: \result != BITVEC_OK ==> kept_u16{Pre, Post}(memory, words);
  @*/
uint8_t bitvec_c_rotate_left_u16(
    uint8_t order, uint16_t *memory, size_t words, size_t start, size_t count, size_t by);

/*@ requires \valid(memory + (0 .. words - 1));
  @ assigns memory[0 .. words - 1];
  @ ensures status: \result == moved_status(32, order, words, start, count, by);
  @ ensures range: \result == BITVEC_OK ==> (\forall integer p; start <= p < start + count ==>
  @   (bit_u32{Post}(order, memory, p) <==> (((p - start) < (count - by) && bit_u32{Pre}(order,
  @   memory, start + ((p - start) + by))) || ((count - by) <= (p - start) && bit_u32{Pre}(order,
  @   memory, start + ((p - start) - (count - by)))))));
  @ ensures others: \result == BITVEC_OK ==> others_u32{Pre, Post}(order, memory, words, start,
  @   count);
  @ ensures refused: \result != BITVEC_OK ==> kept_u32{Pre, Post}(memory, words);
  @*/
uint8_t bitvec_c_rotate_left_u32(
    uint8_t order, uint32_t *memory, size_t words, size_t start, size_t count, size_t by);

/*@ requires \valid(memory + (0 .. words - 1));
  @ assigns memory[0 .. words - 1];
  @ ensures status: \result == moved_status(64, order, words, start, count, by);
  @ ensures range: \result == BITVEC_OK ==> (\forall integer p; start <= p < start + count ==>
  @   (bit_u64{Post}(order, memory, p) <==> (((p - start) < (count - by) && bit_u64{Pre}(order,
  @   memory, start + ((p - start) + by))) || ((count - by) <= (p - start) && bit_u64{Pre}(order,
  @   memory, start + ((p - start) - (count - by)))))));
  @ ensures others: \result == BITVEC_OK ==> others_u64{Pre, Post}(order, memory, words, start,
  @   count);
  @ ensures refused: \result != BITVEC_OK ==> kept_u64{Pre, Post}(memory, words);
  @*/
uint8_t bitvec_c_rotate_left_u64(
    uint8_t order, uint64_t *memory, size_t words, size_t start, size_t count, size_t by);

/*@ requires \valid(target + (0 .. target_words - 1));
  @ requires \valid_read(source + (0 .. source_words - 1));
  @ requires \separated(target + (0 .. target_words - 1), source + (0 .. source_words - 1));
  @ assigns target[0 .. target_words - 1];
  @ ensures status: \result == then_status(range_status(8, source_order, source_words, source_start,
  @   count), range_status(8, order, target_words, target_start, count));
  @ ensures range: \result == BITVEC_OK ==> (\forall integer p; target_start <= p < target_start +
  @   count ==> (bit_u8{Post}(order, target, p) <==> (bit_u8{Pre}(order, target, p) &&
  @   bit_u8{Pre}(source_order, source, source_start + (p - target_start)))));
  @ ensures others: \result == BITVEC_OK ==> others_u8{Pre, Post}(order, target, target_words,
  @   target_start, count);
  @ ensures refused: \result != BITVEC_OK ==> kept_u8{Pre, Post}(target, target_words);
  @*/
uint8_t bitvec_c_and_u8(
    uint8_t order, uint8_t *target, size_t target_words, size_t target_start, uint8_t source_order,
    const uint8_t *source, size_t source_words, size_t source_start, size_t count);

/*@ requires \valid(target + (0 .. target_words - 1));
  @ requires \valid_read(source + (0 .. source_words - 1));
  @ requires \separated(target + (0 .. target_words - 1), source + (0 .. source_words - 1));
  @ assigns target[0 .. target_words - 1];
  @ ensures status: \result == then_status(range_status(16, source_order, source_words,
  @   source_start, count), range_status(16, order, target_words, target_start, count));
  @ ensures range: \result == BITVEC_OK ==> (\forall integer p; target_start <= p < target_start +
  @   count ==> (bit_u16{Post}(order, target, p) <==> (bit_u16{Pre}(order, target, p) &&
  @   bit_u16{Pre}(source_order, source, source_start + (p - target_start)))));
  @ ensures others: \result == BITVEC_OK ==> others_u16{Pre, Post}(order, target, target_words,
  @   target_start, count);
  @ ensures refused: \result != BITVEC_OK ==> kept_u16{Pre, Post}(target, target_words);
  @*/
uint8_t bitvec_c_and_u16(
    uint8_t order, uint16_t *target, size_t target_words, size_t target_start, uint8_t source_order,
    const uint16_t *source, size_t source_words, size_t source_start, size_t count);

/*@ requires \valid(target + (0 .. target_words - 1));
  @ requires \valid_read(source + (0 .. source_words - 1));
  @ requires \separated(target + (0 .. target_words - 1), source + (0 .. source_words - 1));
  @ assigns target[0 .. target_words - 1];
  @ ensures status: \result == then_status(range_status(32, source_order, source_words,
  @   source_start, count), range_status(32, order, target_words, target_start, count));
  @ ensures range: \result == BITVEC_OK ==> (\forall integer p; target_start <= p < target_start +
  @   count ==> (bit_u32{Post}(order, target, p) <==> (bit_u32{Pre}(order, target, p) &&
  @   bit_u32{Pre}(source_order, source, source_start + (p - target_start)))));
  @ ensures others: \result == BITVEC_OK ==> others_u32{Pre, Post}(order, target, target_words,
  @   target_start, count);
  @ ensures refused: \result != BITVEC_OK ==> kept_u32{Pre, Post}(target, target_words);
  @*/
uint8_t bitvec_c_and_u32(
    uint8_t order, uint32_t *target, size_t target_words, size_t target_start, uint8_t source_order,
    const uint32_t *source, size_t source_words, size_t source_start, size_t count);

/*@ requires \valid(target + (0 .. target_words - 1));
  @ requires \valid_read(source + (0 .. source_words - 1));
  @ requires \separated(target + (0 .. target_words - 1), source + (0 .. source_words - 1));
  @ assigns target[0 .. target_words - 1];
  @ ensures status: \result == then_status(range_status(64, source_order, source_words,
  @   source_start, count), range_status(64, order, target_words, target_start, count));
  @ ensures range: \result == BITVEC_OK ==> (\forall integer p; target_start <= p < target_start +
  @   count ==> (bit_u64{Post}(order, target, p) <==> (bit_u64{Pre}(order, target, p) &&
  @   bit_u64{Pre}(source_order, source, source_start + (p - target_start)))));
  @ ensures others: \result == BITVEC_OK ==> others_u64{Pre, Post}(order, target, target_words,
  @   target_start, count);
  @ ensures refused: \result != BITVEC_OK ==> kept_u64{Pre, Post}(target, target_words);
  @*/
uint8_t bitvec_c_and_u64(
    uint8_t order, uint64_t *target, size_t target_words, size_t target_start, uint8_t source_order,
    const uint64_t *source, size_t source_words, size_t source_start, size_t count);

/*@ requires \valid(target + (0 .. target_words - 1));
  @ requires \valid_read(source + (0 .. source_words - 1));
  @ requires \separated(target + (0 .. target_words - 1), source + (0 .. source_words - 1));
  @ assigns target[0 .. target_words - 1];
  @ ensures status: \result == then_status(range_status(8, source_order, source_words, source_start,
  @   count), range_status(8, order, target_words, target_start, count));
  @ ensures range: \result == BITVEC_OK ==> (\forall integer p; target_start <= p < target_start +
  @   count ==> (bit_u8{Post}(order, target, p) <==> (bit_u8{Pre}(order, target, p) ||
  @   bit_u8{Pre}(source_order, source, source_start + (p - target_start)))));
  @ ensures others: \result == BITVEC_OK ==> others_u8{Pre, Post}(order, target, target_words,
  @   target_start, count);
  @ ensures refused: \result != BITVEC_OK ==> kept_u8{Pre, Post}(target, target_words);
  @*/
uint8_t bitvec_c_or_u8(
    uint8_t order, uint8_t *target, size_t target_words, size_t target_start, uint8_t source_order,
    const uint8_t *source, size_t source_words, size_t source_start, size_t count);

/*@ requires \valid(target + (0 .. target_words - 1));
  @ requires \valid_read(source + (0 .. source_words - 1));
  @ requires \separated(target + (0 .. target_words - 1), source + (0 .. source_words - 1));
  @ assigns target[0 .. target_words - 1];
  @ ensures status: \result == then_status(range_status(16, source_order, source_words,
  @   source_start, count), range_status(16, order, target_words, target_start, count));
  @ ensures range: \result == BITVEC_OK ==> (\forall integer p; target_start <= p < target_start +
  @   count ==> (bit_u16{Post}(order, target, p) <==> (bit_u16{Pre}(order, target, p) ||
  @   bit_u16{Pre}(source_order, source, source_start + (p - target_start)))));
  @ ensures others: \result == BITVEC_OK ==> others_u16{Pre, Post}(order, target, target_words,
  @   target_start, count);
  @ ensures refused: \result != BITVEC_OK ==> kept_u16{Pre, Post}(target, target_words);
  @*/
uint8_t bitvec_c_or_u16(
    uint8_t order, uint16_t *target, size_t target_words, size_t target_start, uint8_t source_order,
    const uint16_t *source, size_t source_words, size_t source_start, size_t count);

/*@ requires \valid(target + (0 .. target_words - 1));
  @ requires \valid_read(source + (0 .. source_words - 1));
  @ requires \separated(target + (0 .. target_words - 1), source + (0 .. source_words - 1));
  @ assigns target[0 .. target_words - 1];
  @ ensures status: \result == then_status(range_status(32, source_order, source_words,
  @   source_start, count), range_status(32, order, target_words, target_start, count));
  @ ensures range: \result == BITVEC_OK ==> (\forall integer p; target_start <= p < target_start +
  @   count ==> (bit_u32{Post}(order, target, p) <==> (bit_u32{Pre}(order, target, p) ||
  @   bit_u32{Pre}(source_order, source, source_start + (p - target_start)))));
  @ ensures others: \result == BITVEC_OK ==> others_u32{Pre, Post}(order, target, target_words,
  @   target_start, count);
  @ ensures refused: \result != BITVEC_OK ==> kept_u32{Pre, Post}(target, target_words);
  @*/
uint8_t bitvec_c_or_u32(
    uint8_t order, uint32_t *target, size_t target_words, size_t target_start, uint8_t source_order,
    const uint32_t *source, size_t source_words, size_t source_start, size_t count);

/*@ requires \valid(target + (0 .. target_words - 1));
  @ requires \valid_read(source + (0 .. source_words - 1));
  @ requires \separated(target + (0 .. target_words - 1), source + (0 .. source_words - 1));
  @ assigns target[0 .. target_words - 1];
  @ ensures status: \result == then_status(range_status(64, source_order, source_words,
  @   source_start, count), range_status(64, order, target_words, target_start, count));
  @ ensures range: \result == BITVEC_OK ==> (\forall integer p; target_start <= p < target_start +
  @   count ==> (bit_u64{Post}(order, target, p) <==> (bit_u64{Pre}(order, target, p) ||
  @   bit_u64{Pre}(source_order, source, source_start + (p - target_start)))));
  @ ensures others: \result == BITVEC_OK ==> others_u64{Pre, Post}(order, target, target_words,
  @   target_start, count);
  @ ensures refused: \result != BITVEC_OK ==> kept_u64{Pre, Post}(target, target_words);
  @*/
uint8_t bitvec_c_or_u64(
    uint8_t order, uint64_t *target, size_t target_words, size_t target_start, uint8_t source_order,
    const uint64_t *source, size_t source_words, size_t source_start, size_t count);

/*@ requires \valid(target + (0 .. target_words - 1));
  @ requires \valid_read(source + (0 .. source_words - 1));
  @ requires \separated(target + (0 .. target_words - 1), source + (0 .. source_words - 1));
  @ assigns target[0 .. target_words - 1];
  @ ensures status: \result == then_status(range_status(8, source_order, source_words, source_start,
  @   count), range_status(8, order, target_words, target_start, count));
  @ ensures range: \result == BITVEC_OK ==> (\forall integer p; target_start <= p < target_start +
  @   count ==> (bit_u8{Post}(order, target, p) <==> (bit_u8{Pre}(order, target, p) ^^
  @   bit_u8{Pre}(source_order, source, source_start + (p - target_start)))));
  @ ensures others: \result == BITVEC_OK ==> others_u8{Pre, Post}(order, target, target_words,
  @   target_start, count);
  @ ensures refused: \result != BITVEC_OK ==> kept_u8{Pre, Post}(target, target_words);
  @*/
uint8_t bitvec_c_xor_u8(
    uint8_t order, uint8_t *target, size_t target_words, size_t target_start, uint8_t source_order,
    const uint8_t *source, size_t source_words, size_t source_start, size_t count);

/*@ requires \valid(target + (0 .. target_words - 1));
  @ requires \valid_read(source + (0 .. source_words - 1));
  @ requires \separated(target + (0 .. target_words - 1), source + (0 .. source_words - 1));
  @ assigns target[0 .. target_words - 1];
  @ ensures status: \result == then_status(range_status(16, source_order, source_words,
  @   source_start, count), range_status(16, order, target_words, target_start, count));
  @ ensures range: \result == BITVEC_OK ==> (\forall integer p; target_start <= p < target_start +
  @   count ==> (bit_u16{Post}(order, target, p) <==> (bit_u16{Pre}(order, target, p) ^^
  @   bit_u16{Pre}(source_order, source, source_start + (p - target_start)))));
  @ ensures others: \result == BITVEC_OK ==> others_u16{Pre, Post}(order, target, target_words,
  @   target_start, count);
  @ ensures refused: \result != BITVEC_OK ==> kept_u16{Pre, Post}(target, target_words);
  @*/
uint8_t bitvec_c_xor_u16(
    uint8_t order, uint16_t *target, size_t target_words, size_t target_start, uint8_t source_order,
    const uint16_t *source, size_t source_words, size_t source_start, size_t count);

/*@ requires \valid(target + (0 .. target_words - 1));
  @ requires \valid_read(source + (0 .. source_words - 1));
  @ requires \separated(target + (0 .. target_words - 1), source + (0 .. source_words - 1));
  @ assigns target[0 .. target_words - 1];
  @ ensures status: \result == then_status(range_status(32, source_order, source_words,
  @   source_start, count), range_status(32, order, target_words, target_start, count));
  @ ensures range: \result == BITVEC_OK ==> (\forall integer p; target_start <= p < target_start +
  @   count ==> (bit_u32{Post}(order, target, p) <==> (bit_u32{Pre}(order, target, p) ^^
  @   bit_u32{Pre}(source_order, source, source_start + (p - target_start)))));
  @ ensures others: \result == BITVEC_OK ==> others_u32{Pre, Post}(order, target, target_words,
  @   target_start, count);
  @ ensures refused: \result != BITVEC_OK ==> kept_u32{Pre, Post}(target, target_words);
  @*/
uint8_t bitvec_c_xor_u32(
    uint8_t order, uint32_t *target, size_t target_words, size_t target_start, uint8_t source_order,
    const uint32_t *source, size_t source_words, size_t source_start, size_t count);

/*@ requires \valid(target + (0 .. target_words - 1));
  @ requires \valid_read(source + (0 .. source_words - 1));
  @ requires \separated(target + (0 .. target_words - 1), source + (0 .. source_words - 1));
  @ assigns target[0 .. target_words - 1];
  @ ensures status: \result == then_status(range_status(64, source_order, source_words,
  @   source_start, count), range_status(64, order, target_words, target_start, count));
  @ ensures range: \result == BITVEC_OK ==> (\forall integer p; target_start <= p < target_start +
  @   count ==> (bit_u64{Post}(order, target, p) <==> (bit_u64{Pre}(order, target, p) ^^
  @   bit_u64{Pre}(source_order, source, source_start + (p - target_start)))));
  @ ensures others: \result == BITVEC_OK ==> others_u64{Pre, Post}(order, target, target_words,
  @   target_start, count);
  @ ensures refused: \result != BITVEC_OK ==> kept_u64{Pre, Post}(target, target_words);
  @*/
uint8_t bitvec_c_xor_u64(
    uint8_t order, uint64_t *target, size_t target_words, size_t target_start, uint8_t source_order,
    const uint64_t *source, size_t source_words, size_t source_start, size_t count);

/*@ requires \valid(target + (0 .. target_words - 1));
  @ requires \valid_read(source + (0 .. source_words - 1));
  @ requires \separated(target + (0 .. target_words - 1), source + (0 .. source_words - 1));
  @ assigns target[0 .. target_words - 1];
  @ ensures status: \result == then_status(range_status(8, source_order, source_words, source_start,
  @   count), range_status(8, order, target_words, target_start, count));
  @ ensures range: \result == BITVEC_OK ==> (\forall integer p; target_start <= p < target_start +
  @   count ==> (bit_u8{Post}(order, target, p) <==> (bit_u8{Pre}(order, target, p) &&
  @   !bit_u8{Pre}(source_order, source, source_start + (p - target_start)))));
  @ ensures others: \result == BITVEC_OK ==> others_u8{Pre, Post}(order, target, target_words,
  @   target_start, count);
  @ ensures refused: \result != BITVEC_OK ==> kept_u8{Pre, Post}(target, target_words);
  @*/
uint8_t bitvec_c_and_not_u8(
    uint8_t order, uint8_t *target, size_t target_words, size_t target_start, uint8_t source_order,
    const uint8_t *source, size_t source_words, size_t source_start, size_t count);

/*@ requires \valid(target + (0 .. target_words - 1));
  @ requires \valid_read(source + (0 .. source_words - 1));
  @ requires \separated(target + (0 .. target_words - 1), source + (0 .. source_words - 1));
  @ assigns target[0 .. target_words - 1];
  @ ensures status: \result == then_status(range_status(16, source_order, source_words,
  @   source_start, count), range_status(16, order, target_words, target_start, count));
  @ ensures range: \result == BITVEC_OK ==> (\forall integer p; target_start <= p < target_start +
  @   count ==> (bit_u16{Post}(order, target, p) <==> (bit_u16{Pre}(order, target, p) &&
  @   !bit_u16{Pre}(source_order, source, source_start + (p - target_start)))));
  @ ensures others: \result == BITVEC_OK ==> others_u16{Pre, Post}(order, target, target_words,
  @   target_start, count);
  @ ensures refused: \result != BITVEC_OK ==> kept_u16{Pre, Post}(target, target_words);
  @*/
uint8_t bitvec_c_and_not_u16(
    uint8_t order, uint16_t *target, size_t target_words, size_t target_start, uint8_t source_order,
    const uint16_t *source, size_t source_words, size_t source_start, size_t count);

/*@ requires \valid(target + (0 .. target_words - 1));
  @ requires \valid_read(source + (0 .. source_words - 1));
  @ requires \separated(target + (0 .. target_words - 1), source + (0 .. source_words - 1));
  @ assigns target[0 .. target_words - 1];
  @ ensures status: \result == then_status(range_status(32, source_order, source_words,
  @   source_start, count), range_status(32, order, target_words, target_start, count));
  @ ensures range: \result == BITVEC_OK ==> (\forall integer p; target_start <= p < target_start +
  @   count ==> (bit_u32{Post}(order, target, p) <==> (bit_u32{Pre}(order, target, p) &&
  @   !bit_u32{Pre}(source_order, source, source_start + (p - target_start)))));
  @ ensures others: \result == BITVEC_OK ==> others_u32{Pre, Post}(order, target, target_words,
  @   target_start, count);
  @ ensures refused: \result != BITVEC_OK ==> kept_u32{Pre, Post}(target, target_words);
  @*/
uint8_t bitvec_c_and_not_u32(
    uint8_t order, uint32_t *target, size_t target_words, size_t target_start, uint8_t source_order,
    const uint32_t *source, size_t source_words, size_t source_start, size_t count);

/*@ requires \valid(target + (0 .. target_words - 1));
  @ requires \valid_read(source + (0 .. source_words - 1));
  @ requires \separated(target + (0 .. target_words - 1), source + (0 .. source_words - 1));
  @ assigns target[0 .. target_words - 1];
  @ ensures status: \result == then_status(range_status(64, source_order, source_words,
  @   source_start, count), range_status(64, order, target_words, target_start, count));
  @ ensures range: \result == BITVEC_OK ==> (\forall integer p; target_start <= p < target_start +
  @   count ==> (bit_u64{Post}(order, target, p) <==> (bit_u64{Pre}(order, target, p) &&
  @   !bit_u64{Pre}(source_order, source, source_start + (p - target_start)))));
  @ ensures others: \result == BITVEC_OK ==> others_u64{Pre, Post}(order, target, target_words,
  @   target_start, count);
  @ ensures refused: \result != BITVEC_OK ==> kept_u64{Pre, Post}(target, target_words);
  @*/
uint8_t bitvec_c_and_not_u64(
    uint8_t order, uint64_t *target, size_t target_words, size_t target_start, uint8_t source_order,
    const uint64_t *source, size_t source_words, size_t source_start, size_t count);

/*@ requires \valid(memory + (0 .. words - 1));
  @ assigns memory[0 .. words - 1];
  @ ensures status: \result == then_status(range_status(8, order, words, source_start, count),
  @   range_status(8, order, words, target_start, count));
  @ ensures range: \result == BITVEC_OK ==> (\forall integer p; target_start <= p < target_start +
  @   count ==> (bit_u8{Post}(order, memory, p) <==> (bit_u8{Pre}(order, memory, p) &&
  @   bit_u8{Pre}(order, memory, source_start + (p - target_start)))));
  @ ensures others: \result == BITVEC_OK ==> others_u8{Pre, Post}(order, memory, words,
  @   target_start, count);
  @ ensures refused: \result != BITVEC_OK ==> kept_u8{Pre, Post}(memory, words);
  @*/
uint8_t bitvec_c_and_within_u8(
    uint8_t order, uint8_t *memory, size_t words, size_t target_start, size_t source_start,
    size_t count);

/*@ requires \valid(memory + (0 .. words - 1));
  @ assigns memory[0 .. words - 1];
  @ ensures status: \result == then_status(range_status(16, order, words, source_start, count),
  @   range_status(16, order, words, target_start, count));
  @ ensures range: \result == BITVEC_OK ==> (\forall integer p; target_start <= p < target_start +
  @   count ==> (bit_u16{Post}(order, memory, p) <==> (bit_u16{Pre}(order, memory, p) &&
  @   bit_u16{Pre}(order, memory, source_start + (p - target_start)))));
  @ ensures others: \result == BITVEC_OK ==> others_u16{Pre, Post}(order, memory, words,
  @   target_start, count);
  @ ensures refused: \result != BITVEC_OK ==> kept_u16{Pre, Post}(memory, words);
  @*/
uint8_t bitvec_c_and_within_u16(
    uint8_t order, uint16_t *memory, size_t words, size_t target_start, size_t source_start,
    size_t count);

/*@ requires \valid(memory + (0 .. words - 1));
  @ assigns memory[0 .. words - 1];
  @ ensures status: \result == then_status(range_status(32, order, words, source_start, count),
  @   range_status(32, order, words, target_start, count));
  @ ensures range: \result == BITVEC_OK ==> (\forall integer p; target_start <= p < target_start +
  @   count ==> (bit_u32{Post}(order, memory, p) <==> (bit_u32{Pre}(order, memory, p) &&
  @   bit_u32{Pre}(order, memory, source_start + (p - target_start)))));
  @ ensures others: \result == BITVEC_OK ==> others_u32{Pre, Post}(order, memory, words,
  @   target_start, count);
  @ ensures refused: \result != BITVEC_OK ==> kept_u32{Pre, Post}(memory, words);
  @*/
uint8_t bitvec_c_and_within_u32(
    uint8_t order, uint32_t *memory, size_t words, size_t target_start, size_t source_start,
    size_t count);

/*@ requires \valid(memory + (0 .. words - 1));
  @ assigns memory[0 .. words - 1];
  @ ensures status: \result == then_status(range_status(64, order, words, source_start, count),
  @   range_status(64, order, words, target_start, count));
  @ ensures range: \result == BITVEC_OK ==> (\forall integer p; target_start <= p < target_start +
  @   count ==> (bit_u64{Post}(order, memory, p) <==> (bit_u64{Pre}(order, memory, p) &&
  @   bit_u64{Pre}(order, memory, source_start + (p - target_start)))));
  @ ensures others: \result == BITVEC_OK ==> others_u64{Pre, Post}(order, memory, words,
  @   target_start, count);
  @ ensures refused: \result != BITVEC_OK ==> kept_u64{Pre, Post}(memory, words);
  @*/
uint8_t bitvec_c_and_within_u64(
    uint8_t order, uint64_t *memory, size_t words, size_t target_start, size_t source_start,
    size_t count);

/*@ requires \valid(memory + (0 .. words - 1));
  @ assigns memory[0 .. words - 1];
  @ ensures status: \result == then_status(range_status(8, order, words, source_start, count),
  @   range_status(8, order, words, target_start, count));
  @ ensures range: \result == BITVEC_OK ==> (\forall integer p; target_start <= p < target_start +
  @   count ==> (bit_u8{Post}(order, memory, p) <==> (bit_u8{Pre}(order, memory, p) ||
  @   bit_u8{Pre}(order, memory, source_start + (p - target_start)))));
  @ ensures others: \result == BITVEC_OK ==> others_u8{Pre, Post}(order, memory, words,
  @   target_start, count);
  @ ensures refused: \result != BITVEC_OK ==> kept_u8{Pre, Post}(memory, words);
  @*/
uint8_t bitvec_c_or_within_u8(
    uint8_t order, uint8_t *memory, size_t words, size_t target_start, size_t source_start,
    size_t count);

/*@ requires \valid(memory + (0 .. words - 1));
  @ assigns memory[0 .. words - 1];
  @ ensures status: \result == then_status(range_status(16, order, words, source_start, count),
  @   range_status(16, order, words, target_start, count));
  @ ensures range: \result == BITVEC_OK ==> (\forall integer p; target_start <= p < target_start +
  @   count ==> (bit_u16{Post}(order, memory, p) <==> (bit_u16{Pre}(order, memory, p) ||
  @   bit_u16{Pre}(order, memory, source_start + (p - target_start)))));
  @ ensures others: \result == BITVEC_OK ==> others_u16{Pre, Post}(order, memory, words,
  @   target_start, count);
  @ ensures refused: \result != BITVEC_OK ==> kept_u16{Pre, Post}(memory, words);
  @*/
uint8_t bitvec_c_or_within_u16(
    uint8_t order, uint16_t *memory, size_t words, size_t target_start, size_t source_start,
    size_t count);

/*@ requires \valid(memory + (0 .. words - 1));
  @ assigns memory[0 .. words - 1];
  @ ensures status: \result == then_status(range_status(32, order, words, source_start, count),
  @   range_status(32, order, words, target_start, count));
  @ ensures range: \result == BITVEC_OK ==> (\forall integer p; target_start <= p < target_start +
  @   count ==> (bit_u32{Post}(order, memory, p) <==> (bit_u32{Pre}(order, memory, p) ||
  @   bit_u32{Pre}(order, memory, source_start + (p - target_start)))));
  @ ensures others: \result == BITVEC_OK ==> others_u32{Pre, Post}(order, memory, words,
  @   target_start, count);
  @ ensures refused: \result != BITVEC_OK ==> kept_u32{Pre, Post}(memory, words);
  @*/
uint8_t bitvec_c_or_within_u32(
    uint8_t order, uint32_t *memory, size_t words, size_t target_start, size_t source_start,
    size_t count);

/*@ requires \valid(memory + (0 .. words - 1));
  @ assigns memory[0 .. words - 1];
  @ ensures status: \result == then_status(range_status(64, order, words, source_start, count),
  @   range_status(64, order, words, target_start, count));
  @ ensures range: \result == BITVEC_OK ==> (\forall integer p; target_start <= p < target_start +
  @   count ==> (bit_u64{Post}(order, memory, p) <==> (bit_u64{Pre}(order, memory, p) ||
  @   bit_u64{Pre}(order, memory, source_start + (p - target_start)))));
  @ ensures others: \result == BITVEC_OK ==> others_u64{Pre, Post}(order, memory, words,
  @   target_start, count);
  @ ensures refused: \result != BITVEC_OK ==> kept_u64{Pre, Post}(memory, words);
  @*/
uint8_t bitvec_c_or_within_u64(
    uint8_t order, uint64_t *memory, size_t words, size_t target_start, size_t source_start,
    size_t count);

/*@ requires \valid(memory + (0 .. words - 1));
  @ assigns memory[0 .. words - 1];
  @ ensures status: \result == then_status(range_status(8, order, words, source_start, count),
  @   range_status(8, order, words, target_start, count));
  @ ensures range: \result == BITVEC_OK ==> (\forall integer p; target_start <= p < target_start +
  @   count ==> (bit_u8{Post}(order, memory, p) <==> (bit_u8{Pre}(order, memory, p) ^^
  @   bit_u8{Pre}(order, memory, source_start + (p - target_start)))));
  @ ensures others: \result == BITVEC_OK ==> others_u8{Pre, Post}(order, memory, words,
  @   target_start, count);
  @ ensures refused: \result != BITVEC_OK ==> kept_u8{Pre, Post}(memory, words);
  @*/
uint8_t bitvec_c_xor_within_u8(
    uint8_t order, uint8_t *memory, size_t words, size_t target_start, size_t source_start,
    size_t count);

/*@ requires \valid(memory + (0 .. words - 1));
  @ assigns memory[0 .. words - 1];
  @ ensures status: \result == then_status(range_status(16, order, words, source_start, count),
  @   range_status(16, order, words, target_start, count));
  @ ensures range: \result == BITVEC_OK ==> (\forall integer p; target_start <= p < target_start +
  @   count ==> (bit_u16{Post}(order, memory, p) <==> (bit_u16{Pre}(order, memory, p) ^^
  @   bit_u16{Pre}(order, memory, source_start + (p - target_start)))));
  @ ensures others: \result == BITVEC_OK ==> others_u16{Pre, Post}(order, memory, words,
  @   target_start, count);
  @ ensures refused: \result != BITVEC_OK ==> kept_u16{Pre, Post}(memory, words);
  @*/
uint8_t bitvec_c_xor_within_u16(
    uint8_t order, uint16_t *memory, size_t words, size_t target_start, size_t source_start,
    size_t count);

/*@ requires \valid(memory + (0 .. words - 1));
  @ assigns memory[0 .. words - 1];
  @ ensures status: \result == then_status(range_status(32, order, words, source_start, count),
  @   range_status(32, order, words, target_start, count));
  @ ensures range: \result == BITVEC_OK ==> (\forall integer p; target_start <= p < target_start +
  @   count ==> (bit_u32{Post}(order, memory, p) <==> (bit_u32{Pre}(order, memory, p) ^^
  @   bit_u32{Pre}(order, memory, source_start + (p - target_start)))));
  @ ensures others: \result == BITVEC_OK ==> others_u32{Pre, Post}(order, memory, words,
  @   target_start, count);
  @ ensures refused: \result != BITVEC_OK ==> kept_u32{Pre, Post}(memory, words);
  @*/
uint8_t bitvec_c_xor_within_u32(
    uint8_t order, uint32_t *memory, size_t words, size_t target_start, size_t source_start,
    size_t count);

/*@ requires \valid(memory + (0 .. words - 1));
  @ assigns memory[0 .. words - 1];
  @ ensures status: \result == then_status(range_status(64, order, words, source_start, count),
  @   range_status(64, order, words, target_start, count));
  @ ensures range: \result == BITVEC_OK ==> (\forall integer p; target_start <= p < target_start +
  @   count ==> (bit_u64{Post}(order, memory, p) <==> (bit_u64{Pre}(order, memory, p) ^^
  @   bit_u64{Pre}(order, memory, source_start + (p - target_start)))));
  @ ensures others: \result == BITVEC_OK ==> others_u64{Pre, Post}(order, memory, words,
  @   target_start, count);
  @ ensures refused: \result != BITVEC_OK ==> kept_u64{Pre, Post}(memory, words);
  @*/
uint8_t bitvec_c_xor_within_u64(
    uint8_t order, uint64_t *memory, size_t words, size_t target_start, size_t source_start,
    size_t count);

/*@ requires \valid(memory + (0 .. words - 1));
  @ assigns memory[0 .. words - 1];
  @ ensures status: \result == then_status(range_status(8, order, words, source_start, count),
  @   range_status(8, order, words, target_start, count));
  @ ensures range: \result == BITVEC_OK ==> (\forall integer p; target_start <= p < target_start +
  @   count ==> (bit_u8{Post}(order, memory, p) <==> (bit_u8{Pre}(order, memory, p) &&
  @   !bit_u8{Pre}(order, memory, source_start + (p - target_start)))));
  @ ensures others: \result == BITVEC_OK ==> others_u8{Pre, Post}(order, memory, words,
  @   target_start, count);
  @ ensures refused: \result != BITVEC_OK ==> kept_u8{Pre, Post}(memory, words);
  @*/
uint8_t bitvec_c_and_not_within_u8(
    uint8_t order, uint8_t *memory, size_t words, size_t target_start, size_t source_start,
    size_t count);

/*@ requires \valid(memory + (0 .. words - 1));
  @ assigns memory[0 .. words - 1];
  @ ensures status: \result == then_status(range_status(16, order, words, source_start, count),
  @   range_status(16, order, words, target_start, count));
  @ ensures range: \result == BITVEC_OK ==> (\forall integer p; target_start <= p < target_start +
  @   count ==> (bit_u16{Post}(order, memory, p) <==> (bit_u16{Pre}(order, memory, p) &&
  @   !bit_u16{Pre}(order, memory, source_start + (p - target_start)))));
  @ ensures others: \result == BITVEC_OK ==> others_u16{Pre, Post}(order, memory, words,
  @   target_start, count);
  @ ensures refused: \result != BITVEC_OK ==> kept_u16{Pre, Post}(memory, words);
  @*/
uint8_t bitvec_c_and_not_within_u16(
    uint8_t order, uint16_t *memory, size_t words, size_t target_start, size_t source_start,
    size_t count);

/*@ requires \valid(memory + (0 .. words - 1));
  @ assigns memory[0 .. words - 1];
  @ ensures status: \result == then_status(range_status(32, order, words, source_start, count),
  @   range_status(32, order, words, target_start, count));
  @ ensures range: \result == BITVEC_OK ==> (\forall integer p; target_start <= p < target_start +
  @   count ==> (bit_u32{Post}(order, memory, p) <==> (bit_u32{Pre}(order, memory, p) &&
  @   !bit_u32{Pre}(order, memory, source_start + (p - target_start)))));
  @ ensures others: \result == BITVEC_OK ==> others_u32{Pre, Post}(order, memory, words,
  @   target_start, count);
  @ ensures refused: \result != BITVEC_OK ==> kept_u32{Pre, Post}(memory, words);
  @*/
uint8_t bitvec_c_and_not_within_u32(
    uint8_t order, uint32_t *memory, size_t words, size_t target_start, size_t source_start,
    size_t count);

/*@ requires \valid(memory + (0 .. words - 1));
  @ assigns memory[0 .. words - 1];
  @ ensures status: \result == then_status(range_status(64, order, words, source_start, count),
  @   range_status(64, order, words, target_start, count));
  @ ensures range: \result == BITVEC_OK ==> (\forall integer p; target_start <= p < target_start +
  @   count ==> (bit_u64{Post}(order, memory, p) <==> (bit_u64{Pre}(order, memory, p) &&
  @   !bit_u64{Pre}(order, memory, source_start + (p - target_start)))));
  @ ensures others: \result == BITVEC_OK ==> others_u64{Pre, Post}(order, memory, words,
  @   target_start, count);
  @ ensures refused: \result != BITVEC_OK ==> kept_u64{Pre, Post}(memory, words);
  @*/
uint8_t bitvec_c_and_not_within_u64(
    uint8_t order, uint64_t *memory, size_t words, size_t target_start, size_t source_start,
    size_t count);

/*@ requires \valid(target + (0 .. target_words - 1));
  @ requires \valid_read(first + (0 .. first_words - 1));
  @ requires \valid_read(second + (0 .. second_words - 1));
  @ requires \separated(target + (0 .. target_words - 1), first + (0 .. first_words - 1));
  @ requires \separated(target + (0 .. target_words - 1), second + (0 .. second_words - 1));
  @ assigns target[0 .. target_words - 1];
  @ ensures status: \result == then_status(then_status(range_status(8, order, first_words,
  @   first_start, count), range_status(8, order, second_words, second_start, count)),
  @   range_status(8, order, target_words, target_start, count));
  @ ensures range: \result == BITVEC_OK ==> (\forall integer p; target_start <= p < target_start +
  @   count ==> (bit_u8{Post}(order, target, p) <==> (bit_u8{Pre}(order, first, first_start + (p -
  @   target_start)) && bit_u8{Pre}(order, second, second_start + (p - target_start)))));
  @ ensures others: \result == BITVEC_OK ==> others_u8{Pre, Post}(order, target, target_words,
  @   target_start, count);
  @ ensures refused: \result != BITVEC_OK ==> kept_u8{Pre, Post}(target, target_words);
  @*/
uint8_t bitvec_c_and_of_u8(
    uint8_t order, uint8_t *target, size_t target_words, size_t target_start, const uint8_t *first,
    size_t first_words, size_t first_start, const uint8_t *second, size_t second_words,
    size_t second_start, size_t count);

/*@ requires \valid(target + (0 .. target_words - 1));
  @ requires \valid_read(first + (0 .. first_words - 1));
  @ requires \valid_read(second + (0 .. second_words - 1));
  @ requires \separated(target + (0 .. target_words - 1), first + (0 .. first_words - 1));
  @ requires \separated(target + (0 .. target_words - 1), second + (0 .. second_words - 1));
  @ assigns target[0 .. target_words - 1];
  @ ensures status: \result == then_status(then_status(range_status(16, order, first_words,
  @   first_start, count), range_status(16, order, second_words, second_start, count)),
  @   range_status(16, order, target_words, target_start, count));
  @ ensures range: \result == BITVEC_OK ==> (\forall integer p; target_start <= p < target_start +
  @   count ==> (bit_u16{Post}(order, target, p) <==> (bit_u16{Pre}(order, first, first_start + (p -
  @   target_start)) && bit_u16{Pre}(order, second, second_start + (p - target_start)))));
  @ ensures others: \result == BITVEC_OK ==> others_u16{Pre, Post}(order, target, target_words,
  @   target_start, count);
  @ ensures refused: \result != BITVEC_OK ==> kept_u16{Pre, Post}(target, target_words);
  @*/
uint8_t bitvec_c_and_of_u16(
    uint8_t order, uint16_t *target, size_t target_words, size_t target_start,
    const uint16_t *first, size_t first_words, size_t first_start, const uint16_t *second,
    size_t second_words, size_t second_start, size_t count);

/*@ requires \valid(target + (0 .. target_words - 1));
  @ requires \valid_read(first + (0 .. first_words - 1));
  @ requires \valid_read(second + (0 .. second_words - 1));
  @ requires \separated(target + (0 .. target_words - 1), first + (0 .. first_words - 1));
  @ requires \separated(target + (0 .. target_words - 1), second + (0 .. second_words - 1));
  @ assigns target[0 .. target_words - 1];
  @ ensures status: \result == then_status(then_status(range_status(32, order, first_words,
  @   first_start, count), range_status(32, order, second_words, second_start, count)),
  @   range_status(32, order, target_words, target_start, count));
  @ ensures range: \result == BITVEC_OK ==> (\forall integer p; target_start <= p < target_start +
  @   count ==> (bit_u32{Post}(order, target, p) <==> (bit_u32{Pre}(order, first, first_start + (p -
  @   target_start)) && bit_u32{Pre}(order, second, second_start + (p - target_start)))));
  @ ensures others: \result == BITVEC_OK ==> others_u32{Pre, Post}(order, target, target_words,
  @   target_start, count);
  @ ensures refused: \result != BITVEC_OK ==> kept_u32{Pre, Post}(target, target_words);
  @*/
uint8_t bitvec_c_and_of_u32(
    uint8_t order, uint32_t *target, size_t target_words, size_t target_start,
    const uint32_t *first, size_t first_words, size_t first_start, const uint32_t *second,
    size_t second_words, size_t second_start, size_t count);

/*@ requires \valid(target + (0 .. target_words - 1));
  @ requires \valid_read(first + (0 .. first_words - 1));
  @ requires \valid_read(second + (0 .. second_words - 1));
  @ requires \separated(target + (0 .. target_words - 1), first + (0 .. first_words - 1));
  @ requires \separated(target + (0 .. target_words - 1), second + (0 .. second_words - 1));
  @ assigns target[0 .. target_words - 1];
  @ ensures status: \result == then_status(then_status(range_status(64, order, first_words,
  @   first_start, count), range_status(64, order, second_words, second_start, count)),
  @   range_status(64, order, target_words, target_start, count));
  @ ensures range: \result == BITVEC_OK ==> (\forall integer p; target_start <= p < target_start +
  @   count ==> (bit_u64{Post}(order, target, p) <==> (bit_u64{Pre}(order, first, first_start + (p -
  @   target_start)) && bit_u64{Pre}(order, second, second_start + (p - target_start)))));
  @ ensures others: \result == BITVEC_OK ==> others_u64{Pre, Post}(order, target, target_words,
  @   target_start, count);
  @ ensures refused: \result != BITVEC_OK ==> kept_u64{Pre, Post}(target, target_words);
  @*/
uint8_t bitvec_c_and_of_u64(
    uint8_t order, uint64_t *target, size_t target_words, size_t target_start,
    const uint64_t *first, size_t first_words, size_t first_start, const uint64_t *second,
    size_t second_words, size_t second_start, size_t count);

/*@ requires \valid(target + (0 .. target_words - 1));
  @ requires \valid_read(first + (0 .. first_words - 1));
  @ requires \valid_read(second + (0 .. second_words - 1));
  @ requires \separated(target + (0 .. target_words - 1), first + (0 .. first_words - 1));
  @ requires \separated(target + (0 .. target_words - 1), second + (0 .. second_words - 1));
  @ assigns target[0 .. target_words - 1];
  @ ensures status: \result == then_status(then_status(range_status(8, order, first_words,
  @   first_start, count), range_status(8, order, second_words, second_start, count)),
  @   range_status(8, order, target_words, target_start, count));
  @ ensures range: \result == BITVEC_OK ==> (\forall integer p; target_start <= p < target_start +
  @   count ==> (bit_u8{Post}(order, target, p) <==> (bit_u8{Pre}(order, first, first_start + (p -
  @   target_start)) || bit_u8{Pre}(order, second, second_start + (p - target_start)))));
  @ ensures others: \result == BITVEC_OK ==> others_u8{Pre, Post}(order, target, target_words,
  @   target_start, count);
  @ ensures refused: \result != BITVEC_OK ==> kept_u8{Pre, Post}(target, target_words);
  @*/
uint8_t bitvec_c_or_of_u8(
    uint8_t order, uint8_t *target, size_t target_words, size_t target_start, const uint8_t *first,
    size_t first_words, size_t first_start, const uint8_t *second, size_t second_words,
    size_t second_start, size_t count);

/*@ requires \valid(target + (0 .. target_words - 1));
  @ requires \valid_read(first + (0 .. first_words - 1));
  @ requires \valid_read(second + (0 .. second_words - 1));
  @ requires \separated(target + (0 .. target_words - 1), first + (0 .. first_words - 1));
  @ requires \separated(target + (0 .. target_words - 1), second + (0 .. second_words - 1));
  @ assigns target[0 .. target_words - 1];
  @ ensures status: \result == then_status(then_status(range_status(16, order, first_words,
  @   first_start, count), range_status(16, order, second_words, second_start, count)),
  @   range_status(16, order, target_words, target_start, count));
  @ ensures range: \result == BITVEC_OK ==> (\forall integer p; target_start <= p < target_start +
  @   count ==> (bit_u16{Post}(order, target, p) <==> (bit_u16{Pre}(order, first, first_start + (p -
  @   target_start)) || bit_u16{Pre}(order, second, second_start + (p - target_start)))));
  @ ensures others: \result == BITVEC_OK ==> others_u16{Pre, Post}(order, target, target_words,
  @   target_start, count);
  @ ensures refused: \result != BITVEC_OK ==> kept_u16{Pre, Post}(target, target_words);
  @*/
uint8_t bitvec_c_or_of_u16(
    uint8_t order, uint16_t *target, size_t target_words, size_t target_start,
    const uint16_t *first, size_t first_words, size_t first_start, const uint16_t *second,
    size_t second_words, size_t second_start, size_t count);

/*@ requires \valid(target + (0 .. target_words - 1));
  @ requires \valid_read(first + (0 .. first_words - 1));
  @ requires \valid_read(second + (0 .. second_words - 1));
  @ requires \separated(target + (0 .. target_words - 1), first + (0 .. first_words - 1));
  @ requires \separated(target + (0 .. target_words - 1), second + (0 .. second_words - 1));
  @ assigns target[0 .. target_words - 1];
  @ ensures status: \result == then_status(then_status(range_status(32, order, first_words,
  @   first_start, count), range_status(32, order, second_words, second_start, count)),
  @   range_status(32, order, target_words, target_start, count));
  @ ensures range: \result == BITVEC_OK ==> (\forall integer p; target_start <= p < target_start +
  @   count ==> (bit_u32{Post}(order, target, p) <==> (bit_u32{Pre}(order, first, first_start + (p -
  @   target_start)) || bit_u32{Pre}(order, second, second_start + (p - target_start)))));
  @ ensures others: \result == BITVEC_OK ==> others_u32{Pre, Post}(order, target, target_words,
  @   target_start, count);
  @ ensures refused: \result != BITVEC_OK ==> kept_u32{Pre, Post}(target, target_words);
  @*/
uint8_t bitvec_c_or_of_u32(
    uint8_t order, uint32_t *target, size_t target_words, size_t target_start,
    const uint32_t *first, size_t first_words, size_t first_start, const uint32_t *second,
    size_t second_words, size_t second_start, size_t count);

/*@ requires \valid(target + (0 .. target_words - 1));
  @ requires \valid_read(first + (0 .. first_words - 1));
  @ requires \valid_read(second + (0 .. second_words - 1));
  @ requires \separated(target + (0 .. target_words - 1), first + (0 .. first_words - 1));
  @ requires \separated(target + (0 .. target_words - 1), second + (0 .. second_words - 1));
  @ assigns target[0 .. target_words - 1];
  @ ensures status: \result == then_status(then_status(range_status(64, order, first_words,
  @   first_start, count), range_status(64, order, second_words, second_start, count)),
  @   range_status(64, order, target_words, target_start, count));
  @ ensures range: \result == BITVEC_OK ==> (\forall integer p; target_start <= p < target_start +
  @   count ==> (bit_u64{Post}(order, target, p) <==> (bit_u64{Pre}(order, first, first_start + (p -
  @   target_start)) || bit_u64{Pre}(order, second, second_start + (p - target_start)))));
  @ ensures others: \result == BITVEC_OK ==> others_u64{Pre, Post}(order, target, target_words,
  @   target_start, count);
  @ ensures refused: \result != BITVEC_OK ==> kept_u64{Pre, Post}(target, target_words);
  @*/
uint8_t bitvec_c_or_of_u64(
    uint8_t order, uint64_t *target, size_t target_words, size_t target_start,
    const uint64_t *first, size_t first_words, size_t first_start, const uint64_t *second,
    size_t second_words, size_t second_start, size_t count);

/*@ requires \valid(target + (0 .. target_words - 1));
  @ requires \valid_read(first + (0 .. first_words - 1));
  @ requires \valid_read(second + (0 .. second_words - 1));
  @ requires \separated(target + (0 .. target_words - 1), first + (0 .. first_words - 1));
  @ requires \separated(target + (0 .. target_words - 1), second + (0 .. second_words - 1));
  @ assigns target[0 .. target_words - 1];
  @ ensures status: \result == then_status(then_status(range_status(8, order, first_words,
  @   first_start, count), range_status(8, order, second_words, second_start, count)),
  @   range_status(8, order, target_words, target_start, count));
  @ ensures range: \result == BITVEC_OK ==> (\forall integer p; target_start <= p < target_start +
  @   count ==> (bit_u8{Post}(order, target, p) <==> (bit_u8{Pre}(order, first, first_start + (p -
  @   target_start)) ^^ bit_u8{Pre}(order, second, second_start + (p - target_start)))));
  @ ensures others: \result == BITVEC_OK ==> others_u8{Pre, Post}(order, target, target_words,
  @   target_start, count);
  @ ensures refused: \result != BITVEC_OK ==> kept_u8{Pre, Post}(target, target_words);
  @*/
uint8_t bitvec_c_xor_of_u8(
    uint8_t order, uint8_t *target, size_t target_words, size_t target_start, const uint8_t *first,
    size_t first_words, size_t first_start, const uint8_t *second, size_t second_words,
    size_t second_start, size_t count);

/*@ requires \valid(target + (0 .. target_words - 1));
  @ requires \valid_read(first + (0 .. first_words - 1));
  @ requires \valid_read(second + (0 .. second_words - 1));
  @ requires \separated(target + (0 .. target_words - 1), first + (0 .. first_words - 1));
  @ requires \separated(target + (0 .. target_words - 1), second + (0 .. second_words - 1));
  @ assigns target[0 .. target_words - 1];
  @ ensures status: \result == then_status(then_status(range_status(16, order, first_words,
  @   first_start, count), range_status(16, order, second_words, second_start, count)),
  @   range_status(16, order, target_words, target_start, count));
  @ ensures range: \result == BITVEC_OK ==> (\forall integer p; target_start <= p < target_start +
  @   count ==> (bit_u16{Post}(order, target, p) <==> (bit_u16{Pre}(order, first, first_start + (p -
  @   target_start)) ^^ bit_u16{Pre}(order, second, second_start + (p - target_start)))));
  @ ensures others: \result == BITVEC_OK ==> others_u16{Pre, Post}(order, target, target_words,
  @   target_start, count);
  @ ensures refused: \result != BITVEC_OK ==> kept_u16{Pre, Post}(target, target_words);
  @*/
uint8_t bitvec_c_xor_of_u16(
    uint8_t order, uint16_t *target, size_t target_words, size_t target_start,
    const uint16_t *first, size_t first_words, size_t first_start, const uint16_t *second,
    size_t second_words, size_t second_start, size_t count);

/*@ requires \valid(target + (0 .. target_words - 1));
  @ requires \valid_read(first + (0 .. first_words - 1));
  @ requires \valid_read(second + (0 .. second_words - 1));
  @ requires \separated(target + (0 .. target_words - 1), first + (0 .. first_words - 1));
  @ requires \separated(target + (0 .. target_words - 1), second + (0 .. second_words - 1));
  @ assigns target[0 .. target_words - 1];
  @ ensures status: \result == then_status(then_status(range_status(32, order, first_words,
  @   first_start, count), range_status(32, order, second_words, second_start, count)),
  @   range_status(32, order, target_words, target_start, count));
  @ ensures range: \result == BITVEC_OK ==> (\forall integer p; target_start <= p < target_start +
  @   count ==> (bit_u32{Post}(order, target, p) <==> (bit_u32{Pre}(order, first, first_start + (p -
  @   target_start)) ^^ bit_u32{Pre}(order, second, second_start + (p - target_start)))));
  @ ensures others: \result == BITVEC_OK ==> others_u32{Pre, Post}(order, target, target_words,
  @   target_start, count);
  @ ensures refused: \result != BITVEC_OK ==> kept_u32{Pre, Post}(target, target_words);
  @*/
uint8_t bitvec_c_xor_of_u32(
    uint8_t order, uint32_t *target, size_t target_words, size_t target_start,
    const uint32_t *first, size_t first_words, size_t first_start, const uint32_t *second,
    size_t second_words, size_t second_start, size_t count);

/*@ requires \valid(target + (0 .. target_words - 1));
  @ requires \valid_read(first + (0 .. first_words - 1));
  @ requires \valid_read(second + (0 .. second_words - 1));
  @ requires \separated(target + (0 .. target_words - 1), first + (0 .. first_words - 1));
  @ requires \separated(target + (0 .. target_words - 1), second + (0 .. second_words - 1));
  @ assigns target[0 .. target_words - 1];
  @ ensures status: \result == then_status(then_status(range_status(64, order, first_words,
  @   first_start, count), range_status(64, order, second_words, second_start, count)),
  @   range_status(64, order, target_words, target_start, count));
  @ ensures range: \result == BITVEC_OK ==> (\forall integer p; target_start <= p < target_start +
  @   count ==> (bit_u64{Post}(order, target, p) <==> (bit_u64{Pre}(order, first, first_start + (p -
  @   target_start)) ^^ bit_u64{Pre}(order, second, second_start + (p - target_start)))));
  @ ensures others: \result == BITVEC_OK ==> others_u64{Pre, Post}(order, target, target_words,
  @   target_start, count);
  @ ensures refused: \result != BITVEC_OK ==> kept_u64{Pre, Post}(target, target_words);
  @*/
uint8_t bitvec_c_xor_of_u64(
    uint8_t order, uint64_t *target, size_t target_words, size_t target_start,
    const uint64_t *first, size_t first_words, size_t first_start, const uint64_t *second,
    size_t second_words, size_t second_start, size_t count);

/*@ requires \valid(target + (0 .. target_words - 1));
  @ requires \valid_read(first + (0 .. first_words - 1));
  @ requires \valid_read(second + (0 .. second_words - 1));
  @ requires \separated(target + (0 .. target_words - 1), first + (0 .. first_words - 1));
  @ requires \separated(target + (0 .. target_words - 1), second + (0 .. second_words - 1));
  @ assigns target[0 .. target_words - 1];
  @ ensures status: \result == then_status(then_status(range_status(8, order, first_words,
  @   first_start, count), range_status(8, order, second_words, second_start, count)),
  @   range_status(8, order, target_words, target_start, count));
  @ ensures range: \result == BITVEC_OK ==> (\forall integer p; target_start <= p < target_start +
  @   count ==> (bit_u8{Post}(order, target, p) <==> (bit_u8{Pre}(order, first, first_start + (p -
  @   target_start)) && !bit_u8{Pre}(order, second, second_start + (p - target_start)))));
  @ ensures others: \result == BITVEC_OK ==> others_u8{Pre, Post}(order, target, target_words,
  @   target_start, count);
  @ ensures refused: \result != BITVEC_OK ==> kept_u8{Pre, Post}(target, target_words);
  @*/
uint8_t bitvec_c_and_not_of_u8(
    uint8_t order, uint8_t *target, size_t target_words, size_t target_start, const uint8_t *first,
    size_t first_words, size_t first_start, const uint8_t *second, size_t second_words,
    size_t second_start, size_t count);

/*@ requires \valid(target + (0 .. target_words - 1));
  @ requires \valid_read(first + (0 .. first_words - 1));
  @ requires \valid_read(second + (0 .. second_words - 1));
  @ requires \separated(target + (0 .. target_words - 1), first + (0 .. first_words - 1));
  @ requires \separated(target + (0 .. target_words - 1), second + (0 .. second_words - 1));
  @ assigns target[0 .. target_words - 1];
  @ ensures status: \result == then_status(then_status(range_status(16, order, first_words,
  @   first_start, count), range_status(16, order, second_words, second_start, count)),
  @   range_status(16, order, target_words, target_start, count));
  @ ensures range: \result == BITVEC_OK ==> (\forall integer p; target_start <= p < target_start +
  @   count ==> (bit_u16{Post}(order, target, p) <==> (bit_u16{Pre}(order, first, first_start + (p -
  @   target_start)) && !bit_u16{Pre}(order, second, second_start + (p - target_start)))));
  @ ensures others: \result == BITVEC_OK ==> others_u16{Pre, Post}(order, target, target_words,
  @   target_start, count);
  @ ensures refused: \result != BITVEC_OK ==> kept_u16{Pre, Post}(target, target_words);
  @*/
uint8_t bitvec_c_and_not_of_u16(
    uint8_t order, uint16_t *target, size_t target_words, size_t target_start,
    const uint16_t *first, size_t first_words, size_t first_start, const uint16_t *second,
    size_t second_words, size_t second_start, size_t count);

/*@ requires \valid(target + (0 .. target_words - 1));
  @ requires \valid_read(first + (0 .. first_words - 1));
  @ requires \valid_read(second + (0 .. second_words - 1));
  @ requires \separated(target + (0 .. target_words - 1), first + (0 .. first_words - 1));
  @ requires \separated(target + (0 .. target_words - 1), second + (0 .. second_words - 1));
  @ assigns target[0 .. target_words - 1];
  @ ensures status: \result == then_status(then_status(range_status(32, order, first_words,
  @   first_start, count), range_status(32, order, second_words, second_start, count)),
  @   range_status(32, order, target_words, target_start, count));
  @ ensures range: \result == BITVEC_OK ==> (\forall integer p; target_start <= p < target_start +
  @   count ==> (bit_u32{Post}(order, target, p) <==> (bit_u32{Pre}(order, first, first_start + (p -
  @   target_start)) && !bit_u32{Pre}(order, second, second_start + (p - target_start)))));
  @ ensures others: \result == BITVEC_OK ==> others_u32{Pre, Post}(order, target, target_words,
  @   target_start, count);
  @ ensures refused: \result != BITVEC_OK ==> kept_u32{Pre, Post}(target, target_words);
  @*/
uint8_t bitvec_c_and_not_of_u32(
    uint8_t order, uint32_t *target, size_t target_words, size_t target_start,
    const uint32_t *first, size_t first_words, size_t first_start, const uint32_t *second,
    size_t second_words, size_t second_start, size_t count);

/*@ requires \valid(target + (0 .. target_words - 1));
  @ requires \valid_read(first + (0 .. first_words - 1));
  @ requires \valid_read(second + (0 .. second_words - 1));
  @ requires \separated(target + (0 .. target_words - 1), first + (0 .. first_words - 1));
  @ requires \separated(target + (0 .. target_words - 1), second + (0 .. second_words - 1));
  @ assigns target[0 .. target_words - 1];
  @ ensures status: \result == then_status(then_status(range_status(64, order, first_words,
  @   first_start, count), range_status(64, order, second_words, second_start, count)),
  @   range_status(64, order, target_words, target_start, count));
  @ ensures range: \result == BITVEC_OK ==> (\forall integer p; target_start <= p < target_start +
  @   count ==> (bit_u64{Post}(order, target, p) <==> (bit_u64{Pre}(order, first, first_start + (p -
  @   target_start)) && !bit_u64{Pre}(order, second, second_start + (p - target_start)))));
  @ ensures others: \result == BITVEC_OK ==> others_u64{Pre, Post}(order, target, target_words,
  @   target_start, count);
  @ ensures refused: \result != BITVEC_OK ==> kept_u64{Pre, Post}(target, target_words);
  @*/
uint8_t bitvec_c_and_not_of_u64(
    uint8_t order, uint64_t *target, size_t target_words, size_t target_start,
    const uint64_t *first, size_t first_words, size_t first_start, const uint64_t *second,
    size_t second_words, size_t second_start, size_t count);

/*@ requires \valid_read(memory + (0 .. words - 1));
  @ requires \valid_read(other + (0 .. other_words - 1));
  @ requires \valid(same);
  @ requires \separated(memory + (0 .. words - 1), same);
  @ requires \separated(other + (0 .. other_words - 1), same);
  @ assigns *same;
  @ ensures status: \result == then_status(range_status(8, order, words, start, count),
  @   range_status(8, order, other_words, other_start, count));
  @ ensures answer: \result == BITVEC_OK ==> (*same <==> (\forall integer p; start <= p < start +
  @   count ==> (bit_u8{Pre}(order, memory, p) <==> bit_u8{Pre}(order, other, other_start + (p -
  @   start)))));
  @ ensures refused: \result != BITVEC_OK ==> *same == \old(*same);
  @*/
uint8_t bitvec_c_equal_u8(
    uint8_t order, const uint8_t *memory, size_t words, size_t start, const uint8_t *other,
    size_t other_words, size_t other_start, size_t count, bool *same);

/*@ requires \valid_read(memory + (0 .. words - 1));
  @ requires \valid_read(other + (0 .. other_words - 1));
  @ requires \valid(same);
  @ requires \separated(memory + (0 .. words - 1), same);
  @ requires \separated(other + (0 .. other_words - 1), same);
  @ assigns *same;
  @ ensures status: \result == then_status(range_status(16, order, words, start, count),
  @   range_status(16, order, other_words, other_start, count));
  @ ensures answer: \result == BITVEC_OK ==> (*same <==> (\forall integer p; start <= p < start +
  @   count ==> (bit_u16{Pre}(order, memory, p) <==> bit_u16{Pre}(order, other, other_start + (p -
  @   start)))));
  @ ensures refused: \result != BITVEC_OK ==> *same == \old(*same);
  @*/
uint8_t bitvec_c_equal_u16(
    uint8_t order, const uint16_t *memory, size_t words, size_t start, const uint16_t *other,
    size_t other_words, size_t other_start, size_t count, bool *same);

/*@ requires \valid_read(memory + (0 .. words - 1));
  @ requires \valid_read(other + (0 .. other_words - 1));
  @ requires \valid(same);
  @ requires \separated(memory + (0 .. words - 1), same);
  @ requires \separated(other + (0 .. other_words - 1), same);
  @ assigns *same;
  @ ensures status: \result == then_status(range_status(32, order, words, start, count),
  @   range_status(32, order, other_words, other_start, count));
  @ ensures answer: \result == BITVEC_OK ==> (*same <==> (\forall integer p; start <= p < start +
  @   count ==> (bit_u32{Pre}(order, memory, p) <==> bit_u32{Pre}(order, other, other_start + (p -
  @   start)))));
  @ ensures refused: \result != BITVEC_OK ==> *same == \old(*same);
  @*/
uint8_t bitvec_c_equal_u32(
    uint8_t order, const uint32_t *memory, size_t words, size_t start, const uint32_t *other,
    size_t other_words, size_t other_start, size_t count, bool *same);

/*@ requires \valid_read(memory + (0 .. words - 1));
  @ requires \valid_read(other + (0 .. other_words - 1));
  @ requires \valid(same);
  @ requires \separated(memory + (0 .. words - 1), same);
  @ requires \separated(other + (0 .. other_words - 1), same);
  @ assigns *same;
  @ ensures status: \result == then_status(range_status(64, order, words, start, count),
  @   range_status(64, order, other_words, other_start, count));
  @ ensures answer: \result == BITVEC_OK ==> (*same <==> (\forall integer p; start <= p < start +
  @   count ==> (bit_u64{Pre}(order, memory, p) <==> bit_u64{Pre}(order, other, other_start + (p -
  @   start)))));
  @ ensures refused: \result != BITVEC_OK ==> *same == \old(*same);
  @*/
uint8_t bitvec_c_equal_u64(
    uint8_t order, const uint64_t *memory, size_t words, size_t start, const uint64_t *other,
    size_t other_words, size_t other_start, size_t count, bool *same);

/*@ requires \valid_read(memory + (0 .. words - 1));
  @ requires \valid_read(other + (0 .. other_words - 1));
  @ requires \valid(ones);
  @ requires \separated(memory + (0 .. words - 1), ones);
  @ requires \separated(other + (0 .. other_words - 1), ones);
  @ assigns *ones;
  @ ensures status: \result == then_status(range_status(8, order, words, start, count),
  @   range_status(8, other_order, other_words, other_start, count));
  @ ensures answer: \result == BITVEC_OK ==> *ones == pairs_u8{Pre}(order, memory, start,
  @   other_order, other, other_start, count);
  @ ensures refused: \result != BITVEC_OK ==> *ones == \old(*ones);
  @*/
uint8_t bitvec_c_count_and_u8(
    uint8_t order, const uint8_t *memory, size_t words, size_t start, uint8_t other_order,
    const uint8_t *other, size_t other_words, size_t other_start, size_t count, size_t *ones);

/*@ requires \valid_read(memory + (0 .. words - 1));
  @ requires \valid_read(other + (0 .. other_words - 1));
  @ requires \valid(ones);
  @ requires \separated(memory + (0 .. words - 1), ones);
  @ requires \separated(other + (0 .. other_words - 1), ones);
  @ assigns *ones;
  @ ensures status: \result == then_status(range_status(16, order, words, start, count),
  @   range_status(16, other_order, other_words, other_start, count));
  @ ensures answer: \result == BITVEC_OK ==> *ones == pairs_u16{Pre}(order, memory, start,
  @   other_order, other, other_start, count);
  @ ensures refused: \result != BITVEC_OK ==> *ones == \old(*ones);
  @*/
uint8_t bitvec_c_count_and_u16(
    uint8_t order, const uint16_t *memory, size_t words, size_t start, uint8_t other_order,
    const uint16_t *other, size_t other_words, size_t other_start, size_t count, size_t *ones);

/*@ requires \valid_read(memory + (0 .. words - 1));
  @ requires \valid_read(other + (0 .. other_words - 1));
  @ requires \valid(ones);
  @ requires \separated(memory + (0 .. words - 1), ones);
  @ requires \separated(other + (0 .. other_words - 1), ones);
  @ assigns *ones;
  @ ensures status: \result == then_status(range_status(32, order, words, start, count),
  @   range_status(32, other_order, other_words, other_start, count));
  @ ensures answer: \result == BITVEC_OK ==> *ones == pairs_u32{Pre}(order, memory, start,
  @   other_order, other, other_start, count);
  @ ensures refused: \result != BITVEC_OK ==> *ones == \old(*ones);
  @*/
uint8_t bitvec_c_count_and_u32(
    uint8_t order, const uint32_t *memory, size_t words, size_t start, uint8_t other_order,
    const uint32_t *other, size_t other_words, size_t other_start, size_t count, size_t *ones);

/*@ requires \valid_read(memory + (0 .. words - 1));
  @ requires \valid_read(other + (0 .. other_words - 1));
  @ requires \valid(ones);
  @ requires \separated(memory + (0 .. words - 1), ones);
  @ requires \separated(other + (0 .. other_words - 1), ones);
  @ assigns *ones;
  @ ensures status: \result == then_status(range_status(64, order, words, start, count),
  @   range_status(64, other_order, other_words, other_start, count));
  @ ensures answer: \result == BITVEC_OK ==> *ones == pairs_u64{Pre}(order, memory, start,
  @   other_order, other, other_start, count);
  @ ensures refused: \result != BITVEC_OK ==> *ones == \old(*ones);
  @*/
uint8_t bitvec_c_count_and_u64(
    uint8_t order, const uint64_t *memory, size_t words, size_t start, uint8_t other_order,
    const uint64_t *other, size_t other_words, size_t other_start, size_t count, size_t *ones);

/*@ requires \valid_read(memory + (0 .. words - 1));
  @ requires \valid_read(other + (0 .. other_words - 1));
  @ requires \valid(index);
  @ requires \separated(memory + (0 .. words - 1), index);
  @ requires \separated(other + (0 .. other_words - 1), index);
  @ assigns *index;
  @ ensures status: \result == then_status(range_status(8, order, words, start, count),
  @   range_status(8, other_order, other_words, other_start, count));
  @ ensures answer: \result == BITVEC_OK ==> (0 <= *index <= count) && ((\forall integer p; start <=
  @   p < start + *index ==> !(bit_u8{Pre}(order, memory, p) && bit_u8{Pre}(other_order, other,
  @   other_start + (p - start))))) && (*index < count ==> (bit_u8{Pre}(order, memory, start +
  @   *index) && bit_u8{Pre}(other_order, other, other_start + *index)));
  @ ensures refused: \result != BITVEC_OK ==> *index == \old(*index);
  @*/
uint8_t bitvec_c_first_and_u8(
    uint8_t order, const uint8_t *memory, size_t words, size_t start, uint8_t other_order,
    const uint8_t *other, size_t other_words, size_t other_start, size_t count, size_t *index);

/*@ requires \valid_read(memory + (0 .. words - 1));
  @ requires \valid_read(other + (0 .. other_words - 1));
  @ requires \valid(index);
  @ requires \separated(memory + (0 .. words - 1), index);
  @ requires \separated(other + (0 .. other_words - 1), index);
  @ assigns *index;
  @ ensures status: \result == then_status(range_status(16, order, words, start, count),
  @   range_status(16, other_order, other_words, other_start, count));
  @ ensures answer: \result == BITVEC_OK ==> (0 <= *index <= count) && ((\forall integer p; start <=
  @   p < start + *index ==> !(bit_u16{Pre}(order, memory, p) && bit_u16{Pre}(other_order, other,
  @   other_start + (p - start))))) && (*index < count ==> (bit_u16{Pre}(order, memory, start +
  @   *index) && bit_u16{Pre}(other_order, other, other_start + *index)));
  @ ensures refused: \result != BITVEC_OK ==> *index == \old(*index);
  @*/
uint8_t bitvec_c_first_and_u16(
    uint8_t order, const uint16_t *memory, size_t words, size_t start, uint8_t other_order,
    const uint16_t *other, size_t other_words, size_t other_start, size_t count, size_t *index);

/*@ requires \valid_read(memory + (0 .. words - 1));
  @ requires \valid_read(other + (0 .. other_words - 1));
  @ requires \valid(index);
  @ requires \separated(memory + (0 .. words - 1), index);
  @ requires \separated(other + (0 .. other_words - 1), index);
  @ assigns *index;
  @ ensures status: \result == then_status(range_status(32, order, words, start, count),
  @   range_status(32, other_order, other_words, other_start, count));
  @ ensures answer: \result == BITVEC_OK ==> (0 <= *index <= count) && ((\forall integer p; start <=
  @   p < start + *index ==> !(bit_u32{Pre}(order, memory, p) && bit_u32{Pre}(other_order, other,
  @   other_start + (p - start))))) && (*index < count ==> (bit_u32{Pre}(order, memory, start +
  @   *index) && bit_u32{Pre}(other_order, other, other_start + *index)));
  @ ensures refused: \result != BITVEC_OK ==> *index == \old(*index);
  @*/
uint8_t bitvec_c_first_and_u32(
    uint8_t order, const uint32_t *memory, size_t words, size_t start, uint8_t other_order,
    const uint32_t *other, size_t other_words, size_t other_start, size_t count, size_t *index);

/*@ requires \valid_read(memory + (0 .. words - 1));
  @ requires \valid_read(other + (0 .. other_words - 1));
  @ requires \valid(index);
  @ requires \separated(memory + (0 .. words - 1), index);
  @ requires \separated(other + (0 .. other_words - 1), index);
  @ assigns *index;
  @ ensures status: \result == then_status(range_status(64, order, words, start, count),
  @   range_status(64, other_order, other_words, other_start, count));
  @ ensures answer: \result == BITVEC_OK ==> (0 <= *index <= count) && ((\forall integer p; start <=
  @   p < start + *index ==> !(bit_u64{Pre}(order, memory, p) && bit_u64{Pre}(other_order, other,
  @   other_start + (p - start))))) && (*index < count ==> (bit_u64{Pre}(order, memory, start +
  @   *index) && bit_u64{Pre}(other_order, other, other_start + *index)));
  @ ensures refused: \result != BITVEC_OK ==> *index == \old(*index);
  @*/
uint8_t bitvec_c_first_and_u64(
    uint8_t order, const uint64_t *memory, size_t words, size_t start, uint8_t other_order,
    const uint64_t *other, size_t other_words, size_t other_start, size_t count, size_t *index);

/*@ requires \valid_read(memory + (0 .. words - 1));
  @ requires \valid_read(other + (0 .. other_words - 1));
  @ requires \valid(common);
  @ requires \separated(memory + (0 .. words - 1), common);
  @ requires \separated(other + (0 .. other_words - 1), common);
  @ assigns *common;
  @ ensures status: \result == then_status(range_status(8, order, words, start, count),
  @   range_status(8, other_order, other_words, other_start, count));
  @ ensures answer: \result == BITVEC_OK ==> (*common <==> !(\forall integer p; start <= p < start +
  @   count ==> !(bit_u8{Pre}(order, memory, p) && bit_u8{Pre}(other_order, other, other_start + (p
  @   - start)))));
  @ ensures refused: \result != BITVEC_OK ==> (*common <==> \old(*common));
  @*/
static inline uint8_t bitvec_c_intersects_u8(
    uint8_t order, const uint8_t *memory, size_t words, size_t start, uint8_t other_order,
    const uint8_t *other, size_t other_words, size_t other_start, size_t count, bool *common);

/*@ requires \valid_read(memory + (0 .. words - 1));
  @ requires \valid_read(other + (0 .. other_words - 1));
  @ requires \valid(common);
  @ requires \separated(memory + (0 .. words - 1), common);
  @ requires \separated(other + (0 .. other_words - 1), common);
  @ assigns *common;
  @ ensures status: \result == then_status(range_status(16, order, words, start, count),
  @   range_status(16, other_order, other_words, other_start, count));
  @ ensures answer: \result == BITVEC_OK ==> (*common <==> !(\forall integer p; start <= p < start +
  @   count ==> !(bit_u16{Pre}(order, memory, p) && bit_u16{Pre}(other_order, other, other_start +
  @   (p - start)))));
  @ ensures refused: \result != BITVEC_OK ==> (*common <==> \old(*common));
  @*/
static inline uint8_t bitvec_c_intersects_u16(
    uint8_t order, const uint16_t *memory, size_t words, size_t start, uint8_t other_order,
    const uint16_t *other, size_t other_words, size_t other_start, size_t count, bool *common);

/*@ requires \valid_read(memory + (0 .. words - 1));
  @ requires \valid_read(other + (0 .. other_words - 1));
  @ requires \valid(common);
  @ requires \separated(memory + (0 .. words - 1), common);
  @ requires \separated(other + (0 .. other_words - 1), common);
  @ assigns *common;
  @ ensures status: \result == then_status(range_status(32, order, words, start, count),
  @   range_status(32, other_order, other_words, other_start, count));
  @ ensures answer: \result == BITVEC_OK ==> (*common <==> !(\forall integer p; start <= p < start +
  @   count ==> !(bit_u32{Pre}(order, memory, p) && bit_u32{Pre}(other_order, other, other_start +
  @   (p - start)))));
  @ ensures refused: \result != BITVEC_OK ==> (*common <==> \old(*common));
  @*/
static inline uint8_t bitvec_c_intersects_u32(
    uint8_t order, const uint32_t *memory, size_t words, size_t start, uint8_t other_order,
    const uint32_t *other, size_t other_words, size_t other_start, size_t count, bool *common);

/*@ requires \valid_read(memory + (0 .. words - 1));
  @ requires \valid_read(other + (0 .. other_words - 1));
  @ requires \valid(common);
  @ requires \separated(memory + (0 .. words - 1), common);
  @ requires \separated(other + (0 .. other_words - 1), common);
  @ assigns *common;
  @ ensures status: \result == then_status(range_status(64, order, words, start, count),
  @   range_status(64, other_order, other_words, other_start, count));
  @ ensures answer: \result == BITVEC_OK ==> (*common <==> !(\forall integer p; start <= p < start +
  @   count ==> !(bit_u64{Pre}(order, memory, p) && bit_u64{Pre}(other_order, other, other_start +
  @   (p - start)))));
  @ ensures refused: \result != BITVEC_OK ==> (*common <==> \old(*common));
  @*/
static inline uint8_t bitvec_c_intersects_u64(
    uint8_t order, const uint64_t *memory, size_t words, size_t start, uint8_t other_order,
    const uint64_t *other, size_t other_words, size_t other_start, size_t count, bool *common);

/*@ requires \valid_read(memory + (0 .. words - 1));
  @ requires \valid_read(other + (0 .. other_words - 1));
  @ requires \valid(index);
  @ requires \separated(memory + (0 .. words - 1), index);
  @ requires \separated(other + (0 .. other_words - 1), index);
  @ assigns *index;
  @ ensures status: \result == then_status(range_status(8, order, words, start, count),
  @   range_status(8, other_order, other_words, other_start, count));
  @ ensures answer: \result == BITVEC_OK ==> (0 <= *index <= count) && ((\forall integer p; start <=
  @   p < start + *index ==> !(bit_u8{Pre}(order, memory, p) && !bit_u8{Pre}(other_order, other,
  @   other_start + (p - start))))) && (*index < count ==> (bit_u8{Pre}(order, memory, start +
  @   *index) && !bit_u8{Pre}(other_order, other, other_start + *index)));
  @ ensures refused: \result != BITVEC_OK ==> *index == \old(*index);
  @*/
uint8_t bitvec_c_first_and_not_u8(
    uint8_t order, const uint8_t *memory, size_t words, size_t start, uint8_t other_order,
    const uint8_t *other, size_t other_words, size_t other_start, size_t count, size_t *index);

/*@ requires \valid_read(memory + (0 .. words - 1));
  @ requires \valid_read(other + (0 .. other_words - 1));
  @ requires \valid(index);
  @ requires \separated(memory + (0 .. words - 1), index);
  @ requires \separated(other + (0 .. other_words - 1), index);
  @ assigns *index;
  @ ensures status: \result == then_status(range_status(16, order, words, start, count),
  @   range_status(16, other_order, other_words, other_start, count));
  @ ensures answer: \result == BITVEC_OK ==> (0 <= *index <= count) && ((\forall integer p; start <=
  @   p < start + *index ==> !(bit_u16{Pre}(order, memory, p) && !bit_u16{Pre}(other_order, other,
  @   other_start + (p - start))))) && (*index < count ==> (bit_u16{Pre}(order, memory, start +
  @   *index) && !bit_u16{Pre}(other_order, other, other_start + *index)));
  @ ensures refused: \result != BITVEC_OK ==> *index == \old(*index);
  @*/
uint8_t bitvec_c_first_and_not_u16(
    uint8_t order, const uint16_t *memory, size_t words, size_t start, uint8_t other_order,
    const uint16_t *other, size_t other_words, size_t other_start, size_t count, size_t *index);

/*@ requires \valid_read(memory + (0 .. words - 1));
  @ requires \valid_read(other + (0 .. other_words - 1));
  @ requires \valid(index);
  @ requires \separated(memory + (0 .. words - 1), index);
  @ requires \separated(other + (0 .. other_words - 1), index);
  @ assigns *index;
  @ ensures status: \result == then_status(range_status(32, order, words, start, count),
  @   range_status(32, other_order, other_words, other_start, count));
  @ ensures answer: \result == BITVEC_OK ==> (0 <= *index <= count) && ((\forall integer p; start <=
  @   p < start + *index ==> !(bit_u32{Pre}(order, memory, p) && !bit_u32{Pre}(other_order, other,
  @   other_start + (p - start))))) && (*index < count ==> (bit_u32{Pre}(order, memory, start +
  @   *index) && !bit_u32{Pre}(other_order, other, other_start + *index)));
  @ ensures refused: \result != BITVEC_OK ==> *index == \old(*index);
  @*/
uint8_t bitvec_c_first_and_not_u32(
    uint8_t order, const uint32_t *memory, size_t words, size_t start, uint8_t other_order,
    const uint32_t *other, size_t other_words, size_t other_start, size_t count, size_t *index);

/*@ requires \valid_read(memory + (0 .. words - 1));
  @ requires \valid_read(other + (0 .. other_words - 1));
  @ requires \valid(index);
  @ requires \separated(memory + (0 .. words - 1), index);
  @ requires \separated(other + (0 .. other_words - 1), index);
  @ assigns *index;
  @ ensures status: \result == then_status(range_status(64, order, words, start, count),
  @   range_status(64, other_order, other_words, other_start, count));
  @ ensures answer: \result == BITVEC_OK ==> (0 <= *index <= count) && ((\forall integer p; start <=
  @   p < start + *index ==> !(bit_u64{Pre}(order, memory, p) && !bit_u64{Pre}(other_order, other,
  @   other_start + (p - start))))) && (*index < count ==> (bit_u64{Pre}(order, memory, start +
  @   *index) && !bit_u64{Pre}(other_order, other, other_start + *index)));
  @ ensures refused: \result != BITVEC_OK ==> *index == \old(*index);
  @*/
uint8_t bitvec_c_first_and_not_u64(
    uint8_t order, const uint64_t *memory, size_t words, size_t start, uint8_t other_order,
    const uint64_t *other, size_t other_words, size_t other_start, size_t count, size_t *index);

/*@ requires \valid_read(memory + (0 .. words - 1));
  @ requires \valid_read(other + (0 .. other_words - 1));
  @ requires \valid(subset);
  @ requires \separated(memory + (0 .. words - 1), subset);
  @ requires \separated(other + (0 .. other_words - 1), subset);
  @ assigns *subset;
  @ ensures status: \result == then_status(range_status(8, order, words, start, count),
  @   range_status(8, other_order, other_words, other_start, count));
  @ ensures answer: \result == BITVEC_OK ==> (*subset <==> (\forall integer p; start <= p < start +
  @   count ==> !(bit_u8{Pre}(order, memory, p) && !bit_u8{Pre}(other_order, other, other_start + (p
  @   - start)))));
  @ ensures refused: \result != BITVEC_OK ==> (*subset <==> \old(*subset));
  @*/
static inline uint8_t bitvec_c_is_subset_u8(
    uint8_t order, const uint8_t *memory, size_t words, size_t start, uint8_t other_order,
    const uint8_t *other, size_t other_words, size_t other_start, size_t count, bool *subset);

/*@ requires \valid_read(memory + (0 .. words - 1));
  @ requires \valid_read(other + (0 .. other_words - 1));
  @ requires \valid(subset);
  @ requires \separated(memory + (0 .. words - 1), subset);
  @ requires \separated(other + (0 .. other_words - 1), subset);
  @ assigns *subset;
  @ ensures status: \result == then_status(range_status(16, order, words, start, count),
  @   range_status(16, other_order, other_words, other_start, count));
  @ ensures answer: \result == BITVEC_OK ==> (*subset <==> (\forall integer p; start <= p < start +
  @   count ==> !(bit_u16{Pre}(order, memory, p) && !bit_u16{Pre}(other_order, other, other_start +
  @   (p - start)))));
  @ ensures refused: \result != BITVEC_OK ==> (*subset <==> \old(*subset));
  @*/
static inline uint8_t bitvec_c_is_subset_u16(
    uint8_t order, const uint16_t *memory, size_t words, size_t start, uint8_t other_order,
    const uint16_t *other, size_t other_words, size_t other_start, size_t count, bool *subset);

/*@ requires \valid_read(memory + (0 .. words - 1));
  @ requires \valid_read(other + (0 .. other_words - 1));
  @ requires \valid(subset);
  @ requires \separated(memory + (0 .. words - 1), subset);
  @ requires \separated(other + (0 .. other_words - 1), subset);
  @ assigns *subset;
  @ ensures status: \result == then_status(range_status(32, order, words, start, count),
  @   range_status(32, other_order, other_words, other_start, count));
  @ ensures answer: \result == BITVEC_OK ==> (*subset <==> (\forall integer p; start <= p < start +
  @   count ==> !(bit_u32{Pre}(order, memory, p) && !bit_u32{Pre}(other_order, other, other_start +
  @   (p - start)))));
  @ ensures refused: \result != BITVEC_OK ==> (*subset <==> \old(*subset));
  @*/
static inline uint8_t bitvec_c_is_subset_u32(
    uint8_t order, const uint32_t *memory, size_t words, size_t start, uint8_t other_order,
    const uint32_t *other, size_t other_words, size_t other_start, size_t count, bool *subset);

/*@ requires \valid_read(memory + (0 .. words - 1));
  @ requires \valid_read(other + (0 .. other_words - 1));
  @ requires \valid(subset);
  @ requires \separated(memory + (0 .. words - 1), subset);
  @ requires \separated(other + (0 .. other_words - 1), subset);
  @ assigns *subset;
  @ ensures status: \result == then_status(range_status(64, order, words, start, count),
  @   range_status(64, other_order, other_words, other_start, count));
  @ ensures answer: \result == BITVEC_OK ==> (*subset <==> (\forall integer p; start <= p < start +
  @   count ==> !(bit_u64{Pre}(order, memory, p) && !bit_u64{Pre}(other_order, other, other_start +
  @   (p - start)))));
  @ ensures refused: \result != BITVEC_OK ==> (*subset <==> \old(*subset));
  @*/
static inline uint8_t bitvec_c_is_subset_u64(
    uint8_t order, const uint64_t *memory, size_t words, size_t start, uint8_t other_order,
    const uint64_t *other, size_t other_words, size_t other_start, size_t count, bool *subset);

/*@ requires \valid_read(memory + (0 .. words - 1));
  @ requires \valid_read(other + (0 .. other_words - 1));
  @ requires \valid(index);
  @ requires \separated(memory + (0 .. words - 1), index);
  @ requires \separated(other + (0 .. other_words - 1), index);
  @ assigns *index;
  @ ensures status: \result == then_status(range_status(8, order, words, start, count),
  @   range_status(8, other_order, other_words, other_start, count));
  @ ensures answer: \result == BITVEC_OK ==> (0 <= *index <= count) && ((\forall integer p; start <=
  @   p < start + *index ==> !(bit_u8{Pre}(order, memory, p) ^^ bit_u8{Pre}(other_order, other,
  @   other_start + (p - start))))) && (*index < count ==> (bit_u8{Pre}(order, memory, start +
  @   *index) ^^ bit_u8{Pre}(other_order, other, other_start + *index)));
  @ ensures refused: \result != BITVEC_OK ==> *index == \old(*index);
  @*/
uint8_t bitvec_c_first_difference_u8(
    uint8_t order, const uint8_t *memory, size_t words, size_t start, uint8_t other_order,
    const uint8_t *other, size_t other_words, size_t other_start, size_t count, size_t *index);

/*@ requires \valid_read(memory + (0 .. words - 1));
  @ requires \valid_read(other + (0 .. other_words - 1));
  @ requires \valid(index);
  @ requires \separated(memory + (0 .. words - 1), index);
  @ requires \separated(other + (0 .. other_words - 1), index);
  @ assigns *index;
  @ ensures status: \result == then_status(range_status(16, order, words, start, count),
  @   range_status(16, other_order, other_words, other_start, count));
  @ ensures answer: \result == BITVEC_OK ==> (0 <= *index <= count) && ((\forall integer p; start <=
  @   p < start + *index ==> !(bit_u16{Pre}(order, memory, p) ^^ bit_u16{Pre}(other_order, other,
  @   other_start + (p - start))))) && (*index < count ==> (bit_u16{Pre}(order, memory, start +
  @   *index) ^^ bit_u16{Pre}(other_order, other, other_start + *index)));
  @ ensures refused: \result != BITVEC_OK ==> *index == \old(*index);
  @*/
uint8_t bitvec_c_first_difference_u16(
    uint8_t order, const uint16_t *memory, size_t words, size_t start, uint8_t other_order,
    const uint16_t *other, size_t other_words, size_t other_start, size_t count, size_t *index);

/*@ requires \valid_read(memory + (0 .. words - 1));
  @ requires \valid_read(other + (0 .. other_words - 1));
  @ requires \valid(index);
  @ requires \separated(memory + (0 .. words - 1), index);
  @ requires \separated(other + (0 .. other_words - 1), index);
  @ assigns *index;
  @ ensures status: \result == then_status(range_status(32, order, words, start, count),
  @   range_status(32, other_order, other_words, other_start, count));
  @ ensures answer: \result == BITVEC_OK ==> (0 <= *index <= count) && ((\forall integer p; start <=
  @   p < start + *index ==> !(bit_u32{Pre}(order, memory, p) ^^ bit_u32{Pre}(other_order, other,
  @   other_start + (p - start))))) && (*index < count ==> (bit_u32{Pre}(order, memory, start +
  @   *index) ^^ bit_u32{Pre}(other_order, other, other_start + *index)));
  @ ensures refused: \result != BITVEC_OK ==> *index == \old(*index);
  @*/
uint8_t bitvec_c_first_difference_u32(
    uint8_t order, const uint32_t *memory, size_t words, size_t start, uint8_t other_order,
    const uint32_t *other, size_t other_words, size_t other_start, size_t count, size_t *index);

/*@ requires \valid_read(memory + (0 .. words - 1));
  @ requires \valid_read(other + (0 .. other_words - 1));
  @ requires \valid(index);
  @ requires \separated(memory + (0 .. words - 1), index);
  @ requires \separated(other + (0 .. other_words - 1), index);
  @ assigns *index;
  @ ensures status: \result == then_status(range_status(64, order, words, start, count),
  @   range_status(64, other_order, other_words, other_start, count));
  @ ensures answer: \result == BITVEC_OK ==> (0 <= *index <= count) && ((\forall integer p; start <=
  @   p < start + *index ==> !(bit_u64{Pre}(order, memory, p) ^^ bit_u64{Pre}(other_order, other,
  @   other_start + (p - start))))) && (*index < count ==> (bit_u64{Pre}(order, memory, start +
  @   *index) ^^ bit_u64{Pre}(other_order, other, other_start + *index)));
  @ ensures refused: \result != BITVEC_OK ==> *index == \old(*index);
  @*/
uint8_t bitvec_c_first_difference_u64(
    uint8_t order, const uint64_t *memory, size_t words, size_t start, uint8_t other_order,
    const uint64_t *other, size_t other_words, size_t other_start, size_t count, size_t *index);

/*@ requires \valid_read(memory + (0 .. words - 1));
  @ requires \valid_read(other + (0 .. other_words - 1));
  @ requires \valid(index);
  @ requires \separated(memory + (0 .. words - 1), index);
  @ requires \separated(other + (0 .. other_words - 1), index);
  @ assigns *index;
  @ ensures status: \result == then_status(range_status(8, order, words, start, count),
  @   range_status(8, other_order, other_words, other_start, count));
  @ ensures answer: \result == BITVEC_OK ==> (0 <= *index <= count) && ((\forall integer p; start <=
  @   p < start + *index ==> !(bit_u8{Pre}(order, memory, p) ^^ bit_u8{Pre}(other_order, other,
  @   other_start + (p - start))))) && (*index < count ==> (bit_u8{Pre}(order, memory, start +
  @   *index) ^^ bit_u8{Pre}(other_order, other, other_start + *index)));
  @ ensures refused: \result != BITVEC_OK ==> *index == \old(*index);
  @*/
uint8_t bitvec_c_first_difference_u8_with_u8(
    uint8_t order, const uint8_t *memory, size_t words, size_t start, uint8_t other_order,
    const uint8_t *other, size_t other_words, size_t other_start, size_t count, size_t *index);

/*@ requires \valid_read(memory + (0 .. words - 1));
  @ requires \valid_read(other + (0 .. other_words - 1));
  @ requires \valid(index);
  @ requires \separated(memory + (0 .. words - 1), index);
  @ requires \separated(other + (0 .. other_words - 1), index);
  @ assigns *index;
  @ ensures status: \result == then_status(range_status(8, order, words, start, count),
  @   range_status(16, other_order, other_words, other_start, count));
  @ ensures answer: \result == BITVEC_OK ==> (0 <= *index <= count) && ((\forall integer p; start <=
  @   p < start + *index ==> !(bit_u8{Pre}(order, memory, p) ^^ bit_u16{Pre}(other_order, other,
  @   other_start + (p - start))))) && (*index < count ==> (bit_u8{Pre}(order, memory, start +
  @   *index) ^^ bit_u16{Pre}(other_order, other, other_start + *index)));
  @ ensures refused: \result != BITVEC_OK ==> *index == \old(*index);
  @*/
uint8_t bitvec_c_first_difference_u8_with_u16(
    uint8_t order, const uint8_t *memory, size_t words, size_t start, uint8_t other_order,
    const uint16_t *other, size_t other_words, size_t other_start, size_t count, size_t *index);

/*@ requires \valid_read(memory + (0 .. words - 1));
  @ requires \valid_read(other + (0 .. other_words - 1));
  @ requires \valid(index);
  @ requires \separated(memory + (0 .. words - 1), index);
  @ requires \separated(other + (0 .. other_words - 1), index);
  @ assigns *index;
  @ ensures status: \result == then_status(range_status(8, order, words, start, count),
  @   range_status(32, other_order, other_words, other_start, count));
  @ ensures answer: \result == BITVEC_OK ==> (0 <= *index <= count) && ((\forall integer p; start <=
  @   p < start + *index ==> !(bit_u8{Pre}(order, memory, p) ^^ bit_u32{Pre}(other_order, other,
  @   other_start + (p - start))))) && (*index < count ==> (bit_u8{Pre}(order, memory, start +
  @   *index) ^^ bit_u32{Pre}(other_order, other, other_start + *index)));
  @ ensures refused: \result != BITVEC_OK ==> *index == \old(*index);
  @*/
uint8_t bitvec_c_first_difference_u8_with_u32(
    uint8_t order, const uint8_t *memory, size_t words, size_t start, uint8_t other_order,
    const uint32_t *other, size_t other_words, size_t other_start, size_t count, size_t *index);

/*@ requires \valid_read(memory + (0 .. words - 1));
  @ requires \valid_read(other + (0 .. other_words - 1));
  @ requires \valid(index);
  @ requires \separated(memory + (0 .. words - 1), index);
  @ requires \separated(other + (0 .. other_words - 1), index);
  @ assigns *index;
  @ ensures status: \result == then_status(range_status(8, order, words, start, count),
  @   range_status(64, other_order, other_words, other_start, count));
  @ ensures answer: \result == BITVEC_OK ==> (0 <= *index <= count) && ((\forall integer p; start <=
  @   p < start + *index ==> !(bit_u8{Pre}(order, memory, p) ^^ bit_u64{Pre}(other_order, other,
  @   other_start + (p - start))))) && (*index < count ==> (bit_u8{Pre}(order, memory, start +
  @   *index) ^^ bit_u64{Pre}(other_order, other, other_start + *index)));
  @ ensures refused: \result != BITVEC_OK ==> *index == \old(*index);
  @*/
uint8_t bitvec_c_first_difference_u8_with_u64(
    uint8_t order, const uint8_t *memory, size_t words, size_t start, uint8_t other_order,
    const uint64_t *other, size_t other_words, size_t other_start, size_t count, size_t *index);

/*@ requires \valid_read(memory + (0 .. words - 1));
  @ requires \valid_read(other + (0 .. other_words - 1));
  @ requires \valid(index);
  @ requires \separated(memory + (0 .. words - 1), index);
  @ requires \separated(other + (0 .. other_words - 1), index);
  @ assigns *index;
  @ ensures status: \result == then_status(range_status(16, order, words, start, count),
  @   range_status(8, other_order, other_words, other_start, count));
  @ ensures answer: \result == BITVEC_OK ==> (0 <= *index <= count) && ((\forall integer p; start <=
  @   p < start + *index ==> !(bit_u16{Pre}(order, memory, p) ^^ bit_u8{Pre}(other_order, other,
  @   other_start + (p - start))))) && (*index < count ==> (bit_u16{Pre}(order, memory, start +
  @   *index) ^^ bit_u8{Pre}(other_order, other, other_start + *index)));
  @ ensures refused: \result != BITVEC_OK ==> *index == \old(*index);
  @*/
uint8_t bitvec_c_first_difference_u16_with_u8(
    uint8_t order, const uint16_t *memory, size_t words, size_t start, uint8_t other_order,
    const uint8_t *other, size_t other_words, size_t other_start, size_t count, size_t *index);

/*@ requires \valid_read(memory + (0 .. words - 1));
  @ requires \valid_read(other + (0 .. other_words - 1));
  @ requires \valid(index);
  @ requires \separated(memory + (0 .. words - 1), index);
  @ requires \separated(other + (0 .. other_words - 1), index);
  @ assigns *index;
  @ ensures status: \result == then_status(range_status(16, order, words, start, count),
  @   range_status(16, other_order, other_words, other_start, count));
  @ ensures answer: \result == BITVEC_OK ==> (0 <= *index <= count) && ((\forall integer p; start <=
  @   p < start + *index ==> !(bit_u16{Pre}(order, memory, p) ^^ bit_u16{Pre}(other_order, other,
  @   other_start + (p - start))))) && (*index < count ==> (bit_u16{Pre}(order, memory, start +
  @   *index) ^^ bit_u16{Pre}(other_order, other, other_start + *index)));
  @ ensures refused: \result != BITVEC_OK ==> *index == \old(*index);
  @*/
uint8_t bitvec_c_first_difference_u16_with_u16(
    uint8_t order, const uint16_t *memory, size_t words, size_t start, uint8_t other_order,
    const uint16_t *other, size_t other_words, size_t other_start, size_t count, size_t *index);

/*@ requires \valid_read(memory + (0 .. words - 1));
  @ requires \valid_read(other + (0 .. other_words - 1));
  @ requires \valid(index);
  @ requires \separated(memory + (0 .. words - 1), index);
  @ requires \separated(other + (0 .. other_words - 1), index);
  @ assigns *index;
  @ ensures status: \result == then_status(range_status(16, order, words, start, count),
  @   range_status(32, other_order, other_words, other_start, count));
  @ ensures answer: \result == BITVEC_OK ==> (0 <= *index <= count) && ((\forall integer p; start <=
  @   p < start + *index ==> !(bit_u16{Pre}(order, memory, p) ^^ bit_u32{Pre}(other_order, other,
  @   other_start + (p - start))))) && (*index < count ==> (bit_u16{Pre}(order, memory, start +
  @   *index) ^^ bit_u32{Pre}(other_order, other, other_start + *index)));
  @ ensures refused: \result != BITVEC_OK ==> *index == \old(*index);
  @*/
uint8_t bitvec_c_first_difference_u16_with_u32(
    uint8_t order, const uint16_t *memory, size_t words, size_t start, uint8_t other_order,
    const uint32_t *other, size_t other_words, size_t other_start, size_t count, size_t *index);

/*@ requires \valid_read(memory + (0 .. words - 1));
  @ requires \valid_read(other + (0 .. other_words - 1));
  @ requires \valid(index);
  @ requires \separated(memory + (0 .. words - 1), index);
  @ requires \separated(other + (0 .. other_words - 1), index);
  @ assigns *index;
  @ ensures status: \result == then_status(range_status(16, order, words, start, count),
  @   range_status(64, other_order, other_words, other_start, count));
  @ ensures answer: \result == BITVEC_OK ==> (0 <= *index <= count) && ((\forall integer p; start <=
  @   p < start + *index ==> !(bit_u16{Pre}(order, memory, p) ^^ bit_u64{Pre}(other_order, other,
  @   other_start + (p - start))))) && (*index < count ==> (bit_u16{Pre}(order, memory, start +
  @   *index) ^^ bit_u64{Pre}(other_order, other, other_start + *index)));
  @ ensures refused: \result != BITVEC_OK ==> *index == \old(*index);
  @*/
uint8_t bitvec_c_first_difference_u16_with_u64(
    uint8_t order, const uint16_t *memory, size_t words, size_t start, uint8_t other_order,
    const uint64_t *other, size_t other_words, size_t other_start, size_t count, size_t *index);

/*@ requires \valid_read(memory + (0 .. words - 1));
  @ requires \valid_read(other + (0 .. other_words - 1));
  @ requires \valid(index);
  @ requires \separated(memory + (0 .. words - 1), index);
  @ requires \separated(other + (0 .. other_words - 1), index);
  @ assigns *index;
  @ ensures status: \result == then_status(range_status(32, order, words, start, count),
  @   range_status(8, other_order, other_words, other_start, count));
  @ ensures answer: \result == BITVEC_OK ==> (0 <= *index <= count) && ((\forall integer p; start <=
  @   p < start + *index ==> !(bit_u32{Pre}(order, memory, p) ^^ bit_u8{Pre}(other_order, other,
  @   other_start + (p - start))))) && (*index < count ==> (bit_u32{Pre}(order, memory, start +
  @   *index) ^^ bit_u8{Pre}(other_order, other, other_start + *index)));
  @ ensures refused: \result != BITVEC_OK ==> *index == \old(*index);
  @*/
uint8_t bitvec_c_first_difference_u32_with_u8(
    uint8_t order, const uint32_t *memory, size_t words, size_t start, uint8_t other_order,
    const uint8_t *other, size_t other_words, size_t other_start, size_t count, size_t *index);

/*@ requires \valid_read(memory + (0 .. words - 1));
  @ requires \valid_read(other + (0 .. other_words - 1));
  @ requires \valid(index);
  @ requires \separated(memory + (0 .. words - 1), index);
  @ requires \separated(other + (0 .. other_words - 1), index);
  @ assigns *index;
  @ ensures status: \result == then_status(range_status(32, order, words, start, count),
  @   range_status(16, other_order, other_words, other_start, count));
  @ ensures answer: \result == BITVEC_OK ==> (0 <= *index <= count) && ((\forall integer p; start <=
  @   p < start + *index ==> !(bit_u32{Pre}(order, memory, p) ^^ bit_u16{Pre}(other_order, other,
  @   other_start + (p - start))))) && (*index < count ==> (bit_u32{Pre}(order, memory, start +
  @   *index) ^^ bit_u16{Pre}(other_order, other, other_start + *index)));
  @ ensures refused: \result != BITVEC_OK ==> *index == \old(*index);
  @*/
uint8_t bitvec_c_first_difference_u32_with_u16(
    uint8_t order, const uint32_t *memory, size_t words, size_t start, uint8_t other_order,
    const uint16_t *other, size_t other_words, size_t other_start, size_t count, size_t *index);

/*@ requires \valid_read(memory + (0 .. words - 1));
  @ requires \valid_read(other + (0 .. other_words - 1));
  @ requires \valid(index);
  @ requires \separated(memory + (0 .. words - 1), index);
  @ requires \separated(other + (0 .. other_words - 1), index);
  @ assigns *index;
  @ ensures status: \result == then_status(range_status(32, order, words, start, count),
  @   range_status(32, other_order, other_words, other_start, count));
  @ ensures answer: \result == BITVEC_OK ==> (0 <= *index <= count) && ((\forall integer p; start <=
  @   p < start + *index ==> !(bit_u32{Pre}(order, memory, p) ^^ bit_u32{Pre}(other_order, other,
  @   other_start + (p - start))))) && (*index < count ==> (bit_u32{Pre}(order, memory, start +
  @   *index) ^^ bit_u32{Pre}(other_order, other, other_start + *index)));
  @ ensures refused: \result != BITVEC_OK ==> *index == \old(*index);
  @*/
uint8_t bitvec_c_first_difference_u32_with_u32(
    uint8_t order, const uint32_t *memory, size_t words, size_t start, uint8_t other_order,
    const uint32_t *other, size_t other_words, size_t other_start, size_t count, size_t *index);

/*@ requires \valid_read(memory + (0 .. words - 1));
  @ requires \valid_read(other + (0 .. other_words - 1));
  @ requires \valid(index);
  @ requires \separated(memory + (0 .. words - 1), index);
  @ requires \separated(other + (0 .. other_words - 1), index);
  @ assigns *index;
  @ ensures status: \result == then_status(range_status(32, order, words, start, count),
  @   range_status(64, other_order, other_words, other_start, count));
  @ ensures answer: \result == BITVEC_OK ==> (0 <= *index <= count) && ((\forall integer p; start <=
  @   p < start + *index ==> !(bit_u32{Pre}(order, memory, p) ^^ bit_u64{Pre}(other_order, other,
  @   other_start + (p - start))))) && (*index < count ==> (bit_u32{Pre}(order, memory, start +
  @   *index) ^^ bit_u64{Pre}(other_order, other, other_start + *index)));
  @ ensures refused: \result != BITVEC_OK ==> *index == \old(*index);
  @*/
uint8_t bitvec_c_first_difference_u32_with_u64(
    uint8_t order, const uint32_t *memory, size_t words, size_t start, uint8_t other_order,
    const uint64_t *other, size_t other_words, size_t other_start, size_t count, size_t *index);

/*@ requires \valid_read(memory + (0 .. words - 1));
  @ requires \valid_read(other + (0 .. other_words - 1));
  @ requires \valid(index);
  @ requires \separated(memory + (0 .. words - 1), index);
  @ requires \separated(other + (0 .. other_words - 1), index);
  @ assigns *index;
  @ ensures status: \result == then_status(range_status(64, order, words, start, count),
  @   range_status(8, other_order, other_words, other_start, count));
  @ ensures answer: \result == BITVEC_OK ==> (0 <= *index <= count) && ((\forall integer p; start <=
  @   p < start + *index ==> !(bit_u64{Pre}(order, memory, p) ^^ bit_u8{Pre}(other_order, other,
  @   other_start + (p - start))))) && (*index < count ==> (bit_u64{Pre}(order, memory, start +
  @   *index) ^^ bit_u8{Pre}(other_order, other, other_start + *index)));
  @ ensures refused: \result != BITVEC_OK ==> *index == \old(*index);
  @*/
uint8_t bitvec_c_first_difference_u64_with_u8(
    uint8_t order, const uint64_t *memory, size_t words, size_t start, uint8_t other_order,
    const uint8_t *other, size_t other_words, size_t other_start, size_t count, size_t *index);

/*@ requires \valid_read(memory + (0 .. words - 1));
  @ requires \valid_read(other + (0 .. other_words - 1));
  @ requires \valid(index);
  @ requires \separated(memory + (0 .. words - 1), index);
  @ requires \separated(other + (0 .. other_words - 1), index);
  @ assigns *index;
  @ ensures status: \result == then_status(range_status(64, order, words, start, count),
  @   range_status(16, other_order, other_words, other_start, count));
  @ ensures answer: \result == BITVEC_OK ==> (0 <= *index <= count) && ((\forall integer p; start <=
  @   p < start + *index ==> !(bit_u64{Pre}(order, memory, p) ^^ bit_u16{Pre}(other_order, other,
  @   other_start + (p - start))))) && (*index < count ==> (bit_u64{Pre}(order, memory, start +
  @   *index) ^^ bit_u16{Pre}(other_order, other, other_start + *index)));
  @ ensures refused: \result != BITVEC_OK ==> *index == \old(*index);
  @*/
uint8_t bitvec_c_first_difference_u64_with_u16(
    uint8_t order, const uint64_t *memory, size_t words, size_t start, uint8_t other_order,
    const uint16_t *other, size_t other_words, size_t other_start, size_t count, size_t *index);

/*@ requires \valid_read(memory + (0 .. words - 1));
  @ requires \valid_read(other + (0 .. other_words - 1));
  @ requires \valid(index);
  @ requires \separated(memory + (0 .. words - 1), index);
  @ requires \separated(other + (0 .. other_words - 1), index);
  @ assigns *index;
  @ ensures status: \result == then_status(range_status(64, order, words, start, count),
  @   range_status(32, other_order, other_words, other_start, count));
  @ ensures answer: \result == BITVEC_OK ==> (0 <= *index <= count) && ((\forall integer p; start <=
  @   p < start + *index ==> !(bit_u64{Pre}(order, memory, p) ^^ bit_u32{Pre}(other_order, other,
  @   other_start + (p - start))))) && (*index < count ==> (bit_u64{Pre}(order, memory, start +
  @   *index) ^^ bit_u32{Pre}(other_order, other, other_start + *index)));
  @ ensures refused: \result != BITVEC_OK ==> *index == \old(*index);
  @*/
uint8_t bitvec_c_first_difference_u64_with_u32(
    uint8_t order, const uint64_t *memory, size_t words, size_t start, uint8_t other_order,
    const uint32_t *other, size_t other_words, size_t other_start, size_t count, size_t *index);

/*@ requires \valid_read(memory + (0 .. words - 1));
  @ requires \valid_read(other + (0 .. other_words - 1));
  @ requires \valid(index);
  @ requires \separated(memory + (0 .. words - 1), index);
  @ requires \separated(other + (0 .. other_words - 1), index);
  @ assigns *index;
  @ ensures status: \result == then_status(range_status(64, order, words, start, count),
  @   range_status(64, other_order, other_words, other_start, count));
  @ ensures answer: \result == BITVEC_OK ==> (0 <= *index <= count) && ((\forall integer p; start <=
  @   p < start + *index ==> !(bit_u64{Pre}(order, memory, p) ^^ bit_u64{Pre}(other_order, other,
  @   other_start + (p - start))))) && (*index < count ==> (bit_u64{Pre}(order, memory, start +
  @   *index) ^^ bit_u64{Pre}(other_order, other, other_start + *index)));
  @ ensures refused: \result != BITVEC_OK ==> *index == \old(*index);
  @*/
uint8_t bitvec_c_first_difference_u64_with_u64(
    uint8_t order, const uint64_t *memory, size_t words, size_t start, uint8_t other_order,
    const uint64_t *other, size_t other_words, size_t other_start, size_t count, size_t *index);

/*@ requires \valid_read(memory + (0 .. words - 1));
  @ requires \valid(number);
  @ requires \separated(memory + (0 .. words - 1), number);
  @ assigns *number;
  @ ensures status: \result == number_status(8, order, words, start, count);
  @ ensures answer: \result == BITVEC_OK ==> *number == number_u8{Pre}(0, big_endian, order, memory,
  @   start, count, count);
  @ ensures refused: \result != BITVEC_OK ==> *number == \old(*number);
  @*/
uint8_t bitvec_c_load_u8(
    uint8_t order, bool big_endian, const uint8_t *memory, size_t words, size_t start, size_t count,
    uint64_t *number);

/*@ requires \valid_read(memory + (0 .. words - 1));
  @ requires \valid(number);
  @ requires \separated(memory + (0 .. words - 1), number);
  @ assigns *number;
  @ ensures status: \result == number_status(16, order, words, start, count);
  @ ensures answer: \result == BITVEC_OK ==> *number == number_u16{Pre}(0, big_endian, order,
  @   memory, start, count, count);
  @ ensures refused: \result != BITVEC_OK ==> *number == \old(*number);
  @*/
uint8_t bitvec_c_load_u16(
    uint8_t order, bool big_endian, const uint16_t *memory, size_t words, size_t start,
    size_t count, uint64_t *number);

/*@ requires \valid_read(memory + (0 .. words - 1));
  @ requires \valid(number);
  @ requires \separated(memory + (0 .. words - 1), number);
  @ assigns *number;
  @ ensures status: \result == number_status(32, order, words, start, count);
  @ ensures answer: \result == BITVEC_OK ==> *number == number_u32{Pre}(0, big_endian, order,
  @   memory, start, count, count);
  @ ensures refused: \result != BITVEC_OK ==> *number == \old(*number);
  @*/
uint8_t bitvec_c_load_u32(
    uint8_t order, bool big_endian, const uint32_t *memory, size_t words, size_t start,
    size_t count, uint64_t *number);

/*@ requires \valid_read(memory + (0 .. words - 1));
  @ requires \valid(number);
  @ requires \separated(memory + (0 .. words - 1), number);
  @ assigns *number;
  @ ensures status: \result == number_status(64, order, words, start, count);
  @ ensures answer: \result == BITVEC_OK ==> *number == number_u64{Pre}(0, big_endian, order,
  @   memory, start, count, count);
  @ ensures refused: \result != BITVEC_OK ==> *number == \old(*number);
  @*/
uint8_t bitvec_c_load_u64(
    uint8_t order, bool big_endian, const uint64_t *memory, size_t words, size_t start,
    size_t count, uint64_t *number);

/*@ requires \valid(memory + (0 .. words - 1));
  @ assigns memory[0 .. words - 1];
  @ ensures status: \result == number_status(8, order, words, start, count);
  @ ensures range: \result == BITVEC_OK ==> holds_u8{Post}(0, big_endian, order, memory, start,
  @   count, number);
  @ ensures others: \result == BITVEC_OK ==> others_u8{Pre, Post}(order, memory, words, start,
  @   count);
  @ ensures refused: \result != BITVEC_OK ==> kept_u8{Pre, Post}(memory, words);
  @*/
uint8_t bitvec_c_store_u8(
    uint8_t order, bool big_endian, uint8_t *memory, size_t words, size_t start, size_t count,
    uint64_t number);

/*@ requires \valid(memory + (0 .. words - 1));
  @ assigns memory[0 .. words - 1];
  @ ensures status: \result == number_status(16, order, words, start, count);
  @ ensures range: \result == BITVEC_OK ==> holds_u16{Post}(0, big_endian, order, memory, start,
  @   count, number);
  @ ensures others: \result == BITVEC_OK ==> others_u16{Pre, Post}(order, memory, words, start,
  @   count);
  @ ensures refused: \result != BITVEC_OK ==> kept_u16{Pre, Post}(memory, words);
  @*/
uint8_t bitvec_c_store_u16(
    uint8_t order, bool big_endian, uint16_t *memory, size_t words, size_t start, size_t count,
    uint64_t number);

/*@ requires \valid(memory + (0 .. words - 1));
  @ assigns memory[0 .. words - 1];
  @ ensures status: \result == number_status(32, order, words, start, count);
  @ ensures range: \result == BITVEC_OK ==> holds_u32{Post}(0, big_endian, order, memory, start,
  @   count, number);
  @ ensures others: \result == BITVEC_OK ==> others_u32{Pre, Post}(order, memory, words, start,
  @   count);
  @ ensures refused: \result != BITVEC_OK ==> kept_u32{Pre, Post}(memory, words);
  @*/
uint8_t bitvec_c_store_u32(
    uint8_t order, bool big_endian, uint32_t *memory, size_t words, size_t start, size_t count,
    uint64_t number);

/*@ requires \valid(memory + (0 .. words - 1));
  @ assigns memory[0 .. words - 1];
  @ ensures status: \result == number_status(64, order, words, start, count);
  @ ensures range: \result == BITVEC_OK ==> holds_u64{Post}(0, big_endian, order, memory, start,
  @   count, number);
  @ ensures others: \result == BITVEC_OK ==> others_u64{Pre, Post}(order, memory, words, start,
  @   count);
  @ ensures refused: \result != BITVEC_OK ==> kept_u64{Pre, Post}(memory, words);
  @*/
uint8_t bitvec_c_store_u64(
    uint8_t order, bool big_endian, uint64_t *memory, size_t words, size_t start, size_t count,
    uint64_t number);

/*@ requires \valid_read(memory + (0 .. words - 1));
  @ requires \valid(number);
  @ requires \separated(memory + (0 .. words - 1), number);
  @ assigns *number;
  @ ensures status: \result == number_status(8, order, words, start, count);
  @ ensures answer: \result == BITVEC_OK ==> *number == signed_of(count, number_u8{Pre}(0,
  @   big_endian, order, memory, start, count, count));
  @ ensures refused: \result != BITVEC_OK ==> *number == \old(*number);
  @*/
uint8_t bitvec_c_load_signed_u8(
    uint8_t order, bool big_endian, const uint8_t *memory, size_t words, size_t start, size_t count,
    int64_t *number);

/*@ requires \valid_read(memory + (0 .. words - 1));
  @ requires \valid(number);
  @ requires \separated(memory + (0 .. words - 1), number);
  @ assigns *number;
  @ ensures status: \result == number_status(16, order, words, start, count);
  @ ensures answer: \result == BITVEC_OK ==> *number == signed_of(count, number_u16{Pre}(0,
  @   big_endian, order, memory, start, count, count));
  @ ensures refused: \result != BITVEC_OK ==> *number == \old(*number);
  @*/
uint8_t bitvec_c_load_signed_u16(
    uint8_t order, bool big_endian, const uint16_t *memory, size_t words, size_t start,
    size_t count, int64_t *number);

/*@ requires \valid_read(memory + (0 .. words - 1));
  @ requires \valid(number);
  @ requires \separated(memory + (0 .. words - 1), number);
  @ assigns *number;
  @ ensures status: \result == number_status(32, order, words, start, count);
  @ ensures answer: \result == BITVEC_OK ==> *number == signed_of(count, number_u32{Pre}(0,
  @   big_endian, order, memory, start, count, count));
  @ ensures refused: \result != BITVEC_OK ==> *number == \old(*number);
  @*/
uint8_t bitvec_c_load_signed_u32(
    uint8_t order, bool big_endian, const uint32_t *memory, size_t words, size_t start,
    size_t count, int64_t *number);

/*@ requires \valid_read(memory + (0 .. words - 1));
  @ requires \valid(number);
  @ requires \separated(memory + (0 .. words - 1), number);
  @ assigns *number;
  @ ensures status: \result == number_status(64, order, words, start, count);
  @ ensures answer: \result == BITVEC_OK ==> *number == signed_of(count, number_u64{Pre}(0,
  @   big_endian, order, memory, start, count, count));
  @ ensures refused: \result != BITVEC_OK ==> *number == \old(*number);
  @*/
uint8_t bitvec_c_load_signed_u64(
    uint8_t order, bool big_endian, const uint64_t *memory, size_t words, size_t start,
    size_t count, int64_t *number);

/*@ requires \valid(memory + (0 .. words - 1));
  @ assigns memory[0 .. words - 1];
  @ ensures status: \result == number_status(8, order, words, start, count);
  @ ensures range: \result == BITVEC_OK ==> holds_u8{Post}(0, big_endian, order, memory, start,
  @   count, complement_of(count, number));
  @ ensures others: \result == BITVEC_OK ==> others_u8{Pre, Post}(order, memory, words, start,
  @   count);
  @ ensures refused: \result != BITVEC_OK ==> kept_u8{Pre, Post}(memory, words);
  @*/
uint8_t bitvec_c_store_signed_u8(
    uint8_t order, bool big_endian, uint8_t *memory, size_t words, size_t start, size_t count,
    int64_t number);

/*@ requires \valid(memory + (0 .. words - 1));
  @ assigns memory[0 .. words - 1];
  @ ensures status: \result == number_status(16, order, words, start, count);
  @ ensures range: \result == BITVEC_OK ==> holds_u16{Post}(0, big_endian, order, memory, start,
  @   count, complement_of(count, number));
  @ ensures others: \result == BITVEC_OK ==> others_u16{Pre, Post}(order, memory, words, start,
  @   count);
  @ ensures refused: \result != BITVEC_OK ==> kept_u16{Pre, Post}(memory, words);
  @*/
uint8_t bitvec_c_store_signed_u16(
    uint8_t order, bool big_endian, uint16_t *memory, size_t words, size_t start, size_t count,
    int64_t number);

/*@ requires \valid(memory + (0 .. words - 1));
  @ assigns memory[0 .. words - 1];
  @ ensures status: \result == number_status(32, order, words, start, count);
  @ ensures range: \result == BITVEC_OK ==> holds_u32{Post}(0, big_endian, order, memory, start,
  @   count, complement_of(count, number));
  @ ensures others: \result == BITVEC_OK ==> others_u32{Pre, Post}(order, memory, words, start,
  @   count);
  @ ensures refused: \result != BITVEC_OK ==> kept_u32{Pre, Post}(memory, words);
  @*/
uint8_t bitvec_c_store_signed_u32(
    uint8_t order, bool big_endian, uint32_t *memory, size_t words, size_t start, size_t count,
    int64_t number);

/*@ requires \valid(memory + (0 .. words - 1));
  @ assigns memory[0 .. words - 1];
  @ ensures status: \result == number_status(64, order, words, start, count);
  @ ensures range: \result == BITVEC_OK ==> holds_u64{Post}(0, big_endian, order, memory, start,
  @   count, complement_of(count, number));
  @ ensures others: \result == BITVEC_OK ==> others_u64{Pre, Post}(order, memory, words, start,
  @   count);
  @ ensures refused: \result != BITVEC_OK ==> kept_u64{Pre, Post}(memory, words);
  @*/
uint8_t bitvec_c_store_signed_u64(
    uint8_t order, bool big_endian, uint64_t *memory, size_t words, size_t start, size_t count,
    int64_t number);

/*@ requires \valid_read(memory + (0 .. words - 1));
  @ requires \valid(place);
  @ requires \valid(number);
  @ requires \separated(memory + (0 .. words - 1), place);
  @ requires \separated(memory + (0 .. words - 1), number);
  @ requires \separated(place, number);
  @ assigns *place, *number;
  @ ensures status: \result == digits_status(left_status(8, order, words, \old(*place), end), count,
  @   left_of(\old(*place), end));
  @ ensures answer: \result == BITVEC_OK ==> *number == number_u8{Pre}(1, big_endian, order, memory,
  @   \old(*place), count, count);
  @ ensures moved: \result == BITVEC_OK ==> *place == \old(*place) + count;
  @ ensures refused: \result != BITVEC_OK ==> *number == \old(*number) && *place == \old(*place);
  @*/
uint8_t bitvec_c_read_u8(
    uint8_t order, bool big_endian, const uint8_t *memory, size_t words, size_t *place, size_t end,
    size_t count, uint64_t *number);

/*@ requires \valid_read(memory + (0 .. words - 1));
  @ requires \valid(place);
  @ requires \valid(number);
  @ requires \separated(memory + (0 .. words - 1), place);
  @ requires \separated(memory + (0 .. words - 1), number);
  @ requires \separated(place, number);
  @ assigns *place, *number;
  @ ensures status: \result == digits_status(left_status(16, order, words, \old(*place), end),
  @   count, left_of(\old(*place), end));
  @ ensures answer: \result == BITVEC_OK ==> *number == number_u16{Pre}(1, big_endian, order,
  @   memory, \old(*place), count, count);
  @ ensures moved: \result == BITVEC_OK ==> *place == \old(*place) + count;
  @ ensures refused: \result != BITVEC_OK ==> *number == \old(*number) && *place == \old(*place);
  @*/
uint8_t bitvec_c_read_u16(
    uint8_t order, bool big_endian, const uint16_t *memory, size_t words, size_t *place, size_t end,
    size_t count, uint64_t *number);

/*@ requires \valid_read(memory + (0 .. words - 1));
  @ requires \valid(place);
  @ requires \valid(number);
  @ requires \separated(memory + (0 .. words - 1), place);
  @ requires \separated(memory + (0 .. words - 1), number);
  @ requires \separated(place, number);
  @ assigns *place, *number;
  @ ensures status: \result == digits_status(left_status(32, order, words, \old(*place), end),
  @   count, left_of(\old(*place), end));
  @ ensures answer: \result == BITVEC_OK ==> *number == number_u32{Pre}(1, big_endian, order,
  @   memory, \old(*place), count, count);
  @ ensures moved: \result == BITVEC_OK ==> *place == \old(*place) + count;
  @ ensures refused: \result != BITVEC_OK ==> *number == \old(*number) && *place == \old(*place);
  @*/
uint8_t bitvec_c_read_u32(
    uint8_t order, bool big_endian, const uint32_t *memory, size_t words, size_t *place, size_t end,
    size_t count, uint64_t *number);

/*@ requires \valid_read(memory + (0 .. words - 1));
  @ requires \valid(place);
  @ requires \valid(number);
  @ requires \separated(memory + (0 .. words - 1), place);
  @ requires \separated(memory + (0 .. words - 1), number);
  @ requires \separated(place, number);
  @ assigns *place, *number;
  @ ensures status: \result == digits_status(left_status(64, order, words, \old(*place), end),
  @   count, left_of(\old(*place), end));
  @ ensures answer: \result == BITVEC_OK ==> *number == number_u64{Pre}(1, big_endian, order,
  @   memory, \old(*place), count, count);
  @ ensures moved: \result == BITVEC_OK ==> *place == \old(*place) + count;
  @ ensures refused: \result != BITVEC_OK ==> *number == \old(*number) && *place == \old(*place);
  @*/
uint8_t bitvec_c_read_u64(
    uint8_t order, bool big_endian, const uint64_t *memory, size_t words, size_t *place, size_t end,
    size_t count, uint64_t *number);

/*@ requires \valid_read(memory + (0 .. words - 1));
  @ requires \valid(place);
  @ requires \valid(number);
  @ requires \separated(memory + (0 .. words - 1), place);
  @ requires \separated(memory + (0 .. words - 1), number);
  @ requires \separated(place, number);
  @ assigns *place, *number;
  @ ensures status: \result == digits_status(left_status(8, order, words, \old(*place), end), count,
  @   left_of(\old(*place), end));
  @ ensures answer: \result == BITVEC_OK ==> *number == signed_of(count, number_u8{Pre}(1,
  @   big_endian, order, memory, \old(*place), count, count));
  @ ensures moved: \result == BITVEC_OK ==> *place == \old(*place) + count;
  @ ensures refused: \result != BITVEC_OK ==> *number == \old(*number) && *place == \old(*place);
  @*/
uint8_t bitvec_c_read_signed_u8(
    uint8_t order, bool big_endian, const uint8_t *memory, size_t words, size_t *place, size_t end,
    size_t count, int64_t *number);

/*@ requires \valid_read(memory + (0 .. words - 1));
  @ requires \valid(place);
  @ requires \valid(number);
  @ requires \separated(memory + (0 .. words - 1), place);
  @ requires \separated(memory + (0 .. words - 1), number);
  @ requires \separated(place, number);
  @ assigns *place, *number;
  @ ensures status: \result == digits_status(left_status(16, order, words, \old(*place), end),
  @   count, left_of(\old(*place), end));
  @ ensures answer: \result == BITVEC_OK ==> *number == signed_of(count, number_u16{Pre}(1,
  @   big_endian, order, memory, \old(*place), count, count));
  @ ensures moved: \result == BITVEC_OK ==> *place == \old(*place) + count;
  @ ensures refused: \result != BITVEC_OK ==> *number == \old(*number) && *place == \old(*place);
  @*/
uint8_t bitvec_c_read_signed_u16(
    uint8_t order, bool big_endian, const uint16_t *memory, size_t words, size_t *place, size_t end,
    size_t count, int64_t *number);

/*@ requires \valid_read(memory + (0 .. words - 1));
  @ requires \valid(place);
  @ requires \valid(number);
  @ requires \separated(memory + (0 .. words - 1), place);
  @ requires \separated(memory + (0 .. words - 1), number);
  @ requires \separated(place, number);
  @ assigns *place, *number;
  @ ensures status: \result == digits_status(left_status(32, order, words, \old(*place), end),
  @   count, left_of(\old(*place), end));
  @ ensures answer: \result == BITVEC_OK ==> *number == signed_of(count, number_u32{Pre}(1,
  @   big_endian, order, memory, \old(*place), count, count));
  @ ensures moved: \result == BITVEC_OK ==> *place == \old(*place) + count;
  @ ensures refused: \result != BITVEC_OK ==> *number == \old(*number) && *place == \old(*place);
  @*/
uint8_t bitvec_c_read_signed_u32(
    uint8_t order, bool big_endian, const uint32_t *memory, size_t words, size_t *place, size_t end,
    size_t count, int64_t *number);

/*@ requires \valid_read(memory + (0 .. words - 1));
  @ requires \valid(place);
  @ requires \valid(number);
  @ requires \separated(memory + (0 .. words - 1), place);
  @ requires \separated(memory + (0 .. words - 1), number);
  @ requires \separated(place, number);
  @ assigns *place, *number;
  @ ensures status: \result == digits_status(left_status(64, order, words, \old(*place), end),
  @   count, left_of(\old(*place), end));
  @ ensures answer: \result == BITVEC_OK ==> *number == signed_of(count, number_u64{Pre}(1,
  @   big_endian, order, memory, \old(*place), count, count));
  @ ensures moved: \result == BITVEC_OK ==> *place == \old(*place) + count;
  @ ensures refused: \result != BITVEC_OK ==> *number == \old(*number) && *place == \old(*place);
  @*/
uint8_t bitvec_c_read_signed_u64(
    uint8_t order, bool big_endian, const uint64_t *memory, size_t words, size_t *place, size_t end,
    size_t count, int64_t *number);

/*@ requires \valid_read(memory + (0 .. words - 1));
  @ requires \valid(place);
  @ requires \valid(count);
  @ requires \separated(memory + (0 .. words - 1), place);
  @ requires \separated(memory + (0 .. words - 1), count);
  @ requires \separated(place, count);
  @ assigns *place, *count;
  @ ensures status: left_status(8, order, words, \old(*place), end) != BITVEC_OK ==> \result ==
  @   left_status(8, order, words, \old(*place), end);
  @ ensures too_few: left_status(8, order, words, \old(*place), end) == BITVEC_OK && (\forall
  @   integer p; \old(*place) <= p < \old(*place) + left_of(\old(*place), end) ==>
  @   (bit_u8{Pre}(order, memory, p) <==> bit)) ==> \result == BITVEC_TOO_FEW;
  @ ensures done: left_status(8, order, words, \old(*place), end) == BITVEC_OK && !(\forall integer
  @   p; \old(*place) <= p < \old(*place) + left_of(\old(*place), end) ==> (bit_u8{Pre}(order,
  @   memory, p) <==> bit)) ==> \result == BITVEC_OK;
  @ ensures answer: \result == BITVEC_OK ==> \old(*place) + *count < end;
  @ ensures run: \result == BITVEC_OK ==> (\forall integer p; \old(*place) <= p < \old(*place) +
  @   *count ==> (bit_u8{Pre}(order, memory, p) <==> bit));
  @ ensures ended: \result == BITVEC_OK ==> (bit_u8{Pre}(order, memory, \old(*place) + *count) <==>
  @   !bit);
  @ ensures moved: \result == BITVEC_OK ==> *place == \old(*place) + *count + 1;
  @ ensures refused: \result != BITVEC_OK ==> *count == \old(*count) && *place == \old(*place);
  @*/
uint8_t bitvec_c_read_unary_u8(
    uint8_t order, const uint8_t *memory, size_t words, size_t *place, size_t end, bool bit,
    size_t *count);

/*@ requires \valid_read(memory + (0 .. words - 1));
  @ requires \valid(place);
  @ requires \valid(count);
  @ requires \separated(memory + (0 .. words - 1), place);
  @ requires \separated(memory + (0 .. words - 1), count);
  @ requires \separated(place, count);
  @ assigns *place, *count;
  @ ensures status: left_status(16, order, words, \old(*place), end) != BITVEC_OK ==> \result ==
  @   left_status(16, order, words, \old(*place), end);
  @ ensures too_few: left_status(16, order, words, \old(*place), end) == BITVEC_OK && (\forall
  @   integer p; \old(*place) <= p < \old(*place) + left_of(\old(*place), end) ==>
  @   (bit_u16{Pre}(order, memory, p) <==> bit)) ==> \result == BITVEC_TOO_FEW;
  @ ensures done: left_status(16, order, words, \old(*place), end) == BITVEC_OK && !(\forall integer
  @   p; \old(*place) <= p < \old(*place) + left_of(\old(*place), end) ==> (bit_u16{Pre}(order,
  @   memory, p) <==> bit)) ==> \result == BITVEC_OK;
  @ ensures answer: \result == BITVEC_OK ==> \old(*place) + *count < end;
  @ ensures run: \result == BITVEC_OK ==> (\forall integer p; \old(*place) <= p < \old(*place) +
  @   *count ==> (bit_u16{Pre}(order, memory, p) <==> bit));
  @ ensures ended: \result == BITVEC_OK ==> (bit_u16{Pre}(order, memory, \old(*place) + *count) <==>
  @   !bit);
  @ ensures moved: \result == BITVEC_OK ==> *place == \old(*place) + *count + 1;
  @ ensures refused: \result != BITVEC_OK ==> *count == \old(*count) && *place == \old(*place);
  @*/
uint8_t bitvec_c_read_unary_u16(
    uint8_t order, const uint16_t *memory, size_t words, size_t *place, size_t end, bool bit,
    size_t *count);

/*@ requires \valid_read(memory + (0 .. words - 1));
  @ requires \valid(place);
  @ requires \valid(count);
  @ requires \separated(memory + (0 .. words - 1), place);
  @ requires \separated(memory + (0 .. words - 1), count);
  @ requires \separated(place, count);
  @ assigns *place, *count;
  @ ensures status: left_status(32, order, words, \old(*place), end) != BITVEC_OK ==> \result ==
  @   left_status(32, order, words, \old(*place), end);
  @ ensures too_few: left_status(32, order, words, \old(*place), end) == BITVEC_OK && (\forall
  @   integer p; \old(*place) <= p < \old(*place) + left_of(\old(*place), end) ==>
  @   (bit_u32{Pre}(order, memory, p) <==> bit)) ==> \result == BITVEC_TOO_FEW;
  @ ensures done: left_status(32, order, words, \old(*place), end) == BITVEC_OK && !(\forall integer
  @   p; \old(*place) <= p < \old(*place) + left_of(\old(*place), end) ==> (bit_u32{Pre}(order,
  @   memory, p) <==> bit)) ==> \result == BITVEC_OK;
  @ ensures answer: \result == BITVEC_OK ==> \old(*place) + *count < end;
  @ ensures run: \result == BITVEC_OK ==> (\forall integer p; \old(*place) <= p < \old(*place) +
  @   *count ==> (bit_u32{Pre}(order, memory, p) <==> bit));
  @ ensures ended: \result == BITVEC_OK ==> (bit_u32{Pre}(order, memory, \old(*place) + *count) <==>
  @   !bit);
  @ ensures moved: \result == BITVEC_OK ==> *place == \old(*place) + *count + 1;
  @ ensures refused: \result != BITVEC_OK ==> *count == \old(*count) && *place == \old(*place);
  @*/
uint8_t bitvec_c_read_unary_u32(
    uint8_t order, const uint32_t *memory, size_t words, size_t *place, size_t end, bool bit,
    size_t *count);

/*@ requires \valid_read(memory + (0 .. words - 1));
  @ requires \valid(place);
  @ requires \valid(count);
  @ requires \separated(memory + (0 .. words - 1), place);
  @ requires \separated(memory + (0 .. words - 1), count);
  @ requires \separated(place, count);
  @ assigns *place, *count;
  @ ensures status: left_status(64, order, words, \old(*place), end) != BITVEC_OK ==> \result ==
  @   left_status(64, order, words, \old(*place), end);
  @ ensures too_few: left_status(64, order, words, \old(*place), end) == BITVEC_OK && (\forall
  @   integer p; \old(*place) <= p < \old(*place) + left_of(\old(*place), end) ==>
  @   (bit_u64{Pre}(order, memory, p) <==> bit)) ==> \result == BITVEC_TOO_FEW;
  @ ensures done: left_status(64, order, words, \old(*place), end) == BITVEC_OK && !(\forall integer
  @   p; \old(*place) <= p < \old(*place) + left_of(\old(*place), end) ==> (bit_u64{Pre}(order,
  @   memory, p) <==> bit)) ==> \result == BITVEC_OK;
  @ ensures answer: \result == BITVEC_OK ==> \old(*place) + *count < end;
  @ ensures run: \result == BITVEC_OK ==> (\forall integer p; \old(*place) <= p < \old(*place) +
  @   *count ==> (bit_u64{Pre}(order, memory, p) <==> bit));
  @ ensures ended: \result == BITVEC_OK ==> (bit_u64{Pre}(order, memory, \old(*place) + *count) <==>
  @   !bit);
  @ ensures moved: \result == BITVEC_OK ==> *place == \old(*place) + *count + 1;
  @ ensures refused: \result != BITVEC_OK ==> *count == \old(*count) && *place == \old(*place);
  @*/
uint8_t bitvec_c_read_unary_u64(
    uint8_t order, const uint64_t *memory, size_t words, size_t *place, size_t end, bool bit,
    size_t *count);

/*@ requires \valid_read(memory + (0 .. words - 1));
  @ requires \valid(place);
  @ requires \valid(number);
  @ requires \separated(memory + (0 .. words - 1), place);
  @ requires \separated(memory + (0 .. words - 1), number);
  @ requires \separated(place, number);
  @ assigns *place, *number;
  @ ensures status: left_status(8, order, words, \old(*place), end) != BITVEC_OK ==> \result ==
  @   left_status(8, order, words, \old(*place), end);
  @ ensures too_few: left_status(8, order, words, \old(*place), end) == BITVEC_OK &&
  @   !coded_u8{Pre}(order, memory, \old(*place), left_of(\old(*place), end)) ==> \result ==
  @   BITVEC_TOO_FEW;
  @ ensures too_large: left_status(8, order, words, \old(*place), end) == BITVEC_OK &&
  @   coded_u8{Pre}(order, memory, \old(*place), left_of(\old(*place), end)) &&
  @   !short_code_u8{Pre}(order, memory, \old(*place), left_of(\old(*place), end)) ==> \result ==
  @   BITVEC_TOO_LARGE;
  @ ensures done: left_status(8, order, words, \old(*place), end) == BITVEC_OK &&
  @   short_code_u8{Pre}(order, memory, \old(*place), left_of(\old(*place), end)) ==> \result ==
  @   BITVEC_OK;
  @ ensures answer: \result == BITVEC_OK ==> code_u8{Pre}(order, memory, \old(*place),
  @   left_of(\old(*place), end), *number);
  @ ensures moved: \result == BITVEC_OK ==> *place == \old(*place) + code_length(*number);
  @ ensures refused: \result != BITVEC_OK ==> *number == \old(*number) && *place == \old(*place);
  @*/
uint8_t bitvec_c_read_exp_golomb_u8(
    uint8_t order, const uint8_t *memory, size_t words, size_t *place, size_t end,
    uint64_t *number);

/*@ requires \valid_read(memory + (0 .. words - 1));
  @ requires \valid(place);
  @ requires \valid(number);
  @ requires \separated(memory + (0 .. words - 1), place);
  @ requires \separated(memory + (0 .. words - 1), number);
  @ requires \separated(place, number);
  @ assigns *place, *number;
  @ ensures status: left_status(16, order, words, \old(*place), end) != BITVEC_OK ==> \result ==
  @   left_status(16, order, words, \old(*place), end);
  @ ensures too_few: left_status(16, order, words, \old(*place), end) == BITVEC_OK &&
  @   !coded_u16{Pre}(order, memory, \old(*place), left_of(\old(*place), end)) ==> \result ==
  @   BITVEC_TOO_FEW;
  @ ensures too_large: left_status(16, order, words, \old(*place), end) == BITVEC_OK &&
  @   coded_u16{Pre}(order, memory, \old(*place), left_of(\old(*place), end)) &&
  @   !short_code_u16{Pre}(order, memory, \old(*place), left_of(\old(*place), end)) ==> \result ==
  @   BITVEC_TOO_LARGE;
  @ ensures done: left_status(16, order, words, \old(*place), end) == BITVEC_OK &&
  @   short_code_u16{Pre}(order, memory, \old(*place), left_of(\old(*place), end)) ==> \result ==
  @   BITVEC_OK;
  @ ensures answer: \result == BITVEC_OK ==> code_u16{Pre}(order, memory, \old(*place),
  @   left_of(\old(*place), end), *number);
  @ ensures moved: \result == BITVEC_OK ==> *place == \old(*place) + code_length(*number);
  @ ensures refused: \result != BITVEC_OK ==> *number == \old(*number) && *place == \old(*place);
  @*/
uint8_t bitvec_c_read_exp_golomb_u16(
    uint8_t order, const uint16_t *memory, size_t words, size_t *place, size_t end,
    uint64_t *number);

/*@ requires \valid_read(memory + (0 .. words - 1));
  @ requires \valid(place);
  @ requires \valid(number);
  @ requires \separated(memory + (0 .. words - 1), place);
  @ requires \separated(memory + (0 .. words - 1), number);
  @ requires \separated(place, number);
  @ assigns *place, *number;
  @ ensures status: left_status(32, order, words, \old(*place), end) != BITVEC_OK ==> \result ==
  @   left_status(32, order, words, \old(*place), end);
  @ ensures too_few: left_status(32, order, words, \old(*place), end) == BITVEC_OK &&
  @   !coded_u32{Pre}(order, memory, \old(*place), left_of(\old(*place), end)) ==> \result ==
  @   BITVEC_TOO_FEW;
  @ ensures too_large: left_status(32, order, words, \old(*place), end) == BITVEC_OK &&
  @   coded_u32{Pre}(order, memory, \old(*place), left_of(\old(*place), end)) &&
  @   !short_code_u32{Pre}(order, memory, \old(*place), left_of(\old(*place), end)) ==> \result ==
  @   BITVEC_TOO_LARGE;
  @ ensures done: left_status(32, order, words, \old(*place), end) == BITVEC_OK &&
  @   short_code_u32{Pre}(order, memory, \old(*place), left_of(\old(*place), end)) ==> \result ==
  @   BITVEC_OK;
  @ ensures answer: \result == BITVEC_OK ==> code_u32{Pre}(order, memory, \old(*place),
  @   left_of(\old(*place), end), *number);
  @ ensures moved: \result == BITVEC_OK ==> *place == \old(*place) + code_length(*number);
  @ ensures refused: \result != BITVEC_OK ==> *number == \old(*number) && *place == \old(*place);
  @*/
uint8_t bitvec_c_read_exp_golomb_u32(
    uint8_t order, const uint32_t *memory, size_t words, size_t *place, size_t end,
    uint64_t *number);

/*@ requires \valid_read(memory + (0 .. words - 1));
  @ requires \valid(place);
  @ requires \valid(number);
  @ requires \separated(memory + (0 .. words - 1), place);
  @ requires \separated(memory + (0 .. words - 1), number);
  @ requires \separated(place, number);
  @ assigns *place, *number;
  @ ensures status: left_status(64, order, words, \old(*place), end) != BITVEC_OK ==> \result ==
  @   left_status(64, order, words, \old(*place), end);
  @ ensures too_few: left_status(64, order, words, \old(*place), end) == BITVEC_OK &&
  @   !coded_u64{Pre}(order, memory, \old(*place), left_of(\old(*place), end)) ==> \result ==
  @   BITVEC_TOO_FEW;
  @ ensures too_large: left_status(64, order, words, \old(*place), end) == BITVEC_OK &&
  @   coded_u64{Pre}(order, memory, \old(*place), left_of(\old(*place), end)) &&
  @   !short_code_u64{Pre}(order, memory, \old(*place), left_of(\old(*place), end)) ==> \result ==
  @   BITVEC_TOO_LARGE;
  @ ensures done: left_status(64, order, words, \old(*place), end) == BITVEC_OK &&
  @   short_code_u64{Pre}(order, memory, \old(*place), left_of(\old(*place), end)) ==> \result ==
  @   BITVEC_OK;
  @ ensures answer: \result == BITVEC_OK ==> code_u64{Pre}(order, memory, \old(*place),
  @   left_of(\old(*place), end), *number);
  @ ensures moved: \result == BITVEC_OK ==> *place == \old(*place) + code_length(*number);
  @ ensures refused: \result != BITVEC_OK ==> *number == \old(*number) && *place == \old(*place);
  @*/
uint8_t bitvec_c_read_exp_golomb_u64(
    uint8_t order, const uint64_t *memory, size_t words, size_t *place, size_t end,
    uint64_t *number);

/*@ requires \valid_read(memory + (0 .. words - 1));
  @ requires \valid(place);
  @ requires \valid(number);
  @ requires \separated(memory + (0 .. words - 1), place);
  @ requires \separated(memory + (0 .. words - 1), number);
  @ requires \separated(place, number);
  @ assigns *place, *number;
  @ ensures status: left_status(8, order, words, \old(*place), end) != BITVEC_OK ==> \result ==
  @   left_status(8, order, words, \old(*place), end);
  @ ensures too_few: left_status(8, order, words, \old(*place), end) == BITVEC_OK &&
  @   !coded_u8{Pre}(order, memory, \old(*place), left_of(\old(*place), end)) ==> \result ==
  @   BITVEC_TOO_FEW;
  @ ensures too_large: left_status(8, order, words, \old(*place), end) == BITVEC_OK &&
  @   coded_u8{Pre}(order, memory, \old(*place), left_of(\old(*place), end)) &&
  @   !signed_code_u8{Pre}(order, memory, \old(*place), left_of(\old(*place), end)) ==> \result ==
  @   BITVEC_TOO_LARGE;
  @ ensures done: left_status(8, order, words, \old(*place), end) == BITVEC_OK &&
  @   signed_code_u8{Pre}(order, memory, \old(*place), left_of(\old(*place), end)) ==> \result ==
  @   BITVEC_OK;
  @ ensures answer: \result == BITVEC_OK ==> code_u8{Pre}(order, memory, \old(*place),
  @   left_of(\old(*place), end), signed_place(*number));
  @ ensures moved: \result == BITVEC_OK ==> *place == \old(*place) +
  @   code_length(signed_place(*number));
  @ ensures refused: \result != BITVEC_OK ==> *number == \old(*number) && *place == \old(*place);
  @*/
uint8_t bitvec_c_read_signed_exp_golomb_u8(
    uint8_t order, const uint8_t *memory, size_t words, size_t *place, size_t end, int64_t *number);

/*@ requires \valid_read(memory + (0 .. words - 1));
  @ requires \valid(place);
  @ requires \valid(number);
  @ requires \separated(memory + (0 .. words - 1), place);
  @ requires \separated(memory + (0 .. words - 1), number);
  @ requires \separated(place, number);
  @ assigns *place, *number;
  @ ensures status: left_status(16, order, words, \old(*place), end) != BITVEC_OK ==> \result ==
  @   left_status(16, order, words, \old(*place), end);
  @ ensures too_few: left_status(16, order, words, \old(*place), end) == BITVEC_OK &&
  @   !coded_u16{Pre}(order, memory, \old(*place), left_of(\old(*place), end)) ==> \result ==
  @   BITVEC_TOO_FEW;
  @ ensures too_large: left_status(16, order, words, \old(*place), end) == BITVEC_OK &&
  @   coded_u16{Pre}(order, memory, \old(*place), left_of(\old(*place), end)) &&
  @   !signed_code_u16{Pre}(order, memory, \old(*place), left_of(\old(*place), end)) ==> \result ==
  @   BITVEC_TOO_LARGE;
  @ ensures done: left_status(16, order, words, \old(*place), end) == BITVEC_OK &&
  @   signed_code_u16{Pre}(order, memory, \old(*place), left_of(\old(*place), end)) ==> \result ==
  @   BITVEC_OK;
  @ ensures answer: \result == BITVEC_OK ==> code_u16{Pre}(order, memory, \old(*place),
  @   left_of(\old(*place), end), signed_place(*number));
  @ ensures moved: \result == BITVEC_OK ==> *place == \old(*place) +
  @   code_length(signed_place(*number));
  @ ensures refused: \result != BITVEC_OK ==> *number == \old(*number) && *place == \old(*place);
  @*/
uint8_t bitvec_c_read_signed_exp_golomb_u16(
    uint8_t order, const uint16_t *memory, size_t words, size_t *place, size_t end,
    int64_t *number);

/*@ requires \valid_read(memory + (0 .. words - 1));
  @ requires \valid(place);
  @ requires \valid(number);
  @ requires \separated(memory + (0 .. words - 1), place);
  @ requires \separated(memory + (0 .. words - 1), number);
  @ requires \separated(place, number);
  @ assigns *place, *number;
  @ ensures status: left_status(32, order, words, \old(*place), end) != BITVEC_OK ==> \result ==
  @   left_status(32, order, words, \old(*place), end);
  @ ensures too_few: left_status(32, order, words, \old(*place), end) == BITVEC_OK &&
  @   !coded_u32{Pre}(order, memory, \old(*place), left_of(\old(*place), end)) ==> \result ==
  @   BITVEC_TOO_FEW;
  @ ensures too_large: left_status(32, order, words, \old(*place), end) == BITVEC_OK &&
  @   coded_u32{Pre}(order, memory, \old(*place), left_of(\old(*place), end)) &&
  @   !signed_code_u32{Pre}(order, memory, \old(*place), left_of(\old(*place), end)) ==> \result ==
  @   BITVEC_TOO_LARGE;
  @ ensures done: left_status(32, order, words, \old(*place), end) == BITVEC_OK &&
  @   signed_code_u32{Pre}(order, memory, \old(*place), left_of(\old(*place), end)) ==> \result ==
  @   BITVEC_OK;
  @ ensures answer: \result == BITVEC_OK ==> code_u32{Pre}(order, memory, \old(*place),
  @   left_of(\old(*place), end), signed_place(*number));
  @ ensures moved: \result == BITVEC_OK ==> *place == \old(*place) +
  @   code_length(signed_place(*number));
  @ ensures refused: \result != BITVEC_OK ==> *number == \old(*number) && *place == \old(*place);
  @*/
uint8_t bitvec_c_read_signed_exp_golomb_u32(
    uint8_t order, const uint32_t *memory, size_t words, size_t *place, size_t end,
    int64_t *number);

/*@ requires \valid_read(memory + (0 .. words - 1));
  @ requires \valid(place);
  @ requires \valid(number);
  @ requires \separated(memory + (0 .. words - 1), place);
  @ requires \separated(memory + (0 .. words - 1), number);
  @ requires \separated(place, number);
  @ assigns *place, *number;
  @ ensures status: left_status(64, order, words, \old(*place), end) != BITVEC_OK ==> \result ==
  @   left_status(64, order, words, \old(*place), end);
  @ ensures too_few: left_status(64, order, words, \old(*place), end) == BITVEC_OK &&
  @   !coded_u64{Pre}(order, memory, \old(*place), left_of(\old(*place), end)) ==> \result ==
  @   BITVEC_TOO_FEW;
  @ ensures too_large: left_status(64, order, words, \old(*place), end) == BITVEC_OK &&
  @   coded_u64{Pre}(order, memory, \old(*place), left_of(\old(*place), end)) &&
  @   !signed_code_u64{Pre}(order, memory, \old(*place), left_of(\old(*place), end)) ==> \result ==
  @   BITVEC_TOO_LARGE;
  @ ensures done: left_status(64, order, words, \old(*place), end) == BITVEC_OK &&
  @   signed_code_u64{Pre}(order, memory, \old(*place), left_of(\old(*place), end)) ==> \result ==
  @   BITVEC_OK;
  @ ensures answer: \result == BITVEC_OK ==> code_u64{Pre}(order, memory, \old(*place),
  @   left_of(\old(*place), end), signed_place(*number));
  @ ensures moved: \result == BITVEC_OK ==> *place == \old(*place) +
  @   code_length(signed_place(*number));
  @ ensures refused: \result != BITVEC_OK ==> *number == \old(*number) && *place == \old(*place);
  @*/
uint8_t bitvec_c_read_signed_exp_golomb_u64(
    uint8_t order, const uint64_t *memory, size_t words, size_t *place, size_t end,
    int64_t *number);

/*@ requires \valid(memory + (0 .. words - 1));
  @ requires \valid(place);
  @ requires \separated(memory + (0 .. words - 1), place);
  @ assigns memory[0 .. words - 1], *place;
  @ ensures status: \result == then_status(digits_status(left_status(8, order, words, \old(*place),
  @   end), count, left_of(\old(*place), end)), number < power_of_two(count) ? BITVEC_OK :
  @   BITVEC_TOO_LARGE);
  @ ensures range: \result == BITVEC_OK ==> holds_u8{Post}(1, big_endian, order, memory,
  @   \old(*place), count, number);
  @ ensures others: \result == BITVEC_OK ==> others_u8{Pre, Post}(order, memory, words,
  @   \old(*place), count);
  @ ensures moved: \result == BITVEC_OK ==> *place == \old(*place) + count;
  @ ensures refused: \result != BITVEC_OK ==> kept_u8{Pre, Post}(memory, words) && *place ==
  @   \old(*place);
  @*/
uint8_t bitvec_c_write_u8(
    uint8_t order, bool big_endian, uint8_t *memory, size_t words, size_t *place, size_t end,
    size_t count, uint64_t number);

/*@ requires \valid(memory + (0 .. words - 1));
  @ requires \valid(place);
  @ requires \separated(memory + (0 .. words - 1), place);
  @ assigns memory[0 .. words - 1], *place;
  @ ensures status: \result == then_status(digits_status(left_status(16, order, words, \old(*place),
  @   end), count, left_of(\old(*place), end)), number < power_of_two(count) ? BITVEC_OK :
  @   BITVEC_TOO_LARGE);
  @ ensures range: \result == BITVEC_OK ==> holds_u16{Post}(1, big_endian, order, memory,
  @   \old(*place), count, number);
  @ ensures others: \result == BITVEC_OK ==> others_u16{Pre, Post}(order, memory, words,
  @   \old(*place), count);
  @ ensures moved: \result == BITVEC_OK ==> *place == \old(*place) + count;
  @ ensures refused: \result != BITVEC_OK ==> kept_u16{Pre, Post}(memory, words) && *place ==
  @   \old(*place);
  @*/
uint8_t bitvec_c_write_u16(
    uint8_t order, bool big_endian, uint16_t *memory, size_t words, size_t *place, size_t end,
    size_t count, uint64_t number);

/*@ requires \valid(memory + (0 .. words - 1));
  @ requires \valid(place);
  @ requires \separated(memory + (0 .. words - 1), place);
  @ assigns memory[0 .. words - 1], *place;
  @ ensures status: \result == then_status(digits_status(left_status(32, order, words, \old(*place),
  @   end), count, left_of(\old(*place), end)), number < power_of_two(count) ? BITVEC_OK :
  @   BITVEC_TOO_LARGE);
  @ ensures range: \result == BITVEC_OK ==> holds_u32{Post}(1, big_endian, order, memory,
  @   \old(*place), count, number);
  @ ensures others: \result == BITVEC_OK ==> others_u32{Pre, Post}(order, memory, words,
  @   \old(*place), count);
  @ ensures moved: \result == BITVEC_OK ==> *place == \old(*place) + count;
  @ ensures refused: \result != BITVEC_OK ==> kept_u32{Pre, Post}(memory, words) && *place ==
  @   \old(*place);
  @*/
uint8_t bitvec_c_write_u32(
    uint8_t order, bool big_endian, uint32_t *memory, size_t words, size_t *place, size_t end,
    size_t count, uint64_t number);

/*@ requires \valid(memory + (0 .. words - 1));
  @ requires \valid(place);
  @ requires \separated(memory + (0 .. words - 1), place);
  @ assigns memory[0 .. words - 1], *place;
  @ ensures status: \result == then_status(digits_status(left_status(64, order, words, \old(*place),
  @   end), count, left_of(\old(*place), end)), number < power_of_two(count) ? BITVEC_OK :
  @   BITVEC_TOO_LARGE);
  @ ensures range: \result == BITVEC_OK ==> holds_u64{Post}(1, big_endian, order, memory,
  @   \old(*place), count, number);
  @ ensures others: \result == BITVEC_OK ==> others_u64{Pre, Post}(order, memory, words,
  @   \old(*place), count);
  @ ensures moved: \result == BITVEC_OK ==> *place == \old(*place) + count;
  @ ensures refused: \result != BITVEC_OK ==> kept_u64{Pre, Post}(memory, words) && *place ==
  @   \old(*place);
  @*/
uint8_t bitvec_c_write_u64(
    uint8_t order, bool big_endian, uint64_t *memory, size_t words, size_t *place, size_t end,
    size_t count, uint64_t number);

/*@ requires \valid(memory + (0 .. words - 1));
  @ requires \valid(place);
  @ requires \separated(memory + (0 .. words - 1), place);
  @ assigns memory[0 .. words - 1], *place;
  @ ensures status: \result == then_status(digits_status(left_status(8, order, words, \old(*place),
  @   end), count, left_of(\old(*place), end)), -power_of_two(count) <= 2 * number ? (2 * number <
  @   power_of_two(count) ? BITVEC_OK : BITVEC_TOO_LARGE) : BITVEC_TOO_LARGE);
  @ ensures range: \result == BITVEC_OK ==> holds_u8{Post}(1, big_endian, order, memory,
  @   \old(*place), count, complement_of(count, number));
  @ ensures others: \result == BITVEC_OK ==> others_u8{Pre, Post}(order, memory, words,
  @   \old(*place), count);
  @ ensures moved: \result == BITVEC_OK ==> *place == \old(*place) + count;
  @ ensures refused: \result != BITVEC_OK ==> kept_u8{Pre, Post}(memory, words) && *place ==
  @   \old(*place);
  @*/
uint8_t bitvec_c_write_signed_u8(
    uint8_t order, bool big_endian, uint8_t *memory, size_t words, size_t *place, size_t end,
    size_t count, int64_t number);

/*@ requires \valid(memory + (0 .. words - 1));
  @ requires \valid(place);
  @ requires \separated(memory + (0 .. words - 1), place);
  @ assigns memory[0 .. words - 1], *place;
  @ ensures status: \result == then_status(digits_status(left_status(16, order, words, \old(*place),
  @   end), count, left_of(\old(*place), end)), -power_of_two(count) <= 2 * number ? (2 * number <
  @   power_of_two(count) ? BITVEC_OK : BITVEC_TOO_LARGE) : BITVEC_TOO_LARGE);
  @ ensures range: \result == BITVEC_OK ==> holds_u16{Post}(1, big_endian, order, memory,
  @   \old(*place), count, complement_of(count, number));
  @ ensures others: \result == BITVEC_OK ==> others_u16{Pre, Post}(order, memory, words,
  @   \old(*place), count);
  @ ensures moved: \result == BITVEC_OK ==> *place == \old(*place) + count;
  @ ensures refused: \result != BITVEC_OK ==> kept_u16{Pre, Post}(memory, words) && *place ==
  @   \old(*place);
  @*/
uint8_t bitvec_c_write_signed_u16(
    uint8_t order, bool big_endian, uint16_t *memory, size_t words, size_t *place, size_t end,
    size_t count, int64_t number);

/*@ requires \valid(memory + (0 .. words - 1));
  @ requires \valid(place);
  @ requires \separated(memory + (0 .. words - 1), place);
  @ assigns memory[0 .. words - 1], *place;
  @ ensures status: \result == then_status(digits_status(left_status(32, order, words, \old(*place),
  @   end), count, left_of(\old(*place), end)), -power_of_two(count) <= 2 * number ? (2 * number <
  @   power_of_two(count) ? BITVEC_OK : BITVEC_TOO_LARGE) : BITVEC_TOO_LARGE);
  @ ensures range: \result == BITVEC_OK ==> holds_u32{Post}(1, big_endian, order, memory,
  @   \old(*place), count, complement_of(count, number));
  @ ensures others: \result == BITVEC_OK ==> others_u32{Pre, Post}(order, memory, words,
  @   \old(*place), count);
  @ ensures moved: \result == BITVEC_OK ==> *place == \old(*place) + count;
  @ ensures refused: \result != BITVEC_OK ==> kept_u32{Pre, Post}(memory, words) && *place ==
  @   \old(*place);
  @*/
uint8_t bitvec_c_write_signed_u32(
    uint8_t order, bool big_endian, uint32_t *memory, size_t words, size_t *place, size_t end,
    size_t count, int64_t number);

/*@ requires \valid(memory + (0 .. words - 1));
  @ requires \valid(place);
  @ requires \separated(memory + (0 .. words - 1), place);
  @ assigns memory[0 .. words - 1], *place;
  @ ensures status: \result == then_status(digits_status(left_status(64, order, words, \old(*place),
  @   end), count, left_of(\old(*place), end)), -power_of_two(count) <= 2 * number ? (2 * number <
  @   power_of_two(count) ? BITVEC_OK : BITVEC_TOO_LARGE) : BITVEC_TOO_LARGE);
  @ ensures range: \result == BITVEC_OK ==> holds_u64{Post}(1, big_endian, order, memory,
  @   \old(*place), count, complement_of(count, number));
  @ ensures others: \result == BITVEC_OK ==> others_u64{Pre, Post}(order, memory, words,
  @   \old(*place), count);
  @ ensures moved: \result == BITVEC_OK ==> *place == \old(*place) + count;
  @ ensures refused: \result != BITVEC_OK ==> kept_u64{Pre, Post}(memory, words) && *place ==
  @   \old(*place);
  @*/
uint8_t bitvec_c_write_signed_u64(
    uint8_t order, bool big_endian, uint64_t *memory, size_t words, size_t *place, size_t end,
    size_t count, int64_t number);

/*@ requires \valid(memory + (0 .. words - 1));
  @ requires \valid(place);
  @ requires \separated(memory + (0 .. words - 1), place);
  @ assigns memory[0 .. words - 1], *place;
  @ ensures status: \result == then_status(left_status(8, order, words, \old(*place), end), count <
  @   left_of(\old(*place), end) ? BITVEC_OK : BITVEC_TOO_FEW);
  @ ensures run: \result == BITVEC_OK ==> (\forall integer p; \old(*place) <= p < \old(*place) +
  @   count ==> (bit_u8{Post}(order, memory, p) <==> bit));
  @ ensures ended: \result == BITVEC_OK ==> (bit_u8{Post}(order, memory, \old(*place) + count) <==>
  @   !bit);
  @ ensures others: \result == BITVEC_OK ==> others_u8{Pre, Post}(order, memory, words,
  @   \old(*place), count + 1);
  @ ensures moved: \result == BITVEC_OK ==> *place == \old(*place) + count + 1;
  @ ensures refused: \result != BITVEC_OK ==> kept_u8{Pre, Post}(memory, words) && *place ==
  @   \old(*place);
  @*/
uint8_t bitvec_c_write_unary_u8(
    uint8_t order, uint8_t *memory, size_t words, size_t *place, size_t end, bool bit,
    size_t count);

/*@ requires \valid(memory + (0 .. words - 1));
  @ requires \valid(place);
  @ requires \separated(memory + (0 .. words - 1), place);
  @ assigns memory[0 .. words - 1], *place;
  @ ensures status: \result == then_status(left_status(16, order, words, \old(*place), end), count <
  @   left_of(\old(*place), end) ? BITVEC_OK : BITVEC_TOO_FEW);
  @ ensures run: \result == BITVEC_OK ==> (\forall integer p; \old(*place) <= p < \old(*place) +
  @   count ==> (bit_u16{Post}(order, memory, p) <==> bit));
  @ ensures ended: \result == BITVEC_OK ==> (bit_u16{Post}(order, memory, \old(*place) + count) <==>
  @   !bit);
  @ ensures others: \result == BITVEC_OK ==> others_u16{Pre, Post}(order, memory, words,
  @   \old(*place), count + 1);
  @ ensures moved: \result == BITVEC_OK ==> *place == \old(*place) + count + 1;
  @ ensures refused: \result != BITVEC_OK ==> kept_u16{Pre, Post}(memory, words) && *place ==
  @   \old(*place);
  @*/
uint8_t bitvec_c_write_unary_u16(
    uint8_t order, uint16_t *memory, size_t words, size_t *place, size_t end, bool bit,
    size_t count);

/*@ requires \valid(memory + (0 .. words - 1));
  @ requires \valid(place);
  @ requires \separated(memory + (0 .. words - 1), place);
  @ assigns memory[0 .. words - 1], *place;
  @ ensures status: \result == then_status(left_status(32, order, words, \old(*place), end), count <
  @   left_of(\old(*place), end) ? BITVEC_OK : BITVEC_TOO_FEW);
  @ ensures run: \result == BITVEC_OK ==> (\forall integer p; \old(*place) <= p < \old(*place) +
  @   count ==> (bit_u32{Post}(order, memory, p) <==> bit));
  @ ensures ended: \result == BITVEC_OK ==> (bit_u32{Post}(order, memory, \old(*place) + count) <==>
  @   !bit);
  @ ensures others: \result == BITVEC_OK ==> others_u32{Pre, Post}(order, memory, words,
  @   \old(*place), count + 1);
  @ ensures moved: \result == BITVEC_OK ==> *place == \old(*place) + count + 1;
  @ ensures refused: \result != BITVEC_OK ==> kept_u32{Pre, Post}(memory, words) && *place ==
  @   \old(*place);
  @*/
uint8_t bitvec_c_write_unary_u32(
    uint8_t order, uint32_t *memory, size_t words, size_t *place, size_t end, bool bit,
    size_t count);

/*@ requires \valid(memory + (0 .. words - 1));
  @ requires \valid(place);
  @ requires \separated(memory + (0 .. words - 1), place);
  @ assigns memory[0 .. words - 1], *place;
  @ ensures status: \result == then_status(left_status(64, order, words, \old(*place), end), count <
  @   left_of(\old(*place), end) ? BITVEC_OK : BITVEC_TOO_FEW);
  @ ensures run: \result == BITVEC_OK ==> (\forall integer p; \old(*place) <= p < \old(*place) +
  @   count ==> (bit_u64{Post}(order, memory, p) <==> bit));
  @ ensures ended: \result == BITVEC_OK ==> (bit_u64{Post}(order, memory, \old(*place) + count) <==>
  @   !bit);
  @ ensures others: \result == BITVEC_OK ==> others_u64{Pre, Post}(order, memory, words,
  @   \old(*place), count + 1);
  @ ensures moved: \result == BITVEC_OK ==> *place == \old(*place) + count + 1;
  @ ensures refused: \result != BITVEC_OK ==> kept_u64{Pre, Post}(memory, words) && *place ==
  @   \old(*place);
  @*/
uint8_t bitvec_c_write_unary_u64(
    uint8_t order, uint64_t *memory, size_t words, size_t *place, size_t end, bool bit,
    size_t count);

/*@ requires \valid(memory + (0 .. words - 1));
  @ requires \valid(place);
  @ requires \separated(memory + (0 .. words - 1), place);
  @ assigns memory[0 .. words - 1], *place;
  @ ensures status: \result == then_status(left_status(8, order, words, \old(*place), end),
  @   code_length(number) <= left_of(\old(*place), end) ? BITVEC_OK : BITVEC_TOO_FEW);
  @ ensures range: \result == BITVEC_OK ==> code_u8{Post}(order, memory, \old(*place),
  @   left_of(\old(*place), end), number);
  @ ensures others: \result == BITVEC_OK ==> others_u8{Pre, Post}(order, memory, words,
  @   \old(*place), code_length(number));
  @ ensures moved: \result == BITVEC_OK ==> *place == \old(*place) + code_length(number);
  @ ensures refused: \result != BITVEC_OK ==> kept_u8{Pre, Post}(memory, words) && *place ==
  @   \old(*place);
  @*/
uint8_t bitvec_c_write_exp_golomb_u8(
    uint8_t order, uint8_t *memory, size_t words, size_t *place, size_t end, uint64_t number);

/*@ requires \valid(memory + (0 .. words - 1));
  @ requires \valid(place);
  @ requires \separated(memory + (0 .. words - 1), place);
  @ assigns memory[0 .. words - 1], *place;
  @ ensures status: \result == then_status(left_status(16, order, words, \old(*place), end),
  @   code_length(number) <= left_of(\old(*place), end) ? BITVEC_OK : BITVEC_TOO_FEW);
  @ ensures range: \result == BITVEC_OK ==> code_u16{Post}(order, memory, \old(*place),
  @   left_of(\old(*place), end), number);
  @ ensures others: \result == BITVEC_OK ==> others_u16{Pre, Post}(order, memory, words,
  @   \old(*place), code_length(number));
  @ ensures moved: \result == BITVEC_OK ==> *place == \old(*place) + code_length(number);
  @ ensures refused: \result != BITVEC_OK ==> kept_u16{Pre, Post}(memory, words) && *place ==
  @   \old(*place);
  @*/
uint8_t bitvec_c_write_exp_golomb_u16(
    uint8_t order, uint16_t *memory, size_t words, size_t *place, size_t end, uint64_t number);

/*@ requires \valid(memory + (0 .. words - 1));
  @ requires \valid(place);
  @ requires \separated(memory + (0 .. words - 1), place);
  @ assigns memory[0 .. words - 1], *place;
  @ ensures status: \result == then_status(left_status(32, order, words, \old(*place), end),
  @   code_length(number) <= left_of(\old(*place), end) ? BITVEC_OK : BITVEC_TOO_FEW);
  @ ensures range: \result == BITVEC_OK ==> code_u32{Post}(order, memory, \old(*place),
  @   left_of(\old(*place), end), number);
  @ ensures others: \result == BITVEC_OK ==> others_u32{Pre, Post}(order, memory, words,
  @   \old(*place), code_length(number));
  @ ensures moved: \result == BITVEC_OK ==> *place == \old(*place) + code_length(number);
  @ ensures refused: \result != BITVEC_OK ==> kept_u32{Pre, Post}(memory, words) && *place ==
  @   \old(*place);
  @*/
uint8_t bitvec_c_write_exp_golomb_u32(
    uint8_t order, uint32_t *memory, size_t words, size_t *place, size_t end, uint64_t number);

/*@ requires \valid(memory + (0 .. words - 1));
  @ requires \valid(place);
  @ requires \separated(memory + (0 .. words - 1), place);
  @ assigns memory[0 .. words - 1], *place;
  @ ensures status: \result == then_status(left_status(64, order, words, \old(*place), end),
  @   code_length(number) <= left_of(\old(*place), end) ? BITVEC_OK : BITVEC_TOO_FEW);
  @ ensures range: \result == BITVEC_OK ==> code_u64{Post}(order, memory, \old(*place),
  @   left_of(\old(*place), end), number);
  @ ensures others: \result == BITVEC_OK ==> others_u64{Pre, Post}(order, memory, words,
  @   \old(*place), code_length(number));
  @ ensures moved: \result == BITVEC_OK ==> *place == \old(*place) + code_length(number);
  @ ensures refused: \result != BITVEC_OK ==> kept_u64{Pre, Post}(memory, words) && *place ==
  @   \old(*place);
  @*/
uint8_t bitvec_c_write_exp_golomb_u64(
    uint8_t order, uint64_t *memory, size_t words, size_t *place, size_t end, uint64_t number);

/*@ requires \valid(memory + (0 .. words - 1));
  @ requires \valid(place);
  @ requires \separated(memory + (0 .. words - 1), place);
  @ assigns memory[0 .. words - 1], *place;
  @ ensures status: \result == then_status(left_status(8, order, words, \old(*place), end),
  @   code_length(signed_place(number)) <= left_of(\old(*place), end) ? BITVEC_OK : BITVEC_TOO_FEW);
  @ ensures range: \result == BITVEC_OK ==> code_u8{Post}(order, memory, \old(*place),
  @   left_of(\old(*place), end), signed_place(number));
  @ ensures others: \result == BITVEC_OK ==> others_u8{Pre, Post}(order, memory, words,
  @   \old(*place), code_length(signed_place(number)));
  @ ensures moved: \result == BITVEC_OK ==> *place == \old(*place) +
  @   code_length(signed_place(number));
  @ ensures refused: \result != BITVEC_OK ==> kept_u8{Pre, Post}(memory, words) && *place ==
  @   \old(*place);
  @*/
uint8_t bitvec_c_write_signed_exp_golomb_u8(
    uint8_t order, uint8_t *memory, size_t words, size_t *place, size_t end, int64_t number);

/*@ requires \valid(memory + (0 .. words - 1));
  @ requires \valid(place);
  @ requires \separated(memory + (0 .. words - 1), place);
  @ assigns memory[0 .. words - 1], *place;
  @ ensures status: \result == then_status(left_status(16, order, words, \old(*place), end),
  @   code_length(signed_place(number)) <= left_of(\old(*place), end) ? BITVEC_OK : BITVEC_TOO_FEW);
  @ ensures range: \result == BITVEC_OK ==> code_u16{Post}(order, memory, \old(*place),
  @   left_of(\old(*place), end), signed_place(number));
  @ ensures others: \result == BITVEC_OK ==> others_u16{Pre, Post}(order, memory, words,
  @   \old(*place), code_length(signed_place(number)));
  @ ensures moved: \result == BITVEC_OK ==> *place == \old(*place) +
  @   code_length(signed_place(number));
  @ ensures refused: \result != BITVEC_OK ==> kept_u16{Pre, Post}(memory, words) && *place ==
  @   \old(*place);
  @*/
uint8_t bitvec_c_write_signed_exp_golomb_u16(
    uint8_t order, uint16_t *memory, size_t words, size_t *place, size_t end, int64_t number);

/*@ requires \valid(memory + (0 .. words - 1));
  @ requires \valid(place);
  @ requires \separated(memory + (0 .. words - 1), place);
  @ assigns memory[0 .. words - 1], *place;
  @ ensures status: \result == then_status(left_status(32, order, words, \old(*place), end),
  @   code_length(signed_place(number)) <= left_of(\old(*place), end) ? BITVEC_OK : BITVEC_TOO_FEW);
  @ ensures range: \result == BITVEC_OK ==> code_u32{Post}(order, memory, \old(*place),
  @   left_of(\old(*place), end), signed_place(number));
  @ ensures others: \result == BITVEC_OK ==> others_u32{Pre, Post}(order, memory, words,
  @   \old(*place), code_length(signed_place(number)));
  @ ensures moved: \result == BITVEC_OK ==> *place == \old(*place) +
  @   code_length(signed_place(number));
  @ ensures refused: \result != BITVEC_OK ==> kept_u32{Pre, Post}(memory, words) && *place ==
  @   \old(*place);
  @*/
uint8_t bitvec_c_write_signed_exp_golomb_u32(
    uint8_t order, uint32_t *memory, size_t words, size_t *place, size_t end, int64_t number);

/*@ requires \valid(memory + (0 .. words - 1));
  @ requires \valid(place);
  @ requires \separated(memory + (0 .. words - 1), place);
  @ assigns memory[0 .. words - 1], *place;
  @ ensures status: \result == then_status(left_status(64, order, words, \old(*place), end),
  @   code_length(signed_place(number)) <= left_of(\old(*place), end) ? BITVEC_OK : BITVEC_TOO_FEW);
  @ ensures range: \result == BITVEC_OK ==> code_u64{Post}(order, memory, \old(*place),
  @   left_of(\old(*place), end), signed_place(number));
  @ ensures others: \result == BITVEC_OK ==> others_u64{Pre, Post}(order, memory, words,
  @   \old(*place), code_length(signed_place(number)));
  @ ensures moved: \result == BITVEC_OK ==> *place == \old(*place) +
  @   code_length(signed_place(number));
  @ ensures refused: \result != BITVEC_OK ==> kept_u64{Pre, Post}(memory, words) && *place ==
  @   \old(*place);
  @*/
uint8_t bitvec_c_write_signed_exp_golomb_u64(
    uint8_t order, uint64_t *memory, size_t words, size_t *place, size_t end, int64_t number);

/*@ requires \valid_read(spans + (0 .. span_count - 1));
  @ assigns \nothing;
  @ ensures status: is_spans_status{Pre}(\result, 8, order, span_count <= 64 ? BITVEC_OK :
  @   BITVEC_TOO_MANY_SPANS, spans, span_count, words);
  @*/
uint8_t bitvec_c_can_run_u8(
    uint8_t order, size_t words, const struct bitvec_span *spans, size_t span_count);

/*@ requires \valid_read(spans + (0 .. span_count - 1));
  @ assigns \nothing;
  @ ensures status: is_spans_status{Pre}(\result, 16, order, span_count <= 64 ? BITVEC_OK :
  @   BITVEC_TOO_MANY_SPANS, spans, span_count, words);
  @*/
uint8_t bitvec_c_can_run_u16(
    uint8_t order, size_t words, const struct bitvec_span *spans, size_t span_count);

/*@ requires \valid_read(spans + (0 .. span_count - 1));
  @ assigns \nothing;
  @ ensures status: is_spans_status{Pre}(\result, 32, order, span_count <= 64 ? BITVEC_OK :
  @   BITVEC_TOO_MANY_SPANS, spans, span_count, words);
  @*/
uint8_t bitvec_c_can_run_u32(
    uint8_t order, size_t words, const struct bitvec_span *spans, size_t span_count);

/*@ requires \valid_read(spans + (0 .. span_count - 1));
  @ assigns \nothing;
  @ ensures status: is_spans_status{Pre}(\result, 64, order, span_count <= 64 ? BITVEC_OK :
  @   BITVEC_TOO_MANY_SPANS, spans, span_count, words);
  @*/
uint8_t bitvec_c_can_run_u64(
    uint8_t order, size_t words, const struct bitvec_span *spans, size_t span_count);

/* bitvec_c_run_u8 has none: what it leaves is told by its requests one after another, each on what
 * those before it left */

/* bitvec_c_run_u16 has none: what it leaves is told by its requests one after another, each on what
 * those before it left */

/* bitvec_c_run_u32 has none: what it leaves is told by its requests one after another, each on what
 * those before it left */

/* bitvec_c_run_u64 has none: what it leaves is told by its requests one after another, each on what
 * those before it left */

/*@ requires \valid_read(spans + (0 .. span_count - 1));
  @ requires \valid(room + (0 .. room_count - 1));
  @ requires \separated(spans + (0 .. span_count - 1), room + (0 .. room_count - 1));
  @ assigns room[0 .. room_count - 1];
  @ ensures status: is_spans_status{Pre}(\result, 8, order, room_count == span_count ? BITVEC_OK :
  @   BITVEC_NO_ROOM, spans, span_count, words);
  @ ensures sorted: order <= 1 && room_count == span_count && short_spans{Pre}(spans, span_count) &&
  @   inside_spans{Pre}(8, words, spans, span_count) ==> rising{Pre, Post}(spans, span_count, room);
  @ ensures kept: !(order <= 1 && room_count == span_count && short_spans{Pre}(spans, span_count) &&
  @   inside_spans{Pre}(8, words, spans, span_count)) ==> kept_u64{Pre, Post}(room, room_count);
  @*/
uint8_t bitvec_c_can_run_in_u8(
    uint8_t order, size_t words, const struct bitvec_span *spans, size_t span_count, size_t *room,
    size_t room_count);

/*@ requires \valid_read(spans + (0 .. span_count - 1));
  @ requires \valid(room + (0 .. room_count - 1));
  @ requires \separated(spans + (0 .. span_count - 1), room + (0 .. room_count - 1));
  @ assigns room[0 .. room_count - 1];
  @ ensures status: is_spans_status{Pre}(\result, 16, order, room_count == span_count ? BITVEC_OK :
  @   BITVEC_NO_ROOM, spans, span_count, words);
  @ ensures sorted: order <= 1 && room_count == span_count && short_spans{Pre}(spans, span_count) &&
  @   inside_spans{Pre}(16, words, spans, span_count) ==> rising{Pre, Post}(spans, span_count,
  @   room);
  @ ensures kept: !(order <= 1 && room_count == span_count && short_spans{Pre}(spans, span_count) &&
  @   inside_spans{Pre}(16, words, spans, span_count)) ==> kept_u64{Pre, Post}(room, room_count);
  @*/
uint8_t bitvec_c_can_run_in_u16(
    uint8_t order, size_t words, const struct bitvec_span *spans, size_t span_count, size_t *room,
    size_t room_count);

/*@ requires \valid_read(spans + (0 .. span_count - 1));
  @ requires \valid(room + (0 .. room_count - 1));
  @ requires \separated(spans + (0 .. span_count - 1), room + (0 .. room_count - 1));
  @ assigns room[0 .. room_count - 1];
  @ ensures status: is_spans_status{Pre}(\result, 32, order, room_count == span_count ? BITVEC_OK :
  @   BITVEC_NO_ROOM, spans, span_count, words);
  @ ensures sorted: order <= 1 && room_count == span_count && short_spans{Pre}(spans, span_count) &&
  @   inside_spans{Pre}(32, words, spans, span_count) ==> rising{Pre, Post}(spans, span_count,
  @   room);
  @ ensures kept: !(order <= 1 && room_count == span_count && short_spans{Pre}(spans, span_count) &&
  @   inside_spans{Pre}(32, words, spans, span_count)) ==> kept_u64{Pre, Post}(room, room_count);
  @*/
uint8_t bitvec_c_can_run_in_u32(
    uint8_t order, size_t words, const struct bitvec_span *spans, size_t span_count, size_t *room,
    size_t room_count);

/*@ requires \valid_read(spans + (0 .. span_count - 1));
  @ requires \valid(room + (0 .. room_count - 1));
  @ requires \separated(spans + (0 .. span_count - 1), room + (0 .. room_count - 1));
  @ assigns room[0 .. room_count - 1];
  @ ensures status: is_spans_status{Pre}(\result, 64, order, room_count == span_count ? BITVEC_OK :
  @   BITVEC_NO_ROOM, spans, span_count, words);
  @ ensures sorted: order <= 1 && room_count == span_count && short_spans{Pre}(spans, span_count) &&
  @   inside_spans{Pre}(64, words, spans, span_count) ==> rising{Pre, Post}(spans, span_count,
  @   room);
  @ ensures kept: !(order <= 1 && room_count == span_count && short_spans{Pre}(spans, span_count) &&
  @   inside_spans{Pre}(64, words, spans, span_count)) ==> kept_u64{Pre, Post}(room, room_count);
  @*/
uint8_t bitvec_c_can_run_in_u64(
    uint8_t order, size_t words, const struct bitvec_span *spans, size_t span_count, size_t *room,
    size_t room_count);

/* bitvec_c_run_in_u8 has none: what it leaves is told by its requests one after another, each on
 * what those before it left */

/* bitvec_c_run_in_u16 has none: what it leaves is told by its requests one after another, each on
 * what those before it left */

/* bitvec_c_run_in_u32 has none: what it leaves is told by its requests one after another, each on
 * what those before it left */

/* bitvec_c_run_in_u64 has none: what it leaves is told by its requests one after another, each on
 * what those before it left */

#endif
