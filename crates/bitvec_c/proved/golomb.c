/* A reader of Exp-Golomb codes that stand one behind the other: it reads none of what lies past its buffer, and writes
 * none past its room, whatever the buffer has. */
#include "bitvec.h"

#define MOST_BYTES 1000000

/*@ requires size <= MOST_BYTES;
  @ requires \valid_read(bytes + (0 .. size - 1)) && \valid(numbers + (0 .. room - 1)) && \valid(end);
  @ requires \separated(bytes + (0 .. size - 1), end);
  @ requires \separated(bytes + (0 .. size - 1), numbers + (0 .. room - 1));
  @ requires \separated(numbers + (0 .. room - 1), end);
  @ assigns numbers[0 .. room - 1], *end;
  @ ensures room: \result <= room;
  @ ensures inside: *end <= size * 8;
  @ ensures first: 0 < \result ==> code_u8{Pre}(BITVEC_MSB0, bytes, 0, size * 8, numbers[0]);
  @ ensures all: \result < room ==> !short_code_u8{Pre}(BITVEC_MSB0, bytes, *end, size * 8 - *end);
  @*/
size_t read_codes(const uint8_t *bytes, size_t size, uint64_t *numbers, size_t room, size_t *end) {
    size_t read = 0;
    *end = 0;
    /*@ loop invariant read <= room;
      @ loop invariant *end <= size * 8;
      @ loop invariant read == 0 ==> *end == 0;
      @ loop invariant 0 < read ==> code_u8{Pre}(BITVEC_MSB0, bytes, 0, size * 8, numbers[0]);
      @ loop assigns read, *end, numbers[0 .. room - 1];
      @ loop variant room - read;
      @*/
    while (read < room) {
#ifdef WRONG_2 /* the buffer is taken to have one byte more: read_codes_call_bitvec_c_read_exp_golomb_u8_requires */
        uint8_t status = bitvec_c_read_exp_golomb_u8(BITVEC_MSB0, bytes, size + 1, end, size * 8 + 8, &numbers[read]);
#else
        uint8_t status = bitvec_c_read_exp_golomb_u8(BITVEC_MSB0, bytes, size, end, size * 8, &numbers[read]);
#endif
#ifdef WRONG_1 /* a code of more than 64 digits is taken for a number: read_codes_loop_invariant_4_preserved */
        if (status == BITVEC_TOO_FEW)
            break;
#else
        if (status != BITVEC_OK)
            break;
#endif
        //@ assert inside: *end <= size * 8;
        read++;
    }
    return read;
}
