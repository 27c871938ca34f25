/* A ring of bits: bits are put at one end, and taken from the other. */
#include "bitvec.h"

#define ROOM 256
#define WORDS 8 /* of 32 bits */

struct ring {
    uint32_t words[WORDS];
    size_t head;  /* the place of the first bit */
    size_t count; /* how many there are */
};

/*@ predicate is_ring{L}(struct ring *ring) = ring->head < ROOM && ring->count <= ROOM;
  @ logic integer place_in{L}(struct ring *ring, integer i) =
  @   ring->head + i < ROOM ? ring->head + i : ring->head + i - ROOM;
  @ predicate bit_in{L}(struct ring *ring, integer i) =
  @   bit_u32{L}(BITVEC_LSB0, (uint32_t *)ring->words, place_in{L}(ring, i));
  @*/

/*@ requires \valid(ring) && is_ring(ring);
  @ assigns *ring;
  @ ensures is_ring(ring);
  @ ensures full: \old(ring->count) == ROOM ==> !\result && ring->count == ROOM;
  @ ensures put: \old(ring->count) < ROOM ==> \result && ring->count == \old(ring->count) + 1 &&
  @   (bit_in{Post}(ring, \old(ring->count)) <==> bit);
  @ ensures others: \forall integer i; 0 <= i < \old(ring->count) ==> (bit_in{Post}(ring, i) <==> bit_in{Pre}(ring, i));
  @*/
bool put(struct ring *ring, bool bit) {
    if (ring->count == ROOM)
        return false;
#ifdef WRONG_1 /* the place does not go round: put_assert_done */
    size_t place = ring->head + ring->count;
#else
    size_t place = ring->head + ring->count < ROOM ? ring->head + ring->count : ring->head + ring->count - ROOM;
#endif
    uint8_t status = bitvec_c_set_u32(BITVEC_LSB0, ring->words, WORDS, place, bit);
    //@ assert done: status == BITVEC_OK;
    ring->count++;
    return true;
}

/*@ requires \valid(ring) && is_ring(ring) && 0 < ring->count;
  @ assigns ring->head, ring->count;
  @ ensures is_ring(ring);
  @ ensures taken: \result <==> bit_in{Pre}(ring, 0);
  @ ensures fewer: ring->count == \old(ring->count) - 1;
  @ ensures others: \forall integer i; 0 <= i < ring->count ==> (bit_in{Post}(ring, i) <==> bit_in{Pre}(ring, i + 1));
  @*/
bool take(struct ring *ring) {
    bool bit = false;
    uint8_t status = bitvec_c_get_u32(BITVEC_LSB0, ring->words, WORDS, ring->head, &bit);
    //@ assert done: status == BITVEC_OK;
#ifdef WRONG_2 /* the head goes round one too late: take_ensures */
    ring->head = ring->head == ROOM ? 0 : ring->head + 1;
#else
    ring->head = ring->head == ROOM - 1 ? 0 : ring->head + 1;
#endif
    ring->count--;
    return bit;
}
