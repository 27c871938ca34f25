/* A packet header of four fields in four bytes, as they stand on the wire. What is written is read, and no other byte
 * changes. */
#include "bitvec.h"

#define SIZE 4

/*@ logic integer field{L}(uint8_t *bytes, integer start, integer count) =
  @   number_u8{L}(0, 1, BITVEC_MSB0, bytes, start, count, count);
  @*/

/*@ requires \valid(bytes + (0 .. SIZE - 1));
  @ requires version < 16 && flags < 16 && kind < 64 && port < 1024;
  @ assigns bytes[0 .. SIZE - 1];
  @ ensures version: field{Post}(bytes, 0, 4) == version;
  @ ensures flags: field{Post}(bytes, 4, 4) == flags;
  @ ensures kind: field{Post}(bytes, 8, 6) == kind;
  @ ensures port: field{Post}(bytes, 14, 10) == port;
  @ ensures others: others_u8{Pre, Post}(BITVEC_MSB0, bytes, SIZE, 0, 24);
  @*/
void write_header(uint8_t *bytes, uint64_t version, uint64_t flags, uint64_t kind, uint64_t port) {
    //@ assert powers: power_of_two(4) == 16 && power_of_two(6) == 64 && power_of_two(10) == 1024;
    uint8_t status = bitvec_c_store_u8(BITVEC_MSB0, true, bytes, SIZE, 0, 4, version);
    //@ assert first: status == BITVEC_OK;
    status = bitvec_c_store_u8(BITVEC_MSB0, true, bytes, SIZE, 4, 4, flags);
    //@ assert second: status == BITVEC_OK;
    status = bitvec_c_store_u8(BITVEC_MSB0, true, bytes, SIZE, 8, 6, kind);
    //@ assert third: status == BITVEC_OK;
#ifdef WRONG_1 /* the last field begins one bit too early: write_header_assert_holds_kind */
    status = bitvec_c_store_u8(BITVEC_MSB0, true, bytes, SIZE, 13, 10, port);
#else
    status = bitvec_c_store_u8(BITVEC_MSB0, true, bytes, SIZE, 14, 10, port);
#endif
    //@ assert fourth: status == BITVEC_OK;
    //@ assert holds_version: holds_u8(0, 1, BITVEC_MSB0, bytes, 0, 4, version);
    //@ assert holds_flags: holds_u8(0, 1, BITVEC_MSB0, bytes, 4, 4, flags);
    //@ assert holds_kind: holds_u8(0, 1, BITVEC_MSB0, bytes, 8, 6, kind);
    //@ assert holds_port: holds_u8(0, 1, BITVEC_MSB0, bytes, 14, 10, port);
}

/*@ requires \valid_read(bytes + (0 .. SIZE - 1));
  @ assigns \nothing;
  @ ensures port: \result == field{Pre}(bytes, 14, 10);
  @*/
uint64_t read_port(const uint8_t *bytes) {
    uint64_t port = 0;
#ifdef WRONG_2 /* the digits are read from the other end: read_port_ensures_port */
    uint8_t status = bitvec_c_load_u8(BITVEC_MSB0, false, bytes, SIZE, 14, 10, &port);
#else
    uint8_t status = bitvec_c_load_u8(BITVEC_MSB0, true, bytes, SIZE, 14, 10, &port);
#endif
    //@ assert done: status == BITVEC_OK;
    return port;
}
