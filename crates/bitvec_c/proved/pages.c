/* A page allocator: a bit for each page, one for those that are handed out. What is handed out was free, and nothing
 * else changes. */
#include "bitvec.h"

#define PAGES 256
#define TAKEN 4 /* words of 64 bits */

/*@ predicate taken{L}(uint64_t *pages, integer page) = bit_u64{L}(BITVEC_LSB0, pages, page);
  @ predicate same_but{K, L}(uint64_t *pages, integer from, integer upto) =
  @   \forall integer p; 0 <= p < PAGES ==> (p < from || upto <= p) ==>
  @   (taken{L}(pages, p) <==> taken{K}(pages, p));
  @*/

/*@ requires \valid(pages + (0 .. TAKEN - 1));
  @ assigns pages[0 .. TAKEN - 1];
  @ ensures range: 0 <= \result <= PAGES;
  @ ensures was_free: \result < PAGES ==> \result + count <= PAGES &&
  @   (\forall integer p; \result <= p < \result + count ==> !taken{Pre}(pages, p));
  @ ensures now_taken: \result < PAGES ==>
  @   (\forall integer p; \result <= p < \result + count ==> taken{Post}(pages, p));
  @ ensures others: \result < PAGES ==> same_but{Pre, Post}(pages, \result, \result + count);
  @ ensures none: \result == PAGES ==> same_but{Pre, Post}(pages, 0, 0);
  @*/
size_t take_pages(uint64_t *pages, size_t count) {
    size_t first = PAGES;
    uint8_t status;
#ifdef WRONG_1 /* a run is looked for that is one page shorter: take_pages_ensures_was_free */
    status = bitvec_c_find_zeros_u64(BITVEC_LSB0, pages, TAKEN, 0, PAGES, count == 0 ? 0 : count - 1, &first);
#else
    status = bitvec_c_find_zeros_u64(BITVEC_LSB0, pages, TAKEN, 0, PAGES, count, &first);
#endif
    if (status != BITVEC_OK || first == PAGES)
        return PAGES;
    status = bitvec_c_fill_u64(BITVEC_LSB0, pages, TAKEN, first, count, true);
    //@ assert filled: status == BITVEC_OK;
    return first;
}

/*@ requires \valid(pages + (0 .. TAKEN - 1));
  @ requires first + count <= PAGES;
  @ assigns pages[0 .. TAKEN - 1];
  @ ensures now_free: \forall integer p; first <= p < first + count ==> !taken{Post}(pages, p);
  @ ensures others: same_but{Pre, Post}(pages, first, first + count);
  @*/
void free_pages(uint64_t *pages, size_t first, size_t count) {
#ifdef WRONG_2 /* the page behind is freed too, where there is one: free_pages_ensures_others */
    count += first + count < PAGES;
#endif
    uint8_t status = bitvec_c_fill_u64(BITVEC_LSB0, pages, TAKEN, first, count, false);
    //@ assert done: status == BITVEC_OK;
}
