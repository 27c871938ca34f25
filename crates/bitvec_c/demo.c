/* Writes a packet header of four fields, reads it back and prints it: in the bytes as they are
 * sent, and in one word. Each call's status is checked; a refusal ends the program with it. */
#include "bitvec.h"

#include <inttypes.h>
#include <stdio.h>

#define FIELDS 4

/* A field: the place of its first bit, and how many bits it has. */
struct field {
    const char *name;
    size_t start;
    size_t count;
};

static const struct field fields[FIELDS] = {
    {"version", 0, 4}, {"class", 4, 6}, {"flags", 10, 6}, {"length", 16, 16}};

static const uint64_t header[FIELDS] = {4, 46, 2, 1500};

static void print_numbers(const uint64_t *numbers) {
    for (size_t i = 0; i < FIELDS; i++)
        printf(" %s %" PRIu64, fields[i].name, numbers[i]);
    printf("\n");
}

/* The header in bytes, the greatest digit first. */
static uint8_t show_bytes(void) {
    uint8_t bytes[4] = {0}, status;
    uint64_t numbers[FIELDS] = {0};
    for (size_t i = 0; i < FIELDS; i++) {
        const struct field *field = &fields[i];
        status = bitvec_c_store_u8(BITVEC_MSB0, true, bytes, 4, field->start,
                                   field->count, header[i]);
        if (status != BITVEC_OK)
            return status;
    }
    for (size_t i = 0; i < FIELDS; i++) {
        const struct field *field = &fields[i];
        status = bitvec_c_load_u8(BITVEC_MSB0, true, bytes, 4, field->start,
                                  field->count, &numbers[i]);
        if (status != BITVEC_OK)
            return status;
    }
    printf("%02x %02x %02x %02x", bytes[0], bytes[1], bytes[2], bytes[3]);
    print_numbers(numbers);
    return BITVEC_OK;
}

/* The header in one word, the first field at its least digits. */
static uint8_t show_word(void) {
    uint32_t word = 0;
    uint64_t numbers[FIELDS] = {0};
    uint8_t status;
    for (size_t i = 0; i < FIELDS; i++) {
        const struct field *field = &fields[i];
        status = bitvec_c_store_u32(BITVEC_LSB0, false, &word, 1, field->start,
                                    field->count, header[i]);
        if (status != BITVEC_OK)
            return status;
    }
    for (size_t i = 0; i < FIELDS; i++) {
        const struct field *field = &fields[i];
        status = bitvec_c_load_u32(BITVEC_LSB0, false, &word, 1, field->start,
                                   field->count, &numbers[i]);
        if (status != BITVEC_OK)
            return status;
    }
    printf("%08" PRIx32, word);
    print_numbers(numbers);
    return BITVEC_OK;
}

/* The fields of the same bytes, each read behind the one before. */
static uint8_t show_stream(void) {
    const uint8_t bytes[4] = {0x4b, 0x82, 0x05, 0xdc};
    uint64_t numbers[FIELDS] = {0};
    size_t place = 0;
    for (size_t i = 0; i < FIELDS; i++) {
        uint8_t status = bitvec_c_read_u8(BITVEC_MSB0, true, bytes, 4, &place, 32,
                                          fields[i].count, &numbers[i]);
        if (status != BITVEC_OK)
            return status;
    }
    printf("at place %zu", place);
    print_numbers(numbers);
    return BITVEC_OK;
}

/* Eight bits of one memory, copied to others of another. */
static uint8_t show_copy(void) {
    uint8_t source[2] = {0x0f, 0xf0}, target[3] = {0};
    uint8_t status = bitvec_c_copy_u8(BITVEC_MSB0, target, 3, 10, source, 2, 4, 8);
    if (status == BITVEC_OK)
        printf("%02x %02x %02x copied\n", target[0], target[1], target[2]);
    return status;
}

/* What lies past the end is refused, and changes nothing. */
static uint8_t show_refusal(void) {
    uint16_t words[2] = {0, 0};
    uint8_t status = bitvec_c_fill_u16(BITVEC_LSB0, words, 2, 30, 3, true);
    printf("%04x %04x refused %d\n", words[0], words[1], status);
    return status == BITVEC_OUTSIDE ? BITVEC_OK : status;
}

int main(void) {
    uint8_t status = show_bytes();
    if (status == BITVEC_OK)
        status = show_word();
    if (status == BITVEC_OK)
        status = show_stream();
    if (status == BITVEC_OK)
        status = show_copy();
    if (status == BITVEC_OK)
        status = show_refusal();
    return status;
}
