// A flat dictionary that a program writes record by record, with the memory that it is prepared in, and the calls on both.
#include <stdint.h>
#include <stddef.h>
#include <string.h>

#define BYTES 60000
#define ROOM 524288

uint32_t gateway_check(const uint8_t *, size_t, uint32_t *);
uint32_t gateway_prepare(const uint8_t *, size_t, uint8_t *, size_t, uint16_t *, size_t, uint32_t *);
uint32_t gateway_prepared_words(void);
uint32_t gateway_build(const uint8_t *, size_t, uint8_t, uint32_t, const uint8_t *, size_t, void *, size_t, uint32_t *);
uint32_t gateway_build_prepared(const uint8_t *, size_t, uint8_t, uint32_t, const uint8_t *, size_t, const uint16_t *, size_t, void *, size_t, uint32_t *);

struct record { uint8_t part, depth; uint16_t entry; uint32_t tag; uint16_t place, length; };
struct dictionary { uint8_t bytes[BYTES], copy[BYTES]; size_t length; uint16_t memory[ROOM]; size_t lent; };

static struct record records[1024];
static uint32_t out[4];
static const uint8_t order[] = "8=FIX.4.4\0019=5\00135=D\00110=183\001";

static void put(struct dictionary *d, const void *record, size_t length) {
    memcpy(d->bytes + d->length, record, length);
    d->length += length;
}

static void known(struct dictionary *d, uint8_t tag) { put(d, (uint8_t[]){1, tag, 0, 0, 0}, 5); }
static void opens(struct dictionary *d, uint16_t number) { put(d, (uint8_t[]){2, number & 255, number >> 8}, 3); }
static void opens_order(struct dictionary *d) { put(d, (uint8_t[]){3, 'D', 0, 0, 0, 0, 0, 0, 0}, 9); }
static void field(struct dictionary *d, uint8_t tag) { put(d, (uint8_t[]){4, tag, 0, 0, 0, 0}, 6); }
static void item(struct dictionary *d, uint16_t number) { put(d, (uint8_t[]){5, number & 255, number >> 8, 0}, 4); }
static void closes(struct dictionary *d) { put(d, (uint8_t[]){7}, 1); }

static uint32_t built(const struct dictionary *d) {
    return gateway_build(order, sizeof order - 1, 1, 1, d->bytes, d->length, records, 1024, out);
}
static uint32_t set_up(struct dictionary *d) { return gateway_prepare(d->bytes, d->length, d->copy, BYTES, d->memory, d->lent, out); }
static uint32_t built_over(const struct dictionary *d) {
    return gateway_build_prepared(order, sizeof order - 1, 1, 1, d->copy, BYTES, d->memory, d->lent, records, 1024, out);
}
