// Says how much stack each export takes: it is called on a stack that was painted before, over memory that needs most. With a file of flat records it also
// says how much that dictionary's messages take at the most, each built with nothing but its first three fields and its CheckSum.
#include <pthread.h>
#include <stdint.h>
#include <stdio.h>
#include <stdlib.h>
#include <string.h>
#include "records.h"

#define WORDS 8205
#define VALUES 8192
#define STACK (1 << 20)
#define PAINT 0xa5

uint32_t gateway_new(uint32_t *, size_t, uint8_t *, size_t, const uint8_t *, size_t, const uint8_t *, size_t, uint32_t *);
uint32_t gateway_store(uint32_t *, size_t, uint8_t *, size_t, uint8_t, uint32_t, const uint8_t *, size_t, uint32_t *);
uint32_t gateway_remove(uint32_t *, size_t, uint8_t *, size_t, uint8_t, uint32_t, uint32_t *);
uint32_t gateway_draft(uint32_t *, size_t, uint8_t *, size_t, uint32_t *);
uint32_t gateway_add_entry(uint32_t *, size_t, uint8_t *, size_t, uint32_t, uint32_t, uint32_t *);
uint32_t gateway_store_last(uint32_t *, size_t, uint8_t *, size_t, uint32_t, const uint8_t *, size_t, uint32_t *);
uint32_t gateway_hang_last(uint32_t *, size_t, uint8_t *, size_t, const uint32_t *, size_t, const uint8_t *, size_t, uint32_t *);
uint32_t gateway_hang(uint32_t *, size_t, uint8_t *, size_t, uint8_t, const uint32_t *, size_t, const uint8_t *, size_t, uint32_t *);
uint32_t gateway_find_field(const uint32_t *, size_t, const uint8_t *, size_t, size_t, uint32_t, uint32_t *);
uint32_t gateway_encode(uint32_t *, size_t, uint8_t *, size_t, uint8_t *, size_t, uint8_t, uint32_t *);
uint32_t gateway_take_over(const void *, size_t, size_t, const uint8_t *, size_t, uint32_t *, size_t, uint8_t *, size_t, uint32_t *);

static uint32_t words[WORDS], run_words[WORDS];
static uint8_t values[VALUES], run_values[VALUES], output[VALUES];
static const uint8_t x[] = "x";

#define MESSAGE words, WORDS, values, VALUES
#define DRAFT run_words, WORDS, run_values, VALUES

// a body of 700 fields and a run without its count, so that storing the count moves it; a draft of one entry; records that are all taken over
static void prepare(void) {
    gateway_new(MESSAGE, (const uint8_t *)"FIX.4.4", 7, (const uint8_t *)"D", 1, out);
    for (uint32_t i = 0; i < 700; i++) gateway_store(MESSAGE, 2, 1000 + i, x, 1, out);
    gateway_draft(DRAFT, out);
    gateway_add_entry(DRAFT, 79, 80, out);
    gateway_store_last(DRAFT, 80, x, 1, out);
    gateway_hang(MESSAGE, 2, DRAFT, out);
    gateway_store(MESSAGE, 2, 5000, x, 1, out);
    for (int i = 0; i < 1024; i++) records[i] = (struct record){i ? 2 : 1, 0, 0, i ? 100 + i : 8, 0, 1};
}

// a dictionary whose header, trailer and message D each hold a field; deep: 1,022 components more, each holding a field and the one before, under D;
// forged: 2,047 more, each holding the one before alone
static struct dictionary flat, deep, roomy, forged;

static void component(struct dictionary *d, uint16_t number, int alone) {
    opens(d, number);
    if (number < 3 || !alone) field(d, number > 1 ? 9 : number ? 10 : 8);
    if (number > 2) item(d, number - 1);
    closes(d);
}

static const size_t body_lengths[8] = {0, 4, 2, 8, 5, 3, 5, 0};

static void make(struct dictionary *d, uint16_t components, int alone, size_t lent) {
    for (uint8_t tag = 8; tag < 11; tag++) known(d, tag);
    for (uint16_t i = 0; i < components; i++) component(d, i, alone);
    opens_order(d);
    item(d, components - 1);
    closes(d);
    d->lent = lent;
}

// in the memory of one that was prepared each component is made to stand for itself, so that laying goes down as often as it may
static void forge(struct dictionary *d) {
    for (size_t at = 0; at < d->length; at += 1 + body_lengths[d->bytes[at] & 7]) {
        if (d->bytes[at] != 2) continue;
        size_t number = at + 4;
        d->memory[3 + 6144 + number + number / 2 + 5] = d->bytes[at + 1] + 256 * d->bytes[at + 2];
    }
}

// a dictionary from a file, in the least memory and with tables, and a message of one of its types
static struct dictionary real, tabled;
static char message[64];
static uint32_t build_real(void) { return gateway_build((uint8_t *)message, strlen(message), 1, 1, real.bytes, real.length, records, 1024, out); }
static uint32_t over_real(void) {
    return gateway_build_prepared((uint8_t *)message, strlen(message), 1, 1, real.copy, BYTES, real.memory, real.lent, records, 1024, out);
}
static uint32_t prepare_real(void) { return set_up(&real); }
static uint32_t prepare_tabled(void) { return set_up(&tabled); }

static void write_message(const char *type) {
    int length = sprintf(message, "8=FIX.4.4\0019=%zu\00135=%s\001", strlen(type) + 4, type);
    unsigned sum = 0;
    for (int i = 0; i < length; i++) sum += (uint8_t)message[i];
    sprintf(message + length, "10=%03u\001", sum % 256);
}

static uint32_t none(void) { return 0; }
static uint32_t check_deep(void) { return gateway_check(deep.bytes, deep.length, out); }
static uint32_t build_flat(void) { return built(&flat); }
static uint32_t build_deep(void) { return built(&deep); }
static uint32_t prepare_flat(void) { return set_up(&flat); }
static uint32_t prepare_roomy(void) { return set_up(&roomy); }
static uint32_t prepare_deep(void) { return set_up(&deep); }
static uint32_t over_roomy(void) { return built_over(&roomy); }
static uint32_t over_flat(void) { return built_over(&flat); }
static uint32_t over_deep(void) { return built_over(&deep); }
static uint32_t over_forged(void) { return built_over(&forged); }
static uint32_t store(void) { return gateway_store(MESSAGE, 2, 5001, x, 1, out); }
static uint32_t store_count(void) { return gateway_store(MESSAGE, 2, 79, x, 1, out); }
static uint32_t take_out(void) { return gateway_remove(MESSAGE, 2, 5001, out); }
static uint32_t find(void) { return gateway_find_field(words, WORDS, values, VALUES, 0, 35, out); }
static uint32_t encode(void) { return gateway_encode(MESSAGE, output, VALUES, 1, out); }
static uint32_t hang(void) { return gateway_hang(MESSAGE, 2, DRAFT, out); }
static uint32_t hang_last(void) { return gateway_hang_last(words, WORDS, values, VALUES, DRAFT, out); }
static uint32_t add_entry(void) { return gateway_add_entry(DRAFT, 79, 80, out); }
static uint32_t store_last(void) { return gateway_store_last(DRAFT, 81, x, 1, out); }
static uint32_t take_over(void) { return gateway_take_over(records, 1024, 1024, x, 1, MESSAGE, out); }

static uint32_t answer;
static void *called(void *work) { answer = ((uint32_t (*)(void))work)(); return 0; }

static size_t used(uint32_t (*work)(void)) {
    uint8_t *stack = aligned_alloc(1 << 16, STACK);
    memset(stack, PAINT, STACK);
    pthread_attr_t on;
    pthread_t thread;
    pthread_attr_init(&on);
    pthread_attr_setstack(&on, stack, STACK);
    if (pthread_create(&thread, &on, called, (void *)work)) exit(1);
    pthread_join(thread, 0);
    size_t free_bytes = 0;
    while (free_bytes < STACK && stack[free_bytes] == PAINT) free_bytes++;
    free(stack);
    return STACK - free_bytes;
}

// the dictionary of a file: what its messages take at the most
static int read_dictionary(const char *path, size_t thread) {
    FILE *file = fopen(path, "rb");
    if (!file) return perror(path), 1;
    real.length = tabled.length = fread(real.bytes, 1, BYTES, file);
    fclose(file);
    memcpy(tabled.bytes, real.bytes, real.length);
    real.lent = gateway_prepared_words();
    tabled.lent = ROOM;
    size_t tables = used(prepare_tabled) - thread, plain = 0, prepared = 0, messages = 0;
    if (answer || used(prepare_real) < thread || answer) return fprintf(stderr, "%s: the dictionary is refused with %u\n", path, answer), 1;
    for (size_t at = 0; at < real.length; at += 1 + body_lengths[real.bytes[at] & 7]) {
        if (real.bytes[at] != 3) continue;
        char type[9] = {0};
        memcpy(type, real.bytes + at + 1, 8);
        write_message(type);
        size_t one = used(build_real) - thread, other = used(over_real) - thread;
        if (one > plain) plain = one;
        if (other > prepared) prepared = other;
        messages++;
    }
    printf("%s: prepare with tables %zu bytes; %zu messages: build %zu at the most, over the least memory %zu\n", path, tables, messages, plain, prepared);
    return 0;
}

int main(int count, char **words_given) {
    struct { const char *name; uint32_t (*work)(void); } calls[] = {
        {"store", store}, {"store, a run moves", store_count}, {"remove", take_out}, {"find", find}, {"encode", encode}, {"hang", hang},
        {"hang_last", hang_last}, {"add_entry", add_entry}, {"store_last", store_last}, {"take_over", take_over},
        {"check", check_deep}, {"build", build_flat}, {"build, deep", build_deep}, {"prepare", prepare_flat}, {"prepare, tables", prepare_roomy},
        {"prepare, deep", prepare_deep}, {"build over tables", over_roomy}, {"build over the least", over_flat}, {"the same, deep", over_deep},
        {"the same, forged", over_forged},
    };
    prepare();
    make(&flat, 3, 0, gateway_prepared_words());
    make(&roomy, 3, 0, ROOM);
    make(&deep, 1024, 0, gateway_prepared_words());
    make(&forged, 2049, 1, gateway_prepared_words());
    set_up(&forged);
    forge(&forged);
    size_t thread = used(none);
    for (size_t i = 0; i < sizeof calls / sizeof *calls; i++) {
        size_t bytes = used(calls[i].work);
        printf("%-22s answers %2u, %6zu bytes of stack\n", calls[i].name, answer, bytes - thread);
    }
    return count > 1 ? read_dictionary(words_given[1], thread) : 0;
}
