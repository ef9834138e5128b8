// writing BEFORE NOW: the same numbers, fields and messages written by the libraries of two folders in turn. It ends with 1 at the first difference.
#include <dlfcn.h>
#include <stdbool.h>
#include <stdint.h>
#include <stdio.h>
#include <stdlib.h>
#include <string.h>
#include <time.h>

#define COUNT 2000
#define ROUNDS 200
#define WORDS 8205
#define VALUES 8192
#define FIELDS 8
#define STACK 131072
#define PAINT 0xa5

typedef struct { uint8_t no_room; uint64_t next; } written;

struct library {
    const char *name;
    written (*number)(uint8_t *, size_t, size_t, uint32_t);
    size_t (*field)(uint8_t *, size_t, size_t, uint32_t, const uint8_t *, size_t, uint8_t);
    size_t (*rows)(const uint32_t *, size_t, const uint8_t *, size_t, uint8_t *, size_t, uint8_t);
    uint32_t (*new)(uint32_t *, size_t, uint8_t *, size_t, const char *, size_t, const char *, size_t, uint32_t *);
    uint32_t (*store)(uint32_t *, size_t, uint8_t *, size_t, uint8_t, uint32_t, const uint8_t *, size_t, uint32_t *);
    uint32_t (*encode)(uint32_t *, size_t, uint8_t *, size_t, uint8_t *, size_t, uint8_t, uint32_t *);
};

static struct library libraries[2];
static const struct library *now;
static uint32_t numbers[COUNT], words[WORDS], out[4];
static uint8_t values[VALUES], output[COUNT * 20];
static uint8_t text[] = "ABCDE";

static void *symbol(void *file, const char *name) {
    void *found = dlsym(file, name);
    if (!found) fprintf(stderr, "%s\n", dlerror()), exit(1);
    return found;
}

static void *opened(const char *folder, const char *name) {
    char path[4096];
    snprintf(path, sizeof path, "%s/%s.so", folder, name);
    void *file = dlopen(path, RTLD_NOW | RTLD_LOCAL);
    if (!file) fprintf(stderr, "%s\n", dlerror()), exit(1);
    return file;
}

static void load(struct library *library, const char *name, const char *folder) {
    void *parts = opened(folder, "parts"), *exports = opened(folder, "exports");
    *library = (struct library){name, symbol(parts, "write_number"), symbol(parts, "write_field"), symbol(parts, "write_message"),
        symbol(exports, "gateway_new"), symbol(exports, "gateway_store"), symbol(exports, "gateway_encode")};
}

static void differs(const char *name, uint32_t n, size_t at, size_t length) {
    printf("%s writes %u otherwise at place %zu of %zu bytes\n", name, n, at, length);
    exit(1);
}

// each library writes a number as the C library spells it, where it has room, and nothing where it has none
static void compare(uint32_t n, size_t at, size_t length) {
    char spelled[11];
    size_t digits = (size_t)sprintf(spelled, "%u", n);
    bool fits = at + digits <= length;
    for (int i = 0; i < 2; i++) {
        uint8_t bytes[32], expected[32];
        memset(bytes, '.', 32);
        memset(expected, '.', 32);
        if (fits) memcpy(expected + at, spelled, digits);
        written answer = libraries[i].number(bytes, length, at, n);
        if (memcmp(bytes, expected, 32) || answer.no_room == fits || (fits && answer.next != at + digits)) differs(libraries[i].name, n, at, length);
    }
}

static uint32_t drawn(void) {
    static uint64_t state = 88172645463325252u;
    state ^= state << 13;
    state ^= state >> 7;
    state ^= state << 17;
    return (uint32_t)(state >> 16);
}

static uint64_t lowest(int digits) {
    uint64_t power = 1;
    while (--digits) power *= 10;
    return power;
}

static void compare_all(void) {
    size_t made = 0;
    for (int digits = 1; digits <= 10; digits++)
        for (int step = -2; step <= 2; step++)
            for (size_t length = 0; length <= 13; length++)
                for (size_t at = 0; at <= 14; at++, made++) compare((uint32_t)(lowest(digits) + (uint64_t)step), at, length);
    for (int i = 0; i < 5000000; i++, made++) compare(drawn() >> drawn() % 32, drawn() % 4, 14);
    printf("%zu numbers written alike, as the C library spells them; nothing where they have no room\n", made);
}

static void draw(int digits) {
    uint64_t from = digits > 1 ? lowest(digits) : 0, to = digits < 10 ? lowest(digits) * 10 : 4294967296u;
    for (int i = 0; i < COUNT; i++) numbers[i] = (uint32_t)(from + drawn() % (to - from));
}

// tags as they stand in an execution report, again and again
static const uint32_t usual[] = {34, 49, 52, 56, 37, 11, 453, 448, 447, 452, 17, 150, 39, 1, 55, 54, 38, 40, 44, 32, 31, 151, 14, 6, 60, 5001};
#define USUAL (sizeof usual / sizeof *usual)

static void draw_usual(void) {
    for (size_t i = 0; i < COUNT; i++) numbers[i] = usual[i % USUAL];
}

// many calls in a row, as an encoding makes them: each behind the one before
static void write_numbers(void) {
    written answer = {0, 0};
    for (int i = 0; i < COUNT; i++) answer = now->number(output, sizeof output, answer.next, numbers[i]);
}

static void write_fields(void) {
    size_t at = 0;
    for (int i = 0; i < COUNT; i++) at = now->field(output, sizeof output, at, numbers[i], text, 5, 1);
}

static void write_rows(void) { now->rows(words, WORDS, values, VALUES, output, sizeof output, 1); }
static void encode(void) { now->encode(words, WORDS, values, VALUES, output, VALUES, 1, out); }

static void store(uint64_t tag) { now->store(words, WORDS, values, VALUES, 2, (uint32_t)tag, text, 5, out); }
static void make_empty(void) { now->new(words, WORDS, values, VALUES, "FIX.4.4", 7, "8", 1, out); }

// a message of so many fields whose tags have so many digits
static void make(int digits) {
    uint64_t from = lowest(digits), step = (digits < 10 ? from * 9 : 3200000000u) / FIELDS;
    make_empty();
    for (uint64_t i = 0; i < FIELDS; i++) store(from + i * step);
}

static void make_usual(void) {
    make_empty();
    for (size_t i = 0; i < USUAL; i++) store(usual[i]);
}

static double spent(void (*work)(void), int times) {
    struct timespec start, end;
    clock_gettime(CLOCK_THREAD_CPUTIME_ID, &start);
    for (int i = 0; i < times; i++) work();
    clock_gettime(CLOCK_THREAD_CPUTIME_ID, &end);
    return ((double)(end.tv_sec - start.tv_sec) * 1e9 + (double)(end.tv_nsec - start.tv_nsec)) / times;
}

// nanoseconds of one of `calls` calls, before and now, the shortest of rounds in turn
static void time_both(void (*work)(void), int calls, int times) {
    double best[2] = {1e18, 1e18};
    for (int round = 0; round < ROUNDS; round++)
        for (int i = 0; i < 2; i++) {
            now = &libraries[i];
            double one = spent(work, times) / calls;
            if (one < best[i]) best[i] = one;
        }
    printf(" %.1f | %.1f | %.2f |", best[0], best[1], best[1] / best[0]);
}

static void time_all(void) {
    puts("\n| digits | number: before | now | x | field: before | now | x | message: before | now | x |\n|---|---|---|---|---|---|---|---|---|---|");
    for (int digits = 0; digits <= 10; digits++) {
        if (digits) draw(digits), make(digits), printf("| %d |", digits);
        else draw_usual(), make_usual(), printf("| a report's |");
        time_both(write_numbers, COUNT, 1);
        time_both(write_fields, COUNT, 1);
        time_both(encode, 1, 20);
        puts("");
    }
}

// A frame of its own stands between the one that paints and the call, so that the paint reaches over all that the call takes.
static __attribute__((noinline)) void apart(void (*work)(void)) {
    volatile uint8_t gap[512];
    gap[0] = 0;
    work();
    gap[511] = gap[0];
}

static __attribute__((noinline)) size_t reached(void (*work)(void)) {
    volatile uint8_t *here = __builtin_frame_address(0), *lowest = here - STACK;
    for (volatile uint8_t *at = lowest; at < here - 256; at++) *at = PAINT;
    apart(work);
    while (*lowest == PAINT) lowest++;
    return (size_t)(here - lowest);
}

static void nothing(void) {}
static void a_number(void) { now->number(output, sizeof output, 0, 4294967295u); }
static void a_field(void) { now->field(output, sizeof output, 0, 4294967295u, text, 5, 1); }

// what a call takes over one that returns at once, in whole words
static size_t taken(const struct library *by, void (*work)(void)) {
    static const struct library none = {"none", (void *)nothing, (void *)nothing, (void *)nothing, (void *)nothing, (void *)nothing, (void *)nothing};
    now = &none;
    size_t least = reached(work);
    now = by;
    return (reached(work) - least + 7) / 8 * 8;
}

static void measure_stack(void) {
    struct { const char *name; void (*work)(void); } calls[] = {
        {"a number", a_number}, {"a field", a_field}, {"a message's rows", write_rows}, {"encode", encode},
    };
    puts("\n| bytes of stack | before | now |\n|---|---|---|");
    for (size_t i = 0; i < sizeof calls / sizeof *calls; i++)
        printf("| %s | %zu | %zu |\n", calls[i].name, taken(&libraries[0], calls[i].work), taken(&libraries[1], calls[i].work));
}

int main(int count, char **given) {
    if (count != 3) return fputs("writing BEFORE NOW\n", stderr), 1;
    load(&libraries[0], "before", given[1]);
    load(&libraries[1], "now", given[2]);
    now = &libraries[0];
    compare_all();
    time_all();
    measure_stack();
    return 0;
}
