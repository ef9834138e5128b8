// Says how long the longest builds take that are known. Each dictionary passes its check; its message takes all 1,024 items, one component of which
// holds as many items that stand for nothing as there is room for: in one row, or in short rows before, between and behind all others. "Forged": the memory
// is changed then, so that the look-up of the empty component follows as many links as it may, each time.
#include <stdio.h>
#include <time.h>
#include "records.h"

#define EMPTY 2
#define FIRST 3
#define LEVELS 10

static struct dictionary row, rows;

static void nothing(struct dictionary *d, int count) { for (int i = 0; i < count; i++) item(d, EMPTY); }

// header, trailer, an empty component, one with a field, and ten that hold the one before twice; so many items that stand for nothing before and behind
// the field, and around each component
static void make(struct dictionary *d, int before, int behind, int around) {
    for (uint8_t tag = 8; tag < 11; tag++) known(d, tag);
    opens(d, 0), field(d, 8), closes(d);
    opens(d, 1), field(d, 10), closes(d);
    opens(d, EMPTY), closes(d);
    opens(d, FIRST), nothing(d, before), field(d, 9), nothing(d, behind), closes(d);
    for (uint16_t number = FIRST + 1; number <= FIRST + LEVELS; number++) {
        opens(d, number), nothing(d, around), item(d, number - 1), nothing(d, around), item(d, number - 1), nothing(d, around), closes(d);
    }
    opens_order(d), item(d, FIRST + LEVELS), closes(d);
    d->lent = gateway_prepared_words();
}

// the empty component's tree becomes a chain of 64 entries with other keys, in words where no entry stands
static void forge(struct dictionary *d) {
    uint16_t *index = d->memory + 3, at = 50000;
    index[2048 + EMPTY] = at;
    for (int i = 0; i < 64; i++, at += 4) {
        uint16_t *entry = index + 6144 + at + at / 2;
        entry[0] = entry[1] = at + 4;
        entry[2] = 0xffff;
    }
}

static void say(const char *name, uint32_t (*work)(struct dictionary *), struct dictionary *d) {
    struct timespec from, to;
    double best = 1e18;
    uint32_t answer = 0;
    for (int i = 0; i < 5; i++) {
        clock_gettime(CLOCK_MONOTONIC, &from);
        answer = work(d);
        clock_gettime(CLOCK_MONOTONIC, &to);
        double took = (to.tv_sec - from.tv_sec) * 1e6 + (to.tv_nsec - from.tv_nsec) / 1e3;
        if (took < best) best = took;
    }
    printf("  %-32s answers %2u, %10.1f us\n", name, answer, best);
}

static uint32_t plain(struct dictionary *d) { return built(d); }
static uint32_t over(struct dictionary *d) { return built_over(d); }
static uint32_t check(struct dictionary *d) { return gateway_check(d->bytes, d->length, out); }

static void measure(const char *name, struct dictionary *d) {
    printf("%s, %zu bytes\n", name, d->length);
    say("check", check, d);
    say("build", plain, d);
    say("prepare, least memory", set_up, d);
    say("build over the least memory", over, d);
    forge(d);
    say("the same, forged", over, d);
    d->lent = ROOM;
    say("prepare, with its table", set_up, d);
    say("build over its table", over, d);
}

int main(void) {
    make(&row, 14000, 0, 0);
    make(&rows, 16, 16, 16);
    measure("one row of 14,000", &row);
    measure("rows of 16", &rows);
    return 0;
}
