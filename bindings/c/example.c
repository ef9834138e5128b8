/* One sample on its whole way: a damaged stream, the hunting framer, a build over a prepared dictionary, an encoding, a change, an encoding again; what
 * a value with a separator in it does; and what a build over less memory and a plain build answer, and what the settings word decides. Each line that
 * is printed is held against what must come; the exit code is 1 where one differs. */
#include "tinkoraba.h"

#include <stdio.h>
#include <string.h>

#define SOH "\x01"
#define ORDER(quantity) "8=FIX.4.4" SOH "9=24" SOH "35=D" SOH "38=" quantity SOH "58=x" SOH "38=800" SOH "10=139" SOH

/* P5 of the rules twice; a byte of the first was damaged on the way. */
static const char STREAM[] = ORDER("6?0") ORDER("600");

/* A user's tag that the dictionary lacks. */
static const char WITH_5001[] = "8=FIX.4.4" SOH "9=19" SOH "35=D" SOH "38=600" SOH "5001=x" SOH "10=167" SOH;

/* The known tags; header 8 9 35, trailer 10; message `D` with 38 and 58. */
static const uint8_t DICTIONARY[] = {
    1, 8,  0, 0, 0, 1, 9, 0, 0, 0, 1, 35, 0, 0, 0, 1, 10, 0, 0, 0, 1, 38, 0, 0, 0, 1, 58, 0, 0, 0,
    2, 0,  0, 4, 8, 0, 0, 0, 0, 4, 9, 0, 0, 0, 0, 4, 35, 0, 0, 0, 0, 7,
    2, 1,  0, 4, 10, 0, 0, 0, 0, 7,
    3, 'D', 0, 0, 0, 0, 0, 0, 0, 4, 38, 0, 0, 0, 0, 4, 58, 0, 0, 0, 0, 7,
};

/* What the dictionary is prepared in, with room for its tables and in the least memory. It is only read by the builds. */
static uint8_t copy[sizeof DICTIONARY];
static uint16_t memory[TINKORABA_PREPARED_ROOM];
static uint16_t least[TINKORABA_PREPARED_WORDS];

static int failures = 0;

/* Prints a line, and says where another was expected. */
static void line(const char *text, const char *expected) {
    puts(text);
    if (strcmp(text, expected) != 0) {
        printf("  expected: %s\n", expected);
        failures++;
    }
}

static void number(const char *what, uint32_t got, uint32_t expected) {
    char text[100], wanted[100];
    snprintf(text, sizeof text, "%s %u", what, (unsigned)got);
    snprintf(wanted, sizeof wanted, "%s %u", what, (unsigned)expected);
    line(text, wanted);
}

/* Bytes with `|` for the separator. */
static void bytes(const uint8_t *message, size_t length, const char *expected) {
    char text[TINKORABA_MESSAGE_BYTES + 1];
    for (size_t i = 0; i < length; i++) {
        text[i] = message[i] == TINKORABA_SOH ? '|' : (char)message[i];
    }
    text[length] = 0;
    line(text, expected);
}

static void record(const FieldRecord *field, const uint8_t *message, const char *expected) {
    static const char *const parts[] = {"none", "header", "body", "trailer"};
    char text[100];
    snprintf(text, sizeof text, "%s %u=%.*s", parts[field->part & 3], (unsigned)field->tag, field->length, (const char *)message + field->place);
    line(text, expected);
}

static void alike(const FieldRecord *others, const FieldRecord *records, uint32_t filled, size_t count) {
    number("its records", filled, (uint32_t)count);
    line(memcmp(others, records, TINKORABA_RECORDS * sizeof *records) == 0 ? "records alike" : "records not alike", "records alike");
}

static void sizes(void) {
    number("records", gateway_most_records(), TINKORABA_RECORDS);
    number("message bytes", gateway_most_message_bytes(), TINKORABA_MESSAGE_BYTES);
    number("store bytes", gateway_store_bytes(), TINKORABA_STORE_BYTES);
    number("dictionary bytes", gateway_most_dictionary_bytes(), TINKORABA_DICTIONARY_BYTES);
    number("words", gateway_message_words(), TINKORABA_WORDS);
    number("prepared words", gateway_prepared_words(), TINKORABA_PREPARED_WORDS);
}

static uint32_t prepare(size_t dictionary_length, uint16_t *words, size_t count) {
    uint32_t out[4];
    return gateway_prepare(DICTIONARY, dictionary_length, copy, sizeof copy, words, count, out);
}

/* A build over what is prepared in so many words. */
static uint32_t build_over(const uint16_t *words, size_t count, const uint8_t *message, size_t length, FieldRecord *records, uint32_t out[4]) {
    return gateway_build_prepared(message, length, TINKORABA_SOH, TINKORABA_VALIDATE, copy, sizeof copy, words, count, records, TINKORABA_RECORDS,
                                  out);
}

static uint32_t build(const uint8_t *message, size_t length, FieldRecord *records, uint32_t out[4]) {
    return build_over(memory, TINKORABA_PREPARED_ROOM, message, length, records, out);
}

/* Once for all builds; what is refused prepares nothing. */
static void prepared(void) {
    static FieldRecord records[TINKORABA_RECORDS];
    uint32_t out[4];
    number("prepare in a word too few answers", prepare(sizeof DICTIONARY, memory, TINKORABA_PREPARED_WORDS - 1), TINKORABA_NO_ROOM);
    number("prepare of a cut dictionary answers", prepare(sizeof DICTIONARY - 1, memory, TINKORABA_PREPARED_ROOM), TINKORABA_DICTIONARY_BAD_RECORD);
    number("build with nothing prepared answers", build((const uint8_t *)WITH_5001, sizeof WITH_5001 - 1, records, out), TINKORABA_NO_MESSAGE);
    number("prepare answers", prepare(sizeof DICTIONARY, memory, TINKORABA_PREPARED_ROOM), TINKORABA_VALID);
    number("prepare in the least memory answers", prepare(sizeof DICTIONARY, least, TINKORABA_PREPARED_WORDS), TINKORABA_VALID);
}

/* "As it was": whatever byte a mark is, a refused call leaves it. */
static void refused(void) {
    uint8_t few[16] = {0};
    HunterState hunter = {.used = 3, .dropped = 5, .ended = 7};
    PortedState ported = {.used = 3, .ended = 7, .over = 9};
    uint32_t out[4];
    number("push into a store of 16 bytes answers", gateway_hunter_push(&hunter, few, sizeof few, (const uint8_t *)"8", 1, out), TINKORABA_NO_MESSAGE);
    number("used", (uint32_t)hunter.used, 3);
    number("dropped", (uint32_t)hunter.dropped, 5);
    number("mark of the end", hunter.ended, 7);
    number("end with a store of 16 bytes answers", gateway_ported_end(&ported, few, sizeof few, out), TINKORABA_NO_MESSAGE);
    number("mark of the end", ported.ended, 7);
    number("mark of a length over 8,192", ported.over, 9);
}

static size_t hunted(uint8_t *frame) {
    static uint8_t store[TINKORABA_STORE_BYTES];
    HunterState state = {0};
    uint32_t out[4];
    number("push answers", gateway_hunter_push(&state, store, sizeof store, (const uint8_t *)STREAM, sizeof STREAM - 1, out), TINKORABA_VALID);
    number("take answers", gateway_hunter_take(&state, store, sizeof store, frame, TINKORABA_MESSAGE_BYTES, out), TINKORABA_VALID);
    number("places dropped", (uint32_t)state.dropped, 46);
    bytes(frame, out[1], "8=FIX.4.4|9=24|35=D|38=600|58=x|38=800|10=139|");
    return out[1];
}

static size_t built(const uint8_t *frame, size_t length, FieldRecord *records) {
    static const char *const expected[] = {"header 8=FIX.4.4", "header 9=24", "header 35=D", "body 38=800", "body 58=x", "trailer 10=139"};
    uint32_t out[4];
    number("build answers", build(frame, length, records, out), TINKORABA_VALID);
    number("records", out[0], 6);
    for (size_t i = 0; i < out[0] && i < 6; i++) {
        record(&records[i], frame, expected[i]);
    }
    return out[0];
}

/* Memory without room for tables: a build over it takes longer and fills the same records. */
static void built_over_the_least(const uint8_t *frame, size_t length, const FieldRecord *records, size_t count) {
    static FieldRecord others[TINKORABA_RECORDS];
    uint32_t out[4];
    number("build over the least memory answers", build_over(least, TINKORABA_PREPARED_WORDS, frame, length, others, out), TINKORABA_VALID);
    alike(others, records, out[0], count);
}

/* A plain build is given the dictionary and checks it each time; it fills the same records. */
static void built_plainly(const uint8_t *frame, size_t length, const FieldRecord *records, size_t count) {
    static FieldRecord others[TINKORABA_RECORDS];
    uint32_t out[4];
    uint32_t answer = gateway_build(frame, length, TINKORABA_SOH, TINKORABA_VALIDATE, DICTIONARY, sizeof DICTIONARY, others, TINKORABA_RECORDS, out);
    number("plain build answers", answer, TINKORABA_VALID);
    alike(others, records, out[0], count);
}

static uint32_t built_with(uint32_t settings) {
    static FieldRecord records[TINKORABA_RECORDS];
    uint32_t out[4];
    return gateway_build((const uint8_t *)WITH_5001, sizeof WITH_5001 - 1, TINKORABA_SOH, settings, DICTIONARY, sizeof DICTIONARY, records,
                         TINKORABA_RECORDS, out);
}

/* Bit 0 decides, and no other bit. */
static void settings(void) {
    number("5001 validated answers", built_with(TINKORABA_VALIDATE), TINKORABA_INVALID_FIELD);
    number("5001 not validated answers", built_with(0), TINKORABA_VALID);
    number("every bit answers", built_with(0xffffffffu), TINKORABA_INVALID_FIELD);
    number("every bit but validation answers", built_with(~TINKORABA_VALIDATE), TINKORABA_VALID);
}

static void encoded(uint32_t *words, uint8_t *values, const char *expected) {
    static uint8_t output[TINKORABA_MESSAGE_BYTES];
    uint32_t out[4];
    uint32_t answer = gateway_encode(words, TINKORABA_WORDS, values, TINKORABA_VALUES, output, sizeof output, TINKORABA_SOH, out);
    number("encode answers", answer, TINKORABA_VALID);
    bytes(output, out[1], expected);
}

static uint32_t stored(uint32_t *words, uint8_t *values, uint32_t tag, const char *value) {
    uint32_t out[4];
    return gateway_store(words, TINKORABA_WORDS, values, TINKORABA_VALUES, TINKORABA_BODY, tag, (const uint8_t *)value, strlen(value), out);
}

static void changed(const FieldRecord *records, size_t count, const uint8_t *frame, size_t length) {
    static uint32_t words[TINKORABA_WORDS];
    static uint8_t values[TINKORABA_VALUES];
    uint32_t out[4];
    uint32_t answer = gateway_take_over(records, TINKORABA_RECORDS, count, frame, length, words, TINKORABA_WORDS, values, TINKORABA_VALUES, out);
    number("take over answers", answer, TINKORABA_VALID);
    encoded(words, values, "8=FIX.4.4|9=17|35=D|38=800|58=x|10=078|");
    number("store of tag 0 answers", stored(words, values, 0, "600"), TINKORABA_NOT_STORABLE);
    number("store answers", stored(words, values, 38, "600"), TINKORABA_VALID);
    number("store answers", stored(words, values, 58, "38 came twice"), TINKORABA_VALID);
    encoded(words, values, "8=FIX.4.4|9=29|35=D|38=600|58=38 came twice|10=052|");
    /* It is written as it is: these are the bytes of the frame, of which the build above read an order of 800. */
    number("store of a value with a separator answers", stored(words, values, 58, "x" SOH "38=800"), TINKORABA_VALID);
    encoded(words, values, "8=FIX.4.4|9=24|35=D|38=600|58=x|38=800|10=139|");
}

int main(void) {
    static uint8_t frame[TINKORABA_MESSAGE_BYTES];
    static FieldRecord records[TINKORABA_RECORDS];
    sizes();
    refused();
    size_t length = hunted(frame);
    prepared();
    size_t count = built(frame, length, records);
    built_over_the_least(frame, length, records, count);
    built_plainly(frame, length, records, count);
    changed(records, count, frame, length);
    settings();
    puts(failures ? "something differs" : "all as expected");
    return failures ? 1 : 0;
}
